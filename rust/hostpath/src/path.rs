//! Paths read and rendered, by the calls of the module around this one.
use core::fmt;

use super::raw;
use super::{ChannelId, ClientId, ConnectionId, PortId};
use super::{UpgradeClientStatePath, UpgradeConsensusStatePath};
use crate::{done, str_of, sure, written, Fault, Refusal, Sequence, PATH_MOST, READING};

/// A path: cases and fields have the names that ibc-rs has for them, and stand in the order of their
/// kinds, from 1 to 19. Its identifiers are borrowed from the text that was read.
///
/// What it carries was checked when it was made, so every path renders. The path of a text is also had by
/// `try_from`, of its key and of loose spellings alike; [`read`](Self::read) tells the one from the others.
///
/// In the texts below C is a client, K a connection, P a port, H a channel, S a sequence, R-h a revision
/// number and height, U an upgrade path and n a height.
#[derive(Clone, Copy, Debug, PartialEq, Eq, PartialOrd, Ord, Hash)]
#[allow(missing_docs)] // a field's name says all: docs/MIGRATING.md has them beside those of ibc-rs
pub enum Path<'a> {
    /// `nextClientSequence`
    NextClientSequence,
    /// `nextConnectionSequence`
    NextConnectionSequence,
    /// `nextChannelSequence`
    NextChannelSequence,
    /// `clients/C/clientState`
    ClientState { client_id: ClientId<'a> },
    /// `clients/C/consensusStates/R-h`
    ClientConsensusState { client_id: ClientId<'a>, revision_number: u64, revision_height: u64 },
    /// `clients/C/consensusStates/R-h/processedTime`
    ClientUpdateTime { client_id: ClientId<'a>, revision_number: u64, revision_height: u64 },
    /// `clients/C/consensusStates/R-h/processedHeight`
    ClientUpdateHeight { client_id: ClientId<'a>, revision_number: u64, revision_height: u64 },
    /// `clients/C/connections`
    ClientConnection { client_id: ClientId<'a> },
    /// `connections/K`
    Connection { connection_id: ConnectionId<'a> },
    /// `ports/P`
    Ports { port_id: PortId<'a> },
    /// `channelEnds/ports/P/channels/H`
    ChannelEnd { port_id: PortId<'a>, channel_id: ChannelId<'a> },
    /// `nextSequenceSend/ports/P/channels/H`
    SeqSend { port_id: PortId<'a>, channel_id: ChannelId<'a> },
    /// `nextSequenceRecv/ports/P/channels/H`
    SeqRecv { port_id: PortId<'a>, channel_id: ChannelId<'a> },
    /// `nextSequenceAck/ports/P/channels/H`
    SeqAck { port_id: PortId<'a>, channel_id: ChannelId<'a> },
    /// `commitments/ports/P/channels/H/sequences/S`
    Commitment { port_id: PortId<'a>, channel_id: ChannelId<'a>, sequence: Sequence },
    /// `acks/ports/P/channels/H/sequences/S`
    Ack { port_id: PortId<'a>, channel_id: ChannelId<'a>, sequence: Sequence },
    /// `receipts/ports/P/channels/H/sequences/S`
    Receipt { port_id: PortId<'a>, channel_id: ChannelId<'a>, sequence: Sequence },
    /// `U/n/upgradedClient`
    UpgradeClientState(UpgradeClientStatePath<'a>),
    /// `U/n/upgradedConsState`
    UpgradeConsensusState(UpgradeConsensusStatePath<'a>),
}

/// What a text is.
#[derive(Clone, Copy, Debug, PartialEq, Eq, PartialOrd, Ord, Hash)]
pub struct Reading<'a> {
    /// The path, whose rendering is the key that a store has for it.
    pub path: Path<'a>,
    /// Whether the text is that key. Where it is not, the text is a loose spelling of it.
    pub exact: bool,
}

fn number(bytes: &[u8]) -> u64 {
    bytes.iter().fold(0, |number, byte| number << 8 | u64::from(*byte))
}

/// The path of a kind, whose identifiers and numbers stand as the header's table has them.
pub(crate) fn typed<'a>(
    kind: u8,
    [first, second]: [&'a str; 2],
    [a, b]: [u64; 2],
) -> Option<Path<'a>> {
    let (client_id, connection_id) = (ClientId(first), ConnectionId(first));
    let (port_id, channel_id, upgrade_path) = (PortId(first), ChannelId(second), first);
    let (revision_number, revision_height, sequence, height) = (a, b, Sequence::from(a), a);
    Some(match kind {
        1 => Path::NextClientSequence,
        2 => Path::NextConnectionSequence,
        3 => Path::NextChannelSequence,
        4 => Path::ClientState { client_id },
        5 => Path::ClientConsensusState { client_id, revision_number, revision_height },
        6 => Path::ClientUpdateTime { client_id, revision_number, revision_height },
        7 => Path::ClientUpdateHeight { client_id, revision_number, revision_height },
        8 => Path::ClientConnection { client_id },
        9 => Path::Connection { connection_id },
        10 => Path::Ports { port_id },
        11 => Path::ChannelEnd { port_id, channel_id },
        12 => Path::SeqSend { port_id, channel_id },
        13 => Path::SeqRecv { port_id, channel_id },
        14 => Path::SeqAck { port_id, channel_id },
        15 => Path::Commitment { port_id, channel_id, sequence },
        16 => Path::Ack { port_id, channel_id, sequence },
        17 => Path::Receipt { port_id, channel_id, sequence },
        18 => UpgradeClientStatePath { upgrade_path, height }.into(),
        19 => UpgradeConsensusStatePath { upgrade_path, height }.into(),
        _ => return None,
    })
}

impl<'a> Path<'a> {
    /// Reads a text.
    ///
    /// ```
    #[doc = concat!("use ", here!(), "::Path;")]
    /// use hostpath::Refusal;
    ///
    /// let reading = Path::read("commitments/ports/transfer/channels/channel-0/sequences/5")?;
    /// assert!(reading.exact);
    /// assert!(matches!(reading.path, Path::Commitment { sequence, .. } if sequence.value() == 5));
    ///
    /// let fault = Path::read(b"clients").unwrap_err();
    /// assert_eq!(fault, Refusal::NotAPath);
    /// # Ok::<(), Refusal>(())
    /// ```
    #[doc = errors!(path)]
    pub fn read<T: AsRef<[u8]> + ?Sized>(text: &'a T) -> Result<Reading<'a>, Fault> {
        let (text, mut bytes) = (text.as_ref(), [0; READING]);
        Fault::of_path(raw::walk(text, &mut bytes), text)?;
        let part = |at: usize| {
            let start = number(&bytes[at..at + 2]) as usize;
            let end = start + number(&bytes[at + 2..at + 4]) as usize;
            str_of(sure(text.get(start..end)))
        };
        let numbers = [number(&bytes[10..18]), number(&bytes[18..])];
        let path = sure(typed(bytes[0], [part(2), part(6)], numbers));
        Ok(Reading { path, exact: bytes[1] == 1 })
    }

    /// Writes the rendering: the path's key in a store. [`KEY_MOST`](crate::KEY_MOST) bytes have room for that of
    /// every path but an upgraded state's, and [`PATH_MOST`] for each.
    ///
    /// ```
    #[doc = concat!("use ", here!(), "::{ClientId, Path};")]
    /// use hostpath::Refusal;
    ///
    /// let client_id = ClientId::try_from("07-tendermint-4")?;
    /// let path = Path::ClientConsensusState { client_id, revision_number: 7, revision_height: 2 };
    /// let mut room = [0; 64];
    /// assert_eq!(path.render(&mut room)?, "clients/07-tendermint-4/consensusStates/7-2");
    /// assert_eq!(path.to_string(), "clients/07-tendermint-4/consensusStates/7-2");
    /// # Ok::<(), Refusal>(())
    /// ```
    #[doc = errors!(NoRoom)]
    pub fn render<'o>(&self, out: &'o mut [u8]) -> Result<&'o str, Refusal> {
        let ([first, second], [a, b]) = self.carried();
        written(raw::render(self.kind(), first.as_bytes(), second.as_bytes(), a, b, out), out)
    }

    /// Whether a store can prove that it holds the path: of all but clients' connections and ports.
    pub fn is_provable(&self) -> bool {
        let answer = raw::is_provable(self.kind());
        sure(done(answer.refusal).ok());
        answer.value == 1
    }

    /// The number of its kind, from 1 to 19.
    pub const fn kind(&self) -> u8 {
        match self {
            Self::NextClientSequence => 1,
            Self::NextConnectionSequence => 2,
            Self::NextChannelSequence => 3,
            Self::ClientState { .. } => 4,
            Self::ClientConsensusState { .. } => 5,
            Self::ClientUpdateTime { .. } => 6,
            Self::ClientUpdateHeight { .. } => 7,
            Self::ClientConnection { .. } => 8,
            Self::Connection { .. } => 9,
            Self::Ports { .. } => 10,
            Self::ChannelEnd { .. } => 11,
            Self::SeqSend { .. } => 12,
            Self::SeqRecv { .. } => 13,
            Self::SeqAck { .. } => 14,
            Self::Commitment { .. } => 15,
            Self::Ack { .. } => 16,
            Self::Receipt { .. } => 17,
            Self::UpgradeClientState(_) => 18,
            Self::UpgradeConsensusState(_) => 19,
        }
    }

    /// Its identifiers and numbers, as the header's table has them; what its kind lacks is empty or 0.
    pub(crate) fn carried(&self) -> ([&'a str; 2], [u64; 2]) {
        match *self {
            Self::NextClientSequence | Self::NextConnectionSequence | Self::NextChannelSequence => {
                (["", ""], [0, 0])
            }
            Self::ClientState { client_id } | Self::ClientConnection { client_id } => {
                ([client_id.0, ""], [0, 0])
            }
            Self::ClientConsensusState { client_id, revision_number, revision_height }
            | Self::ClientUpdateTime { client_id, revision_number, revision_height }
            | Self::ClientUpdateHeight { client_id, revision_number, revision_height } => {
                ([client_id.0, ""], [revision_number, revision_height])
            }
            Self::Connection { connection_id } => ([connection_id.0, ""], [0, 0]),
            Self::Ports { port_id } => ([port_id.0, ""], [0, 0]),
            Self::ChannelEnd { port_id, channel_id }
            | Self::SeqSend { port_id, channel_id }
            | Self::SeqRecv { port_id, channel_id }
            | Self::SeqAck { port_id, channel_id } => ([port_id.0, channel_id.0], [0, 0]),
            Self::Commitment { port_id, channel_id, sequence }
            | Self::Ack { port_id, channel_id, sequence }
            | Self::Receipt { port_id, channel_id, sequence } => {
                ([port_id.0, channel_id.0], [sequence.value(), 0])
            }
            Self::UpgradeClientState(UpgradeClientStatePath { upgrade_path, height })
            | Self::UpgradeConsensusState(UpgradeConsensusStatePath { upgrade_path, height }) => {
                ([upgrade_path, ""], [height, 0])
            }
        }
    }
}

impl<'a> TryFrom<&'a [u8]> for Path<'a> {
    type Error = Fault;

    fn try_from(text: &'a [u8]) -> Result<Self, Fault> {
        Self::read(text).map(|reading| reading.path)
    }
}

impl<'a> TryFrom<&'a str> for Path<'a> {
    type Error = Fault;

    fn try_from(text: &'a str) -> Result<Self, Fault> {
        text.as_bytes().try_into()
    }
}

/// The rendering.
impl fmt::Display for Path<'_> {
    fn fmt(&self, out: &mut fmt::Formatter<'_>) -> fmt::Result {
        let mut room = [0; PATH_MOST];
        out.pad(sure(self.render(&mut room).ok()))
    }
}

/// Writes the key of a text: the rendering of the path that it is read as.
///
/// ```
#[doc = concat!("use ", here!(), "::key;")]
/// use hostpath::Refusal;
///
/// let mut room = [0; 64];
/// let key = key("clients/07-tendermint-4/consensusStates/007-+2", &mut room)?;
/// assert_eq!(key, "clients/07-tendermint-4/consensusStates/7-2");
/// # Ok::<(), Refusal>(())
/// ```
#[doc = errors!(path, NoRoom)]
pub fn key(text: impl AsRef<[u8]>, out: &mut [u8]) -> Result<&str, Refusal> {
    written(raw::key(text.as_ref(), out), out)
}
