//! Packet keys of IBC version 2, which no book takes.
use crate::{bytes_of, done, raw, str_of, sure, ClientId, Refusal, Sequence};

/// The bytes of the longest packet key.
pub const PACKET_KEY_MOST: usize = 73;

/// What a packet key is of. Its number is the marker byte of the key.
#[derive(Clone, Copy, Debug, PartialEq, Eq, PartialOrd, Ord, Hash)]
pub enum PacketKind {
    /// A commitment, 1.
    Commitment = 1,
    /// A receipt, 2.
    Receipt = 2,
    /// An acknowledgement, 3.
    Acknowledgement = 3,
}

impl PacketKind {
    /// All of them, in the order of their markers.
    pub const ALL: [Self; 3] = [Self::Commitment, Self::Receipt, Self::Acknowledgement];

    /// Its marker byte.
    pub const fn marker(self) -> u8 {
        self as u8
    }

    fn of(marker: u8) -> Option<Self> {
        Self::ALL.into_iter().find(|kind| kind.marker() == marker)
    }
}

/// What a packet key says: a client identifier, a marker byte, and a sequence in 8 bytes, high byte
/// first. The client is borrowed from the key that was read.
///
/// ```
/// use hostpath::{ClientId, PacketKey, PacketKind, Refusal, PACKET_KEY_MOST};
///
/// let client_id = ClientId::try_from("07-tendermint-4")?;
/// let receipt = PacketKey { kind: PacketKind::Receipt, client_id, sequence: 258.into() };
/// let mut room = [0; PACKET_KEY_MOST];
/// let key = receipt.write(&mut room);
/// assert_eq!(key, b"07-tendermint-4\x02\0\0\0\0\0\0\x01\x02");
/// assert_eq!(PacketKey::read(key), Ok(receipt));
/// assert_eq!(PacketKey::read(&key[..8]), Err(Refusal::BadV2Key));
/// # Ok::<(), Refusal>(())
/// ```
#[derive(Clone, Copy, Debug, PartialEq, Eq, PartialOrd, Ord, Hash)]
pub struct PacketKey<'a> {
    /// What it is of.
    pub kind: PacketKind,
    /// Whose it is.
    pub client_id: ClientId<'a>,
    /// Of which packet.
    pub sequence: Sequence,
}

impl<'a> PacketKey<'a> {
    /// Reads a key.
    #[doc = errors!(BadV2Key, id)]
    pub fn read(key: &'a [u8]) -> Result<Self, Refusal> {
        let answer = raw::v2_read(key);
        done(answer.refusal)?;
        let client_id = ClientId(str_of(sure(key.get(..answer.length as usize))));
        let kind = sure(PacketKind::of(answer.kind));
        Ok(Self { kind, client_id, sequence: answer.sequence.into() })
    }

    /// Writes the key.
    pub fn write<'o>(&self, room: &'o mut [u8; PACKET_KEY_MOST]) -> &'o [u8] {
        let (kind, client) = (self.kind.marker(), self.client_id.as_bytes());
        let answer = raw::v2_write(kind, client, self.sequence.value(), room);
        sure(bytes_of(answer, room).ok())
    }
}
