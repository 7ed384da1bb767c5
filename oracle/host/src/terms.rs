//! The original's answers in document 01's terms: kinds, identifiers, numbers.
use std::panic::{catch_unwind, set_hook, take_hook};
use std::sync::Once;

use crate::error::IdentifierError;
use crate::path::*;

/// What the original makes of a text. Its panic is kept apart from a refusal.
#[derive(Debug)]
pub enum Answer {
    Path(Path),
    Refused,
    Panic,
}

pub fn read(text: &str) -> Answer {
    static QUIET: Once = Once::new();
    QUIET.call_once(quiet);
    match catch_unwind(|| text.parse()) {
        Ok(Ok(path)) => Answer::Path(path),
        Ok(Err(_)) => Answer::Refused,
        Err(_) => Answer::Panic,
    }
}

/// A panic in path.rs is an answer and prints nothing.
fn quiet() {
    let usual = take_hook();
    set_hook(Box::new(move |info| {
        if !info.location().is_some_and(|place| place.file().ends_with("/path.rs")) {
            usual(info)
        }
    }));
}

/// A typed path taken apart. What its kind lacks is empty or zero.
#[derive(Clone, Copy, Debug, PartialEq, Eq)]
pub struct Parts<'a> {
    pub kind: u8,
    pub first: &'a str,
    pub second: &'a str,
    pub numbers: [u64; 2],
}

pub fn parts(path: &Path) -> Parts<'_> {
    let of = |kind, first, second, numbers| Parts { kind, first, second, numbers };
    let one = |kind, first| of(kind, first, "", [0, 0]);
    match path {
        Path::NextClientSequence(_) => one(1, ""),
        Path::NextConnectionSequence(_) => one(2, ""),
        Path::NextChannelSequence(_) => one(3, ""),
        Path::ClientState(p) => one(4, p.0.as_str()),
        Path::ClientConsensusState(p) => {
            of(5, p.client_id.as_str(), "", [p.revision_number, p.revision_height])
        }
        Path::ClientUpdateTime(p) => {
            of(6, p.client_id.as_str(), "", [p.revision_number, p.revision_height])
        }
        Path::ClientUpdateHeight(p) => {
            of(7, p.client_id.as_str(), "", [p.revision_number, p.revision_height])
        }
        Path::ClientConnection(p) => one(8, p.0.as_str()),
        Path::Connection(p) => one(9, p.0.as_str()),
        Path::Ports(p) => one(10, p.0.as_str()),
        Path::ChannelEnd(p) => of(11, p.0.as_str(), p.1.as_str(), [0, 0]),
        Path::SeqSend(p) => of(12, p.0.as_str(), p.1.as_str(), [0, 0]),
        Path::SeqRecv(p) => of(13, p.0.as_str(), p.1.as_str(), [0, 0]),
        Path::SeqAck(p) => of(14, p.0.as_str(), p.1.as_str(), [0, 0]),
        Path::Commitment(p) => {
            of(15, p.port_id.as_str(), p.channel_id.as_str(), [p.sequence.value(), 0])
        }
        Path::Ack(p) => of(16, p.port_id.as_str(), p.channel_id.as_str(), [p.sequence.value(), 0]),
        Path::Receipt(p) => {
            of(17, p.port_id.as_str(), p.channel_id.as_str(), [p.sequence.value(), 0])
        }
        Path::UpgradeClientState(p) => of(18, &p.upgrade_path, "", [p.height, 0]),
        Path::UpgradeConsensusState(p) => of(19, &p.upgrade_path, "", [p.height, 0]),
    }
}

/// The typed path of a kind from 1 to 19, its identifiers checked one after the other; none for
/// another number, which the original has no word for.
pub fn typed(
    kind: u8,
    first: &str,
    second: &str,
    [a, b]: [u64; 2],
) -> Option<Result<Path, IdentifierError>> {
    let build = || -> Result<Option<Path>, IdentifierError> {
        Ok(Some(match kind {
            1 => NextClientSequencePath.into(),
            2 => NextConnectionSequencePath.into(),
            3 => NextChannelSequencePath.into(),
            4 => ClientStatePath(first.parse()?).into(),
            5 => ClientConsensusStatePath::new(first.parse()?, a, b).into(),
            6 => ClientUpdateTimePath::new(first.parse()?, a, b).into(),
            7 => ClientUpdateHeightPath::new(first.parse()?, a, b).into(),
            8 => ClientConnectionPath(first.parse()?).into(),
            9 => ConnectionPath(first.parse()?).into(),
            10 => PortPath(first.parse()?).into(),
            11 => ChannelEndPath(first.parse()?, second.parse()?).into(),
            12 => SeqSendPath(first.parse()?, second.parse()?).into(),
            13 => SeqRecvPath(first.parse()?, second.parse()?).into(),
            14 => SeqAckPath(first.parse()?, second.parse()?).into(),
            15 => CommitmentPath::new(&first.parse()?, &second.parse()?, a.into()).into(),
            16 => AckPath::new(&first.parse()?, &second.parse()?, a.into()).into(),
            17 => ReceiptPath::new(&first.parse()?, &second.parse()?, a.into()).into(),
            18 => UpgradeClientStatePath { upgrade_path: first.into(), height: a }.into(),
            19 => UpgradeConsensusStatePath { upgrade_path: first.into(), height: a }.into(),
            _ => return Ok(None),
        }))
    };
    build().transpose()
}
