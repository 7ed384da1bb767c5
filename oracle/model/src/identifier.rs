//! The section 'Numbers and identifiers' of document 01, request L3's faults of an index, and L8's wide mode.
use crate::{hold, number, Fault, Mode, Refusal, BAD_CHAR, BAD_LENGTH, BAD_PREFIX};

/// A row of the table of identifiers.
#[derive(Clone, Copy, Debug, PartialEq, Eq)]
pub enum Identifier {
    Client,
    ClientType,
    Connection,
    Port,
    Channel,
}

impl Identifier {
    fn lengths(self) -> (u64, u64) {
        match self {
            Self::Client => (9, 64),
            Self::ClientType => (7, 43),
            Self::Connection => (10, 64),
            Self::Port => (2, 128),
            Self::Channel => (8, 64),
        }
    }

    fn name(self) -> Option<&'static [u8]> {
        match self {
            Self::Connection => Some(b"connection"),
            Self::Channel => Some(b"channel"),
            Self::Client | Self::ClientType | Self::Port => None,
        }
    }

    /// ASCII or UTF-8, characters, length, prefix, number.
    pub fn check(self, mode: Mode, id: &[u8]) -> Result<(), Fault> {
        let (least, most) = self.lengths();
        chars(mode, id)?;
        length(mode, id, least, most)?;
        self.name().map_or(Ok(()), |name| named_index(mode, id, name))
    }
}

pub fn chars(mode: Mode, id: &[u8]) -> Result<(), Refusal> {
    let allowed = |c: char| mode.alphanumeric(c) || "._+-#[]<>".contains(c);
    hold(mode.text(id)?.chars().all(allowed), BAD_CHAR)
}

/// In bytes.
pub fn length(mode: Mode, id: &[u8], least: u64, most: u64) -> Result<(), Refusal> {
    let length = mode.text(id)?.len() as u64;
    hold(least.max(1) <= length && length <= most, BAD_LENGTH)
}

pub fn prefix_length(mode: Mode, prefix: &[u8], least: u64, most: u64) -> Result<(), Refusal> {
    length(mode, prefix, least.saturating_sub(2), most.saturating_sub(21))
}

/// The name, `-`, and an index: a number text that begins with `0` only if it is `0`. The place of its
/// fault is counted from the start of the identifier.
pub fn named_index(mode: Mode, id: &[u8], name: &[u8]) -> Result<(), Fault> {
    mode.text(id)?;
    mode.text(name)?;
    let index = id.strip_prefix(name).and_then(|rest| rest.strip_prefix(b"-")).ok_or(BAD_PREFIX)?;
    hold(index == b"0" || !index.starts_with(b"0"), BAD_PREFIX)?;
    number(index).map(|_| ()).map_err(|fault| fault.behind(id.len() - index.len()))
}

/// The client type without white space at its ends, `-` and the counter.
pub fn client_id_new(mode: Mode, client_type: &[u8], counter: u64) -> Result<Vec<u8>, Refusal> {
    let client_type = mode.text(client_type)?.trim_matches(|c| mode.white(c));
    Identifier::ClientType.check(mode, client_type.as_bytes())?;
    Ok(format!("{client_type}-{counter}").into_bytes())
}

pub fn channel_id_new(counter: u64) -> Vec<u8> {
    format!("channel-{counter}").into_bytes()
}
