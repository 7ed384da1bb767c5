//! Request L11's packet keys of IBC version 2: a client, a marker byte, and a sequence in eight bytes.
use crate::identifier::Identifier;
use crate::{hold, Mode, Refusal, BAD_V2_KEY};

/// Of commitments, receipts and acknowledgements.
pub const MARKERS: [u8; 3] = [1, 2, 3];

/// The kind by its marker, the length of the client, and the sequence.
pub type Packet = (u8, usize, u64);

/// 24, then the client's checks.
pub fn read(key: &[u8]) -> Result<Packet, Refusal> {
    let (rest, sequence) = key.split_last_chunk().ok_or(BAD_V2_KEY)?;
    let (marker, client) = rest.split_last().ok_or(BAD_V2_KEY)?;
    hold(MARKERS.contains(marker), BAD_V2_KEY)?;
    Identifier::Client.check(Mode::Plain, client)?;
    Ok((*marker, client.len(), u64::from_be_bytes(*sequence)))
}

/// 24, then the client's checks.
pub fn write(kind: u8, client: &[u8], sequence: u64) -> Result<Vec<u8>, Refusal> {
    hold(MARKERS.contains(&kind), BAD_V2_KEY)?;
    Identifier::Client.check(Mode::Plain, client)?;
    Ok([client, &[kind], &sequence.to_be_bytes()].concat())
}
