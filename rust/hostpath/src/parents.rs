//! Texts above all records of a client or a channel, by the calls of the module around this one.
use super::raw;
use super::{ChannelId, ClientId, PortId};
use crate::{sure, written, PACKETS_PATH_MOST, PARENT_MOST};

/// Writes `clients/C/consensusStates`.
pub fn consensus_state_parent<'o>(
    client_id: ClientId<'_>,
    room: &'o mut [u8; PARENT_MOST],
) -> &'o str {
    sure(written(raw::consensus_state_parent(client_id.as_bytes(), room), room).ok())
}

/// Declares a text above the packets of a channel.
macro_rules! packets {
    ($(#[$said:meta])* $name:ident) => {
        $(#[$said])*
        pub fn $name<'o>(
            port_id: PortId<'_>,
            channel_id: ChannelId<'_>,
            room: &'o mut [u8; PACKETS_PATH_MOST],
        ) -> &'o str {
            let answer = raw::$name(port_id.as_bytes(), channel_id.as_bytes(), room);
            sure(written(answer, room).ok())
        }
    };
}

packets! {
    /// Writes `commitments/ports/P/channels/H/sequences`.
    commitments_path
}

packets! {
    /// Writes `acks/ports/P/channels/H/sequences`.
    acks_path
}

packets! {
    /// Writes `receipts/ports/P/channels/H/sequences`.
    receipts_path
}
