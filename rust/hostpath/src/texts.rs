//! The words of paths under the names that ibc-rs has for them, what stands below a client's consensus state, and the
//! sizes of the rooms that calls are lent.
use crate::{raw, sure, written};

/// Declares words.
macro_rules! words {
    ($($name:ident $word:literal,)+) => {
        $(
            #[doc = concat!("`", $word, "`")]
            pub const $name: &str = $word;
        )+
    };
}

words! {
    NEXT_CLIENT_SEQUENCE "nextClientSequence",
    NEXT_CONNECTION_SEQUENCE "nextConnectionSequence",
    NEXT_CHANNEL_SEQUENCE "nextChannelSequence",
    CLIENT_PREFIX "clients",
    CLIENT_STATE "clientState",
    CONSENSUS_STATE_PREFIX "consensusStates",
    CONNECTION_PREFIX "connections",
    CHANNEL_PREFIX "channels",
    CHANNEL_END_PREFIX "channelEnds",
    PORT_PREFIX "ports",
    SEQUENCE_PREFIX "sequences",
    NEXT_SEQ_SEND_PREFIX "nextSequenceSend",
    NEXT_SEQ_RECV_PREFIX "nextSequenceRecv",
    NEXT_SEQ_ACK_PREFIX "nextSequenceAck",
    PACKET_COMMITMENT_PREFIX "commitments",
    PACKET_ACK_PREFIX "acks",
    PACKET_RECEIPT_PREFIX "receipts",
    ITERATE_CONSENSUS_STATE_PREFIX "iterateConsensusStates",
    PROCESSED_TIME "processedTime",
    PROCESSED_HEIGHT "processedHeight",
    UPGRADED_IBC_STATE "upgradedIBCState",
    UPGRADED_CLIENT_STATE "upgradedClient",
    UPGRADED_CLIENT_CONSENSUS_STATE "upgradedConsState",
}

/// The bytes of the longest identifier that [`ClientId::new`](crate::ClientId::new) writes.
pub const CLIENT_ID_MOST: usize = 64;
/// The bytes of the longest identifier that [`ConnectionId::new`](crate::ConnectionId::new) writes.
pub const CONNECTION_ID_MOST: usize = 31;
/// The bytes of the longest identifier that [`ChannelId::new`](crate::ChannelId::new) writes.
pub const CHANNEL_ID_MOST: usize = 28;
/// The bytes of the longest text that [`consensus_state_parent`](crate::consensus_state_parent) writes.
pub const PARENT_MOST: usize = 88;
/// The bytes of the longest text that [`commitments_path`](crate::commitments_path) writes; the texts of
/// [`acks_path`](crate::acks_path) and [`receipts_path`](crate::receipts_path) are shorter.
pub const PACKETS_PATH_MOST: usize = 230;
/// The bytes of the longest text that [`update_height_leaf`] writes; those of [`consensus_state_leaf`] and
/// [`update_time_leaf`] are shorter.
pub const LEAF_MOST: usize = 73;

/// Declares a text below `clients/C` that has a revision number and height.
macro_rules! leaf {
    ($(#[$said:meta])* $name:ident) => {
        $(#[$said])*
        pub fn $name(
            revision_number: u64,
            revision_height: u64,
            room: &mut [u8; LEAF_MOST],
        ) -> &str {
            sure(written(raw::$name(revision_number, revision_height, room), room).ok())
        }
    };
}

leaf! {
    /// Writes `consensusStates/R-h`.
    consensus_state_leaf
}

leaf! {
    /// Writes `consensusStates/R-h/processedTime`.
    update_time_leaf
}

leaf! {
    /// Writes `consensusStates/R-h/processedHeight`.
    update_height_leaf
}
