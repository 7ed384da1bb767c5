//! The words and the sizes of rooms, held to what the library writes.
use hostpath::*;

/// The text that a call writes.
fn word(call: fn(&mut [u8]) -> raw::Written) -> String {
    let mut out = [0; 64];
    let answer = call(&mut out);
    assert_eq!(answer.refusal, 0);
    String::from_utf8(out[..answer.length as usize].into()).unwrap()
}

#[test]
fn words_that_calls_write() {
    assert_eq!(word(raw::client_state_prefix), CLIENT_PREFIX);
    assert_eq!(word(raw::client_state_leaf), CLIENT_STATE);
    assert_eq!(word(raw::connection_prefix), CONNECTION_PREFIX);
    assert_eq!(word(raw::channel_end_prefix), CHANNEL_END_PREFIX);
    assert_eq!(word(raw::commitment_prefix), PACKET_COMMITMENT_PREFIX);
    assert_eq!(word(raw::ack_prefix), PACKET_ACK_PREFIX);
    assert_eq!(word(raw::receipt_prefix), PACKET_RECEIPT_PREFIX);
    let key = IterationKey::new(7, 2);
    let (word, _) = key.as_bytes().split_at(ITERATE_CONSENSUS_STATE_PREFIX.len());
    assert_eq!(word, ITERATE_CONSENSUS_STATE_PREFIX.as_bytes());
}

/// The paths of all kinds in their order, put together of words.
#[test]
fn words_of_paths() {
    let client = format!("{CLIENT_PREFIX}/07-tendermint-4");
    let state = format!("{client}/{CONSENSUS_STATE_PREFIX}/7-2");
    let channel = format!("{PORT_PREFIX}/transfer/{CHANNEL_PREFIX}/channel-0");
    let packet = format!("{channel}/{SEQUENCE_PREFIX}/5");
    let texts = [
        NEXT_CLIENT_SEQUENCE.into(),
        NEXT_CONNECTION_SEQUENCE.into(),
        NEXT_CHANNEL_SEQUENCE.into(),
        format!("{client}/{CLIENT_STATE}"),
        state.clone(),
        format!("{state}/{PROCESSED_TIME}"),
        format!("{state}/{PROCESSED_HEIGHT}"),
        format!("{client}/{CONNECTION_PREFIX}"),
        format!("{CONNECTION_PREFIX}/{}-3", ConnectionId::prefix()),
        format!("{PORT_PREFIX}/transfer"),
        format!("{CHANNEL_END_PREFIX}/{channel}"),
        format!("{NEXT_SEQ_SEND_PREFIX}/{channel}"),
        format!("{NEXT_SEQ_RECV_PREFIX}/{channel}"),
        format!("{NEXT_SEQ_ACK_PREFIX}/{channel}"),
        format!("{PACKET_COMMITMENT_PREFIX}/{packet}"),
        format!("{PACKET_ACK_PREFIX}/{packet}"),
        format!("{PACKET_RECEIPT_PREFIX}/{packet}"),
        format!("{UPGRADED_IBC_STATE}/9/{UPGRADED_CLIENT_STATE}"),
        format!("{UPGRADED_IBC_STATE}/9/{UPGRADED_CLIENT_CONSENSUS_STATE}"),
    ];
    for (text, kind) in texts.iter().zip(1..) {
        assert_eq!(Path::read(text).map(|reading| reading.path.kind()), Ok(kind), "{text}");
    }
}

// Each room is as large as the longest text that is written there, and no larger.

#[test]
fn rooms_of_identifiers() {
    let mut room = [0; CLIENT_ID_MOST];
    let id = ClientId::new("t".repeat(43), u64::MAX, &mut room).unwrap();
    assert_eq!((id.as_str().len(), ClientId::try_from(id.as_str())), (CLIENT_ID_MOST, Ok(id)));
    let mut room = [0; CONNECTION_ID_MOST];
    let id = ConnectionId::new(u64::MAX, &mut room);
    assert_eq!(id.as_str(), "connection-18446744073709551615");
    assert_eq!(
        (id.as_str().len(), ConnectionId::try_from(id.as_str())),
        (CONNECTION_ID_MOST, Ok(id))
    );
    let mut room = [0; CHANNEL_ID_MOST];
    let id = ChannelId::new(u64::MAX, &mut room);
    assert_eq!(id.as_str(), "channel-18446744073709551615");
    assert_eq!((id.as_str().len(), ChannelId::try_from(id.as_str())), (CHANNEL_ID_MOST, Ok(id)));
}

#[test]
fn room_of_leaves() {
    let mut room = [0; LEAF_MOST];
    assert_eq!(consensus_state_leaf(7, 2, &mut room), "consensusStates/7-2");
    assert_eq!(update_time_leaf(7, 2, &mut room), "consensusStates/7-2/processedTime");
    assert_eq!(update_height_leaf(7, 2, &mut room), "consensusStates/7-2/processedHeight");
    assert_eq!(update_height_leaf(u64::MAX, u64::MAX, &mut room).len(), LEAF_MOST);
}

#[test]
fn rooms_of_parents_and_packet_keys() {
    let (client, port) = ("c".repeat(64), "p".repeat(128));
    let client_id = ClientId::try_from(client.as_str()).unwrap();
    let parent = format!("clients/{client}/consensusStates");
    assert_eq!(consensus_state_parent(client_id, &mut [0; PARENT_MOST]), parent);
    assert_eq!(parent.len(), PARENT_MOST);
    let channel = format!("channel-+{:055}", 7);
    let channel_id = ChannelId::try_from(channel.as_str()).unwrap();
    let (port_id, mut room) = (PortId::try_from(port.as_str()).unwrap(), [0; PACKETS_PATH_MOST]);
    let packets = format!("/ports/{port}/channels/{channel}/sequences");
    assert_eq!(acks_path(port_id, channel_id, &mut room), format!("acks{packets}"));
    assert_eq!(receipts_path(port_id, channel_id, &mut room), format!("receipts{packets}"));
    let commitments = format!("commitments{packets}");
    assert_eq!(commitments_path(port_id, channel_id, &mut room), commitments);
    assert_eq!(commitments.len(), PACKETS_PATH_MOST);
    let key = PacketKey { kind: PacketKind::Receipt, client_id, sequence: u64::MAX.into() };
    assert_eq!(key.write(&mut [0; PACKET_KEY_MOST]).len(), PACKET_KEY_MOST);
}
