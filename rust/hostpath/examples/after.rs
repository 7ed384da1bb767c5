use hostpath::{ChannelId, ClientId, Path, PortId, CHANNEL_ID_MOST, CLIENT_ID_MOST};

fn main() {
    let (mut room, mut other) = ([0; CLIENT_ID_MOST], [0; CHANNEL_ID_MOST]);
    let client_id = ClientId::new("07-tendermint", 4, &mut room).unwrap();
    let port_id = PortId::try_from("transfer").unwrap();
    let channel_id = ChannelId::new(0, &mut other);
    let commitment = Path::Commitment { port_id, channel_id, sequence: 5.into() };
    println!("{client_id}, {commitment}");

    let reading = Path::read("clients/07-tendermint-4/consensusStates/007-2").unwrap();
    let path = reading.path; // reading.exact is false: the text is not the path's key
    println!("{path}, provable: {}", path.is_provable());
    if let Path::ClientConsensusState { client_id, revision_height, .. } = path {
        println!("{client_id} at {revision_height}");
    }
}
