use std::str::FromStr;

use ibc_core_host_types::identifiers::{ChannelId, ClientId, PortId};
use ibc_core_host_types::path::{CommitmentPath, Path};

fn main() {
    let client_id = ClientId::new("07-tendermint", 4).unwrap();
    let port_id = PortId::from_str("transfer").unwrap();
    let channel_id = ChannelId::new(0);
    let commitment = CommitmentPath::new(&port_id, &channel_id, 5.into());
    println!("{client_id}, {commitment}");

    let path = Path::from_str("clients/07-tendermint-4/consensusStates/007-2").unwrap();
    println!("{path}, provable: {}", path.is_provable());
    if let Path::ClientConsensusState(state) = path {
        println!("{} at {}", state.client_id, state.revision_height);
    }
}
