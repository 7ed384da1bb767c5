//! Whatever is made renders, or is refused when it is made: both modules, all nineteen cases, each as long as it can be.
use hostpath::{Refusal, Sequence, KEY_MOST, PATH_MOST};

/// The tests of a module.
macro_rules! made {
    ($module:ident, $($path:tt)+) => {
        mod $module {
            use super::*;
            use $($path)+::{
                ChannelId, ClientId, ConnectionId, Path, PortId, UpgradeClientStatePath,
                UpgradeConsensusStatePath,
            };

            /// Renders in every way, and reads back.
            fn renders(path: Path) -> usize {
                let (text, mut room) = (path.to_string(), [0; PATH_MOST]);
                assert_eq!(path.render(&mut room), Ok(text.as_str()));
                let reading = Path::read(&text).unwrap();
                assert_eq!((reading.path, reading.exact), (path, true));
                text.len()
            }

            #[test]
            fn every_case_at_its_longest() {
                let (client, port) = ("c".repeat(64), "p".repeat(128));
                let client_id = ClientId::try_from(client.as_str()).unwrap();
                let port_id = PortId::try_from(port.as_str()).unwrap();
                let connection = format!("connection-+{:052}", u64::MAX);
                let connection_id = ConnectionId::try_from(connection.as_str()).unwrap();
                let channel = format!("channel-+{:055}", u64::MAX);
                let channel_id = ChannelId::try_from(channel.as_str()).unwrap();
                let (revision_number, revision_height) = (u64::MAX, u64::MAX);
                let sequence = Sequence::from(u64::MAX);
                let lengths = [
                    Path::NextClientSequence,
                    Path::NextConnectionSequence,
                    Path::NextChannelSequence,
                    Path::ClientState { client_id },
                    Path::ClientConsensusState { client_id, revision_number, revision_height },
                    Path::ClientUpdateTime { client_id, revision_number, revision_height },
                    Path::ClientUpdateHeight { client_id, revision_number, revision_height },
                    Path::ClientConnection { client_id },
                    Path::Connection { connection_id },
                    Path::Ports { port_id },
                    Path::ChannelEnd { port_id, channel_id },
                    Path::SeqSend { port_id, channel_id },
                    Path::SeqRecv { port_id, channel_id },
                    Path::SeqAck { port_id, channel_id },
                    Path::Commitment { port_id, channel_id, sequence },
                    Path::Ack { port_id, channel_id, sequence },
                    Path::Receipt { port_id, channel_id, sequence },
                ]
                .map(renders);
                assert_eq!(lengths.into_iter().max(), Some(KEY_MOST));
            }

            /// An upgrade path that was read with a short height has no other path with a longer one, nor of the other
            /// kind.
            #[test]
            fn upgraded_states() {
                let text = "u".repeat(4079) + "/5/upgradedClient";
                let Path::UpgradeClientState(read) = Path::read(&text).unwrap().path else {
                    panic!("it is one")
                };
                assert_eq!((text.len(), renders(Path::UpgradeClientState(read))), (PATH_MOST, PATH_MOST));
                let upgrade_path = read.upgrade_path();
                assert_eq!(UpgradeClientStatePath::new(upgrade_path, 10), Err(Refusal::TooLong));
                assert_eq!(UpgradeConsensusStatePath::new(upgrade_path, 5), Err(Refusal::TooLong));
                assert_eq!(UpgradeClientStatePath::new(upgrade_path, 9).unwrap().height(), 9);

                let most = "u".repeat(PATH_MOST - "/18446744073709551615/upgradedConsState".len());
                let state = UpgradeConsensusStatePath::new(&most, u64::MAX).unwrap();
                assert_eq!(renders(state.into()), PATH_MOST);
                let more = most + "u";
                assert_eq!(UpgradeConsensusStatePath::new(&more, u64::MAX), Err(Refusal::TooLong));
                assert!(UpgradeConsensusStatePath::new(&more, u64::MAX / 10).is_ok());
                assert_eq!(UpgradeClientStatePath::new("a/b", 5), Err(Refusal::BadSegment));
                assert_eq!(renders(UpgradeClientStatePath::new("", 5).unwrap().into()), 17);
            }
        }
    };
}

made!(plain, hostpath);
made!(wide, hostpath::wide);
