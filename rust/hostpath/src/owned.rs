//! Identifiers and paths that own their text, by the types of the module around this one.
use alloc::string::{String, ToString};
use core::fmt;
use core::str::FromStr;

use super::{ChannelId, ClientId, ConnectionId, Path, PortId};
use crate::{sure, Fault, Refusal};
use crate::{CHANNEL_ID_MOST, CLIENT_ID_MOST, CONNECTION_ID_MOST};

/// Declares what owns the text of something borrowed, and gives that back.
macro_rules! owned {
    ($(#[$said:meta])* $name:ident, $borrowed:ident, $error:ty, $back:ident, $how:expr) => {
        $(#[$said])*
        #[derive(Clone, Debug, PartialEq, Eq, PartialOrd, Ord, Hash)]
        pub struct $name(String);

        impl $name {
            /// What it owns the text of.
            pub fn $back(&self) -> $borrowed<'_> {
                $how(self.as_str())
            }

            /// Its text.
            pub fn as_str(&self) -> &str {
                &self.0
            }
        }

        impl From<$borrowed<'_>> for $name {
            fn from(borrowed: $borrowed<'_>) -> Self {
                Self(borrowed.to_string())
            }
        }

        impl FromStr for $name {
            type Err = $error;

            fn from_str(text: &str) -> Result<Self, $error> {
                $borrowed::try_from(text).map(Self::from)
            }
        }

        impl From<$name> for String {
            fn from(owned: $name) -> Self {
                owned.0
            }
        }

        impl AsRef<str> for $name {
            fn as_ref(&self) -> &str {
                &self.0
            }
        }

        impl PartialEq<str> for $name {
            fn eq(&self, other: &str) -> bool {
                self.0 == other
            }
        }

        impl fmt::Display for $name {
            fn fmt(&self, out: &mut fmt::Formatter<'_>) -> fmt::Result {
                self.0.fmt(out)
            }
        }
    };
}

owned! {
    /// A client identifier that owns its text.
    OwnedClientId, ClientId, Refusal, as_id, ClientId
}

owned! {
    /// A connection identifier that owns its text.
    OwnedConnectionId, ConnectionId, Fault, as_id, ConnectionId
}

owned! {
    /// A port identifier that owns its text.
    OwnedPortId, PortId, Refusal, as_id, PortId
}

owned! {
    /// A channel identifier that owns its text.
    OwnedChannelId, ChannelId, Fault, as_id, ChannelId
}

owned! {
    /// A path that owns its text, which is its key: so it may be kept where what was read is gone. Owned paths compare
    /// as their keys do in a store.
    ///
    /// ```
    #[doc = concat!("use ", here!(), "::{OwnedPath, Path};")]
    /// use hostpath::Fault;
    ///
    /// let path: OwnedPath = "clients/07-tendermint-4/consensusStates/007-2".parse()?; // as `Path::try_from` takes it
    /// assert_eq!(path.as_str(), "clients/07-tendermint-4/consensusStates/7-2");
    /// let Path::ClientConsensusState { client_id, .. } = path.as_path() else { panic!("it is one") };
    /// assert_eq!(client_id.as_str(), "07-tendermint-4");
    /// # Ok::<(), Fault>(())
    /// ```
    OwnedPath, Path, Fault, as_path, |key| sure(Path::try_from(key).ok())
}

/// So that it may be given to every call that takes a text.
impl AsRef<[u8]> for OwnedPath {
    fn as_ref(&self) -> &[u8] {
        self.0.as_bytes()
    }
}

impl OwnedClientId {
    /// As [`ClientId::new`], without room.
    #[doc = errors!(id)]
    pub fn new(client_type: impl AsRef<[u8]>, counter: u64) -> Result<Self, Refusal> {
        ClientId::new(client_type, counter, &mut [0; CLIENT_ID_MOST]).map(Self::from)
    }
}

impl OwnedConnectionId {
    /// As [`ConnectionId::new`], without room.
    pub fn new(counter: u64) -> Self {
        ConnectionId::new(counter, &mut [0; CONNECTION_ID_MOST]).into()
    }
}

impl OwnedChannelId {
    /// As [`ChannelId::new`], without room.
    pub fn new(counter: u64) -> Self {
        ChannelId::new(counter, &mut [0; CHANNEL_ID_MOST]).into()
    }
}
