//! The three identifiers of the original, and stand-ins for what it takes from elsewhere.
use core::num::ParseIntError;
use core::str::FromStr;

use derive_more::Display;

use crate::error::IdentifierError;
use crate::validate::{validate_client_type, validate_port_identifier};

include!(concat!(env!("OUT_DIR"), "/identifiers.rs"));
pub use channel_id::ChannelId;
pub use client_id::ClientId;
pub use connection_id::ConnectionId;

/// Stand-in: reading applies the port validator.
#[derive(Clone, Debug, PartialEq, Eq, PartialOrd, Ord, Hash, Display)]
pub struct PortId(String);

impl PortId {
    pub fn as_str(&self) -> &str {
        &self.0
    }
}

impl FromStr for PortId {
    type Err = IdentifierError;

    fn from_str(s: &str) -> Result<Self, Self::Err> {
        validate_port_identifier(s).map(|()| Self(s.to_string()))
    }
}

/// Stand-in: read and shown as Rust's own u64.
#[derive(Copy, Clone, Debug, PartialEq, Eq, PartialOrd, Ord, Hash, Display)]
pub struct Sequence(u64);

impl Sequence {
    pub fn value(self) -> u64 {
        self.0
    }
}

impl From<u64> for Sequence {
    fn from(value: u64) -> Self {
        Self(value)
    }
}

impl FromStr for Sequence {
    type Err = ParseIntError;

    fn from_str(s: &str) -> Result<Self, Self::Err> {
        s.parse().map(Self)
    }
}

/// Stand-in for the example in the original's documentation of `ClientId::new`.
#[derive(Debug)]
pub struct ClientType(String);

impl ClientType {
    pub fn build_client_id(&self, counter: u64) -> ClientId {
        ClientId::format(&self.0, counter)
    }
}

impl FromStr for ClientType {
    type Err = IdentifierError;

    fn from_str(s: &str) -> Result<Self, Self::Err> {
        validate_client_type(s).map(|()| Self(s.to_string()))
    }
}
