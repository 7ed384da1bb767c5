//! The identifier checks, and identifiers that have passed them, by the calls of the module around this one.
use core::fmt;

use super::raw;
use crate::{done, str_of, sure, written, Fault, Refusal};
use crate::{CHANNEL_ID_MOST, CLIENT_ID_MOST, CONNECTION_ID_MOST};

/// All is letters, digits and `. _ + - # [ ] < >`.
#[doc = errors!(text, BadChar)]
pub fn validate_identifier_chars(id: impl AsRef<[u8]>) -> Result<(), Refusal> {
    done(raw::validate_identifier_chars(id.as_ref()))
}

/// The length is from `min`, raised to 1, to `max`.
#[doc = errors!(text, BadLength)]
pub fn validate_identifier_length(id: impl AsRef<[u8]>, min: u64, max: u64) -> Result<(), Refusal> {
    done(raw::validate_identifier_length(id.as_ref(), min, max))
}

/// The prefix is not empty, and with `-` and any counter after it has from `min` to `max` bytes.
#[doc = errors!(text, BadLength)]
pub fn validate_prefix_length(prefix: impl AsRef<[u8]>, min: u64, max: u64) -> Result<(), Refusal> {
    done(raw::validate_prefix_length(prefix.as_ref(), min, max))
}

/// It is the name, `-` and an index: a number text that does not begin with 0 unless it is 0.
#[doc = errors!(text, BadPrefix, number)]
pub fn validate_named_u64_index(id: impl AsRef<[u8]>, name: impl AsRef<[u8]>) -> Result<(), Fault> {
    Fault::of_index(raw::validate_named_u64_index(id.as_ref(), name.as_ref()))
}

/// It is a client type: 7 to 43 bytes of such characters.
#[doc = errors!(id)]
pub fn validate_client_type(id: impl AsRef<[u8]>) -> Result<(), Refusal> {
    done(raw::validate_client_type(id.as_ref()))
}

/// It is a client identifier: 9 to 64 bytes.
///
/// ```
#[doc = concat!("use ", here!(), "::validate_client_identifier;")]
/// use hostpath::Refusal;
///
/// assert_eq!(validate_client_identifier("07-tendermint-4"), Ok(()));
/// let refusal = validate_client_identifier(b"clientid").unwrap_err();
/// assert_eq!((refusal, refusal.number()), (Refusal::BadLength, 6));
/// ```
#[doc = errors!(id)]
pub fn validate_client_identifier(id: impl AsRef<[u8]>) -> Result<(), Refusal> {
    done(raw::validate_client_identifier(id.as_ref()))
}

/// It is a connection identifier: `connection-` and an index, 10 to 64 bytes.
#[doc = errors!(id, BadPrefix, number)]
pub fn validate_connection_identifier(id: impl AsRef<[u8]>) -> Result<(), Fault> {
    Fault::of_index(raw::validate_connection_identifier(id.as_ref()))
}

/// It is a port identifier: 2 to 128 bytes.
#[doc = errors!(id)]
pub fn validate_port_identifier(id: impl AsRef<[u8]>) -> Result<(), Refusal> {
    done(raw::validate_port_identifier(id.as_ref()))
}

/// It is a channel identifier: `channel-` and an index, 8 to 64 bytes.
#[doc = errors!(id, BadPrefix, number)]
pub fn validate_channel_identifier(id: impl AsRef<[u8]>) -> Result<(), Fault> {
    Fault::of_index(raw::validate_channel_identifier(id.as_ref()))
}

/// Declares an identifier that has passed its check.
macro_rules! checked {
    ($(#[$said:meta])* $name:ident, $check:ident, $error:ty) => {
        $(#[$said])*
        ///
        #[doc = concat!("`try_from` makes one of a text, and refuses what [`", stringify!($check), "`] does.")]
        #[derive(Clone, Copy, Debug, PartialEq, Eq, PartialOrd, Ord, Hash)]
        pub struct $name<'a>(pub(crate) &'a str);

        impl<'a> $name<'a> {
            /// Its text, as it was written.
            pub const fn as_str(self) -> &'a str {
                self.0
            }

            /// Its bytes.
            pub const fn as_bytes(self) -> &'a [u8] {
                self.0.as_bytes()
            }
        }

        impl<'a> TryFrom<&'a [u8]> for $name<'a> {
            type Error = $error;

            fn try_from(text: &'a [u8]) -> Result<Self, $error> {
                $check(text).map(|()| Self(str_of(text)))
            }
        }

        impl<'a> TryFrom<&'a str> for $name<'a> {
            type Error = $error;

            fn try_from(text: &'a str) -> Result<Self, $error> {
                text.as_bytes().try_into()
            }
        }

        impl fmt::Display for $name<'_> {
            fn fmt(&self, out: &mut fmt::Formatter<'_>) -> fmt::Result {
                self.0.fmt(out)
            }
        }

        impl AsRef<str> for $name<'_> {
            fn as_ref(&self) -> &str {
                self.0
            }
        }

        impl PartialEq<str> for $name<'_> {
            fn eq(&self, other: &str) -> bool {
                self.0 == other
            }
        }
    };
}

checked! {
    /// A client identifier.
    ClientId, validate_client_identifier, Refusal
}

checked! {
    /// A connection identifier.
    ConnectionId, validate_connection_identifier, Fault
}

checked! {
    /// A port identifier.
    PortId, validate_port_identifier, Refusal
}

checked! {
    /// A channel identifier. `channel-+01` and `channel-1` are two.
    ///
    /// ```
    #[doc = concat!("use ", here!(), "::ChannelId;")]
    /// use hostpath::Refusal;
    ///
    /// assert_ne!(ChannelId::try_from("channel-+01")?, ChannelId::try_from("channel-1")?);
    /// assert_eq!(ChannelId::try_from("channel-01").unwrap_err(), Refusal::BadPrefix);
    /// # Ok::<(), Refusal>(())
    /// ```
    ChannelId, validate_channel_identifier, Fault
}

impl<'a> ClientId<'a> {
    /// Writes the client type without white space at its ends, `-` and the counter.
    ///
    /// ```
    #[doc = concat!("use ", here!(), "::ClientId;")]
    /// use hostpath::{Refusal, CLIENT_ID_MOST};
    ///
    /// let mut room = [0; CLIENT_ID_MOST];
    /// assert_eq!(ClientId::new("07-tendermint", 4, &mut room)?.as_str(), "07-tendermint-4");
    /// # Ok::<(), Refusal>(())
    /// ```
    #[doc = errors!(id)]
    pub fn new(
        client_type: impl AsRef<[u8]>,
        counter: u64,
        room: &'a mut [u8; CLIENT_ID_MOST],
    ) -> Result<Self, Refusal> {
        written(raw::client_id_new(client_type.as_ref(), counter, room), room).map(Self)
    }
}

impl<'a> ConnectionId<'a> {
    /// Writes `connection-` and the counter.
    ///
    /// ```
    #[doc = concat!("use ", here!(), "::ConnectionId;")]
    /// use hostpath::CONNECTION_ID_MOST;
    ///
    /// let mut room = [0; CONNECTION_ID_MOST];
    /// assert_eq!(ConnectionId::new(3, &mut room).as_str(), "connection-3");
    /// ```
    pub fn new(counter: u64, room: &'a mut [u8; CONNECTION_ID_MOST]) -> Self {
        // the word passes for a client type, so it is written as one
        let answer = raw::client_id_new(Self::prefix().as_bytes(), counter, room);
        Self(sure(written(answer, room).ok()))
    }

    /// The word that each begins with.
    pub const fn prefix() -> &'static str {
        "connection"
    }
}

impl<'a> ChannelId<'a> {
    /// Writes `channel-` and the counter.
    ///
    /// ```
    #[doc = concat!("use ", here!(), "::ChannelId;")]
    /// use hostpath::CHANNEL_ID_MOST;
    ///
    /// let mut room = [0; CHANNEL_ID_MOST];
    /// assert_eq!(ChannelId::new(7, &mut room).as_str(), "channel-7");
    /// ```
    pub fn new(counter: u64, room: &'a mut [u8; CHANNEL_ID_MOST]) -> Self {
        Self(sure(written(raw::channel_id_new(counter, room), room).ok()))
    }

    /// The word that each begins with.
    pub const fn prefix() -> &'static str {
        "channel"
    }
}
