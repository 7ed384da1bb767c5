//! The checks, the identifiers and the paths for letters of every script, under the names that they have for
//! ASCII: where ibc-rs takes a port that is named in Greek, so does this module.
//!
//! ```
//! use hostpath::wide::{validate_port_identifier, ClientId, Path, PortId};
//! use hostpath::{Refusal, CLIENT_ID_MOST};
//!
//! let text = "ports/πύλη";
//! let Path::Ports { port_id } = Path::read(text)?.path else { panic!("it is a port") };
//! assert_eq!(port_id, PortId::try_from("πύλη")?);
//! assert_eq!(hostpath::Path::read(text).unwrap_err(), Refusal::NotAscii);
//!
//! let mut room = [0; CLIENT_ID_MOST];
//! let client = ClientId::new("\u{3000}07-τέντερμιντ", 4, &mut room)?;
//! assert_eq!(client.as_str(), "07-τέντερμιντ-4");
//!
//! assert_eq!(validate_port_identifier("١٢"), Ok(())); // digits of another script
//! assert_eq!(validate_port_identifier("a\u{301}"), Err(Refusal::BadChar)); // a mark is no letter
//! assert_eq!(validate_port_identifier(b"\xff\xfe"), Err(Refusal::BadUtf8));
//! # Ok::<(), Refusal>(())
//! ```
//!
//! A text is UTF-8, strictly as a `str` is: what is none is refused with [`BadUtf8`](crate::Refusal::BadUtf8), where those
//! outside have [`NotAscii`](crate::Refusal::NotAscii). A letter or digit is what
//! `char::is_alphanumeric` takes for one, and white space around a client type what `char::is_whitespace` does, both in
//! the release of Rust that the library's table names (docs/DIFFERENCES.md). Lengths are counted in bytes, and the
//! digits of a number are ASCII. On ASCII texts all here answers as the items of that name outside do, so what was made
//! outside is made one of these by `From`. Books are ASCII alone: they refuse the key of such a path with
//! [`NotAscii`](crate::Refusal::NotAscii).

/// Where examples have their items from, and what a text that is no text is refused with.
macro_rules! here {
    () => {
        "hostpath::wide"
    };
    (text) => {
        "BadUtf8"
    };
}

// The same files as outside, over the wide calls.
#[path = "identifiers.rs"]
mod identifiers;
#[cfg(feature = "alloc")]
#[path = "owned.rs"]
mod owned;
#[path = "parents.rs"]
mod parents;
#[path = "path.rs"]
mod path;
#[path = "upgrade.rs"]
mod upgrade;

pub use identifiers::*;
#[cfg(feature = "alloc")]
pub use owned::*;
pub use parents::*;
pub use path::*;
pub use upgrade::*;

/// Declares that what has passed a check outside has passed the one here.
macro_rules! widened {
    ($($name:ident)+) => {
        $(
            impl<'a> From<crate::$name<'a>> for $name<'a> {
                fn from(plain: crate::$name<'a>) -> Self {
                    Self(plain.0)
                }
            }
        )+
    };
}

widened! { ClientId ConnectionId PortId ChannelId }

impl<'a> From<crate::Path<'a>> for Path<'a> {
    fn from(plain: crate::Path<'a>) -> Self {
        let (parts, numbers) = plain.carried();
        crate::sure(path::typed(plain.kind(), parts, numbers))
    }
}

impl<'a> From<crate::Reading<'a>> for Reading<'a> {
    fn from(plain: crate::Reading<'a>) -> Self {
        Self { path: plain.path.into(), exact: plain.exact }
    }
}

/// The calls under the names of the plain ones.
mod raw {
    pub use crate::raw::{
        channel_id_new, is_provable, wide_acks_path as acks_path,
        wide_client_id_new as client_id_new, wide_commitments_path as commitments_path,
        wide_consensus_state_parent as consensus_state_parent, wide_key as key, wide_read as walk,
        wide_receipts_path as receipts_path, wide_render as render,
        wide_validate_channel_identifier as validate_channel_identifier,
        wide_validate_client_identifier as validate_client_identifier,
        wide_validate_client_type as validate_client_type,
        wide_validate_connection_identifier as validate_connection_identifier,
        wide_validate_identifier_chars as validate_identifier_chars,
        wide_validate_identifier_length as validate_identifier_length,
        wide_validate_named_u64_index as validate_named_u64_index,
        wide_validate_port_identifier as validate_port_identifier,
        wide_validate_prefix_length as validate_prefix_length,
    };
}
