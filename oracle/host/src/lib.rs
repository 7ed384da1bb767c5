//! The original. `path`, `validate` and three of `identifiers` are the files of ibc-rs as they
//! stand. `error`, `PortId`, `Sequence` and `ClientType` are stand-ins, written from what those
//! files ask of them and from document 01's readings. `terms` puts the answers in document 01's terms.
include!(concat!(env!("OUT_DIR"), "/top.rs"));

pub mod error;
pub mod identifiers;
pub mod terms;
