//! Stand-in for `ibc_primitives`: its prelude alone, the names that a `no_std` crate takes from
//! `alloc`. Nothing here has a behaviour of its own.
extern crate alloc;

pub mod prelude {
    pub use alloc::format;
    pub use alloc::string::{String, ToString};
    pub use alloc::vec::Vec;
}
