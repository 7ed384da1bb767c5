//! Paths of upgraded states, by the calls of the module around this one.
use super::raw;
use super::Path;
use crate::{done, str_of, Refusal};

/// Declares what a path of an upgraded state carries. Each has a struct of its own, since an upgrade path that fits
/// with one height and word may be too long with another: so it is checked with both, when it is made.
macro_rules! upgraded {
    ($(#[$said:meta])* $name:ident, $case:ident, $kind:literal) => {
        $(#[$said])*
        #[derive(Clone, Copy, Debug, PartialEq, Eq, PartialOrd, Ord, Hash)]
        pub struct $name<'a> {
            pub(crate) upgrade_path: &'a str,
            pub(crate) height: u64,
        }

        impl<'a> $name<'a> {
            /// Of an upgrade path, which is any text without `/`, and a height. Their rendering has at most
            /// [`PATH_MOST`](crate::PATH_MOST) bytes.
            #[doc = errors!(text, BadSegment, TooLong)]
            pub fn new<T: AsRef<[u8]> + ?Sized>(
                upgrade_path: &'a T,
                height: u64,
            ) -> Result<Self, Refusal> {
                let text = upgrade_path.as_ref();
                match done(raw::render($kind, text, b"", height, 0, &mut []).refusal) {
                    Ok(()) | Err(Refusal::NoRoom) => Ok(Self { upgrade_path: str_of(text), height }),
                    Err(refusal) => Err(refusal),
                }
            }

            /// Its upgrade path, as it was written.
            pub const fn upgrade_path(self) -> &'a str {
                self.upgrade_path
            }

            /// Its height.
            pub const fn height(self) -> u64 {
                self.height
            }
        }

        impl<'a> From<$name<'a>> for Path<'a> {
            fn from(state: $name<'a>) -> Self {
                Self::$case(state)
            }
        }
    };
}

upgraded! {
    /// What the path of an upgraded client state carries.
    ///
    /// ```
    #[doc = concat!("use ", here!(), "::{Path, UpgradeClientStatePath};")]
    /// use hostpath::{Refusal, UPGRADED_IBC_STATE};
    ///
    /// let state = UpgradeClientStatePath::new(UPGRADED_IBC_STATE, 5)?;
    /// assert_eq!(Path::from(state).to_string(), "upgradedIBCState/5/upgradedClient");
    /// assert_eq!((state.upgrade_path(), state.height()), ("upgradedIBCState", 5));
    ///
    /// let long = "u".repeat(4079);
    /// assert!(UpgradeClientStatePath::new(&long, 5).is_ok());
    /// assert_eq!(UpgradeClientStatePath::new(&long, 10), Err(Refusal::TooLong));
    /// assert_eq!(UpgradeClientStatePath::new("a/b", 5), Err(Refusal::BadSegment));
    /// # Ok::<(), Refusal>(())
    /// ```
    UpgradeClientStatePath, UpgradeClientState, 18
}

upgraded! {
    /// What the path of an upgraded consensus state carries.
    UpgradeConsensusStatePath, UpgradeConsensusState, 19
}
