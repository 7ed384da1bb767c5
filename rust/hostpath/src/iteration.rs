//! Iteration keys, and blocks of them.
use crate::{done, pair, raw, sure, Refusal};

/// An iteration key's bytes.
pub const ITERATION_KEY: usize = 38;

/// `iterateConsensusStates`, a revision number and a revision height: keys compare as the pairs of
/// numbers compare.
///
/// ```
/// use hostpath::{IterationKey, Refusal};
///
/// let key = IterationKey::new(7, 2);
/// assert!(key < IterationKey::new(10, 2));
/// assert_eq!(key.as_bytes()[..22], *b"iterateConsensusStates");
/// assert_eq!(IterationKey::read(key.as_bytes()), Ok(key));
/// assert_eq!((key.revision_number(), key.revision_height()), (7, 2));
/// assert_eq!(IterationKey::read(&key.as_bytes()[1..]), Err(Refusal::BadIterKey));
/// ```
#[derive(Clone, Copy, Debug, PartialEq, Eq, PartialOrd, Ord, Hash)]
pub struct IterationKey([u8; ITERATION_KEY]);

impl IterationKey {
    /// The key of a revision number and height.
    pub fn new(revision_number: u64, revision_height: u64) -> Self {
        let mut key = [0; ITERATION_KEY];
        let answer = raw::iteration_key(revision_number, revision_height, &mut key);
        sure(done(answer.refusal).ok());
        Self(key)
    }

    /// The key that bytes are.
    #[doc = errors!(BadIterKey)]
    pub fn read(bytes: &[u8]) -> Result<Self, Refusal> {
        done(raw::read_iteration_key(bytes).refusal)?;
        Ok(Self(sure(bytes.try_into().ok())))
    }

    /// Its bytes.
    pub const fn as_bytes(&self) -> &[u8; ITERATION_KEY] {
        &self.0
    }

    /// Its revision number.
    pub fn revision_number(&self) -> u64 {
        raw::read_iteration_key(&self.0).number
    }

    /// Its revision height.
    pub fn revision_height(&self) -> u64 {
        raw::read_iteration_key(&self.0).height
    }
}

impl AsRef<[u8]> for IterationKey {
    fn as_ref(&self) -> &[u8] {
        &self.0
    }
}

/// Revision number and height of the first key above a pair, in a block of iteration keys that stand
/// one after the other, each above the one before it.
///
/// ```
/// use hostpath::{first_above, last_below, IterationKey, Refusal};
///
/// let mut block = vec![];
/// for (number, height) in [(7, 2), (10, 2), (10, 3)] {
///     block.extend(IterationKey::new(number, height).as_bytes());
/// }
/// assert_eq!(first_above(&block, 10, 2), Ok((10, 3))); // a key equal to the pair is not above it
/// assert_eq!(last_below(&block, 10, 2), Ok((7, 2)));
/// assert_eq!(first_above(&block, 10, 3), Err(Refusal::Absent));
/// assert_eq!(last_below(&[], 10, 3), Err(Refusal::Absent));
/// assert_eq!(last_below(&block[1..], 10, 3), Err(Refusal::BadBlock));
/// ```
#[doc = errors!(BadBlock, Absent)]
pub fn first_above(
    block: &[u8],
    revision_number: u64,
    revision_height: u64,
) -> Result<(u64, u64), Refusal> {
    pair(raw::first_above(block, revision_number, revision_height))
}

/// Revision number and height of the last key below a pair, in such a block.
#[doc = errors!(BadBlock, Absent)]
pub fn last_below(
    block: &[u8],
    revision_number: u64,
    revision_height: u64,
) -> Result<(u64, u64), Refusal> {
    pair(raw::last_below(block, revision_number, revision_height))
}
