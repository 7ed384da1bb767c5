//! Stand-in: the errors that the files make, and document 01's number for each.
#[derive(Debug, PartialEq, Eq)]
pub enum IdentifierError {
    InvalidCharacter(String),
    InvalidLength { actual: String, min: u64, max: u64 },
    InvalidPrefix(String),
    FailedToParse { description: String },
}

impl IdentifierError {
    pub fn number(&self) -> u8 {
        match self {
            Self::InvalidCharacter(_) => 5,
            Self::InvalidLength { .. } => 6,
            Self::InvalidPrefix(_) => 7,
            Self::FailedToParse { .. } => 8,
        }
    }
}
