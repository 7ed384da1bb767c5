//! The refusals.
use core::fmt;

/// Why a call was refused, by the number that the library has for it. Its `Display` is a sentence that says what to do.
#[derive(Clone, Copy, Debug, PartialEq, Eq, PartialOrd, Ord, Hash)]
#[non_exhaustive]
#[repr(u8)]
pub enum Refusal {
    // Below, made by bin/interface: refusals.
    /// 1: the text, or the path that it makes, has more than 4,096 bytes: shorten it.
    TooLong = 1,
    /// 2: a byte of the text is 128 or more: write the text in ASCII alone.
    NotAscii = 2,
    /// 3: the text fits none of the nineteen kinds of path: hold its words and numbers against the table of kinds.
    NotAPath = 3,
    /// 4: the lent buffer is too short, or not of the size that a converted book has: lend one of the right size.
    NoRoom = 4,
    /// 5: a byte is none of A-Z, a-z, 0-9 and . _ + - # [ ] < >, which identifiers are made of: take it out.
    BadChar = 5,
    /// 6: the identifier is too short or too long, or the value is empty or over 64 bytes: give one of the right length.
    BadLength = 6,
    /// 7: the identifier is not its name, a dash and a number without leading zeros: write it as in channel-7.
    BadPrefix = 7,
    /// 9: the buffer holds no book of the version that the call takes: make a new one in it, or convert an older one.
    BadBook = 9,
    /// 10: the path's key has more than the 255 bytes that a book keeps: shorten its upgrade path.
    KeyTooLong = 10,
    /// 11: the quota has no room for another record, or the book for such quotas: remove a record, or take other quotas.
    Full = 11,
    /// 12: the book holds no such record, or the block no such key: ask for the key of the text to see which record was looked for.
    Absent = 12,
    /// 13: the upgrade path has a slash: give it as one piece, such as upgradedIBCState.
    BadSegment = 13,
    /// 14: the kind is not a number from 1 to 19: take it from the table of kinds.
    BadKind = 14,
    /// 15: the bytes are not iterateConsensusStates and 16 more, 38 in all: give one whole iteration key.
    BadIterKey = 15,
    /// 16: the block is not whole iteration keys that rise, no two the same: put them in order and take out what is no key.
    BadBlock = 16,
    /// 17: where a number should stand there is no digit: write one, from 0 to 18446744073709551615.
    NoDigits = 17,
    /// 18: a byte of the number is no digit: write it in the digits 0 to 9 alone.
    NotADigit = 18,
    /// 19: the number is above 18446744073709551615: write a smaller one.
    TooLarge = 19,
    /// 20: a number of the text has a plus or leading zeros, so it is not its own key: give its key, or make the lenient call.
    Loose = 20,
    /// 21: the text is no UTF-8: give it as UTF-8 without overlong forms and surrogates.
    BadUtf8 = 21,
    /// 22: the table is not the 512 numbers that filling it from this book gives: fill it again.
    BadTable = 22,
    /// 23: the owner is neither 1 nor 2: give the number of the network that the record belongs to.
    BadOwner = 23,
    /// 24: the bytes are not a client, a marker of 1, 2 or 3 and 8 more, or the kind is not one of these: give a whole packet key.
    BadV2Key = 24,
    /// 25: the path is of kind 8, which is written to books no more: derive a client's connections, and look up or remove such records.
    Retired = 25,
    // Above, made by bin/interface.
}

impl Refusal {
    /// The refusal of a number, which 0 has none of.
    pub const fn of(number: u8) -> Option<Self> {
        Some(match number {
            // Below, made by bin/interface: numbers of refusals.
            1 => Self::TooLong,
            2 => Self::NotAscii,
            3 => Self::NotAPath,
            4 => Self::NoRoom,
            5 => Self::BadChar,
            6 => Self::BadLength,
            7 => Self::BadPrefix,
            9 => Self::BadBook,
            10 => Self::KeyTooLong,
            11 => Self::Full,
            12 => Self::Absent,
            13 => Self::BadSegment,
            14 => Self::BadKind,
            15 => Self::BadIterKey,
            16 => Self::BadBlock,
            17 => Self::NoDigits,
            18 => Self::NotADigit,
            19 => Self::TooLarge,
            20 => Self::Loose,
            21 => Self::BadUtf8,
            22 => Self::BadTable,
            23 => Self::BadOwner,
            24 => Self::BadV2Key,
            25 => Self::Retired,
            // Above, made by bin/interface.
            _ => return None,
        })
    }

    /// The number that the library has for it.
    pub const fn number(self) -> u8 {
        self as u8
    }

    /// What is wrong, and what to do about it.
    pub const fn sentence(self) -> &'static str {
        match self {
            // Below, made by bin/interface: sentences of refusals.
            Self::TooLong => "the text, or the path that it makes, has more than 4,096 bytes: shorten it",
            Self::NotAscii => "a byte of the text is 128 or more: write the text in ASCII alone",
            Self::NotAPath => "the text fits none of the nineteen kinds of path: hold its words and numbers against the table of kinds",
            Self::NoRoom => "the lent buffer is too short, or not of the size that a converted book has: lend one of the right size",
            Self::BadChar => "a byte is none of A-Z, a-z, 0-9 and . _ + - # [ ] < >, which identifiers are made of: take it out",
            Self::BadLength => "the identifier is too short or too long, or the value is empty or over 64 bytes: give one of the right length",
            Self::BadPrefix => "the identifier is not its name, a dash and a number without leading zeros: write it as in channel-7",
            Self::BadBook => "the buffer holds no book of the version that the call takes: make a new one in it, or convert an older one",
            Self::KeyTooLong => "the path's key has more than the 255 bytes that a book keeps: shorten its upgrade path",
            Self::Full => "the quota has no room for another record, or the book for such quotas: remove a record, or take other quotas",
            Self::Absent => "the book holds no such record, or the block no such key: ask for the key of the text to see which record was looked for",
            Self::BadSegment => "the upgrade path has a slash: give it as one piece, such as upgradedIBCState",
            Self::BadKind => "the kind is not a number from 1 to 19: take it from the table of kinds",
            Self::BadIterKey => "the bytes are not iterateConsensusStates and 16 more, 38 in all: give one whole iteration key",
            Self::BadBlock => "the block is not whole iteration keys that rise, no two the same: put them in order and take out what is no key",
            Self::NoDigits => "where a number should stand there is no digit: write one, from 0 to 18446744073709551615",
            Self::NotADigit => "a byte of the number is no digit: write it in the digits 0 to 9 alone",
            Self::TooLarge => "the number is above 18446744073709551615: write a smaller one",
            Self::Loose => "a number of the text has a plus or leading zeros, so it is not its own key: give its key, or make the lenient call",
            Self::BadUtf8 => "the text is no UTF-8: give it as UTF-8 without overlong forms and surrogates",
            Self::BadTable => "the table is not the 512 numbers that filling it from this book gives: fill it again",
            Self::BadOwner => "the owner is neither 1 nor 2: give the number of the network that the record belongs to",
            Self::BadV2Key => "the bytes are not a client, a marker of 1, 2 or 3 and 8 more, or the kind is not one of these: give a whole packet key",
            Self::Retired => "the path is of kind 8, which is written to books no more: derive a client's connections, and look up or remove such records",
            // Above, made by bin/interface.
        }
    }
}

impl fmt::Display for Refusal {
    fn fmt(&self, out: &mut fmt::Formatter<'_>) -> fmt::Result {
        write!(out, "refusal {}: {}", self.number(), self.sentence())
    }
}

impl core::error::Error for Refusal {}
