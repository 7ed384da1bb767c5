//! The record book in a lent buffer.
use core::fmt;
use core::slice::ChunksExact;

use crate::{bytes_of, done, pair, raw, str_of, sure, ClientId, Refusal};

/// The bytes before a book's slots.
pub const BOOK_HEAD: usize = 12;
/// The bytes of a slot.
pub const BOOK_SLOT: usize = 322;
/// The bytes before the slots of a book of version 2.
pub const BOOK_2_HEAD: usize = 8;
/// The bytes of a slot of version 2.
pub const BOOK_2_SLOT: usize = 321;
/// The slots of the largest book; the smallest has one.
pub const BOOK_MOST: usize = 200;
/// The bytes of the longest key.
pub const BOOK_KEY: usize = 255;
/// The bytes of the longest value; the shortest has one.
pub const BOOK_VALUE: usize = 64;
/// The bytes of a table of buckets beside a book.
pub const BOOK_TABLE: usize = 512;
/// The bytes of an answer of [`Book::lookup_many`].
pub const BOOK_ANSWER: usize = 66;

/// The size of a book of so many slots.
pub const fn book_size(slots: usize) -> usize {
    BOOK_HEAD + BOOK_SLOT * slots
}

/// The size of a book of version 2 of so many slots, which [`Book::convert`] makes on the way from version 1.
pub const fn book_2_size(slots: usize) -> usize {
    BOOK_2_HEAD + BOOK_2_SLOT * slots
}

/// Whose a record is. A book has two owners, and neither's calls see or change the records of the other.
#[derive(Clone, Copy, Debug, PartialEq, Eq, PartialOrd, Ord, Hash)]
pub enum Owner {
    /// Owner 1, who has all records of an older book that is converted.
    One = 1,
    /// Owner 2.
    Two = 2,
}

impl Owner {
    /// Both of them, in the order of their numbers, in which [`Book::quotas`] and [`Book::counts`] are too.
    pub const ALL: [Self; 2] = [Self::One, Self::Two];

    /// Its number, which stands in a slot.
    pub const fn number(self) -> u8 {
        self as u8
    }
}

/// The key of a text: the rendering of the path that it is read as, where that has at most [`BOOK_KEY`] bytes.
#[derive(Clone, Copy, PartialEq, Eq, PartialOrd, Ord, Hash)]
pub struct Key {
    bytes: [u8; BOOK_KEY],
    length: usize,
}

impl Key {
    /// Of a text that a call has taken.
    fn of(text: &[u8]) -> Self {
        let mut bytes = [0; BOOK_KEY];
        let answer = raw::key(text, &mut bytes);
        sure(done(answer.refusal).ok());
        Self { bytes, length: answer.length as usize }
    }

    /// Its text.
    pub fn as_str(&self) -> &str {
        str_of(self.as_ref())
    }
}

/// So that a key may be given to every call that takes a text.
impl AsRef<[u8]> for Key {
    fn as_ref(&self) -> &[u8] {
        sure(self.bytes.get(..self.length))
    }
}

impl PartialEq<str> for Key {
    fn eq(&self, other: &str) -> bool {
        self.as_str() == other
    }
}

impl fmt::Display for Key {
    fn fmt(&self, out: &mut fmt::Formatter<'_>) -> fmt::Result {
        self.as_str().fmt(out)
    }
}

impl fmt::Debug for Key {
    fn fmt(&self, out: &mut fmt::Formatter<'_>) -> fmt::Result {
        out.debug_tuple("Key").field(&self.as_str()).finish()
    }
}

/// A record that [`Book::lookup_lenient`] has found.
#[derive(Clone, Copy, Debug, PartialEq, Eq)]
pub struct Held<'a> {
    /// Under which key it stands.
    pub key: Key,
    /// What it holds.
    pub value: &'a [u8],
}

/// A book of version 3 in a lent buffer of [`book_size`] bytes. Each of its two owners has a quota of the slots and sees its
/// own records alone. Texts with one rendering are one path, and an owner's record stands under the rendering, its key. A
/// text that is not its own key is refused as [`Loose`](Refusal::Loose); the `.._lenient` methods take it, for importers
/// that pad their heights, and each answers the key that it worked on.
///
/// ```
/// use hostpath::{book_size, Book, ClientId, Owner, Refusal};
///
/// let mut buffer = [0; book_size(3)];
/// let mut book = Book::new(&mut buffer, [2, 1])?; // two slots for owner one, and one for owner two
/// let padded = "clients/07-tendermint-4/consensusStates/007-2";
/// assert_eq!(book.write(Owner::One, padded, "a digest"), Err(Refusal::Loose));
/// let key = book.write_lenient(Owner::One, padded, "a digest")?;
/// assert_eq!(key.as_str(), "clients/07-tendermint-4/consensusStates/7-2");
///
/// let client_id = ClientId::try_from("07-tendermint-4")?;
/// assert_eq!(book.oldest(Owner::One, client_id), Ok((7, 2)));
/// assert_eq!(book.oldest(Owner::Two, client_id), Err(Refusal::Absent)); // it is the other's
/// book.write(Owner::Two, key, "another")?;
/// assert_eq!(book.write(Owner::Two, "ports/transfer", "a third"), Err(Refusal::Full));
/// assert_eq!((book.quotas()?, book.counts()?), ([2, 1], [1, 1]));
///
/// book.remove(Owner::One, key)?; // the same path, by its key
/// assert_eq!(book.oldest(Owner::One, client_id), Err(Refusal::Absent));
/// assert_eq!(book.oldest(Owner::Two, client_id), Ok((7, 2)));
/// # Ok::<(), Refusal>(())
/// ```
#[derive(Debug)]
pub struct Book<'a>(&'a mut [u8]);

impl<'a> Book<'a> {
    /// Makes a book without records of a buffer, whatever that holds. The quotas are how many slots each owner may use, owner
    /// one's first; they sum to no more than the slots, and may be 0.
    #[doc = errors!(BadBook, Full)]
    pub fn new(buffer: &'a mut [u8], quotas: [u16; 2]) -> Result<Self, Refusal> {
        done(raw::book_new(buffer, quotas[0], quotas[1]))?;
        Ok(Self(buffer))
    }

    /// Takes a buffer that holds a book. Nothing is looked at here, since every call looks: where the
    /// buffer holds none, each gives [`BadBook`](Refusal::BadBook) and changes nothing.
    pub fn open(buffer: &'a mut [u8]) -> Self {
        Self(buffer)
    }

    /// Makes of a buffer, whatever that holds, the book with these quotas that has the slots and the records of `old`, a book
    /// of version 1 or 2: all of them are owner one's, whose quota has to be as large as their number. The buffer is of
    /// [`book_size`] for its slots. A book of version 1 goes by way of version 2, in `between`, which is of [`book_2_size`]
    /// for its slots and holds that book afterwards, also where only the second step is refused; for a book of version 2
    /// nothing is done to `between`, and it may be empty.
    ///
    /// ```
    /// use hostpath::{book_2_size, book_size, Book, Refusal};
    ///
    /// let mut old = [0; 8 + 288]; // a book of version 1 with one slot, and no record in it
    /// old[..5].copy_from_slice(b"HPB\0\x01");
    /// let (mut between, mut buffer) = ([0; book_2_size(1)], [0; book_size(1)]);
    /// let book = Book::convert(&old, &mut between, &mut buffer, [1, 0])?;
    /// assert_eq!(book.quotas(), Ok([1, 0]));
    ///
    /// let mut other = [0; book_size(1)];
    /// let book = Book::convert(&between, &mut [], &mut other, [0, 1])?; // now of version 2
    /// assert_eq!(book.quotas(), Ok([0, 1]));
    /// # Ok::<(), Refusal>(())
    /// ```
    #[doc = errors!(BadBook, NoRoom, Full)]
    pub fn convert(
        old: &[u8],
        between: &mut [u8],
        buffer: &'a mut [u8],
        quotas: [u16; 2],
    ) -> Result<Self, Refusal> {
        // By its number alone: where something else is wrong with the buffer, either conversion says so.
        let newer = match old {
            [_, _, _, _, 1, ..] => {
                done(raw::book_convert(old, between))?;
                between
            }
            _ => old,
        };
        done(raw::book_convert_owners(newer, buffer, quotas[0], quotas[1]))?;
        Ok(Self(buffer))
    }

    /// The book's bytes, as they may be stored and opened again.
    pub fn bytes(&self) -> &[u8] {
        self.0
    }

    /// How many slots each owner may use, owner one's first. No call on a book changes that.
    #[doc = errors!(BadBook)]
    pub fn quotas(&self) -> Result<[u16; 2], Refusal> {
        self.looked_at()?;
        Ok([self.number(8), self.number(10)])
    }

    /// How many records each owner has, owner one's first: of its quota so many are used.
    #[doc = errors!(BadBook)]
    pub fn counts(&self) -> Result<[u16; 2], Refusal> {
        self.looked_at()?;
        let all = self.number(5);
        let slots = sure(self.0.get(BOOK_HEAD..)).chunks_exact(BOOK_SLOT).take(all.into());
        let ones = slots.filter(|slot| slot[0] == Owner::One.number()).count() as u16;
        Ok([ones, all - ones])
    }

    /// Adds a record of an owner's, or replaces its value, which has from 1 to [`BOOK_VALUE`] bytes. The text is its own key, and no
    /// [`ClientConnection`](crate::Path::ClientConnection): such records are looked up and removed like others, and written no
    /// more.
    #[doc = errors!(BadBook, path, Loose, KeyTooLong, Retired, BadLength, Full)]
    pub fn write(
        &mut self,
        owner: Owner,
        text: impl AsRef<[u8]>,
        value: impl AsRef<[u8]>,
    ) -> Result<(), Refusal> {
        done(raw::book_write(self.0, owner.number(), text.as_ref(), value.as_ref()))
    }

    /// Removes a record of an owner's. The text is its own key.
    #[doc = errors!(BadBook, path, Loose, KeyTooLong, Absent)]
    pub fn remove(&mut self, owner: Owner, text: impl AsRef<[u8]>) -> Result<(), Refusal> {
        done(raw::book_remove(self.0, owner.number(), text.as_ref()))
    }

    /// The value of an owner's record, in lent room for the longest. The text is its own key.
    #[doc = errors!(BadBook, path, Loose, KeyTooLong, Absent)]
    pub fn lookup<'b>(
        &self,
        owner: Owner,
        text: impl AsRef<[u8]>,
        room: &'b mut [u8; BOOK_VALUE],
    ) -> Result<&'b [u8], Refusal> {
        bytes_of(raw::book_lookup(self.0, owner.number(), text.as_ref(), room), room)
    }

    /// As [`write`](Self::write), under the key of the text however its numbers are spelled, which is the answer: for
    /// importers that pad their heights. Others use `write`, and learn by [`Loose`](Refusal::Loose) that their text is
    /// no key.
    #[doc = errors!(BadBook, path, KeyTooLong, Retired, BadLength, Full)]
    pub fn write_lenient(
        &mut self,
        owner: Owner,
        text: impl AsRef<[u8]>,
        value: impl AsRef<[u8]>,
    ) -> Result<Key, Refusal> {
        let text = text.as_ref();
        done(raw::book_write_lenient(self.0, owner.number(), text, value.as_ref()))?;
        Ok(Key::of(text))
    }

    /// As [`remove`](Self::remove), under the key of the text however its numbers are spelled, which is the answer: for
    /// importers that pad their heights. Others use `remove`, and learn by [`Loose`](Refusal::Loose) that their text is
    /// no key.
    #[doc = errors!(BadBook, path, KeyTooLong, Absent)]
    pub fn remove_lenient(&mut self, owner: Owner, text: impl AsRef<[u8]>) -> Result<Key, Refusal> {
        let text = text.as_ref();
        done(raw::book_remove_lenient(self.0, owner.number(), text))?;
        Ok(Key::of(text))
    }

    /// As [`lookup`](Self::lookup), under the key of the text however its numbers are spelled, which the answer has
    /// with the value: for importers that pad their heights. Others use `lookup`, and learn by
    /// [`Loose`](Refusal::Loose) that their text is no key.
    #[doc = errors!(BadBook, path, KeyTooLong, Absent)]
    pub fn lookup_lenient<'b>(
        &self,
        owner: Owner,
        text: impl AsRef<[u8]>,
        room: &'b mut [u8; BOOK_VALUE],
    ) -> Result<Held<'b>, Refusal> {
        let text = text.as_ref();
        let value = bytes_of(raw::book_lookup_lenient(self.0, owner.number(), text, room), room)?;
        Ok(Held { key: Key::of(text), value })
    }

    /// Fills a table from the book, by which [`lookup_many`](Self::lookup_many) finds the records of both owners as they are
    /// now.
    #[doc = errors!(BadBook)]
    pub fn fill(&self, table: &mut Table) -> Result<(), Refusal> {
        done(raw::book_fill(self.0, table.0))
    }

    /// What [`lookup`](Self::lookup) gives an owner for each of many texts, in their order: each text is ended by a line end,
    /// and bytes after the last of these are a text if there are any. The room has [`BOOK_ANSWER`] bytes a text. Book and
    /// table are checked once, and the table has to be filled anew once a key of either owner has come or gone.
    #[doc = errors!(BadBook, BadTable, NoRoom)]
    pub fn lookup_many<'b>(
        &self,
        owner: Owner,
        table: &Table,
        texts: impl AsRef<[u8]>,
        room: &'b mut [u8],
    ) -> Result<Answers<'b>, Refusal> {
        let answer = raw::book_lookup_many(self.0, owner.number(), table.0, texts.as_ref(), room);
        Ok(Answers(bytes_of(answer, room)?.chunks_exact(BOOK_ANSWER)))
    }

    /// The smallest pair of revision number and height among an owner's consensus states of a client: of `10-2` and
    /// `7-2` the second, though it is the last in byte order of key.
    #[doc = errors!(BadBook, Absent)]
    pub fn oldest(&self, owner: Owner, client_id: ClientId<'_>) -> Result<(u64, u64), Refusal> {
        pair(raw::book_oldest(self.0, owner.number(), client_id.as_bytes()))
    }

    /// Keeps as many of an owner's consensus states of a client, those with the greatest pairs of revision number and height, and
    /// removes the others, each with its processed time and height. A processed time or height that has no state goes where its
    /// pair is below every kept one; where the client has no state at all, nothing goes. The answer is how many records went,
    /// and so many slots of the owner's quota are free again.
    ///
    /// ```
    /// use hostpath::{book_size, Book, ClientId, Owner, Refusal};
    ///
    /// let mut buffer = [0; book_size(4)];
    /// let mut book = Book::new(&mut buffer, [4, 0])?;
    /// for leaf in ["10-2", "7-2", "7-2/processedTime", "9-100"] {
    ///     let key = format!("clients/07-tendermint-4/consensusStates/{leaf}");
    ///     book.write(Owner::One, key, "a digest")?;
    /// }
    /// let client_id = ClientId::try_from("07-tendermint-4")?;
    /// assert_eq!(book.clear(Owner::One, client_id, 2), Ok(2)); // 7-2 and its time, though 10-2 is the first as text
    /// assert_eq!(book.oldest(Owner::One, client_id), Ok((9, 100)));
    /// assert_eq!(book.counts()?, [2, 0]);
    /// # Ok::<(), Refusal>(())
    /// ```
    #[doc = errors!(BadBook)]
    pub fn clear(
        &mut self,
        owner: Owner,
        client_id: ClientId<'_>,
        keep: usize,
    ) -> Result<usize, Refusal> {
        let answer = raw::book_clear(self.0, owner.number(), client_id.as_bytes(), keep as u64);
        done(answer.refusal)?;
        Ok(answer.count as usize)
    }

    /// Whether the buffer holds a book: every call looks at that first, and this one then refuses the client for its length.
    fn looked_at(&self) -> Result<(), Refusal> {
        match done(raw::book_oldest(self.0, Owner::One.number(), b"").refusal) {
            Err(Refusal::BadLength) => Ok(()),
            other => other,
        }
    }

    /// A number of two bytes in the header, high byte first.
    fn number(&self, at: usize) -> u16 {
        u16::from_be_bytes(sure(self.0.get(at..at + 2).and_then(|two| two.try_into().ok())))
    }
}

/// A table of buckets in a lent buffer beside a book: which slot each record stands in, by the hash of its owner and key.
///
/// ```
/// use hostpath::{book_size, Book, Owner, Refusal, Table, BOOK_ANSWER, BOOK_TABLE};
///
/// let (mut buffer, mut buckets) = ([0; book_size(2)], [0; BOOK_TABLE]);
/// let (mut book, mut table) = (Book::new(&mut buffer, [1, 1])?, Table::open(&mut buckets));
/// book.write(Owner::One, "ports/transfer", "a digest")?;
/// book.fill(&mut table)?;
/// let (texts, mut room) = ("ports/transfer\nports/icahost\nports", [0; 3 * BOOK_ANSWER]);
/// let mut answers = book.lookup_many(Owner::One, &table, texts, &mut room)?;
/// assert_eq!(answers.next(), Some(Ok(&b"a digest"[..])));
/// assert_eq!(answers.next(), Some(Err(Refusal::Absent)));
/// assert_eq!(answers.next(), Some(Err(Refusal::NotAPath)));
/// assert_eq!(answers.next(), None);
///
/// book.write(Owner::Two, "ports/icahost", "another")?; // so the table is stale
/// let stale = book.lookup_many(Owner::One, &table, texts, &mut room);
/// assert_eq!(stale.err(), Some(Refusal::BadTable));
/// # Ok::<(), Refusal>(())
/// ```
#[derive(Debug)]
pub struct Table<'a>(&'a mut [u8; BOOK_TABLE]);

impl<'a> Table<'a> {
    /// Takes a buffer, whatever it holds. Nothing is looked at here: where it is not what [`Book::fill`] gives of a
    /// book, [`Book::lookup_many`] on that book gives [`BadTable`](Refusal::BadTable).
    pub fn open(buffer: &'a mut [u8; BOOK_TABLE]) -> Self {
        Self(buffer)
    }

    /// The table's bytes, as they may be stored and opened again.
    pub fn bytes(&self) -> &[u8; BOOK_TABLE] {
        self.0
    }
}

/// The answers of [`Book::lookup_many`], in the order of its texts: each a value, or the refusal that
/// [`Book::lookup`] gives for that text alone.
#[derive(Clone, Debug)]
pub struct Answers<'a>(ChunksExact<'a, u8>);

impl<'a> Iterator for Answers<'a> {
    type Item = Result<&'a [u8], Refusal>;

    fn next(&mut self) -> Option<Self::Item> {
        let answer = self.0.next()?;
        let value = |()| sure(answer.get(2..2 + usize::from(answer[1])));
        Some(done(answer[0]).map(value))
    }

    fn size_hint(&self) -> (usize, Option<usize>) {
        self.0.size_hint()
    }
}

impl ExactSizeIterator for Answers<'_> {}
