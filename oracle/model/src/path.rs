//! The section 'The nineteen kinds' of document 01: one table, read and rendered by walking it; and
//! request L3's fault of a text in which a number alone is wrong.
use crate::identifier::Identifier;
use crate::{hold, number, Fault, Mode, Refusal};
use crate::{BAD_KIND, BAD_SEGMENT, NOT_A_PATH, TOO_LONG};

/// The longest text that is read or rendered.
pub const MOST: usize = 4096;

/// What stands between two slashes.
#[derive(Clone, Copy, Debug, PartialEq, Eq)]
pub enum Part {
    Word(&'static str),
    /// C, K or P.
    First(Identifier),
    /// H.
    Second(Identifier),
    /// U.
    Upgrade,
    /// S or n.
    Number,
    /// R-h.
    Heights,
}

use Part::{First, Heights, Number, Second, Upgrade, Word};

const C: Part = First(Identifier::Client);
const K: Part = First(Identifier::Connection);
const P: Part = First(Identifier::Port);
const H: Part = Second(Identifier::Channel);

/// Kind k stands at place k - 1.
pub const KINDS: [&[Part]; 19] = [
    &[Word("nextClientSequence")],
    &[Word("nextConnectionSequence")],
    &[Word("nextChannelSequence")],
    &[Word("clients"), C, Word("clientState")],
    &[Word("clients"), C, Word("consensusStates"), Heights],
    &[Word("clients"), C, Word("consensusStates"), Heights, Word("processedTime")],
    &[Word("clients"), C, Word("consensusStates"), Heights, Word("processedHeight")],
    &[Word("clients"), C, Word("connections")],
    &[Word("connections"), K],
    &[Word("ports"), P],
    &[Word("channelEnds"), Word("ports"), P, Word("channels"), H],
    &[Word("nextSequenceSend"), Word("ports"), P, Word("channels"), H],
    &[Word("nextSequenceRecv"), Word("ports"), P, Word("channels"), H],
    &[Word("nextSequenceAck"), Word("ports"), P, Word("channels"), H],
    &[Word("commitments"), Word("ports"), P, Word("channels"), H, Word("sequences"), Number],
    &[Word("acks"), Word("ports"), P, Word("channels"), H, Word("sequences"), Number],
    &[Word("receipts"), Word("ports"), P, Word("channels"), H, Word("sequences"), Number],
    &[Upgrade, Number, Word("upgradedClient")],
    &[Upgrade, Number, Word("upgradedConsState")],
];

/// The parts of a kind.
pub fn shape(kind: u8) -> Result<&'static [Part], Refusal> {
    usize::from(kind).checked_sub(1).and_then(|at| KINDS.get(at)).copied().ok_or(BAD_KIND)
}

/// Start and length of a part of a text.
#[derive(Clone, Copy, Debug, Default, PartialEq, Eq)]
pub struct Place {
    pub start: usize,
    pub length: usize,
}

impl Place {
    pub fn of(self, text: &[u8]) -> &[u8] {
        &text[self.start..self.start + self.length]
    }
}

#[derive(Clone, Copy, Debug, PartialEq, Eq)]
pub struct Reading {
    pub kind: u8,
    pub exact: bool,
    pub first: Place,
    pub second: Place,
    pub numbers: [u64; 2],
}

impl Reading {
    /// The reading for the node.
    pub fn bytes(&self) -> [u8; 26] {
        let mut bytes = vec![self.kind, u8::from(self.exact)];
        for place in [self.first, self.second] {
            bytes.extend((place.start as u16).to_be_bytes());
            bytes.extend((place.length as u16).to_be_bytes());
        }
        bytes.extend(self.numbers.iter().flat_map(|n| n.to_be_bytes()));
        bytes.try_into().unwrap()
    }

    fn key(&self, text: &[u8]) -> Vec<u8> {
        joined(
            KINDS[usize::from(self.kind) - 1],
            self.first.of(text),
            self.second.of(text),
            self.numbers.map(|n| n.to_string()),
        )
    }
}

/// Reading, in the order of refusals 1, 2 or 21, 3; 17, 18 and 19 stand at the place of 3.
pub fn read(mode: Mode, text: &[u8]) -> Result<Reading, Fault> {
    read_with_key(mode, text).map(|(reading, _)| reading)
}

/// Reading, with the rendering of the text. At most one kind has a word on it: a second stops the run.
pub fn read_with_key(mode: Mode, text: &[u8]) -> Result<(Reading, Vec<u8>), Fault> {
    hold(text.len() <= MOST, TOO_LONG)?;
    mode.text(text)?;
    let places = cut(text);
    let mut fits = (1..=19).filter_map(|kind| fit(mode, kind, text, &places));
    let fit = fits.next();
    assert_eq!(fits.next(), None, "two kinds: {}", text.escape_ascii());
    let mut reading = fit.ok_or(NOT_A_PATH)??;
    let key = reading.key(text);
    reading.exact = key == text;
    Ok((reading, key))
}

/// The parts of a text between its slashes, empty ones too.
fn cut(text: &[u8]) -> Vec<Place> {
    let mut start = 0;
    text.split(|b| *b == b'/')
        .map(|part| {
            let place = Place { start, length: part.len() };
            start += part.len() + 1;
            place
        })
        .collect()
}

/// What a kind has to say of a text: nothing where another part than its numbers is wrong, else the
/// reading, its mark not yet set, or the fault of the first number that is none.
fn fit(mode: Mode, kind: u8, text: &[u8], places: &[Place]) -> Option<Result<Reading, Fault>> {
    let shape = KINDS[usize::from(kind) - 1];
    if shape.len() != places.len() {
        return None;
    }
    let none = Place::default();
    let mut reading = Reading { kind, exact: false, first: none, second: none, numbers: [0, 0] };
    let mut numbers = vec![];
    for (part, place) in shape.iter().zip(places) {
        let bytes = place.of(text);
        match part {
            Word(word) => (bytes == word.as_bytes()).then_some(())?,
            First(identifier) => {
                identifier.check(mode, bytes).ok()?;
                reading.first = *place;
            }
            Second(identifier) => {
                identifier.check(mode, bytes).ok()?;
                reading.second = *place;
            }
            Upgrade => reading.first = *place,
            Number => numbers.push(*place),
            Heights => numbers.extend(halves(text, *place)?),
        }
    }
    for (value, place) in reading.numbers.iter_mut().zip(numbers) {
        match number(place.of(text)) {
            Ok(read) => *value = read,
            Err(fault) => return Some(Err(fault.behind(place.start))),
        }
    }
    Some(Ok(reading))
}

/// R-h: what stands before and behind the one `-`, and nothing where there is not exactly one.
fn halves(text: &[u8], place: Place) -> Option<[Place; 2]> {
    let mut dashes = (0..place.length).filter(|at| place.of(text)[*at] == b'-');
    let (dash, None) = (dashes.next()?, dashes.next()) else { return None };
    let behind = dash + 1;
    Some([
        Place { start: place.start, length: dash },
        Place { start: place.start + behind, length: place.length - behind },
    ])
}

/// Rendering by kind and parts, in the order of refusals 14, first, second, 1.
pub fn render(
    mode: Mode,
    kind: u8,
    first: &[u8],
    second: &[u8],
    numbers: [u64; 2],
) -> Result<Vec<u8>, Refusal> {
    let shape = shape(kind)?;
    for part in shape {
        match part {
            First(identifier) => identifier.check(mode, first)?,
            Second(identifier) => identifier.check(mode, second)?,
            Upgrade => segment(mode, first)?,
            Word(_) | Number | Heights => {}
        }
    }
    let text = joined(shape, first, second, numbers.map(|n| n.to_string()));
    hold(text.len() <= MOST, TOO_LONG)?;
    Ok(text)
}

fn segment(mode: Mode, upgrade: &[u8]) -> Result<(), Refusal> {
    hold(!mode.text(upgrade)?.contains('/'), BAD_SEGMENT)
}

/// The parts of a shape with slashes between them; numbers as they are spelt.
pub fn joined(shape: &[Part], first: &[u8], second: &[u8], [a, b]: [String; 2]) -> Vec<u8> {
    let shown = |part: &Part| match part {
        Word(word) => word.as_bytes().to_vec(),
        First(_) | Upgrade => first.to_vec(),
        Second(_) => second.to_vec(),
        Number => a.clone().into_bytes(),
        Heights => format!("{a}-{b}").into_bytes(),
    };
    shape.iter().map(shown).collect::<Vec<_>>().join(&b'/')
}

pub fn is_provable(kind: u8) -> Result<bool, Refusal> {
    shape(kind).map(|_| kind != 8 && kind != 10)
}

pub fn iteration_key(number: u64, height: u64) -> Vec<u8> {
    [&b"iterateConsensusStates"[..], &number.to_be_bytes(), &height.to_be_bytes()].concat()
}

/// `clients/C/consensusStates`.
pub fn consensus_state_parent(mode: Mode, client: &[u8]) -> Result<Vec<u8>, Refusal> {
    Identifier::Client.check(mode, client)?;
    Ok([&b"clients/"[..], client, b"/consensusStates"].concat())
}

/// `consensusStates/R-h`, and what follows it.
pub fn consensus_state_leaf(number: u64, height: u64, after: &str) -> Vec<u8> {
    format!("consensusStates/{number}-{height}{after}").into_bytes()
}

/// The text above all sequences of a channel, as `commitments/ports/P/channels/H/sequences`.
pub fn sequences_path(
    mode: Mode,
    word: &str,
    port: &[u8],
    channel: &[u8],
) -> Result<Vec<u8>, Refusal> {
    Identifier::Port.check(mode, port)?;
    Identifier::Channel.check(mode, channel)?;
    Ok([word.as_bytes(), b"/ports/", port, b"/channels/", channel, b"/sequences"].concat())
}
