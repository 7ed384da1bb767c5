//! What the original says to a call, in document 01's terms.
use ibc_core_host_types::error::IdentifierError;
use ibc_core_host_types::identifiers::{ChannelId, ClientId};
use ibc_core_host_types::path::{self as original, ChannelEndPath, ClientConsensusStatePath, Path};
use ibc_core_host_types::terms::{self, Answer};
use ibc_core_host_types::validate;
use model::path::{self, Part, MOST};
use model::{pool, Fault, Mode, NOT_A_PATH};

use crate::call::{Call, Function};
use crate::set::{Bytes, Listed, Text, Theirs};

/// No refusal: the original panicked.
pub const PANICKED: u8 = 255;

/// What it says of an index that is no number, `FailedToParse`: document 01's 8.
const NO_INDEX: u8 = 8;

/// What it says to a call where a number alone is wrong.
pub fn untold(function: Function) -> u8 {
    match function.mode().1 {
        Function::Read | Function::Walk | Function::Key => NOT_A_PATH,
        _ => NO_INDEX,
    }
}

/// Why it cannot be asked about packet keys.
pub const NO_PACKET_KEY: &str = "no packet key";

/// The one text that the original panics on.
const PANICS: &[u8] = b"clients";

/// The answer to any call. A reading is told by its kind alone.
pub fn says(call: &Call) -> Theirs<Text> {
    let (mode, function) = call.function.mode();
    let call = &Call { function, ..*call };
    match function {
        function if function.has_book() => Theirs::Silent("no book"),
        Function::ReadIterationKey | Function::FirstAbove | Function::LastBelow => {
            Theirs::Silent("no reader")
        }
        Function::V2Read | Function::V2Write => Theirs::Silent(NO_PACKET_KEY),
        Function::Read | Function::Walk => {
            reads(mode, call.texts[0], |path, _| Bytes(vec![terms::parts(path).kind]))
        }
        Function::Key => reads(mode, call.texts[0], |_, key| Bytes(key.into())),
        Function::Render => renders(mode, call),
        Function::IsProvable => provable(call.kind),
        Function::RefusalText => Theirs::Silent("no sentence"),
        _ => hear(mode, call.texts, |texts| {
            let text = written(call, texts).or_else(|| checked(call, texts));
            text.expect("a call").map(Bytes).map_err(|e| e.number().into())
        }),
    }
}

/// Asks the original, which takes valid UTF-8 alone, about some texts. Its answers to characters beyond ASCII are
/// those of the release that compiles it.
fn hear<T, const N: usize>(
    mode: Mode,
    texts: [&[u8]; N],
    ask: impl FnOnce([&str; N]) -> T,
) -> Theirs<T> {
    let heard = texts.map(|text| std::str::from_utf8(text).ok());
    if heard.contains(&None) {
        return Theirs::Silent("no str");
    }
    let heard = heard.map(Option::unwrap_or_default);
    if mode == Mode::Wide && heard.iter().any(|text| letters::in_doubt(text)) {
        return Theirs::Silent("another release");
    }
    let said = ask(heard);
    if mode == Mode::Wide || texts.iter().all(|text| text.is_ascii()) {
        Theirs::Says(said)
    } else {
        Theirs::Listed(Listed::NotAscii, said)
    }
}

/// What is told of the path that a text is read as and of its rendering.
pub fn reads<T>(
    mode: Mode,
    text: &[u8],
    tell: impl FnOnce(&Path, &str) -> T,
) -> Theirs<Result<T, Fault>> {
    let said = hear(mode, [text], |[text]| match terms::read(text) {
        Answer::Path(path) => Ok(tell(&path, &path.to_string())),
        Answer::Refused => Err(NOT_A_PATH.into()),
        Answer::Panic => Err(PANICKED.into()),
    });
    match said {
        Theirs::Says(said) | Theirs::Listed(_, said) if text.len() > MOST => {
            Theirs::Listed(Listed::TooLong, said)
        }
        Theirs::Says(said) if text == PANICS => Theirs::Listed(Listed::Panic, said),
        said => said,
    }
}

/// The rendering of the parts that a kind has.
fn renders(mode: Mode, call: &Call) -> Theirs<Text> {
    let Call { kind, texts: [first, second], numbers, .. } = *call;
    let Ok(shape) = path::shape(kind) else {
        return Theirs::Silent("no kind");
    };
    let upgrade = shape.contains(&Part::Upgrade);
    let has_first = upgrade || shape.iter().any(|part| matches!(part, Part::First(_)));
    let has_second = shape.iter().any(|part| matches!(part, Part::Second(_)));
    let first = if has_first { first } else { b"" };
    let second = if has_second { second } else { b"" };
    let said = hear(mode, [first, second], |[first, second]| {
        let typed = terms::typed(kind, first, second, numbers).expect("a kind from 1 to 19");
        typed.map(|path| Bytes(path.into_bytes())).map_err(|e| e.number().into())
    });
    match said {
        Theirs::Says(said) if upgrade && first.contains(&b'/') => {
            Theirs::Listed(Listed::Slash, said)
        }
        Theirs::Says(Ok(text)) if text.0.len() > MOST => Theirs::Listed(Listed::TooLong, Ok(text)),
        said => said,
    }
}

fn provable(kind: u8) -> Theirs<Text> {
    path::shape(kind).map_or(Theirs::Silent("no kind"), |shape| {
        let path: Path = pool::plain(shape).parse().expect("a plain text is a path");
        Theirs::Says(Ok(Bytes(vec![path.is_provable().into()])))
    })
}

type Made<T> = Result<T, IdentifierError>;

/// The answer of a check, which has no text.
fn checked(call: &Call, [id, name]: [&str; 2]) -> Option<Made<Vec<u8>>> {
    let [least, most] = call.numbers;
    let answer = match call.function {
        Function::ValidateIdentifierChars => validate::validate_identifier_chars(id),
        Function::ValidateIdentifierLength => validate::validate_identifier_length(id, least, most),
        Function::ValidatePrefixLength => validate::validate_prefix_length(id, least, most),
        Function::ValidateNamedU64Index => validate::validate_named_u64_index(id, name),
        Function::ValidateClientType => validate::validate_client_type(id),
        Function::ValidateClientIdentifier => validate::validate_client_identifier(id),
        Function::ValidateConnectionIdentifier => validate::validate_connection_identifier(id),
        Function::ValidatePortIdentifier => validate::validate_port_identifier(id),
        Function::ValidateChannelIdentifier => validate::validate_channel_identifier(id),
        _ => return None,
    };
    Some(answer.map(|()| vec![]))
}

/// The text that a call makes.
fn written(call: &Call, [first, second]: [&str; 2]) -> Option<Made<Vec<u8>>> {
    let [a, b] = call.numbers;
    let ends = |above: fn(&ChannelEndPath) -> String| -> Made<String> {
        Ok(above(&ChannelEndPath(first.parse()?, second.parse()?)))
    };
    let parent =
        || -> Made<String> { Ok(ClientConsensusStatePath::new(first.parse()?, 0, 0).parent()) };
    let text = match call.function {
        Function::ClientIdNew => ClientId::new(first, a).map(|id| id.to_string()),
        Function::ChannelIdNew => Ok(ChannelId::new(a).to_string()),
        Function::IterationKey => return Some(Ok(original::iteration_key(a, b))),
        Function::ConsensusStateParent => parent(),
        Function::CommitmentsPath => ends(ChannelEndPath::commitments_path),
        Function::AcksPath => ends(ChannelEndPath::acks_path),
        Function::ReceiptsPath => ends(ChannelEndPath::receipts_path),
        function => Ok(word(function).or_else(|| leaf(function, a, b))?),
    };
    Some(text.map(String::into_bytes))
}

/// The texts without a part.
fn word(function: Function) -> Option<String> {
    Some(match function {
        Function::ClientStatePrefix => original::ClientStatePath::prefix(),
        Function::ClientStateLeaf => original::ClientStatePath::leaf(),
        Function::ConnectionPrefix => original::ConnectionPath::prefix(),
        Function::ChannelEndPrefix => ChannelEndPath::prefix(),
        Function::CommitmentPrefix => original::CommitmentPath::prefix(),
        Function::AckPrefix => original::AckPath::prefix(),
        Function::ReceiptPrefix => original::ReceiptPath::prefix(),
        _ => return None,
    })
}

/// The texts of a revision number and height.
fn leaf(function: Function, a: u64, b: u64) -> Option<String> {
    let client = || "07-tendermint-4".parse().expect("a client");
    Some(match function {
        Function::ConsensusStateLeaf => ClientConsensusStatePath::new(client(), a, b).leaf(),
        Function::UpdateTimeLeaf => original::ClientUpdateTimePath::new(client(), a, b).leaf(),
        Function::UpdateHeightLeaf => original::ClientUpdateHeightPath::new(client(), a, b).leaf(),
        _ => return None,
    })
}
