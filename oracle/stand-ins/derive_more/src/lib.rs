//! Stand-in for `derive_more`: the derives `Display`, `From` and `Into` in the forms that the five
//! files use, for types without generics. `Display` binds the fields and hands the literal of
//! `#[display(..)]` to `write!` as it stands, so `core::fmt` and the original's own format string
//! decide what is written. A form that is not known here stops the build.
use std::iter::Peekable;

use proc_macro::token_stream::IntoIter;
use proc_macro::{Delimiter, TokenStream, TokenTree};

type Words = Peekable<IntoIter>;

/// A struct, or one variant of an enum.
struct Case {
    path: String,
    fields: Vec<Field>,
    delimiter: Delimiter,
    literal: Option<String>,
}

/// A field's type, and the name that a format string has for it: its own, or `_0`, `_1`, ..
struct Field {
    name: String,
    kind: String,
}

impl Case {
    fn pattern(&self) -> String {
        let names: Vec<&str> = self.fields.iter().map(|f| f.name.as_str()).collect();
        let (path, names) = (&self.path, names.join(", "));
        match self.delimiter {
            Delimiter::Brace => format!("{path} {{ {names} }}"),
            Delimiter::Parenthesis => format!("{path}({names})"),
            _ => path.clone(),
        }
    }

    fn only_field(&self) -> &Field {
        match self.fields.as_slice() {
            [field] => field,
            _ => panic!("stand-in derive_more: {} has not one field", self.path),
        }
    }

    fn arm(&self) -> String {
        let shown = match &self.literal {
            Some(literal) => format!("::core::write!(out, {literal})"),
            None => format!("::core::fmt::Display::fmt({}, out)", self.only_field().name),
        };
        format!("#[allow(unused_variables)] {} => {shown},", self.pattern())
    }
}

fn is_mark(word: &TokenTree, mark: char) -> bool {
    matches!(word, TokenTree::Punct(p) if p.as_char() == mark)
}

/// Steps over attributes; gives what `#[display(..)]` holds.
fn attributes(words: &mut Words) -> Option<String> {
    let mut literal = None;
    while words.next_if(|word| is_mark(word, '#')).is_some() {
        let Some(TokenTree::Group(body)) = words.next() else {
            panic!("stand-in derive_more: an attribute")
        };
        let mut inner = body.stream().into_iter();
        let named = inner.next().is_some_and(|word| word.to_string() == "display");
        if let (true, Some(TokenTree::Group(held))) = (named, inner.next()) {
            literal = Some(held.stream().to_string());
        }
    }
    literal
}

/// Steps over `pub`. No field here has `pub(..)`.
fn visibility(words: &mut Words) {
    words.next_if(|word| word.to_string() == "pub");
}

/// Cuts at the commas that stand outside `<..>`.
fn pieces(stream: TokenStream) -> Vec<TokenStream> {
    let mut all = vec![vec![]];
    let mut depth = 0;
    for word in stream {
        depth += i32::from(is_mark(&word, '<')) - i32::from(is_mark(&word, '>'));
        if depth == 0 && is_mark(&word, ',') {
            all.push(vec![]);
        } else {
            all.last_mut().unwrap().push(word);
        }
    }
    all.retain(|piece| !piece.is_empty());
    all.into_iter().map(TokenStream::from_iter).collect()
}

fn field(place: usize, piece: TokenStream, delimiter: Delimiter) -> Field {
    let mut words = piece.into_iter().peekable();
    attributes(&mut words);
    visibility(&mut words);
    let name = if delimiter == Delimiter::Brace {
        let name = words.next().unwrap().to_string();
        assert!(words.next().is_some_and(|word| is_mark(&word, ':')));
        name
    } else {
        format!("_{place}")
    };
    let kind = TokenStream::from_iter(words).to_string();
    Field { name, kind }
}

/// What follows a struct's or a variant's name.
fn case(path: String, literal: Option<String>, words: &mut Words) -> Case {
    let (delimiter, stream) = match words.next() {
        Some(TokenTree::Group(g)) => (g.delimiter(), g.stream()),
        None => (Delimiter::None, TokenStream::new()),
        Some(word) if is_mark(&word, ';') => (Delimiter::None, TokenStream::new()),
        Some(word) => panic!("stand-in derive_more: {path} {word}"),
    };
    let fields = pieces(stream)
        .into_iter()
        .enumerate()
        .map(|(place, piece)| field(place, piece, delimiter))
        .collect();
    Case { path, fields, delimiter, literal }
}

fn variant(of: &str, piece: TokenStream) -> Case {
    let mut words = piece.into_iter().peekable();
    let literal = attributes(&mut words);
    let name = words.next().unwrap();
    case(format!("{of}::{name}"), literal, &mut words)
}

/// The type's name and its cases: a struct has one.
fn cases(input: TokenStream) -> (String, Vec<Case>) {
    let mut words = input.into_iter().peekable();
    let literal = attributes(&mut words);
    visibility(&mut words);
    let keyword = words.next().unwrap().to_string();
    let name = words.next().unwrap().to_string();
    let all = match (keyword.as_str(), words.peek()) {
        ("struct", _) => vec![case(name.clone(), literal, &mut words)],
        ("enum", Some(TokenTree::Group(body))) => {
            pieces(body.stream()).into_iter().map(|piece| variant(&name, piece)).collect()
        }
        _ => panic!("stand-in derive_more: {keyword} {name}"),
    };
    (name, all)
}

#[proc_macro_derive(Display, attributes(display))]
pub fn display(input: TokenStream) -> TokenStream {
    let (name, cases) = cases(input);
    let arms: String = cases.iter().map(Case::arm).collect();
    format!(
        "impl ::core::fmt::Display for {name} {{
            fn fmt(&self, out: &mut ::core::fmt::Formatter<'_>) -> ::core::fmt::Result {{
                match self {{ {arms} }}
            }}
        }}"
    )
    .parse()
    .unwrap()
}

#[proc_macro_derive(From)]
pub fn from(input: TokenStream) -> TokenStream {
    let (name, cases) = cases(input);
    let build = |case: &Case| {
        let (path, kind) = (&case.path, &case.only_field().kind);
        format!(
            "impl ::core::convert::From<{kind}> for {name} {{
                fn from(value: {kind}) -> Self {{ {path}(value) }}
            }}"
        )
    };
    cases.iter().map(build).collect::<String>().parse().unwrap()
}

#[proc_macro_derive(Into)]
pub fn into(input: TokenStream) -> TokenStream {
    let (name, cases) = cases(input);
    let kind = &cases[0].only_field().kind;
    format!(
        "impl ::core::convert::From<{name}> for {kind} {{
            fn from(value: {name}) -> Self {{ value.0 }}
        }}"
    )
    .parse()
    .unwrap()
}
