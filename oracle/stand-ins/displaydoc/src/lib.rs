//! Stand-in for `displaydoc`: an error shows its variant. The port drops message texts (document
//! 01), so no doc comment is read.
use proc_macro::TokenStream;

#[proc_macro_derive(Display)]
pub fn display(input: TokenStream) -> TokenStream {
    let name = input
        .into_iter()
        .skip_while(|word| word.to_string() != "enum")
        .nth(1)
        .expect("stand-in displaydoc: an enum");
    format!(
        "impl ::core::fmt::Display for {name} {{
            fn fmt(&self, out: &mut ::core::fmt::Formatter<'_>) -> ::core::fmt::Result {{
                ::core::fmt::Debug::fmt(self, out)
            }}
        }}"
    )
    .parse()
    .unwrap()
}
