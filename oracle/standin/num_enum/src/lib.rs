//! Stands in for the crate `num_enum`; which codes and flag bits the given Rust knows rests on it.
//! It has the derives `TryFromPrimitive` and `IntoPrimitive` for a `#[repr(u8)]` enum whose
//! variants hold nothing. `try_from` compares with each variant's own number, as the real derive
//! does. Its error is the number itself; the real one's is a type of `num_enum`, which the given
//! files drop (`map_err(|_| ..)`) or only show (`unwrap`).
use proc_macro::{Delimiter, TokenStream, TokenTree};

/// The enum's name and its variants' names.
fn parts(item: TokenStream) -> (String, Vec<String>) {
    let mut tokens = item.into_iter();
    let mut name = String::new();
    let mut variants = Vec::new();
    while let Some(token) = tokens.next() {
        match token {
            TokenTree::Ident(word) if word.to_string() == "enum" => {
                name = tokens.next().unwrap().to_string()
            }
            TokenTree::Group(g) if g.delimiter() == Delimiter::Brace => {
                variants = variants_in(g.stream())
            }
            _ => (),
        }
    }
    (name, variants)
}

/// In the braces: the first identifier, and the first after each comma. (An attribute's words lie
/// in a group of their own.)
fn variants_in(braces: TokenStream) -> Vec<String> {
    let mut names = Vec::new();
    let mut at_start = true;
    for token in braces {
        match token {
            TokenTree::Ident(name) if at_start => {
                names.push(name.to_string());
                at_start = false;
            }
            TokenTree::Punct(p) if p.as_char() == ',' => at_start = true,
            _ => (),
        }
    }
    names
}

#[proc_macro_derive(TryFromPrimitive, attributes(num_enum))]
pub fn try_from_primitive(item: TokenStream) -> TokenStream {
    let (name, variants) = parts(item);
    let tests: String = variants
        .iter()
        .map(|v| format!("if n == {name}::{v} as u8 {{ return Ok({name}::{v}); }}"))
        .collect();
    format!(
        "impl ::core::convert::TryFrom<u8> for {name} {{
             type Error = u8;
             fn try_from(n: u8) -> ::core::result::Result<Self, u8> {{ {tests} Err(n) }}
         }}"
    )
    .parse()
    .unwrap()
}

#[proc_macro_derive(IntoPrimitive, attributes(num_enum))]
pub fn into_primitive(item: TokenStream) -> TokenStream {
    let (name, _) = parts(item);
    format!(
        "impl ::core::convert::From<{name}> for u8 {{ fn from(x: {name}) -> u8 {{ x as u8 }} }}"
    )
    .parse()
    .unwrap()
}
