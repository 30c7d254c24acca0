//! Stands in for the crate `thiserror`; which error a `?` or `.into()` of the given Rust makes
//! rests on it. Its derive `Error` makes the `From` of each variant marked `#[from]`, and a
//! `Display` that shows what `Debug` shows. The texts of `#[error("..")]` are dropped: nothing that
//! is compared prints them.
use proc_macro::{Delimiter, TokenStream, TokenTree};

#[proc_macro_derive(Error, attributes(error, from, source))]
pub fn error(item: TokenStream) -> TokenStream {
    let mut tokens = item.into_iter();
    let mut name = String::new();
    let mut froms = String::new();
    while let Some(token) = tokens.next() {
        match token {
            TokenTree::Ident(i) if ["enum", "struct"].contains(&i.to_string().as_str()) => {
                name = tokens.next().unwrap().to_string()
            }
            TokenTree::Group(g) if g.delimiter() == Delimiter::Brace => {
                froms = conversions(&name, g.stream())
            }
            _ => (),
        }
    }
    format!(
        "impl ::core::fmt::Display for {name} {{
             fn fmt(&self, f: &mut ::core::fmt::Formatter<'_>) -> ::core::fmt::Result {{
                 ::core::fmt::Debug::fmt(self, f)
             }}
         }}
         impl ::core::error::Error for {name} {{}}
         {froms}"
    )
    .parse()
    .unwrap()
}

/// A `From` for each variant of the form `Name(#[from] Type)`.
fn conversions(name: &str, braces: TokenStream) -> String {
    let mut froms = String::new();
    let mut variant = String::new();
    for token in braces {
        match token {
            TokenTree::Ident(i) => variant = i.to_string(),
            TokenTree::Group(g) if g.delimiter() == Delimiter::Parenthesis => {
                let field = g.stream().to_string();
                if let Some(inner) = field.trim().strip_prefix("#[from]") {
                    froms += &format!(
                        "impl ::core::convert::From<{inner}> for {name} {{
                             fn from(e: {inner}) -> Self {{ {name}::{variant}(e) }}
                         }}"
                    );
                }
            }
            _ => (),
        }
    }
    froms
}
