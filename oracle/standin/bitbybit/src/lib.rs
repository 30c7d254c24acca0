//! Stands in for the crate `bitbybit`; nothing that is compared rests on it. The given Rust uses
//! only its attribute `bitenum`, and of that only that the enum becomes `Copy` and `Clone`. (The
//! real one also adds `raw_value` and `new_with_raw_value`, which the given files never call.)
use proc_macro::TokenStream;

#[proc_macro_attribute]
pub fn bitenum(_args: TokenStream, item: TokenStream) -> TokenStream {
    let mut out: TokenStream = "#[derive(Copy, Clone)]".parse().unwrap();
    out.extend(item);
    out
}
