//! Stands in for thiserror, which is not to be had offline: `#[derive(Error)]` takes the `#[error(..)]`
//! attributes and makes `Display` and `std::error::Error`. Message text is not compared, so `Display`
//! is the `Debug` text.
use proc_macro::{TokenStream, TokenTree};

#[proc_macro_derive(Error, attributes(error))]
pub fn derive_error(input: TokenStream) -> TokenStream {
    let mut words = input.into_iter().filter_map(|token| match token {
        TokenTree::Ident(word) => Some(word.to_string()),
        _ => None,
    });
    words.find(|word| word == "enum" || word == "struct").expect("an enum or a struct");
    let name = words.next().expect("its name");
    format!(
        "impl std::fmt::Display for {name} {{
            fn fmt(&self, f: &mut std::fmt::Formatter<'_>) -> std::fmt::Result {{ write!(f, \"{{self:?}}\") }}
        }}
        impl std::error::Error for {name} {{}}"
    )
    .parse()
    .expect("two impls")
}
