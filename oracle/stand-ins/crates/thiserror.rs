//! Stand-in for the crate `thiserror`: `#[derive(Error)]` for the enums of `utils/errors/mod.rs`.
//! It gives `Error`, a `Display` that prints what `Debug` prints, and `From` for each field marked `#[from]`.
//! The texts of the messages are therefore not those of the original; nothing compares them.

extern crate proc_macro;
use proc_macro::{Delimiter, TokenStream, TokenTree};

#[proc_macro_derive(Error, attributes(error, from))]
pub fn derive_error(item: TokenStream) -> TokenStream {
    let tokens: Vec<TokenTree> = item.into_iter().collect();
    let at = tokens.iter().position(|t| t.to_string() == "enum").expect("only enums are derived here");
    let name = tokens[at + 1].to_string();
    let TokenTree::Group(body) = &tokens[at + 2] else { panic!("an enum with a body is expected") };

    let mut out = format!(
        "impl std::fmt::Display for {name} {{ fn fmt(&self, f: &mut std::fmt::Formatter<'_>) -> std::fmt::Result {{ \
         std::fmt::Debug::fmt(self, f) }} }} impl std::error::Error for {name} {{}}"
    );
    // A variant is an identifier; `(#[from] Type)` may follow it. Attributes are a `#` and a bracket group.
    let mut variant = String::new();
    for token in body.stream() {
        match token {
            TokenTree::Ident(word) => variant = word.to_string(),
            TokenTree::Group(fields) if fields.delimiter() == Delimiter::Parenthesis => {
                let fields = fields.stream().to_string().replace(' ', "");
                if let Some(ty) = fields.strip_prefix("#[from]") {
                    out += &format!("impl From<{ty}> for {name} {{ fn from(e: {ty}) -> Self {{ {name}::{variant}(e) }} }}");
                }
            }
            _ => {}
        }
    }
    out.parse().expect("the derived text is Rust")
}
