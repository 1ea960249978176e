//! Stands in for the crate `thiserror`: derives `Error`, shown as `Debug` shows it, and `From` for each field marked `#[from]`.

extern crate proc_macro;
use proc_macro::{Delimiter, Group, TokenStream, TokenTree};

#[proc_macro_derive(Error, attributes(error, from))]
pub fn derive_error(item: TokenStream) -> TokenStream {
    let tokens: Vec<TokenTree> = item.into_iter().collect();
    let name = name_after_enum(&tokens);
    let mut code = format!(
        "impl core::fmt::Display for {name} {{
            fn fmt(&self, f: &mut core::fmt::Formatter<'_>) -> core::fmt::Result {{ core::fmt::Debug::fmt(self, f) }}
        }}
        impl core::error::Error for {name} {{}}"
    );
    for (variant, source) in marked_variants(&tokens) {
        code +=
            &format!("impl From<{source}> for {name} {{ fn from(source: {source}) -> Self {{ {name}::{variant}(source) }} }}");
    }
    code.parse().expect("the derived code is Rust")
}

fn name_after_enum(tokens: &[TokenTree]) -> String {
    let at = tokens.iter().position(|t| t.to_string() == "enum").expect("the item is an enum");
    tokens[at + 1].to_string()
}

/// The variants `Name(#[from] Type)`, each with its type.
fn marked_variants(tokens: &[TokenTree]) -> Vec<(String, String)> {
    let Some(TokenTree::Group(body)) = tokens.last() else { panic!("an enum ends in its body") };
    let inside: Vec<TokenTree> = body.stream().into_iter().collect();
    let mut found = Vec::new();
    for pair in inside.windows(2) {
        if let (TokenTree::Ident(variant), TokenTree::Group(fields)) = (&pair[0], &pair[1]) {
            if let Some(source) = marked_type(fields) {
                found.push((variant.to_string(), source));
            }
        }
    }
    found
}

fn marked_type(fields: &Group) -> Option<String> {
    if fields.delimiter() != Delimiter::Parenthesis {
        return None;
    }
    let mut tokens = fields.stream().into_iter();
    let marked = tokens.next()?.to_string() == "#" && tokens.next()?.to_string() == "[from]";
    marked.then(|| tokens.collect::<TokenStream>().to_string())
}
