//! Stand-in for the `strum` crate. `FromRepr` gives an enum with `repr(u8)`
//! its `from_repr`. `Display` and `EnumIter` are named by the lexer but what
//! they would make is used nowhere in it or in the parser, so they make
//! nothing; the `strum` attributes only serve `Display`.

use proc_macro::{Delimiter, TokenStream, TokenTree};

#[proc_macro_derive(FromRepr, attributes(strum))]
pub fn from_repr(input: TokenStream) -> TokenStream {
    let (name, variants) = enum_name_and_variants(input);
    let arms: String = variants
        .iter()
        .map(|v| format!("x if x == {name}::{v} as u8 => Some({name}::{v}),\n"))
        .collect();
    format!(
        "impl {name} {{
            #[inline]
            pub const fn from_repr(discriminant: u8) -> Option<{name}> {{
                match discriminant {{ {arms} _ => None }}
            }}
        }}"
    )
    .parse()
    .expect("an impl block")
}

#[proc_macro_derive(Display, attributes(strum))]
pub fn display(_input: TokenStream) -> TokenStream {
    TokenStream::new()
}

#[proc_macro_derive(EnumIter, attributes(strum))]
pub fn enum_iter(_input: TokenStream) -> TokenStream {
    TokenStream::new()
}

/// Reads `enum Name { #[attribute] First = 0, Second, ... }`: the variants
/// carry no fields, so each is the first identifier after a comma or after
/// the attributes that stand before it.
fn enum_name_and_variants(input: TokenStream) -> (String, Vec<String>) {
    let mut tokens = input.into_iter();
    while let Some(token) = tokens.next() {
        if matches!(&token, TokenTree::Ident(word) if word.to_string() == "enum") {
            break;
        }
    }
    let name = match tokens.next() {
        Some(TokenTree::Ident(name)) => name.to_string(),
        _ => panic!("FromRepr needs an enum"),
    };
    let body = match tokens.next() {
        Some(TokenTree::Group(body)) if body.delimiter() == Delimiter::Brace => body,
        _ => panic!("FromRepr needs an enum without generics"),
    };
    let mut variants = Vec::new();
    let mut at_start = true;
    for token in body.stream() {
        match token {
            TokenTree::Ident(variant) if at_start => {
                variants.push(variant.to_string());
                at_start = false;
            }
            TokenTree::Punct(p) if p.as_char() == ',' => at_start = true,
            // The `#` and brackets of an attribute, or `= 0` after a name.
            _ => {}
        }
    }
    (name, variants)
}
