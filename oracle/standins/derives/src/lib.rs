//! Stand-ins for the derives and the attribute that the published files name.
//! `Serialize`, `Deserialize`: nothing. `serde_as`: the item without its `serde_as` field attributes.
//! `Diagnostic`: an empty impl. `Error`: `Display`, `std::error::Error`, and `From` for each `#[from]` field.

use proc_macro::{Delimiter, Group, TokenStream, TokenTree};

#[proc_macro_derive(Serialize, attributes(serde))]
pub fn serialize(_: TokenStream) -> TokenStream {
    TokenStream::new()
}

#[proc_macro_derive(Deserialize, attributes(serde))]
pub fn deserialize(_: TokenStream) -> TokenStream {
    TokenStream::new()
}

#[proc_macro_attribute]
pub fn serde_as(_: TokenStream, item: TokenStream) -> TokenStream {
    without_serde_as(item)
}

fn without_serde_as(item: TokenStream) -> TokenStream {
    let mut out = Vec::new();
    let mut rest = item.into_iter().peekable();
    while let Some(t) = rest.next() {
        if is_punct(&t, '#') {
            if let Some(TokenTree::Group(g)) = rest.peek() {
                if first_word(g).as_deref() == Some("serde_as") {
                    rest.next();
                    continue;
                }
            }
        }
        out.push(match t {
            TokenTree::Group(g) if g.delimiter() == Delimiter::Brace => {
                TokenTree::Group(Group::new(Delimiter::Brace, without_serde_as(g.stream())))
            }
            t => t,
        });
    }
    out.into_iter().collect()
}

#[proc_macro_derive(Diagnostic, attributes(diagnostic))]
pub fn diagnostic(item: TokenStream) -> TokenStream {
    let (_, name, _) = head(item);
    format!("impl ::miette::Diagnostic for {name} {{}}").parse().unwrap()
}

#[proc_macro_derive(Error, attributes(error, from))]
pub fn error(item: TokenStream) -> TokenStream {
    let (attributes, name, body) = head(item);
    let mut from = String::new();
    let shown = match body {
        Body::Struct(fields) => {
            let names: Vec<String> = fields.iter().filter_map(|f| f.name.clone()).collect();
            let text = message(&attributes).expect("a struct's #[error(\"...\")]");
            format!("#[allow(unused_variables)] let Self {{ {} }} = self; ::std::write!(f, {text})", names.join(", "))
        }
        Body::Enum(variants) => {
            let mut arms = String::new();
            for v in variants {
                for field in &v.fields {
                    if field.attributes.iter().any(|a| a.to_string() == "from") {
                        let (ty, variant) = (&field.ty, &v.name);
                        from += &format!("impl ::std::convert::From<{ty}> for {name} {{ fn from(x: {ty}) -> Self {{ Self::{variant}(x) }} }}\n");
                    }
                }
                let text = message(&v.attributes).expect("a variant's #[error(...)]");
                let variant = &v.name;
                if text == "transparent" {
                    arms += &format!("Self::{variant}(x) => ::std::fmt::Display::fmt(x, f),");
                } else {
                    arms += &format!("Self::{variant} {{ .. }} => ::std::write!(f, {text}),");
                }
            }
            format!("match self {{ {arms} }}")
        }
    };
    format!(
        "impl ::std::fmt::Display for {name} {{ fn fmt(&self, f: &mut ::std::fmt::Formatter<'_>) -> ::std::fmt::Result {{ {shown} }} }}
         impl ::std::error::Error for {name} {{}}
         {from}"
    )
    .parse()
    .unwrap()
}

struct Field {
    attributes: Vec<TokenStream>,
    name: Option<String>,
    ty: String,
}

struct Variant {
    attributes: Vec<TokenStream>,
    name: String,
    fields: Vec<Field>,
}

enum Body {
    Struct(Vec<Field>),
    Enum(Vec<Variant>),
}

fn is_punct(t: &TokenTree, c: char) -> bool {
    matches!(t, TokenTree::Punct(p) if p.as_char() == c)
}

fn first_word(g: &Group) -> Option<String> {
    match g.stream().into_iter().next() {
        Some(TokenTree::Ident(i)) => Some(i.to_string()),
        _ => None,
    }
}

/// What stands between the brackets of `#[error(..)]`.
fn message(attributes: &[TokenStream]) -> Option<String> {
    attributes.iter().find_map(|a| {
        let ts: Vec<TokenTree> = a.clone().into_iter().collect();
        match ts.as_slice() {
            [TokenTree::Ident(i), TokenTree::Group(g)] if i.to_string() == "error" => Some(g.stream().to_string()),
            _ => None,
        }
    })
}

/// Leading attributes, without their brackets, and whatever follows them; `pub` and `pub(..)` are passed over.
fn attributes(ts: &[TokenTree]) -> (Vec<TokenStream>, &[TokenTree]) {
    let (mut found, mut at) = (Vec::new(), 0);
    while at + 1 < ts.len() && is_punct(&ts[at], '#') {
        if let TokenTree::Group(g) = &ts[at + 1] {
            found.push(g.stream());
        }
        at += 2;
    }
    if matches!(ts.get(at), Some(TokenTree::Ident(i)) if i.to_string() == "pub") {
        at += 1;
        if matches!(ts.get(at), Some(TokenTree::Group(g)) if g.delimiter() == Delimiter::Parenthesis) {
            at += 1;
        }
    }
    (found, &ts[at..])
}

fn head(item: TokenStream) -> (Vec<TokenStream>, String, Body) {
    let ts: Vec<TokenTree> = item.into_iter().collect();
    let (found, rest) = attributes(&ts);
    let name = rest[1].to_string();
    let body = match rest.get(2) {
        Some(TokenTree::Group(g)) if rest[0].to_string() == "struct" => Body::Struct(fields(g)),
        Some(TokenTree::Group(g)) => Body::Enum(variants(g)),
        _ => Body::Struct(Vec::new()),
    };
    (found, name, body)
}

/// The parts between commas that are in no angle brackets.
fn parts(g: &Group) -> Vec<Vec<TokenTree>> {
    let (mut out, mut now, mut angle) = (Vec::new(), Vec::new(), 0);
    for t in g.stream() {
        if is_punct(&t, '<') {
            angle += 1;
        } else if is_punct(&t, '>') {
            angle -= 1;
        } else if is_punct(&t, ',') && angle == 0 {
            out.push(std::mem::take(&mut now));
            continue;
        }
        now.push(t);
    }
    if !now.is_empty() {
        out.push(now);
    }
    out
}

fn fields(g: &Group) -> Vec<Field> {
    let named = g.delimiter() == Delimiter::Brace;
    parts(g)
        .iter()
        .map(|p| {
            let (attributes, rest) = attributes(p);
            let (name, ty) = if named { (Some(rest[0].to_string()), &rest[2..]) } else { (None, rest) };
            Field { attributes, name, ty: ty.iter().cloned().collect::<TokenStream>().to_string() }
        })
        .collect()
}

fn variants(g: &Group) -> Vec<Variant> {
    parts(g)
        .iter()
        .map(|p| {
            let (attributes, rest) = attributes(p);
            let fields = match rest.get(1) {
                Some(TokenTree::Group(g)) => fields(g),
                _ => Vec::new(),
            };
            Variant { attributes, name: rest[0].to_string(), fields }
        })
        .collect()
}
