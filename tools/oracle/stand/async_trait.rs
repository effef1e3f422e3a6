//! Stands in for the crate async-trait: an `async fn` of a trait or an impl answers a boxed future.

use proc_macro::{Delimiter, Group, Ident, Punct, Spacing, Span, TokenStream, TokenTree};

#[proc_macro_attribute]
pub fn async_trait(_arguments: TokenStream, item: TokenStream) -> TokenStream {
    let mut tokens: Vec<TokenTree> = item.into_iter().collect();
    let Some(TokenTree::Group(body)) = tokens.pop() else {
        panic!("a trait or an impl ends in its body");
    };
    tokens.push(group(Delimiter::Brace, boxed(body.stream())));
    tokens.into_iter().collect()
}

/// The items, with each `async fn NAME(ARGUMENTS) -> RESULT` turned into one that answers a boxed future of RESULT.
fn boxed(items: TokenStream) -> TokenStream {
    let mut out = TokenStream::new();
    let mut tokens = items.into_iter();
    while let Some(token) = tokens.next() {
        if !matches!(&token, TokenTree::Ident(word) if word.to_string() == "async") {
            out.extend([token]);
            continue;
        }
        let (Some(function), Some(name), Some(TokenTree::Group(arguments))) =
            (tokens.next(), tokens.next(), tokens.next())
        else {
            panic!("an async fn has a name and then its arguments");
        };
        let arrow = tokens.by_ref().take(2);
        assert_eq!(arrow.map(|t| t.to_string()).collect::<String>(), "->");
        let mut result = TokenStream::new();
        let end = loop {
            match tokens.next().expect("a body or a semicolon") {
                TokenTree::Group(body) if body.delimiter() == Delimiter::Brace => {
                    break group(Delimiter::Brace, pinned(body.stream(), &result));
                }
                TokenTree::Punct(end) if end.as_char() == ';' => break end.into(),
                token => result.extend([token]),
            }
        };
        out.extend([function, name]);
        out.extend(parsed("<'async_trait>"));
        out.extend([group(Delimiter::Parenthesis, named(arguments.stream()))]);
        out.extend(parsed(
            "-> ::std::pin::Pin<::std::boxed::Box<dyn ::std::future::Future<Output =",
        ));
        out.extend(result);
        out.extend(parsed("> + ::std::marker::Send + 'async_trait>>"));
        out.extend([end]);
    }
    out
}

/// The body as a boxed future; its first line says the result's type.
fn pinned(body: TokenStream, result: &TokenStream) -> TokenStream {
    let mut block = parsed(&format!(
        "if let ::std::option::Option::Some(never) = ::std::option::Option::None::<{result}> {{ return never; }}"
    ));
    block.extend(body);
    let mut future = parsed("async move");
    future.extend([group(Delimiter::Brace, block)]);
    let mut out = parsed("::std::boxed::Box::pin");
    out.extend([group(Delimiter::Parenthesis, future)]);
    out
}

/// The arguments, with the lifetime `'async_trait` in each reference that names none.
fn named(arguments: TokenStream) -> TokenStream {
    let mut out = TokenStream::new();
    let mut tokens = arguments.into_iter().peekable();
    while let Some(token) = tokens.next() {
        let reference = matches!(&token, TokenTree::Punct(p) if p.as_char() == '&');
        out.extend([token]);
        let lifetime = matches!(tokens.peek(), Some(TokenTree::Punct(p)) if p.as_char() == '\'');
        if reference && !lifetime {
            let quote: TokenTree = Punct::new('\'', Spacing::Joint).into();
            let name: TokenTree = Ident::new("async_trait", Span::call_site()).into();
            out.extend([quote, name]);
        }
    }
    out
}

fn group(delimiter: Delimiter, tokens: TokenStream) -> TokenTree {
    Group::new(delimiter, tokens).into()
}

fn parsed(text: &str) -> TokenStream {
    text.parse().expect("tokens")
}
