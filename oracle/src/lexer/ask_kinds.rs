//! The kinds: the number and name of each, and the three questions about it, as the builder's answers show them.
//!
//! The functions that answer the questions are private in the builder. So a comment is laid between two tokens, and
//! where the builder attaches it gives the answer away.

use std::fmt::Write;

use oxc_allocator::Allocator;
use oxc_ast::ast::{CommentKind, CommentPosition};

use super::{Kind, TriviaBuilder, token};

/// A line `NUMBER NAME ENDS CONTINUES KEEPS` for each kind, in the order of the numbers.
pub fn all() -> String {
    let mut lines = String::new();
    for &kind in Kind::VARIANTS {
        let [ends, continues, keeps] = [ends(kind), continues(kind), keeps(kind)].map(u8::from);
        writeln!(lines, "{} {kind:?} {ends} {continues} {keeps}", kind as u8).unwrap();
    }
    lines
}

/// Can it end an expression? Then a block between it and a `+` looks back, and one before a `;` does not.
fn ends(kind: Kind) -> bool {
    looks_back(kind, "/**/", Kind::Plus) && !looks_back(kind, "/**/", Kind::Semicolon)
}

/// Does it continue the expression before it? Then a block between a name and it looks back, and one after a `;` does
/// not. Eof takes blocks back after any token, by a rule of its own; it is told as no.
fn continues(kind: Kind) -> bool {
    looks_back(Kind::Ident, "/**/", kind) && !looks_back(Kind::Semicolon, "/**/", kind)
}

/// Does it keep a line comment leading? Then a line comment right after it does not look back.
fn keeps(kind: Kind) -> bool {
    !looks_back(kind, "//", Kind::Semicolon)
}

/// Whether the builder makes a comment between two tokens trailing. The tokens are one byte each.
fn looks_back(before: Kind, comment: &str, after: Kind) -> bool {
    let text = format!("a{comment}b");
    let end = text.len() as u32 - 1;
    let allocator = Allocator;
    let mut builder = TriviaBuilder::new_in(&allocator);
    builder.handle_token(token(before, 0, 1));
    if comment == "//" {
        builder.add_line_comment(1, end, CommentKind::Line, &text);
    } else {
        builder.add_block_comment(1, end, CommentKind::SingleLineBlock, &text);
    }
    builder.handle_token(token(after, end, end + 1));
    let row = builder.comments[0];
    let trailing = row.position == CommentPosition::Trailing;
    assert_eq!(row.attached_to, if trailing { 1 } else { end });
    trailing
}
