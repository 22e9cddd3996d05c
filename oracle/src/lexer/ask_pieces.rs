//! The pieces of the gap at the beginning of a text, and the hashbang line there, as the original's scanners find them.
//!
//! The original's table of byte handlers was not available, so which scanner a byte goes to is decided here, in `step`:
//! space and tab are passed over, CR and LF go to `whitespace.rs`, `//` and `/*` to `comment.rs`, bytes beyond ASCII to
//! `unicode.rs`. VT and FF are recorded here, as `unicode.rs` does it for the others.

use std::fmt::Write;

use oxc_allocator::Allocator;
use oxc_ast::ast::CommentKind;

use super::{Kind, Lexer};
use crate::{config::Plain, diagnostics::unterminated_multi_line_comment};

/// What stands at a place.
enum Step {
    /// A space or a tab.
    Space,
    /// A piece, as the line that is printed for it.
    Piece(String),
    /// A block comment without an end.
    Unterminated,
    /// Nothing that belongs to a gap, or the end of the text.
    Nothing,
}

/// A line for each piece from place 0, and the line `G end newline unterminated`.
pub fn of_first_gap(text: &str) -> String {
    let allocator = Allocator;
    let mut lexer = Lexer::<Plain>::new(&allocator, text);
    let mut lines = String::new();
    let mut newline = false;
    loop {
        let start = lexer.offset();
        lexer.token.set_start(start);
        lexer.token.set_is_on_new_line(false);
        let step = lexer.step(start);
        newline |= lexer.token.is_on_new_line();
        match step {
            Step::Space => {}
            Step::Piece(line) => lines += &line,
            Step::Unterminated | Step::Nothing => {
                let unterminated = matches!(step, Step::Unterminated);
                writeln!(lines, "G {start} {} {}", u8::from(newline), u8::from(unterminated)).unwrap();
                return lines;
            }
        }
    }
}

/// The line `H end` if a hashbang line opens the text, or `- 0`.
pub fn of_hashbang(text: &str) -> String {
    let allocator = Allocator;
    let mut lexer = Lexer::<Plain>::new(&allocator, text);
    if lexer.peek_2_bytes() != Some([b'#', b'!']) {
        return "- 0\n".to_string();
    }
    // SAFETY: the next 2 bytes are `#!`.
    let kind = unsafe { lexer.read_hashbang_comment() };
    assert_eq!(kind, Kind::HashbangComment);
    format!("H {}\n", lexer.offset())
}

impl Lexer<'_, Plain> {
    fn step(&mut self, start: u32) -> Step {
        let Some(byte) = self.peek_byte() else { return Step::Nothing };
        match byte {
            b' ' | b'\t' => {
                self.consume_char();
                Step::Space
            }
            b'\r' | b'\n' => {
                self.consume_char();
                assert_eq!(self.line_break_handler(), Kind::Skip);
                assert!(self.token.is_on_new_line());
                Step::Piece(format!("N {start} {}\n", self.offset()))
            }
            0x0B | 0x0C => {
                self.consume_char();
                self.trivia_builder.add_irregular_whitespace(start, self.offset());
                self.space_on_record()
            }
            b'/' => match self.peek_2_bytes() {
                Some([_, b'/']) => {
                    self.consume_char();
                    self.consume_char();
                    assert_eq!(self.skip_single_line_comment(CommentKind::Line), Kind::Skip);
                    self.comment_on_record()
                }
                Some([_, b'*']) => {
                    self.consume_char();
                    self.consume_char();
                    if self.skip_multi_line_comment() == Kind::Skip {
                        return self.comment_on_record();
                    }
                    // The error runs from the `/*` to the end of the text.
                    assert!(self.peek_byte().is_none());
                    let range = self.unterminated_range();
                    assert_eq!(self.errors, [unterminated_multi_line_comment(range)]);
                    Step::Unterminated
                }
                _ => Step::Nothing,
            },
            0x80.. => {
                // U+FFFD is answered with Eof, and other characters that are no white space with other kinds.
                if self.unicode_char_handler() == Kind::Skip { self.space_on_record() } else { Step::Nothing }
            }
            _ => Step::Nothing,
        }
    }

    /// The comment that was just recorded, by its row.
    fn comment_on_record(&self) -> Step {
        let row = self.trivia_builder.comments.last().unwrap();
        let (start, end, after) = (row.span.start, row.span.end, self.offset());
        assert_eq!(start, self.token.start());
        if row.kind == CommentKind::Line {
            return Step::Piece(format!("L {start} {end} {after}\n"));
        }
        assert_eq!(end, after);
        let multi = row.kind == CommentKind::MultiLineBlock;
        assert_eq!(multi, self.token.is_on_new_line());
        Step::Piece(format!("{} {start} {end}\n", if multi { 'M' } else { 'B' }))
    }

    /// The irregular space that was just recorded, by its row. It is a line break if it set the token's mark.
    fn space_on_record(&self) -> Step {
        let row = self.trivia_builder.irregular_whitespaces.last().unwrap();
        assert_eq!((row.start, row.end), (self.token.start(), self.offset()));
        let mark = if self.token.is_on_new_line() { 'I' } else { 'S' };
        Step::Piece(format!("{mark} {} {}\n", row.start, row.end))
    }
}
