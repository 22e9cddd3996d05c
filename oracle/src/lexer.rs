//! The original's files, and a stand-in for its lexer with the fields and methods that they use.
//!
//! The modules that ask something of the original are children of this one, so that they can reach what the original
//! keeps to its own lexer.

pub mod ask_kinds;
pub mod ask_pieces;

include!(concat!(env!("OUT_DIR"), "/original.rs"));

use std::marker::PhantomData;

use memchr::memmem::Finder;
use oxc_allocator::Allocator;
use oxc_span::Span;

use crate::{MAX_LEN, UniquePromise, config::LexerConfig as Config, diagnostics::ParserDiagnostic};

pub use kind::Kind;
pub use token::Token;

use source::{Source, SourcePosition};
use trivia_builder::TriviaBuilder;

pub struct Lexer<'a, C: Config> {
    source: Source<'a>,
    /// The token that is being built. Its start is set before each piece, as the scanners expect.
    token: Token,
    errors: Vec<ParserDiagnostic>,
    trivia_builder: TriviaBuilder<'a>,
    multi_line_comment_end_finder: Option<Finder<'static>>,
    config: PhantomData<C>,
}

impl<'a, C: Config> Lexer<'a, C> {
    fn new(allocator: &'a Allocator, text: &'a str) -> Self {
        assert!(text.len() <= MAX_LEN);
        Self {
            source: Source::new(text, UniquePromise),
            token: Token::default(),
            errors: vec![],
            trivia_builder: TriviaBuilder::new_in(allocator),
            multi_line_comment_end_finder: None,
            config: PhantomData,
        }
    }

    fn error(&mut self, error: ParserDiagnostic) {
        self.errors.push(error);
    }

    fn offset(&self) -> u32 {
        self.source.offset()
    }

    fn unterminated_range(&self) -> Span {
        Span::new(self.token.start(), self.offset())
    }

    fn current_offset(&self) -> Span {
        Span::empty(self.offset())
    }

    fn peek_byte(&self) -> Option<u8> {
        self.source.peek_byte()
    }

    fn peek_2_bytes(&self) -> Option<[u8; 2]> {
        self.source.peek_2_bytes()
    }

    fn peek_char(&self) -> Option<char> {
        self.source.peek_char()
    }

    fn next_char(&mut self) -> Option<char> {
        self.source.next_char()
    }

    fn consume_char(&mut self) -> char {
        self.source.next_char().unwrap()
    }

    fn next_ascii_byte_eq(&mut self, byte: u8) -> bool {
        let same = self.peek_byte() == Some(byte);
        if same {
            self.consume_char();
        }
        same
    }

    /// The rest of a name is left: a gap ends before the name.
    fn identifier_tail_after_unicode(&mut self, _start: SourcePosition<'a>) {}
}

/// A token from a place to a place.
fn token(kind: Kind, start: u32, end: u32) -> Token {
    let mut token = Token::default();
    token.set_kind(kind);
    token.set_span(Span::new(start, end));
    token
}
