//! The oracle: runs the original's scanners, builder and kinds on stored cases, and prints what they answer.
//!
//!     ORIGINAL=/path/to/oxc_parser-0.156.0/src/lexer cargo run --offline --release -- COMMAND < CASES
//!
//! The original's files are compiled as they are (see `build.rs`). What they need from other crates is in `standins/`,
//! what they need from the rest of theirs is here and in `lexer.rs`.

mod cases;
mod lexer;

use std::io::{self, Read};

/// The longest text, as in the original on a machine of 64 bits.
pub(crate) const MAX_LEN: usize = u32::MAX as usize - 256;

/// Whoever holds this promises that there is one lexer at a time. Each command makes one, uses it and drops it.
pub(crate) struct UniquePromise;

mod config {
    pub trait LexerConfig {}

    /// The only configuration here.
    pub struct Plain;

    impl LexerConfig for Plain {}
}

mod diagnostics {
    use oxc_span::Span;

    /// The errors that the files compiled here report.
    #[derive(Debug, PartialEq)]
    pub enum ParserDiagnostic {
        UnterminatedMultiLineComment(Span),
        Other,
    }

    pub fn unterminated_multi_line_comment(span: Span) -> ParserDiagnostic {
        ParserDiagnostic::UnterminatedMultiLineComment(span)
    }

    pub fn file_appears_to_be_binary() -> ParserDiagnostic {
        ParserDiagnostic::Other
    }

    pub fn invalid_character(_c: char, _span: Span) -> ParserDiagnostic {
        ParserDiagnostic::Other
    }

    pub fn unicode_escape_sequence(_span: Span) -> ParserDiagnostic {
        ParserDiagnostic::Other
    }

    pub fn unterminated_string(_span: Span) -> ParserDiagnostic {
        ParserDiagnostic::Other
    }
}

fn main() {
    let command = std::env::args().nth(1).unwrap_or_default();
    let answer = match command.as_str() {
        "kinds" => lexer::ask_kinds::all(),
        "pieces" => cases::each(&input(), lexer::ask_pieces::of_first_gap),
        "hashbang" => cases::each(&input(), lexer::ask_pieces::of_hashbang),
        _ => {
            eprintln!("the commands are: kinds, pieces, hashbang");
            std::process::exit(2);
        }
    };
    print!("{answer}");
}

fn input() -> String {
    let mut text = String::new();
    io::stdin().read_to_string(&mut text).expect("a case file is ASCII");
    text
}
