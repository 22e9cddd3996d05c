//! Stand-in for seq_macro: the one form of `seq!` that the original uses, a table of 256 answers.

/// Where the real macro writes the expression 256 times, this one asks it in a loop.
#[macro_export]
macro_rules! seq {
    ($byte:ident in 0u8..=255 { $table:ident::new([#($answer:expr,)*]) }) => {{
        const fn answer($byte: u8) -> bool {
            $answer
        }
        let mut answers = [false; 256];
        let mut byte = 0;
        while byte < 256 {
            answers[byte] = answer(byte as u8);
            byte += 1;
        }
        $table::new(answers)
    }};
}
