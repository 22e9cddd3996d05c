//! Stand-in for oxc_syntax: white space and line terminators by ECMA-262, 12.2 and 12.3. The real tables were not available.

pub mod identifier {
    pub const TAB: char = '\t';
    pub const VT: char = '\u{B}';
    pub const FF: char = '\u{C}';

    /// WhiteSpace of ECMA-262 without the tab and the space: VT, FF, ZWNBSP and the Space_Separators.
    pub fn is_irregular_whitespace(c: char) -> bool {
        matches!(
            c,
            VT | FF
                | '\u{FEFF}'
                | '\u{A0}'
                | '\u{1680}'
                | '\u{2000}'..='\u{200A}'
                | '\u{202F}'
                | '\u{205F}'
                | '\u{3000}'
        )
    }

    /// Only near ID_Start, which is near enough here: a gap ends at a name as at any other character that is no white space.
    pub fn is_identifier_start_unicode(c: char) -> bool {
        !c.is_ascii() && c.is_alphabetic()
    }

    pub fn is_identifier_start(_c: char) -> bool {
        unimplemented!("only escapes in names ask this")
    }

    pub fn is_identifier_part(_c: char) -> bool {
        unimplemented!("only escapes in names ask this")
    }
}

pub mod line_terminator {
    pub const LF: char = '\n';
    pub const CR: char = '\r';
    pub const LS: char = '\u{2028}';
    pub const PS: char = '\u{2029}';

    pub fn is_irregular_line_terminator(c: char) -> bool {
        matches!(c, LS | PS)
    }

    pub fn is_line_terminator(c: char) -> bool {
        matches!(c, LF | CR) || is_irregular_line_terminator(c)
    }
}
