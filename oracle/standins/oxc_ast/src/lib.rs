//! Stand-in for oxc_ast: the comment row and its three enums.

pub use ast::CommentKind;

pub mod ast {
    use oxc_span::Span;

    #[derive(Debug, Clone, Copy, PartialEq, Eq)]
    pub enum CommentKind {
        Line,
        SingleLineBlock,
        MultiLineBlock,
    }

    #[derive(Debug, Clone, Copy, PartialEq, Eq)]
    pub enum CommentPosition {
        Leading,
        Trailing,
    }

    #[derive(Debug, Clone, Copy, PartialEq, Eq)]
    pub enum CommentContent {
        None,
        Legal,
        Jsdoc,
        JsdocLegal,
        Pure,
        PureNotApplied,
        NoSideEffects,
        NoSideEffectsNotApplied,
        PropertyKey,
        Webpack,
        Vite,
        Turbopack,
        CoverageIgnore,
        CoverageIgnoreFile,
    }

    #[derive(Debug, Clone, Copy, PartialEq, Eq)]
    pub struct Comment {
        pub span: Span,
        pub kind: CommentKind,
        pub content: CommentContent,
        pub position: CommentPosition,
        pub attached_to: u32,
        preceded_by_newline: bool,
        followed_by_newline: bool,
    }

    impl Comment {
        pub fn new(start: u32, end: u32, kind: CommentKind) -> Self {
            Self {
                span: Span::new(start, end),
                kind,
                content: CommentContent::None,
                position: CommentPosition::Leading,
                attached_to: 0,
                preceded_by_newline: false,
                followed_by_newline: false,
            }
        }

        pub fn is_line(&self) -> bool {
            self.kind == CommentKind::Line
        }

        pub fn is_block(&self) -> bool {
            !self.is_line()
        }

        /// The comment without its two opening bytes and, in a block, without its two closing bytes.
        pub fn content_span(&self) -> Span {
            let closing = if self.is_line() { 0 } else { 2 };
            Span::new(self.span.start + 2, self.span.end - closing)
        }

        pub fn preceded_by_newline(&self) -> bool {
            self.preceded_by_newline
        }

        pub fn set_preceded_by_newline(&mut self, value: bool) {
            self.preceded_by_newline = value;
        }

        pub fn followed_by_newline(&self) -> bool {
            self.followed_by_newline
        }

        pub fn set_followed_by_newline(&mut self, value: bool) {
            self.followed_by_newline = value;
        }
    }
}
