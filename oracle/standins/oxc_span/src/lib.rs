//! Stand-in for oxc_span: a part of the text, from a place to a place.

#[derive(Debug, Clone, Copy, PartialEq, Eq)]
pub struct Span {
    pub start: u32,
    pub end: u32,
}

impl Span {
    pub fn new(start: u32, end: u32) -> Self {
        Self { start, end }
    }

    pub fn empty(place: u32) -> Self {
        Self::new(place, place)
    }

    pub fn source_text(self, text: &str) -> &str {
        &text[self.start as usize..self.end as usize]
    }
}
