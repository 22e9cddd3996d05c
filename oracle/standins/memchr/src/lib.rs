//! Stand-in for memchr: the searches for a byte and for some bytes, in the plainest way.

/// The places of a byte, in rising order.
pub fn memchr_iter(needle: u8, haystack: &[u8]) -> impl Iterator<Item = usize> {
    haystack.iter().enumerate().filter(move |(_, byte)| **byte == needle).map(|(place, _)| place)
}

pub mod memmem {
    /// Finds the first place of some bytes.
    pub struct Finder<'n>(&'n [u8]);

    impl<'n> Finder<'n> {
        pub fn new(needle: &'n str) -> Self {
            Self(needle.as_bytes())
        }

        pub fn find(&self, haystack: &[u8]) -> Option<usize> {
            haystack.windows(self.0.len()).position(|window| window == self.0)
        }
    }
}
