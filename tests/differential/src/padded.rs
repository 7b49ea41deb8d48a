//! Buffers between margins.

/// Bytes on either side of a buffer, which no call may touch.
const MARGIN: usize = 64;

/// A buffer between margins.
#[derive(Default)]
pub struct Padded {
    bytes: Vec<u8>,
}

impl Padded {
    pub fn fill(&mut self, content: &[u8]) {
        self.bytes.clear();
        self.bytes.extend(pattern(MARGIN));
        self.bytes.extend_from_slice(content);
        self.bytes.extend(pattern(MARGIN));
    }

    pub fn content(&mut self) -> &mut [u8] {
        let end = self.bytes.len() - MARGIN;
        &mut self.bytes[MARGIN..end]
    }

    /// Whether the buffer has this content and the margins are as they were.
    pub fn is(&self, content: &[u8]) -> bool {
        let end = self.bytes.len() - MARGIN;
        let intact = |margin: &[u8]| margin.iter().copied().eq(pattern(MARGIN));
        self.bytes[MARGIN..end] == *content && intact(&self.bytes[..MARGIN]) && intact(&self.bytes[end..])
    }
}

/// Some bytes that are never 0.
pub fn pattern(length: usize) -> impl Iterator<Item = u8> {
    (0..length).map(|place| (place * 7 + 3) as u8 | 1)
}
