//! A place in a text, and the refusal at a place.

/// Why a text is refused, and at which byte.
#[derive(Clone, Copy, Debug, PartialEq, Eq)]
pub struct Refusal {
    /// The refusal's number.
    pub number: u32,
    /// The byte offset.
    pub place: usize,
}

/// Walks over a text byte by byte.
pub struct Cursor<'a> {
    text: &'a [u8],
    at: usize,
}

impl<'a> Cursor<'a> {
    /// At the beginning of a text.
    pub fn new(text: &'a [u8]) -> Self {
        Cursor { text, at: 0 }
    }

    /// The offset of the next byte.
    pub fn place(&self) -> usize {
        self.at
    }

    /// The next byte, or none at the end.
    pub fn peek(&self) -> Option<u8> {
        self.text.get(self.at).copied()
    }

    /// Passes over the next byte.
    pub fn step(&mut self) {
        self.at += 1;
    }

    /// Passes over the next byte if it is this one.
    pub fn skip(&mut self, byte: u8) -> bool {
        let here = self.peek() == Some(byte);
        if here {
            self.step();
        }
        here
    }

    /// Passes over blanks.
    pub fn blanks(&mut self) {
        while let Some(b' ' | b'\t' | b'\n' | b'\r') = self.peek() {
            self.step();
        }
    }

    /// A refusal at the next byte, or at the text's end.
    pub fn refuse(&self, number: u32) -> Refusal {
        Refusal { number, place: self.at }
    }
}
