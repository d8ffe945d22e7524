//! A position in a line of JSON, and the steps that both readers take from there.
pub struct Cursor<'a> {
    pub line: &'a str,
    pub at: usize,
}

impl<'a> Cursor<'a> {
    /// The start of a line, or None if it isn't UTF-8.
    pub fn new(line: &'a [u8]) -> Option<Cursor<'a>> {
        let line = std::str::from_utf8(line).ok()?;
        Some(Cursor { line, at: 0 })
    }

    pub fn peek(&self) -> Option<u8> {
        self.line.as_bytes().get(self.at).copied()
    }

    pub fn space(&mut self) {
        while matches!(self.peek(), Some(b' ' | b'\t' | b'\n' | b'\r')) {
            self.at += 1;
        }
    }

    /// Takes the byte if it comes next, perhaps after space.
    pub fn takes(&mut self, byte: u8) -> bool {
        if self.peek() != Some(byte) {
            self.space();
            if self.peek() != Some(byte) {
                return false;
            }
        }
        self.at += 1;
        true
    }

    /// Takes the byte, or returns None if it doesn't come next.
    pub fn expect(&mut self, byte: u8) -> Option<()> {
        self.takes(byte).then_some(())
    }

    /// Takes one digit or more.
    pub fn digits(&mut self) -> Option<&'a str> {
        let start = self.at;
        while matches!(self.peek(), Some(b'0'..=b'9')) {
            self.at += 1;
        }
        (self.at > start).then(|| &self.line[start..self.at])
    }

    /// Takes space up to the line's end.
    pub fn end(&mut self) -> Option<()> {
        self.space();
        (self.at == self.line.len()).then_some(())
    }
}
