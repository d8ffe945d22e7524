//! What is said, appended to one text that is written when it is long.
#[derive(Default)]
pub struct Said(pub Vec<u8>);

impl Said {
    pub fn text(&mut self, text: &str) -> &mut Said {
        self.0.extend_from_slice(text.as_bytes());
        self
    }

    pub fn number(&mut self, number: u64) -> &mut Said {
        let (mut digits, mut at, mut left) = ([0; 20], 20, number);
        loop {
            at -= 1;
            digits[at] = b'0' + (left % 10) as u8;
            left /= 10;
            if left == 0 {
                break;
            }
        }
        self.0.extend_from_slice(&digits[at..]);
        self
    }
}
