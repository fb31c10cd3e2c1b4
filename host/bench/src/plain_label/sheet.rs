//! A buffer that is written from its front on.

pub struct Sheet<'a> {
    pub out: &'a mut [u8],
    pub at: usize,
}

impl Sheet<'_> {
    pub fn put(&mut self, bytes: &[u8]) {
        self.out[self.at..self.at + bytes.len()].copy_from_slice(bytes);
        self.at += bytes.len();
    }

    pub fn byte(&mut self, byte: u8) {
        self.out[self.at] = byte;
        self.at += 1;
    }

    /// Four bytes, the most significant first.
    pub fn four(&mut self, number: u32) {
        self.put(&number.to_be_bytes());
    }

    /// A line of a text and what stands before it; none where the text is
    /// empty.
    pub fn line(&mut self, before: &[u8], text: &[u8]) {
        if !text.is_empty() {
            self.put(before);
            self.put(text);
            self.byte(b'\n');
        }
    }

    /// A text and another behind a space.
    pub fn two(&mut self, text: &[u8], other: &[u8]) {
        self.put(text);
        if !other.is_empty() {
            self.byte(b' ');
            self.put(other);
        }
    }

    /// The number without leading zeros.
    pub fn number(&mut self, number: u64) {
        let (mut digits, mut start, mut left) = ([0; 20], 20, number);
        loop {
            start -= 1;
            digits[start] = b'0' + (left % 10) as u8;
            left /= 10;
            if left == 0 {
                break;
            }
        }
        self.put(&digits[start..]);
    }
}
