/// A text in a lent buffer. Beyond the buffer's end it is only counted, so that a text's length can
/// be had before a byte is written.
pub(crate) struct Text<'a> {
    buffer: &'a mut [u8],
    pub length: usize,
}

impl<'a> Text<'a> {
    pub fn new(buffer: &'a mut [u8]) -> Text<'a> {
        Text { buffer, length: 0 }
    }

    fn bytes(&mut self, bytes: &[u8]) {
        let end = self.length + bytes.len();
        if let Some(room) = self.buffer.get_mut(self.length..end) {
            room.copy_from_slice(bytes);
        }
        self.length = end;
    }

    pub fn word(&mut self, word: &str) {
        self.bytes(word.as_bytes());
    }

    /// A space and the number, in decimal.
    pub fn number(&mut self, number: u64) {
        let mut digits = [b' '; 21];
        let mut place = digits.len();
        let mut left = number;
        loop {
            place -= 1;
            digits[place] = b'0' + (left % 10) as u8;
            left /= 10;
            if left == 0 {
                break;
            }
        }
        self.bytes(&digits[place - 1..]);
    }

    pub fn line_end(&mut self) {
        self.bytes(b"\n");
    }
}
