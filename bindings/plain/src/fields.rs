/// "The reader keeps the message it was lent and its place in it."
#[derive(Clone, Copy)]
pub(crate) struct Reader<'a> {
    bytes: &'a [u8],
    place: usize,
}

impl<'a> Reader<'a> {
    pub fn new(bytes: &'a [u8]) -> Reader<'a> {
        Reader { bytes, place: 0 }
    }

    /// The value of the next field if it is whole and bears the tag; otherwise the place stays, so
    /// that no other tag is found there by mistake.
    pub fn field(&mut self, tag: u8) -> Option<&'a [u8]> {
        let [found, high, low, rest @ ..] = &self.bytes[self.place..] else {
            return None;
        };
        if *found != tag {
            return None;
        }
        let length = usize::from(u16::from_be_bytes([*high, *low]));
        let value = rest.get(..length)?;
        self.place += 3 + length;
        Some(value)
    }

    /// For a field that must be there with that length: after a wrong one the place is of no use.
    pub fn array<const N: usize>(&mut self, tag: u8) -> Option<[u8; N]> {
        self.field(tag)?.try_into().ok()
    }

    pub fn is_at_end(&self) -> bool {
        self.place == self.bytes.len()
    }
}
