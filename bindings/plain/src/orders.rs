#[derive(Clone, Copy, PartialEq, Eq, Debug)]
pub enum Order {
    Publish { image: u32, share: u8 },
    Halt(u32),
    Resume(u32),
    Withdraw(u32),
}

impl Order {
    pub fn kind(self) -> u8 {
        match self {
            Order::Publish { .. } => 1,
            Order::Halt(_) => 2,
            Order::Resume(_) => 3,
            Order::Withdraw(_) => 4,
        }
    }

    pub fn image(self) -> u32 {
        match self {
            Order::Publish { image, .. } => image,
            Order::Halt(image) | Order::Resume(image) | Order::Withdraw(image) => image,
        }
    }

    /// "0 unless publish".
    pub fn share(self) -> u8 {
        match self {
            Order::Publish { share, .. } => share,
            _ => 0,
        }
    }

    pub fn name(self) -> &'static str {
        match self {
            Order::Publish { .. } => "publish",
            Order::Halt(_) => "halt",
            Order::Resume(_) => "resume",
            Order::Withdraw(_) => "withdraw",
        }
    }

    /// "share 1..100"; an image is any 32-bit number.
    pub fn is_in_range(self) -> bool {
        match self {
            Order::Publish { share, .. } => (1..=100).contains(&share),
            _ => true,
        }
    }

    /// An order of that kind. The share counts for publish only.
    pub(crate) fn of(kind: u8, image: u32, share: u8) -> Option<Order> {
        match kind {
            1 => Some(Order::Publish { image, share }),
            2 => Some(Order::Halt(image)),
            3 => Some(Order::Resume(image)),
            4 => Some(Order::Withdraw(image)),
            _ => None,
        }
    }

    /// "6 or 5 bytes".
    pub fn length(self) -> usize {
        match self {
            Order::Publish { .. } => 6,
            _ => 5,
        }
    }

    /// "kind, image, and share for publish": nothing for other bytes, or a share out of range.
    pub fn read(part: &[u8]) -> Option<Order> {
        let (kind, image, share) = match *part {
            [1, a, b, c, d, share] => (1, [a, b, c, d], share),
            [kind @ 2..=4, a, b, c, d] => (kind, [a, b, c, d], 0),
            _ => return None,
        };
        Order::of(kind, u32::from_be_bytes(image), share).filter(|order| order.is_in_range())
    }

    /// Into a part of exactly the order's length.
    pub(crate) fn write(self, part: &mut [u8]) {
        part[0] = self.kind();
        part[1..5].copy_from_slice(&self.image().to_be_bytes());
        if let Order::Publish { share, .. } = self {
            part[5] = share;
        }
    }
}
