use crate::door::OrderNumbers;
use std::fmt;

/// An order. An image is any 32-bit number; a share is 1..100, or the call is refused 23.
#[derive(Clone, Copy, PartialEq, Eq, Hash, Debug)]
pub enum Order {
    Publish { image: u32, share: u8 },
    Halt(u32),
    Resume(u32),
    Withdraw(u32),
}

impl Order {
    pub fn image(self) -> u32 {
        match self {
            Order::Publish { image, .. } => image,
            Order::Halt(image) | Order::Resume(image) | Order::Withdraw(image) => image,
        }
    }

    pub(crate) fn numbers(self) -> OrderNumbers {
        let (kind, share) = match self {
            Order::Publish { share, .. } => (1, u16::from(share)),
            Order::Halt(_) => (2, 0),
            Order::Resume(_) => (3, 0),
            Order::Withdraw(_) => (4, 0),
        };
        OrderNumbers {
            kind,
            image: self.image(),
            share,
        }
    }

    /// None for a kind that no order has.
    pub(crate) fn of(kind: u8, image: u32, share: u8) -> Option<Order> {
        match kind {
            1 => Some(Order::Publish { image, share }),
            2 => Some(Order::Halt(image)),
            3 => Some(Order::Resume(image)),
            4 => Some(Order::Withdraw(image)),
            _ => None,
        }
    }
}

/// As in a replay's text: the order, its image, and for a publish the share.
impl fmt::Display for Order {
    fn fmt(&self, to: &mut fmt::Formatter) -> fmt::Result {
        match self {
            Order::Publish { image, share } => write!(to, "publish {image} {share}"),
            Order::Halt(image) => write!(to, "halt {image}"),
            Order::Resume(image) => write!(to, "resume {image}"),
            Order::Withdraw(image) => write!(to, "withdraw {image}"),
        }
    }
}
