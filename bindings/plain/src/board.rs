use crate::orders::Order;
use crate::refusal;

pub const IMAGES: usize = 16;

#[derive(Clone, Copy, PartialEq, Eq, Debug)]
pub enum Stand {
    Absent,
    Offered,
    Halted,
}

#[derive(Clone, Copy, PartialEq, Eq, Debug)]
pub struct Place {
    pub image: u32,
    pub stand: Stand,
    pub share: u8,
}

#[derive(Clone, Copy, PartialEq, Eq, Debug)]
pub struct Board {
    /// How many places are used.
    pub images: usize,
    pub places: [Place; IMAGES],
}

impl Place {
    pub const UNUSED: Place = Place {
        image: 0,
        stand: Stand::Absent,
        share: 0,
    };

    fn is_in_range(&self) -> bool {
        match self.stand {
            Stand::Absent => false,
            Stand::Offered => (1..=100).contains(&self.share),
            Stand::Halted => self.share <= 100,
        }
    }
}

/// What an order does to an image.
#[derive(Clone, Copy)]
enum Effect {
    Nothing,
    /// Offered with the order's share.
    Offer,
    /// Halted with the old share; an absent image's is 0.
    Halt,
    /// Offered with the old share, absent if it is 0.
    Resume,
    Remove,
}

/// "One fixed table": a row for each kind, then absent, offered, halted.
const TABLE: [[Effect; 3]; 4] = {
    use Effect::*;
    [
        [Offer, Offer, Nothing],
        [Halt, Halt, Nothing],
        [Nothing, Nothing, Resume],
        [Nothing, Remove, Remove],
    ]
};

impl Board {
    pub const EMPTY: Board = Board {
        images: 0,
        places: [Place::UNUSED; IMAGES],
    };

    fn is_sound(&self) -> bool {
        let Some((used, unused)) = self.places.split_at_checked(self.images) else {
            return false;
        };
        used.iter().all(Place::is_in_range)
            && used.windows(2).all(|pair| pair[0].image < pair[1].image)
            && unused.iter().all(|place| *place == Place::UNUSED)
    }

    /// `found` as a search for the image gives it. Without room for another image nothing changes.
    fn put(&mut self, found: Result<usize, usize>, place: Place) {
        match found {
            Ok(i) => self.places[i] = place,
            Err(i) if self.images < IMAGES => {
                self.places.copy_within(i..self.images, i + 1);
                self.places[i] = place;
                self.images += 1;
            }
            Err(_) => {}
        }
    }

    fn remove(&mut self, i: usize) {
        self.places.copy_within(i + 1..self.images, i);
        self.images -= 1;
        self.places[self.images] = Place::UNUSED;
    }
}

/// An order upon the board: refusals 9, 23, in that order.
pub fn apply(board: &mut Board, order: Order) -> Result<(), u8> {
    if !board.is_sound() {
        return Err(refusal::UNSOUND);
    }
    if !order.is_in_range() {
        return Err(refusal::RANGE);
    }
    let image = order.image();
    let found = board.places[..board.images].binary_search_by_key(&image, |place| place.image);
    let before = found.map_or(Place::UNUSED, |i| board.places[i]);
    let put = |stand, share| Place {
        image,
        stand,
        share,
    };
    match (
        TABLE[usize::from(order.kind() - 1)][before.stand as usize],
        found,
    ) {
        (Effect::Offer, _) => board.put(found, put(Stand::Offered, order.share())),
        (Effect::Halt, _) => board.put(found, put(Stand::Halted, before.share)),
        (Effect::Resume, _) if before.share > 0 => {
            board.put(found, put(Stand::Offered, before.share))
        }
        (Effect::Resume | Effect::Remove, Ok(i)) => board.remove(i),
        (Effect::Resume | Effect::Remove, Err(_)) | (Effect::Nothing, _) => {}
    }
    Ok(())
}
