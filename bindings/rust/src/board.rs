use crate::door;
use crate::memory::{BoardMemory, PlaceMemory};
use crate::order::Order;
use crate::refusal::{taken_apart, Result};

/// What is offered and what is halted: up to 16 images, the rest are absent.
#[derive(Clone, PartialEq, Eq, Debug, Default)]
pub struct Board {
    memory: BoardMemory,
}

/// How an image stands on a board.
#[derive(Clone, Copy, PartialEq, Eq, Hash, Debug)]
pub enum Stand {
    Absent,
    Offered {
        share: u8,
    },
    /// With the share that a resume brings back; 0 if there was none.
    Halted {
        share: u8,
    },
}

impl Board {
    /// A board with no image.
    pub fn new() -> Board {
        Board::default()
    }

    /// What the order does by the build paper's table: refusals 9, 23. A publish or halt of an
    /// absent image on a board of 16 changes nothing, and is no refusal.
    pub fn apply(&mut self, order: Order) -> Result<()> {
        taken_apart(door::apply(&mut self.memory, order.numbers())).map(|_| ())
    }

    /// The images that are not absent, rising.
    pub fn images(&self) -> impl Iterator<Item = (u32, Stand)> + '_ {
        self.used().iter().map(|place| (place.image, stand(place)))
    }

    pub fn stand(&self, image: u32) -> Stand {
        let found = self.used().iter().find(|place| place.image == image);
        found.map_or(Stand::Absent, stand)
    }

    fn used(&self) -> &[PlaceMemory] {
        let count = usize::try_from(self.memory.count).unwrap_or(usize::MAX);
        &self.memory.places[..count.min(self.memory.places.len())]
    }

    /// The flat memory, for tests and for keeping a board.
    pub fn memory(&self) -> &BoardMemory {
        &self.memory
    }

    /// A board of any memory. If it is not sound, `apply` is refused 9.
    pub fn from_memory(memory: BoardMemory) -> Board {
        Board { memory }
    }
}

fn stand(place: &PlaceMemory) -> Stand {
    // A sound place's share is at most 100.
    let share = place.share as u8;
    match place.stand {
        1 => Stand::Offered { share },
        2 => Stand::Halted { share },
        _ => Stand::Absent,
    }
}
