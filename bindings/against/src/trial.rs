//! One call on both sides, and whether all is the same.

use crate::dice::Dice;
use crate::plainly;
use crate::tally::{Call, Tally};
use currentloom::door::{self, CopyNumbers, OrderNumbers};
use currentloom::memory::{BoardMemory, HostMemory, PlanMemory};

pub struct Trial {
    pub dice: Dice,
    pub tally: Tally,
}

/// The call, the input, and what each side made of it.
#[derive(Debug)]
pub struct Difference(pub String);

/// The answer that both sides gave.
pub type Same = Result<u64, Difference>;

/// An answer with all that the call left, as bytes.
struct Left<Memory, Buffer> {
    answer: u64,
    memory: Memory,
    buffer: Buffer,
}

fn left<M, B>(answer: u64, memory: M, buffer: B) -> Left<M, B> {
    Left {
        answer,
        memory,
        buffer,
    }
}

/// For calls that are lent no memory, or no buffer.
const NONE: [u8; 0] = [];

/// The first places that differ, with both bytes.
fn places(ours: &[u8], plain: &[u8]) -> String {
    let both = ours.iter().zip(plain).enumerate();
    let differ = both.filter(|(_, (ours, plain))| ours != plain).take(16);
    let word = |(place, (ours, plain))| format!(" {place}: {ours} {plain},");
    differ.map(word).collect()
}

impl Trial {
    pub fn new(tally: Tally, seed: u64) -> Trial {
        Trial {
            dice: Dice::new(seed),
            tally,
        }
    }

    fn judge<M: AsRef<[u8]>, B: AsRef<[u8]>>(
        &mut self,
        call: Call,
        ours: Left<M, B>,
        plain: Left<M, B>,
        input: impl FnOnce() -> String,
    ) -> Same {
        let memories = (ours.memory.as_ref(), plain.memory.as_ref());
        let buffers = (ours.buffer.as_ref(), plain.buffer.as_ref());
        if ours.answer != plain.answer || memories.0 != memories.1 || buffers.0 != buffers.1 {
            return Err(Difference(format!(
                "{call:?} of {}\nours answers {}, plain {}\n\
                 memory, place: ours plain{}\nbuffer, place: ours plain{}",
                input(),
                ours.answer,
                plain.answer,
                places(memories.0, memories.1),
                places(buffers.0, buffers.1),
            )));
        }
        self.tally.answer(call, ours.answer as u8);
        Ok(ours.answer)
    }

    pub fn plan(&mut self, memory: &mut PlanMemory) -> Same {
        let (before, mut other) = (*memory, *memory);
        let ours = left(door::plan(memory), memory.bytes(), NONE);
        let plain = left(plainly::plan(&mut other), other.bytes(), NONE);
        self.judge(Call::Plan, ours, plain, || format!("{before:?}"))
    }

    pub fn make(&mut self, memory: &mut HostMemory, rules: u8, own: u8) -> Same {
        let (before, mut other) = (*memory, *memory);
        let ours = left(door::make(memory, rules, own), memory.bytes(), NONE);
        let plain = left(plainly::make(&mut other, rules, own), other.bytes(), NONE);
        let input = || format!("rules {rules}, own {own}, {before:?}");
        self.judge(Call::Make, ours, plain, input)
    }

    pub fn start(&mut self, memory: &mut HostMemory, u: u64, order: OrderNumbers) -> Same {
        let (before, mut other) = (*memory, *memory);
        let ours = left(door::start(memory, u, order), memory.bytes(), NONE);
        let plain = left(plainly::start(&mut other, u, order), other.bytes(), NONE);
        let input = || format!("u {u}, {order:?}, {before:?}");
        self.judge(Call::Start, ours, plain, input)
    }

    pub fn receive(
        &mut self,
        memory: &mut HostMemory,
        u: u64,
        link: u8,
        copy: CopyNumbers,
    ) -> Same {
        let (before, mut other) = (*memory, *memory);
        let ours = left(door::receive(memory, u, link, copy), memory.bytes(), NONE);
        let plain = left(
            plainly::receive(&mut other, u, link, copy),
            other.bytes(),
            NONE,
        );
        let input = || format!("u {u}, link {link}, {copy:?}, {before:?}");
        self.judge(Call::Receive, ours, plain, input)
    }

    /// With a list of that many bytes, which may be any.
    pub fn tick(&mut self, memory: &mut HostMemory, u: u64, room: usize) -> Same {
        let (before, mut other) = (*memory, *memory);
        let mut list = [0; 640];
        let list = &mut list[..room.min(640)];
        self.dice.fill(list);
        let mut other_list = list.to_vec();
        let ours = left(door::tick(memory, u, list), memory.bytes(), &*list);
        let answer = plainly::tick(&mut other, u, &mut other_list);
        let plain = left(answer, other.bytes(), &other_list[..]);
        let input = || format!("u {u}, {room} bytes of room, {before:?}");
        self.judge(Call::Tick, ours, plain, input)
    }

    /// Writes into the front of `out` on our side.
    pub fn write(&mut self, rules: u8, copy: CopyNumbers, out: &mut [u8]) -> Same {
        let mut other = out.to_vec();
        let room = out.len();
        let ours = left(door::write(rules, copy, out), NONE, &*out);
        let plain = left(plainly::write(rules, copy, &mut other), NONE, &other[..]);
        let input = || format!("rules {rules}, {copy:?}, {room} bytes of room");
        self.judge(Call::Write, ours, plain, input)
    }

    pub fn read(&mut self, rules: u8, bytes: &[u8], out: &mut [u64]) -> Same {
        let (lent, mut other) = (bytes.to_vec(), out.to_vec());
        let flat = |numbers: &[u64]| -> Vec<u8> {
            let bytes = numbers.iter().map(|number| number.to_le_bytes());
            bytes.flatten().collect()
        };
        let answer = door::read(rules, &lent, out);
        let ours = left(answer, lent, flat(out));
        let answer = plainly::read(rules, bytes, &mut other);
        let plain = left(answer, bytes.to_vec(), flat(&other));
        let room = out.len();
        let input = || format!("rules {rules}, {bytes:x?}, room for {room} numbers");
        self.judge(Call::Read, ours, plain, input)
    }

    pub fn apply(&mut self, memory: &mut BoardMemory, order: OrderNumbers) -> Same {
        let (before, mut other) = (*memory, *memory);
        let ours = left(door::apply(memory, order), memory.bytes(), NONE);
        let plain = left(plainly::apply(&mut other, order), other.bytes(), NONE);
        self.judge(Call::Apply, ours, plain, || {
            format!("{order:?}, {before:?}")
        })
    }

    pub fn replay(&mut self, bytes: &[u8], out: &mut [u8]) -> Same {
        let (lent, mut other) = (bytes.to_vec(), out.to_vec());
        let ours = left(door::replay(&lent, out), lent, &*out);
        let answer = plainly::replay(bytes, &mut other);
        let plain = left(answer, bytes.to_vec(), &other[..]);
        let room = other.len();
        let input = || format!("{bytes:x?}, {room} bytes of room");
        self.judge(Call::Replay, ours, plain, input)
    }
}
