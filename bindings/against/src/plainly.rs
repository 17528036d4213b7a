//! The same door over the plain implementation: the same memory in, the same answer and memory out.

use crate::states::{board_from, board_memory, host_from, host_memory, order_from, plan_from};
use currentloom::door::{CopyNumbers, OrderNumbers};
use currentloom::memory::{BoardMemory, HostMemory, PlanMemory, Timing};
use plain::{Message, Reading, Sends};

const UNSOUND: u64 = plain::refusal::UNSOUND as u64;

pub fn plan(memory: &mut PlanMemory) -> u64 {
    let timing = |bounds: plain::Bounds| Timing {
        bound: bounds.bound,
        window: bounds.window,
    };
    match plain::plan(&plan_from(&memory.plan)) {
        Ok(planned) => {
            memory.first = timing(planned.first);
            memory.second = timing(planned.second);
            memory.d = u16::from(planned.d);
            0
        }
        Err(refused) => u64::from(refused),
    }
}

pub fn make(memory: &mut HostMemory, rules: u8, own: u8) -> u64 {
    match plain::make(rules, &plan_from(&memory.plan), own) {
        Ok(host) => {
            *memory = host_memory(&host);
            0
        }
        Err(refused) => u64::from(refused),
    }
}

/// A call on the host that the memory stands for. An accepted one alters the memory.
fn call(memory: &mut HostMemory, call: impl FnOnce(&mut plain::Host) -> Result<u64, u8>) -> u64 {
    let Some(mut host) = host_from(memory) else {
        return UNSOUND;
    };
    match call(&mut host) {
        Ok(answer) => {
            *memory = host_memory(&host);
            answer
        }
        Err(refused) => u64::from(refused),
    }
}

fn sent(sends: Sends) -> u64 {
    256 * u64::from(sends.hop) + 65_536 * u64::from(sends.links)
}

pub fn start(memory: &mut HostMemory, u: u64, order: OrderNumbers) -> u64 {
    call(memory, |host| {
        plain::start(host, Reading(u), order_from(order)).map(sent)
    })
}

pub fn receive(memory: &mut HostMemory, u: u64, link: u8, copy: CopyNumbers) -> u64 {
    call(memory, |host| {
        plain::receive(host, Reading(u), link, &message_from(copy)).map(sent)
    })
}

pub fn tick(memory: &mut HostMemory, u: u64, out: &mut [u8]) -> u64 {
    call(memory, |host| {
        plain::tick(host, Reading(u), out).map(|count| 256 * count as u64)
    })
}

fn message_from(copy: CopyNumbers) -> Message {
    Message {
        stamp: Reading(copy.stamp),
        source: copy.source,
        hop: copy.hop,
        order: order_from(copy.order),
    }
}

/// A length above the refusal's byte.
fn length(answer: Result<usize, u8>) -> u64 {
    match answer {
        Ok(length) => 256 * length as u64,
        Err(refused) => u64::from(refused),
    }
}

pub fn write(rules: u8, copy: CopyNumbers, out: &mut [u8]) -> u64 {
    length(plain::write_message(rules, &message_from(copy), out))
}

pub fn read(rules: u8, bytes: &[u8], out: &mut [u64]) -> u64 {
    let read = match plain::read_message(rules, bytes) {
        Ok(read) => read,
        Err(refused) => return u64::from(refused),
    };
    let Some(out) = out.get_mut(..8) else {
        return u64::from(plain::refusal::SHORT);
    };
    let message = read.message;
    let order = message.order;
    // The part is handed back, and its place is where it lies in the bytes that were lent.
    let place = read.part.as_ptr() as usize - bytes.as_ptr() as usize;
    out.copy_from_slice(&[
        message.stamp.0,
        u64::from(message.source),
        u64::from(message.hop),
        u64::from(order.kind()),
        u64::from(order.image()),
        u64::from(order.share()),
        place as u64,
        read.part.len() as u64,
    ]);
    0
}

pub fn apply(memory: &mut BoardMemory, order: OrderNumbers) -> u64 {
    let Some(mut board) = board_from(memory) else {
        return UNSOUND;
    };
    match plain::apply(&mut board, order_from(order)) {
        Ok(()) => {
            *memory = board_memory(&board);
            0
        }
        Err(refused) => u64::from(refused),
    }
}

pub fn replay(bytes: &[u8], out: &mut [u8]) -> u64 {
    length(plain::replay(bytes, out))
}
