use crate::clock::{Reading, LARGEST_READING};
use crate::entry::{write_entry, ENTRY};
use crate::host::{Held, Host};
use crate::refusal;
use crate::sound::is_sound;

/// Tick at U: refusals 9, 10, 11, 22, in that order. The answer is the number of orders written.
pub fn tick(host: &mut Host, at: Reading, list: &mut [u8]) -> Result<usize, u8> {
    if !is_sound(host) {
        return Err(refusal::UNSOUND);
    }
    if at > LARGEST_READING {
        return Err(refusal::READING);
    }
    if at < host.last {
        return Err(refusal::FALLING);
    }
    // The history rises by stamp, so what is due stands in front.
    let history = &host.history[..host.held];
    let is_due = |held: &&Held| held.stamp.plus(host.bound) <= at;
    let due = history.iter().take_while(is_due).count();
    let room = list.get_mut(..due * ENTRY).ok_or(refusal::SHORT)?;
    for (held, entry) in history.iter().zip(room.chunks_exact_mut(ENTRY)) {
        write_entry(held, entry);
    }
    if due > 0 {
        host.history.copy_within(due..host.held, 0);
        host.history[host.held - due..host.held].fill(Held::UNUSED);
        host.held -= due;
    }
    host.last = at;
    Ok(due)
}
