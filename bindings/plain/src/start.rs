use crate::clock::{Reading, LARGEST_STAMP};
use crate::host::{Held, Host, Sends, HISTORY, STARTS};
use crate::orders::Order;
use crate::plan::{window, SECOND};
use crate::refusal;
use crate::sound::is_sound;

/// Start at U: refusals 9, 23, 10, 11, 12, 13, 14, in that order.
pub fn start(host: &mut Host, at: Reading, order: Order) -> Result<Sends, u8> {
    refuse(host, at, order)?;
    let held = Held {
        stamp: at,
        source: host.own,
        order,
    };
    // Own orders lie at or below the last start, which lies below U: the name is never held.
    let (Ok(place) | Err(place)) = host.find(at, host.own);
    host.hold(place, held);
    keep_start(host, at);
    host.last = at;
    Ok(Sends {
        links: host.plan.links_of(host.own),
        hop: u8::from(host.rules == SECOND),
    })
}

fn refuse(host: &Host, at: Reading, order: Order) -> Result<(), u8> {
    if !is_sound(host) {
        return Err(refusal::UNSOUND);
    }
    if !order.is_in_range() {
        return Err(refusal::RANGE);
    }
    if at > LARGEST_STAMP {
        return Err(refusal::READING);
    }
    if at < host.last {
        return Err(refusal::FALLING);
    }
    if host.starts[..host.started].last() == Some(&at) {
        return Err(refusal::SAME_READING);
    }
    // Only now is the fourth last start known to be in range: it is not above the last reading,
    // nor that above U.
    if host.started == STARTS
        && at < host.starts[0].plus(window(host.rules, &host.plan, host.bound))
    {
        return Err(refusal::WINDOW);
    }
    if host.held == HISTORY {
        return Err(refusal::FULL);
    }
    Ok(())
}

fn keep_start(host: &mut Host, at: Reading) {
    if host.started == STARTS {
        host.starts.copy_within(1.., 0);
        host.starts[STARTS - 1] = at;
    } else {
        host.starts[host.started] = at;
        host.started += 1;
    }
}
