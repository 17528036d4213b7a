use crate::clock::{Reading, LARGEST_READING};
use crate::host::{Held, Host, Sends, HISTORY};
use crate::message::Message;
use crate::plan::SECOND;
use crate::refusal;
use crate::sound::is_sound;

/// Receive at U over a link: refusals 9, 15, 23, 10, 11, 16, 17, 18, 19, 20, 21, 14, in that
/// order.
pub fn receive(host: &mut Host, at: Reading, link: u8, copy: &Message) -> Result<Sends, u8> {
    if !is_sound(host) {
        return Err(refusal::UNSOUND);
    }
    let own_links = host.plan.links_of(host.own);
    let over = 1u16.checked_shl(u32::from(link)).unwrap_or(0);
    if own_links & over == 0 || copy.source >= host.plan.hosts {
        return Err(refusal::LACKING);
    }
    if !copy.is_in_range(host.rules) {
        return Err(refusal::RANGE);
    }
    if at > LARGEST_READING {
        return Err(refusal::READING);
    }
    if at < host.last {
        return Err(refusal::FALLING);
    }
    refuse_by_time(host, at, copy)?;
    let place = place_for(host, copy)?;
    let Message {
        stamp,
        source,
        order,
        ..
    } = *copy;
    host.hold(
        place,
        Held {
            stamp,
            source,
            order,
        },
    );
    host.last = at;
    Ok(relay(host.rules, own_links & !over, copy.hop))
}

/// Sums only: T less hε could fall below zero.
fn refuse_by_time(host: &Host, at: Reading, copy: &Message) -> Result<(), u8> {
    let [delay, skew, hop] = [host.plan.delay, host.plan.skew, copy.hop].map(u64::from);
    if host.rules == SECOND {
        if at.plus(hop * skew) <= copy.stamp {
            return Err(refusal::EARLY);
        }
        if at >= copy.stamp.plus(hop * (delay + skew)) {
            return Err(refusal::LATE);
        }
    }
    if at >= copy.stamp.plus(host.bound) {
        return Err(refusal::PAST_BOUND);
    }
    Ok(())
}

/// Where the copy's order goes in the history: refusals 19, 20, 21, 14.
fn place_for(host: &Host, copy: &Message) -> Result<usize, u8> {
    match host.find(copy.stamp, copy.source) {
        Ok(held) if host.history[held].order == copy.order => Err(refusal::SAME_HELD),
        Ok(_) => Err(refusal::OTHER_HELD),
        Err(_) if copy.source == host.own => Err(refusal::NOT_OURS),
        Err(_) if host.held == HISTORY => Err(refusal::FULL),
        Err(place) => Ok(place),
    }
}

/// "A copy with hop 8 is held and relayed on no link, with hop 0."
fn relay(rules: u8, links: u16, hop: u8) -> Sends {
    match (rules, hop) {
        (SECOND, 8) => Sends { links: 0, hop: 0 },
        (SECOND, _) => Sends {
            links,
            hop: hop + 1,
        },
        _ => Sends { links, hop: 0 },
    }
}
