//! Flat memory as the plain implementation's states, and back.

use currentloom::door::OrderNumbers;
use currentloom::memory::{BoardMemory, HeldMemory, HostMemory, Link, PlaceMemory, PlanFields};
use plain::{Board, Held, Host, Order, Place, Reading, Stand};

pub fn plan_from(plan: &PlanFields) -> plain::Plan {
    plain::Plan {
        hosts: plan.hosts,
        links: plan.link_count,
        faulty_hosts: plan.faulty_hosts,
        faulty_links: plan.faulty_links,
        delay: plan.delay,
        skew: plan.skew,
        ends: plan.links.map(|link| plain::Link {
            a: link.a,
            b: link.b,
        }),
    }
}

fn plan_fields(plan: &plain::Plan) -> PlanFields {
    PlanFields {
        hosts: plan.hosts,
        faulty_hosts: plan.faulty_hosts,
        link_count: plan.links,
        faulty_links: plan.faulty_links,
        delay: plan.delay,
        skew: plan.skew,
        links: plan.ends.map(|link| Link {
            a: link.a,
            b: link.b,
        }),
    }
}

fn formed(order: OrderNumbers) -> Option<Order> {
    let OrderNumbers { kind, image, share } = order;
    match (kind, share) {
        (1, 1..=100) => Some(Order::Publish {
            image,
            share: share as u8,
        }),
        (2, 0) => Some(Order::Halt(image)),
        (3, 0) => Some(Order::Resume(image)),
        (4, 0) => Some(Order::Withdraw(image)),
        _ => None,
    }
}

/// Where the numbers are no order's: a publish whose share is out of range.
pub fn order_from(order: OrderNumbers) -> Order {
    formed(order).unwrap_or(Order::Publish { image: 0, share: 0 })
}

fn held_from(place: &HeldMemory) -> Option<Held> {
    let HeldMemory {
        stamp,
        image,
        source,
        kind,
        share,
    } = *place;
    let order = match (kind, image, share) {
        (0, 0, 0) => Held::UNUSED.order,
        _ => formed(OrderNumbers { kind, image, share })?,
    };
    Some(Held {
        stamp: Reading(stamp),
        source,
        order,
    })
}

fn held_memory(held: &Held) -> HeldMemory {
    let order = held.order;
    HeldMemory {
        stamp: held.stamp.0,
        image: order.image(),
        source: held.source,
        // Only the unused place has a share that is no order's, and it is all zero.
        kind: if order.is_in_range() { order.kind() } else { 0 },
        share: u16::from(order.share()),
    }
}

/// None where a place of the history holds neither an order nor zeros, or the own number is not
/// below 8: that is refused 9.
pub fn host_from(memory: &HostMemory) -> Option<Host> {
    let mut history = [Held::UNUSED; plain::HISTORY];
    for (held, place) in history.iter_mut().zip(&memory.history) {
        *held = held_from(place)?;
    }
    Some(Host {
        plan: plan_from(&memory.plan),
        rules: memory.rules,
        d: memory.d,
        bound: memory.bound,
        own: u8::try_from(memory.own).ok().filter(|own| *own < 8)?,
        last: Reading(memory.last),
        started: usize::try_from(memory.started).ok()?,
        starts: memory.starts.map(Reading),
        held: usize::try_from(memory.held).ok()?,
        history,
    })
}

pub fn host_memory(host: &Host) -> HostMemory {
    HostMemory {
        bound: host.bound,
        last: host.last.0,
        own: u64::from(host.own),
        started: host.started as u64,
        held: host.held as u64,
        starts: host.starts.map(|start| start.0),
        history: host.history.map(|held| held_memory(&held)),
        plan: plan_fields(&host.plan),
        rules: host.rules,
        d: host.d,
    }
}

fn place_from(place: &PlaceMemory) -> Option<Place> {
    let stand = match (place.stand, place.share) {
        (0, 0) => Stand::Absent,
        (1, 0..=100) => Stand::Offered,
        (2, 0..=100) => Stand::Halted,
        _ => return None,
    };
    Some(Place {
        image: place.image,
        stand,
        share: place.share as u8,
    })
}

/// None where a place's stand or share is out of range: that is refused 9.
pub fn board_from(memory: &BoardMemory) -> Option<Board> {
    let mut places = [Place::UNUSED; plain::IMAGES];
    for (place, memory) in places.iter_mut().zip(&memory.places) {
        *place = place_from(memory)?;
    }
    Some(Board {
        images: usize::try_from(memory.count).ok()?,
        places,
    })
}

pub fn board_memory(board: &Board) -> BoardMemory {
    let stand = |stand| match stand {
        Stand::Absent => 0,
        Stand::Offered => 1,
        Stand::Halted => 2,
    };
    BoardMemory {
        count: board.images as u64,
        places: board.places.map(|place| PlaceMemory {
            image: place.image,
            stand: stand(place.stand),
            share: u16::from(place.share),
        }),
    }
}
