use crate::clock::{Reading, Tick};
use crate::orders::Order;
use crate::plan::{plan, Plan, Planned, HOSTS, LINKS};
use crate::refusal;
use crate::shape::{self, Fate, Shape};

pub const LONGEST_SCHEDULE: usize = 8_192;
pub const MOST_STARTS: usize = 16;
const LATEST_END: Tick = Tick(4_096);

#[derive(Clone, Copy, PartialEq, Eq, Debug)]
pub struct Start {
    pub tick: Tick,
    pub host: u8,
    pub order: Order,
}

impl Start {
    pub const UNUSED: Start = Start {
        tick: Tick(0),
        host: 0,
        order: Order::Publish { image: 0, share: 0 },
    };
}

/// A schedule within the rules.
#[derive(Clone, Copy, PartialEq, Eq, Debug)]
pub struct Schedule {
    pub plan: Plan,
    pub planned: Planned,
    pub faulty_hosts: u8,
    pub faulty_links: u16,
    pub offsets: [u8; HOSTS],
    pub end: Tick,
    /// How many starts there are.
    pub started: usize,
    pub starts: [Start; MOST_STARTS],
    /// By start, link and direction; 0 is lost. "A copy without a fate takes 1 tick."
    pub delays: [[[u8; 2]; LINKS]; MOST_STARTS],
}

/// The record is zero unless the number is 32.
#[derive(Clone, Copy, PartialEq, Eq, Debug)]
pub struct Refused {
    pub number: u8,
    pub record: u16,
}

/// Reading a schedule: 31, then 1 to 3, then 32.
pub fn read(bytes: &[u8]) -> Result<Schedule, Refused> {
    let refused = |number| Refused { number, record: 0 };
    let shape = shape::read(bytes).ok_or(refused(refusal::NO_SCHEDULE))?;
    let planned = plan(&shape.plan).map_err(refused)?;
    judge(&shape, planned).map_err(|record| Refused {
        number: refusal::RECORD,
        record,
    })
}

/// The first record outside the rules, all records counted from 0: the plan, the links, then 18,
/// 19, 20, the starts and the fates.
fn judge(shape: &Shape, planned: Planned) -> Result<Schedule, u16> {
    let after_links = u16::from(shape.plan.links) + 1;
    check(faults_fit(shape), after_links)?;
    let offsets_fit = shape.offsets.iter().all(|offset| *offset < shape.plan.skew);
    check(offsets_fit, after_links + 1)?;
    check(shape.end <= LATEST_END, after_links + 2)?;
    judge_starts(shape, after_links + 3)?;
    let first_fate = after_links + 3 + shape.started as u16;
    let mut offsets = [0; HOSTS];
    offsets[..shape.offsets.len()].copy_from_slice(shape.offsets);
    Ok(Schedule {
        plan: shape.plan,
        planned,
        faulty_hosts: shape.faulty_hosts,
        faulty_links: shape.faulty_links,
        offsets,
        end: shape.end,
        started: shape.started,
        starts: shape.starts,
        delays: judge_fates(shape, first_fate)?,
    })
}

fn check(fits: bool, record: u16) -> Result<(), u16> {
    if fits {
        Ok(())
    } else {
        Err(record)
    }
}

/// "faulty sets within π, L and the network"
fn faults_fit(shape: &Shape) -> bool {
    let plan = &shape.plan;
    let (hosts, links) = (u32::from(shape.faulty_hosts), u32::from(shape.faulty_links));
    hosts >> plan.hosts == 0
        && links >> plan.links == 0
        && hosts.count_ones() <= u32::from(plan.faulty_hosts)
        && links.count_ones() <= u32::from(plan.faulty_links)
}

/// "starts in non-falling ticks up to the end"
fn judge_starts(shape: &Shape, first: u16) -> Result<(), u16> {
    let mut before = Tick(0);
    for (start, record) in shape.starts[..shape.started].iter().zip(first..) {
        check(before <= start.tick && start.tick <= shape.end, record)?;
        before = start.tick;
    }
    Ok(())
}

fn judge_fates(shape: &Shape, first: u16) -> Result<[[[u8; 2]; LINKS]; MOST_STARTS], u16> {
    let mut delays = [[[1; 2]; LINKS]; MOST_STARTS];
    let mut before = None;
    for (fate, record) in shape.fates.zip(first..) {
        let name = (fate.start, fate.link, fate.direction);
        check(before < Some(name) && delay_fits(shape, &fate), record)?;
        before = Some(name);
        let [start, link, direction] = [fate.start, fate.link, fate.direction].map(usize::from);
        delays[start][link][direction] = fate.delay;
    }
    Ok(delays)
}

/// "a lost copy only where sender, receiver or link is faulty; a delay at most δ". Sender and
/// receiver are the link's ends, either way round.
fn delay_fits(shape: &Shape, fate: &Fate) -> bool {
    let ends = shape.plan.ends[usize::from(fate.link)];
    let end_is_faulty = (shape.faulty_hosts >> ends.a | shape.faulty_hosts >> ends.b) & 1 == 1;
    let link_is_faulty = shape.faulty_links >> fate.link & 1 == 1;
    match fate.delay {
        0 => end_is_faulty || link_is_faulty,
        delay => delay <= shape.plan.delay,
    }
}

impl Schedule {
    /// The host's clock at a tick. "Clock offsets are fixed through a run."
    pub fn reading(&self, host: u8, tick: Tick) -> Reading {
        tick.read_with(self.offsets[usize::from(host)])
    }
}
