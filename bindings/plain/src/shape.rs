//! The shape of a schedule: everything that is refusal 31.

use crate::clock::Tick;
use crate::fields::Reader;
use crate::orders::Order;
use crate::plan::{Link, Plan, LINKS};
use crate::schedule::{Start, LONGEST_SCHEDULE, MOST_STARTS};

/// A file with the right fields, as they stand. The plan is not judged yet: n offsets are there for
/// any n.
pub(crate) struct Shape<'a> {
    pub plan: Plan,
    pub faulty_hosts: u8,
    pub faulty_links: u16,
    pub offsets: &'a [u8],
    pub end: Tick,
    pub started: usize,
    pub starts: [Start; MOST_STARTS],
    pub fates: Fates<'a>,
}

#[derive(Clone, Copy)]
pub(crate) struct Fate {
    pub start: u8,
    pub link: u8,
    pub direction: u8,
    pub delay: u8,
}

/// The fates one after another. They are not kept: a file has room for over a thousand, and at most
/// 384 are within the rules.
#[derive(Clone, Copy)]
pub(crate) struct Fates<'a>(Reader<'a>);

impl Iterator for Fates<'_> {
    type Item = Fate;

    fn next(&mut self) -> Option<Fate> {
        let [start, link, direction, delay] = self.0.array(22)?;
        Some(Fate {
            start,
            link,
            direction,
            delay,
        })
    }
}

/// None is 31.
pub(crate) fn read(bytes: &[u8]) -> Option<Shape<'_>> {
    if bytes.len() > LONGEST_SCHEDULE {
        return None;
    }
    let mut reader = Reader::new(bytes);
    let plan = read_plan(&mut reader)?;
    let [faulty_hosts, high, low] = reader.array(18)?;
    let offsets = reader.field(19)?;
    if offsets.len() != usize::from(plan.hosts) {
        return None;
    }
    let end = Tick(u64::from(u16::from_be_bytes(reader.array(20)?)));
    let (started, starts) = read_starts(&mut reader, plan.hosts)?;
    let fates = Fates(reader);
    fates_have_shape(reader, started, plan.links)?;
    Some(Shape {
        plan,
        faulty_hosts,
        faulty_links: u16::from_be_bytes([high, low]),
        offsets,
        end,
        started,
        starts,
        fates,
    })
}

fn read_plan(reader: &mut Reader) -> Option<Plan> {
    let [hosts, faulty_hosts, faulty_links, delay, skew] = reader.array(16)?;
    let mut ends = [Link::default(); LINKS];
    let mut links = 0;
    while let Some(value) = reader.field(17) {
        let [a, b] = value.try_into().ok()?;
        *ends.get_mut(usize::from(links))? = Link { a, b };
        links += 1;
    }
    Some(Plan {
        hosts,
        links,
        faulty_hosts,
        faulty_links,
        delay,
        skew,
        ends,
    })
}

fn read_starts(reader: &mut Reader, hosts: u8) -> Option<(usize, [Start; MOST_STARTS])> {
    let mut starts = [Start::UNUSED; MOST_STARTS];
    let mut started = 0;
    while let Some(value) = reader.field(21) {
        let [high, low, host, order @ ..] = value else {
            return None;
        };
        if *host >= hosts {
            return None;
        }
        *starts.get_mut(started)? = Start {
            tick: Tick(u64::from(u16::from_be_bytes([*high, *low]))),
            host: *host,
            order: Order::read(order)?,
        };
        started += 1;
    }
    Some((started, starts))
}

fn fates_have_shape(mut reader: Reader, started: usize, links: u8) -> Option<()> {
    while let Some(value) = reader.field(22) {
        let [start, link, direction, _] = *value else {
            return None;
        };
        if usize::from(start) >= started || link >= links || direction > 1 {
            return None;
        }
    }
    reader.is_at_end().then_some(())
}
