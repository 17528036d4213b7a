//! The service's duties: what demand 3 takes for granted of those who call a host.

use crate::asked::Asked;
use crate::clock::Clock;
use crate::lines::{Arrived, Lines};
use currentloom::{Host, Message, Order, Plan, Reading, Result, Sends};
use std::process::abort;
use std::sync::mpsc::{Receiver, TryRecvError};
use std::thread::sleep;
use std::time::Duration;

pub struct Server {
    pub host: Host,
    pub plan: Plan,
    pub clock: Clock,
    pub lines: Lines,
    pub asked: Receiver<Asked>,
    /// What came in during a reading. The host gets it at the next one.
    pub arrived: Vec<Arrived>,
    pub dark_after: Option<usize>,
}

impl Server {
    /// Serves until standard input ends.
    pub fn run(&mut self) -> Result<()> {
        let mut next = Reading(0);
        loop {
            self.listen_until(next);
            let now = self.clock.reading().max(next);
            // "Each host is ticked first at every reading": once at each, in their order, before
            // anything else at it, also at those that passed while this process was held up.
            while next <= now {
                self.tick(next)?;
                next = Reading(next.0 + 1);
            }
            for arrived in std::mem::take(&mut self.arrived) {
                self.receive(now, &arrived);
            }
            if !self.take_order(now) {
                return Ok(());
            }
        }
    }

    /// Copies wait here until the next reading begins: "a copy not lost takes between 1 tick and the
    /// planned delay", and a loopback is faster than a tick.
    fn listen_until(&mut self, next: Reading) {
        loop {
            let time = self.clock.until(next);
            if time.is_zero() {
                return;
            }
            self.arrived.extend(self.lines.wait(time));
        }
    }

    /// "With room lent for all that is due": the wrapper lends room for a whole history.
    fn tick(&mut self, at: Reading) -> Result<()> {
        for held in self.host.tick(at)? {
            let (own, stamp) = (self.host.own(), held.stamp.0);
            let (source, order) = (held.source, held.order);
            println!("host {own} at {} stamp {stamp} from {source} {order}", at.0);
        }
        Ok(())
    }

    /// Most refusals are 19: the order is held already, and is not relayed again.
    fn receive(&mut self, now: Reading, arrived: &Arrived) {
        // Under the first rules a lost copy is a fault within the plan, and a late one is not. So one
        // that is late for certain, whatever the clocks, counts as lost.
        let latest = u64::from(self.plan.delay) + u64::from(self.plan.skew) - 1;
        if now.0 > arrived.sent_at.0.saturating_add(latest) {
            return;
        }
        if let Ok(sends) = self.host.receive(now, arrived.link, &arrived.copy) {
            let hop = sends.hop;
            self.send(
                now,
                sends,
                &Message {
                    hop,
                    ..arrived.copy
                },
                None,
            );
        }
    }

    /// One order a reading, since a second start at it would be refused 12. False at the end of
    /// standard input.
    fn take_order(&mut self, now: Reading) -> bool {
        match self.asked.try_recv() {
            Ok(Asked::Start(order)) => self.start(now, order),
            Ok(Asked::DarkAfter(sends)) => self.dark_after = Some(sends),
            Ok(asked) => eprintln!("too late for {asked:?}"),
            Err(TryRecvError::Empty) => {}
            Err(TryRecvError::Disconnected) => return false,
        }
        true
    }

    fn start(&mut self, now: Reading, order: Order) {
        match self.host.start(now, order) {
            Ok(sends) => {
                let (stamp, source, hop) = (now, self.host.own(), sends.hop);
                let copy = Message {
                    stamp,
                    source,
                    hop,
                    order,
                };
                self.send(now, sends, &copy, self.dark_after);
            }
            Err(refusal) => eprintln!("{order}: {refusal}"),
        }
    }

    /// A copy on each link that the answer names, at once. If this process is held up on the way, it
    /// does not send late: the copies left are lost, and this host is a faulty one.
    fn send(&self, at: Reading, sends: Sends, copy: &Message, dark_after: Option<usize>) {
        for (sent, link) in sends.links().enumerate() {
            if dark_after == Some(sent) {
                go_dark();
            }
            let spent = self.clock.reading().0.saturating_sub(at.0);
            if spent > u64::from(self.plan.delay) / 2 {
                eprintln!("held up for {spent} ticks: not sent");
                return;
            }
            self.lines.send(link, at, copy);
        }
    }
}

/// Halfway through its sends: no tick, no copy, no word any more. It waits to be killed, and ends by
/// itself if nobody does.
fn go_dark() -> ! {
    println!("dark");
    sleep(Duration::from_secs(30));
    abort()
}
