use crate::clock::{Reading, LARGEST_STAMP};
use crate::host::{Held, Host};
use crate::plan::{bound, Link, Plan, FIRST, SECOND};

/// "Sound means": each part of that sentence, and no more. Neither the true d nor the last
/// reading's own range is asked.
pub fn is_sound(host: &Host) -> bool {
    (host.rules == FIRST || host.rules == SECOND)
        && plan_is_sound(&host.plan)
        && host.own < host.plan.hosts
        && (1..=7).contains(&host.d)
        && host.bound == bound(host.rules, &host.plan, host.d)
        && starts_are_sound(host)
        && history_is_sound(host)
}

fn plan_is_sound(plan: &Plan) -> bool {
    plan.numbers_fit()
        && plan.links_fit()
        && plan.ends[usize::from(plan.links)..]
            .iter()
            .all(|link| *link == Link::default())
}

fn starts_are_sound(host: &Host) -> bool {
    let Some((starts, unused)) = host.starts.split_at_checked(host.started) else {
        return false;
    };
    starts.windows(2).all(|pair| pair[0] < pair[1])
        && starts.last().is_none_or(|start| *start <= host.last)
        && unused.iter().all(|start| *start == Reading(0))
}

fn history_is_sound(host: &Host) -> bool {
    let Some((history, unused)) = host.history.split_at_checked(host.held) else {
        return false;
    };
    let last_start = host.starts[..host.started].last();
    // Stamp and source as one number: both are in range by then, and a source has three bits.
    let mut least = 0;
    for held in history {
        if held.stamp > LARGEST_STAMP || held.source >= host.plan.hosts || !held.order.is_in_range()
        {
            return false;
        }
        let name = held.stamp.0 << 3 | u64::from(held.source);
        if name < least {
            return false;
        }
        least = name + 1;
        if held.source == host.own && last_start.is_none_or(|start| held.stamp > *start) {
            return false;
        }
    }
    unused.iter().all(|held| *held == Held::UNUSED)
}
