//! A plan as text: one line for each number, one for the links.

use currentloom::Plan;
use std::time::Duration;

pub struct Service {
    pub plan: Plan,
    /// How long a tick is.
    pub tick: Duration,
}

/// Only the words are judged here. Numbers are judged by planning.
pub fn read(text: &str) -> Result<Service, String> {
    let plan = Plan {
        hosts: number(text, "hosts")?,
        links: links(text)?,
        faulty_hosts: number(text, "faulty-hosts")?,
        faulty_links: number(text, "faulty-links")?,
        delay: number(text, "delay")?,
        skew: number(text, "skew")?,
    };
    let tick = Duration::from_millis(number::<u64>(text, "tick")?.max(1));
    Ok(Service { plan, tick })
}

/// What follows the word on its line.
fn value<'a>(text: &'a str, word: &str) -> Result<&'a str, String> {
    let of_line = |line: &'a str| line.split_once(' ').filter(|(first, _)| *first == word);
    let found = text.lines().find_map(of_line);
    found
        .map(|(_, value)| value.trim())
        .ok_or(format!("the plan has no line '{word}'"))
}

fn number<N: std::str::FromStr>(text: &str, word: &str) -> Result<N, String> {
    let bad = |_| format!("the plan's '{word}' is not a number");
    value(text, word)?.parse().map_err(bad)
}

fn links(text: &str) -> Result<Vec<(u8, u8)>, String> {
    let link = |word: &str| {
        let (a, b) = word.split_once('-')?;
        Some((a.parse().ok()?, b.parse().ok()?))
    };
    let all: Option<_> = value(text, "links")?.split_whitespace().map(link).collect();
    all.ok_or("the plan's links are pairs such as 0-1".to_string())
}

#[cfg(test)]
mod tests {
    use super::*;

    #[test]
    fn the_ring() {
        let service = read(include_str!("../ring.plan")).unwrap();
        assert_eq!(service.plan.links, [(0, 1), (0, 3), (1, 2), (2, 3)]);
        assert_eq!(service.plan.bounds().unwrap().first.bound, 93);
        assert_eq!(service.tick, Duration::from_millis(20));
    }

    #[test]
    fn what_is_no_plan() {
        assert!(read("").is_err());
        let ring = include_str!("../ring.plan");
        assert!(read(&ring.replace("skew 3", "skew three")).is_err());
        assert!(read(&ring.replace("0-1", "0+1")).is_err());
    }
}
