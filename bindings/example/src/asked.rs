//! What standard input asks for.

use currentloom::Order;
use std::io::BufRead;
use std::sync::mpsc::{channel, Receiver};
use std::thread;

#[derive(Clone, PartialEq, Eq, Debug)]
pub enum Asked {
    /// The ports of all hosts, in their order.
    Ports(Vec<u16>),
    /// The Unix time in milliseconds at which all clocks read 0.
    Zero(u64),
    Start(Order),
    /// Go dark after so many sends of the next start. For trying what a storm does.
    DarkAfter(usize),
}

pub fn parse(line: &str) -> Option<Asked> {
    let words: Vec<&str> = line.split_whitespace().collect();
    let image = |word: &str| word.parse().ok();
    Some(match words[..] {
        ["ports", ..] => {
            let ports: Result<_, _> = words[1..].iter().map(|word| word.parse()).collect();
            Asked::Ports(ports.ok()?)
        }
        ["zero", time] => Asked::Zero(time.parse().ok()?),
        ["dark", "after", sends] => Asked::DarkAfter(sends.parse().ok()?),
        ["publish", word, share] => Asked::Start(Order::Publish {
            image: image(word)?,
            share: share.parse().ok()?,
        }),
        ["halt", word] => Asked::Start(Order::Halt(image(word)?)),
        ["resume", word] => Asked::Start(Order::Resume(image(word)?)),
        ["withdraw", word] => Asked::Start(Order::Withdraw(image(word)?)),
        _ => return None,
    })
}

/// Reads on a thread of its own, so that no reading waits for a line. It hangs up at the end.
pub fn listen() -> Receiver<Asked> {
    let (to, from) = channel();
    thread::spawn(move || {
        for line in std::io::stdin().lock().lines().map_while(Result::ok) {
            let Some(asked) = parse(&line) else {
                eprintln!("not understood: {line}");
                continue;
            };
            if to.send(asked).is_err() {
                return;
            }
        }
    });
    from
}

#[cfg(test)]
mod tests {
    use super::*;

    #[test]
    fn lines() {
        let publish = Order::Publish {
            image: 7,
            share: 25,
        };
        assert_eq!(parse("publish 7 25"), Some(Asked::Start(publish)));
        assert_eq!(parse("halt 7"), Some(Asked::Start(Order::Halt(7))));
        assert_eq!(parse("ports 1 2"), Some(Asked::Ports(vec![1, 2])));
        assert_eq!(parse("dark after 1"), Some(Asked::DarkAfter(1)));
        for line in ["", "halt", "halt x", "publish 7", "ports 1 x", "dark 1"] {
            assert_eq!(parse(line), None, "{line}");
        }
    }
}
