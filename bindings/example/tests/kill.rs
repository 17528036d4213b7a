//! Four hosts in a ring, each a process. The source of a halt is killed halfway through its sends.

use std::io::{BufRead, BufReader, Write};
use std::process::{Child, ChildStdin, Command, Stdio};
use std::sync::mpsc::{channel, Receiver};
use std::thread;
use std::time::{Duration, SystemTime, UNIX_EPOCH};

const PLAN: &str = concat!(env!("CARGO_MANIFEST_DIR"), "/ring.plan");
/// π·δ + d·δ + ε with π 1, d 2, δ 30, ε 3.
const BOUND: u64 = 93;
/// Longer than anything here takes.
const PATIENCE: Duration = Duration::from_secs(20);

struct Process {
    child: Child,
    asks: ChildStdin,
    lines: Receiver<String>,
}

impl Process {
    fn begin(own: usize) -> Process {
        let mut child = Command::new(env!("CARGO_BIN_EXE_example"))
            .args([PLAN, &own.to_string()])
            .stdin(Stdio::piped())
            .stdout(Stdio::piped())
            .spawn()
            .unwrap();
        let output = BufReader::new(child.stdout.take().unwrap());
        let (to, lines) = channel();
        thread::spawn(move || {
            for line in output.lines().map_while(Result::ok) {
                let _ = to.send(line);
            }
        });
        let asks = child.stdin.take().unwrap();
        Process { child, asks, lines }
    }

    fn ask(&mut self, line: &str) {
        writeln!(self.asks, "{line}").unwrap();
    }

    fn line(&self) -> String {
        self.lines.recv_timeout(PATIENCE).expect("a line in time")
    }
}

impl Drop for Process {
    fn drop(&mut self) {
        let _ = self.child.kill();
        let _ = self.child.wait();
    }
}

/// All know each other's ports and when their clocks read 0.
fn ring() -> Vec<Process> {
    let mut ring: Vec<Process> = (0..4).map(Process::begin).collect();
    let port = |process: &Process| process.line().replace("port ", "");
    let ports: Vec<String> = ring.iter().map(port).collect();
    let now = SystemTime::now().duration_since(UNIX_EPOCH).unwrap();
    let zero = now.as_millis() + 1_000;
    for process in &mut ring {
        process.ask(&format!("ports {}", ports.join(" ")));
        process.ask(&format!("zero {zero}"));
    }
    ring
}

/// `at U stamp T from S order ..`, without the host that delivered.
fn deliveries(process: &Process, own: usize, count: usize) -> Vec<String> {
    let host = format!("host {own} ");
    let line = |_| process.line().strip_prefix(&host).unwrap().to_string();
    (0..count).map(line).collect()
}

/// Delivered at T + Δ, and it is that order of that source.
fn is_right(delivery: &str, from: &str) -> bool {
    let words: Vec<&str> = delivery.splitn(5, ' ').collect();
    let [_, at, _, stamp, rest] = words[..] else {
        return false;
    };
    at.parse::<u64>().unwrap() == stamp.parse::<u64>().unwrap() + BOUND && rest == from
}

/// A publish, a halt whose source is killed after so many of its two sends, and a withdraw. The
/// survivors' deliveries, once they are found to be the same.
fn killed_after(sends: usize, count: usize) -> Vec<String> {
    let mut ring = ring();
    ring[2].ask("publish 7 25");
    ring[0].ask(&format!("dark after {sends}"));
    ring[0].ask("halt 7");
    assert_eq!(ring[0].line(), "dark");
    ring[0].child.kill().unwrap();
    ring[3].ask("withdraw 7");
    let all: Vec<_> = (1..4)
        .map(|own| deliveries(&ring[own], own, count))
        .collect();
    assert_eq!(all[0], all[1]);
    assert_eq!(all[0], all[2]);
    // Once all is delivered nothing else is under way.
    thread::sleep(Duration::from_millis(200));
    for survivor in &ring[1..] {
        assert_eq!(survivor.lines.try_recv().ok(), None);
    }
    all[0].clone()
}

/// Host 3 never hears it from the source: it comes the long way round.
#[test]
fn a_source_killed_after_one_of_two_sends() {
    let delivered = killed_after(1, 3);
    for order in ["from 2 publish 7 25", "from 0 halt 7", "from 3 withdraw 7"] {
        let found = delivered.iter().any(|line| is_right(line, order));
        assert!(found, "{order} in {delivered:?}");
    }
}

/// Nobody hears it, and nobody delivers it.
#[test]
fn a_source_killed_before_its_sends() {
    let delivered = killed_after(0, 2);
    for order in ["from 2 publish 7 25", "from 3 withdraw 7"] {
        let found = delivered.iter().any(|line| is_right(line, order));
        assert!(found, "{order} in {delivered:?}");
    }
}
