//! One row's call so many times, on one side: what a counter of instructions runs. Two runs differ by the calls alone.

use against::contests;
use std::env;
use std::process::ExitCode;

fn main() -> ExitCode {
    let words: Vec<String> = env::args().skip(1).collect();
    let [row, side, times] = &words[..] else {
        eprintln!("usage: calls ROW ours|plain TIMES");
        return ExitCode::from(2);
    };
    let found = contests::all().into_iter().find(|contest| contest.name == row);
    let (Some(mut contest), Ok(times)) = (found, times.parse()) else {
        eprintln!("calls: no such row or number");
        return ExitCode::from(2);
    };
    match side.as_str() {
        "ours" => (contest.ours)(times),
        "plain" => (contest.plain)(times),
        _ => {
            eprintln!("calls: a side is ours or plain");
            return ExitCode::from(2);
        }
    }
    ExitCode::SUCCESS
}
