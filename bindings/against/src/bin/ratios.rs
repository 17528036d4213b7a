//! The times of the proved calls beside those of the plain implementation, in one run.

use against::contests;

fn main() {
    println!("least time of a call, over batches in turn; a copy of the state where it is altered");
    println!(
        "{:<30} {:>12} {:>12} {:>7}",
        "", "ours, ns", "plain, ns", "ratio"
    );
    for mut contest in contests::all() {
        let least = contest.run();
        let ratio = least.ours / least.plain;
        println!(
            "{:<30} {:>12.1} {:>12.1} {ratio:>7.2}",
            contest.name, least.ours, least.plain
        );
    }
}
