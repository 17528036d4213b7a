use crate::door;
use crate::refusal::{taken_apart, Result};

/// Bytes that are proved to be enough for the text of every replay.
pub const LONGEST_REPORT: usize = 20_480;

/// The replay program's text for a schedule. A refused file has its text too, `refused r`.
pub fn replay(schedule: &[u8]) -> String {
    let mut text = vec![0; LONGEST_REPORT];
    let length = replay_into(schedule, &mut text).expect("every report has room");
    text.truncate(length);
    String::from_utf8(text).expect("a report is plain letters")
}

/// The same into a lent buffer, with the text's length: refusal 22. Bytes behind the text stay as
/// they were.
pub fn replay_into(schedule: &[u8], out: &mut [u8]) -> Result<usize> {
    let length = taken_apart(door::replay(schedule, out))?;
    Ok(length as usize)
}
