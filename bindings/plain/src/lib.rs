//! The build paper's rules in plain Rust, from a reading of their own.
//!
//! Nothing here is shared with the proved crates. Differential tests set the two side by side, and
//! the bench takes this one as its baseline.
#![forbid(unsafe_code)]

mod board;
mod clock;
mod entry;
mod fields;
mod host;
mod message;
mod orders;
mod plan;
mod receive;
pub mod refusal;
mod replay;
mod run;
mod schedule;
mod shape;
mod sound;
mod start;
mod survivors;
mod text;
mod tick;

pub use board::{apply, Board, Place, Stand, IMAGES};
pub use clock::{Reading, Tick, LARGEST_READING, LARGEST_STAMP};
pub use entry::{read_entry, write_entry, ENTRY};
pub use host::{make, Held, Host, Sends, HISTORY, STARTS};
pub use message::{read as read_message, write as write_message, Message, Read, LONGEST_MESSAGE};
pub use orders::Order;
pub use plan::{bound, plan, window, Bounds, Link, Plan, Planned, FIRST, HOSTS, LINKS, SECOND};
pub use receive::receive;
pub use replay::{replay, report};
pub use run::{run, Delivery, Run};
pub use schedule::{read as read_schedule, Refused, Schedule, Start, LONGEST_SCHEDULE};
pub use sound::is_sound;
pub use start::start;
pub use tick::tick;
