//! Currentloom for services in Rust: hosts that carry the orders publish, halt, resume and withdraw
//! so that every faultless host delivers the same orders at the same clock reading, however a source
//! goes dark halfway.
//!
//! The calls are proved; this crate lends them memory and takes their answers apart. There are no
//! sockets and no clock inside: a host is told a clock reading and answers which links to send on.
//! The service has its duties: see the `example` beside this crate.
//!
//! Two of a triangle's hosts. Host 0 starts a halt at reading 5; host 1 gets its copy at reading 15
//! and relays it on its other link; both deliver at reading 5 + Δ.
//!
//! ```
//! use currentloom::{Host, Message, Order, Plan, Reading, Refusal, Rules};
//!
//! # fn main() -> currentloom::Result<()> {
//! let links = vec![(0, 1), (0, 2), (1, 2)];
//! let plan = Plan { hosts: 3, links, faulty_hosts: 1, faulty_links: 0, delay: 10, skew: 3 };
//! assert_eq!(plan.bounds()?.first.bound, 23);
//!
//! let mut source = Host::make(Rules::First, &plan, 0)?;
//! let mut other = Host::make(Rules::First, &plan, 1)?;
//! let sends = source.start(Reading(5), Order::Halt(7))?;
//! assert_eq!(sends.links().collect::<Vec<_>>(), [0, 1]);
//!
//! let copy = Message { stamp: Reading(5), source: 0, hop: sends.hop, order: Order::Halt(7) };
//! let relayed = other.receive(Reading(15), 0, &copy)?;
//! assert_eq!(relayed.links().collect::<Vec<_>>(), [2]);
//! assert_eq!(other.receive(Reading(15), 2, &copy), Err(Refusal::SameHeld));
//!
//! for host in [&mut source, &mut other] {
//!     assert_eq!(host.tick(Reading(27))?.len(), 0);
//!     let delivered = host.tick(Reading(28))?.next().unwrap();
//!     assert_eq!((delivered.stamp, delivered.order), (Reading(5), Order::Halt(7)));
//! }
//! # Ok(())
//! # }
//! ```
#![deny(unsafe_code)]

mod board;
mod clock;
pub mod door;
mod entries;
mod host;
pub mod memory;
mod message;
mod order;
mod plan;
mod refusal;
mod replay;

pub use board::{Board, Stand};
pub use clock::{Reading, LARGEST_READING, LARGEST_STAMP};
pub use entries::{Entries, Held, ENTRY};
pub use host::{Host, Sends};
pub use memory::Timing;
pub use message::{Message, Read, LONGEST_MESSAGE};
pub use order::Order;
pub use plan::{Bounds, Plan, Rules};
pub use refusal::{Refusal, Result};
pub use replay::{replay, replay_into, LONGEST_REPORT};
