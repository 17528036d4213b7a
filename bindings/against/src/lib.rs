//! The proved calls against the plain implementation. After each call the answer, every byte of the
//! memory and every byte of each lent buffer must be the same.

pub mod boards;
pub mod contests;
pub mod damage;
pub mod dice;
pub mod hosts;
pub mod incidents;
pub mod messages;
pub mod networks;
pub mod orders;
pub mod plainly;
pub mod plans;
pub mod records;
pub mod schedules;
pub mod sound;
pub mod states;
pub mod tally;
pub mod times;
pub mod trial;
