//! What the comparison and the benchmark share: the static libraries `desk` and `timed`, the kinds of events, the histories
//! that try the player, and those that time it.

pub mod desk;
pub mod event_kinds;
pub mod histories;
pub mod random;
pub mod scaling;
pub mod timed;
