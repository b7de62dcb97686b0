//! A setpoint network for boiler-house panels, written a second time and on its own from the
//! description and from Figure 1 of the report (arXiv 1602.02695).
//!
//! Below: `wire` and `panel`. Above them: `network`. On top: `schedule` and `listing`. Beside them, for
//! comparing programs: `tables` (tables as bytes), `random` and the two generators; `hex`, for
//! schedules written by hand; and `program`, for the two programs.

pub mod generate_schedules;
pub mod generate_tables;
pub mod hex;
pub mod listing;
pub mod network;
pub mod panel;
pub mod program;
pub mod random;
pub mod refusal;
pub mod schedule;
pub mod tables;
pub mod wire;

/// The description, "Parts of the build": n is 1 to 7.
const PANELS: usize = 7;
/// At most 200 writes a run.
pub const WRITES: usize = 200;
/// At most 100 reads a panel; also the entries of a line, and the READs or PROCEEDs of a channel.
pub const READS: usize = 100;
/// The messages a lent message area has to hold.
const AREA: usize = 107;
