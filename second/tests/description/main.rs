//! Tests of the second program. Each quotes the sentence of the description that it is from; what is
//! expected is read off the description or worked out by hand, never taken from the program.

mod both_sides;
mod by_hand;
mod clauses;
mod common;
mod errors_to_expect;
mod events;
mod form;
mod generators;
mod listing;
mod network_refusals;
mod panel_refusals;
mod program;
#[path = "../running/mod.rs"]
mod running;
mod runs;
mod schedule;
mod send_refusals;
mod steps;
mod tables;
mod wire;
