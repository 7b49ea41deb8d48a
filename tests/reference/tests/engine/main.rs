//! The reference's calls against answers worked out by hand.

mod bench;
mod channels;
mod collections;
mod listing;
mod meetings;
mod moves;
mod ports;
mod refusals;
mod runs;
mod seats;
mod sound;
mod threads;
