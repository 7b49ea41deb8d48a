//! Who may do what: the length of a list of rights, and grounds 18 and 19.

use interface::{PORTS, RIGHTS, RIGHTS_BYTES, SEAT, SEATS, SEAT_NUMBERS};

use super::Ground;

/// What a call does, as far as rights go. A run is steps.
#[derive(Clone, Copy)]
pub enum Deed {
    Take { port: u32 },
    Give { port: u32 },
    Step,
    Collect,
}

/// What a seat asks for, and the list that says whether it may.
#[derive(Clone, Copy)]
pub struct Request<'a> {
    pub rights: &'a [u8],
    pub seat: u32,
    pub deed: Deed,
}

impl Request<'_> {
    pub fn has_right_length(&self) -> bool {
        self.rights.len() == RIGHTS_BYTES
    }

    /// Grounds 18 and 19, of a list of the right length.
    pub fn judge(&self) -> Result<(), Ground> {
        let seats = seats_of(self.rights).ok_or(RIGHTS)?;
        let seat = seats.get(self.seat as usize).ok_or(SEAT)?;
        match seat.may(self.deed) {
            true => Ok(()),
            false => Err(SEAT),
        }
    }
}

/// What one seat may do.
#[derive(Clone, Copy, Default)]
struct Seat {
    takes: [bool; PORTS],
    gives: [bool; PORTS],
    steps: bool,
    collects: bool,
}

impl Seat {
    fn may(&self, deed: Deed) -> bool {
        let on = |ports: &[bool], port: u32| ports.get(port as usize).copied().unwrap_or(false);
        match deed {
            Deed::Take { port } => on(&self.takes, port),
            Deed::Give { port } => on(&self.gives, port),
            Deed::Step => self.steps,
            Deed::Collect => self.collects,
        }
    }
}

/// All seats of a list; nothing if any number in it is none of the four.
fn seats_of(rights: &[u8]) -> Option<[Seat; SEATS]> {
    let mut seats = [Seat::default(); SEATS];
    let (words, _) = rights.as_chunks::<4>();
    for (seat, words) in seats.iter_mut().zip(words.as_chunks::<SEAT_NUMBERS>().0) {
        let [ports @ .., bench] = words;
        for (port, word) in ports.iter().enumerate() {
            [seat.takes[port], seat.gives[port]] = two_rights(*word)?;
        }
        [seat.steps, seat.collects] = two_rights(*bench)?;
    }
    Some(seats)
}

/// A number of the list: whether it has the first of two rights, and the second.
fn two_rights(word: [u8; 4]) -> Option<[bool; 2]> {
    match i32::from_le_bytes(word) {
        0 => Some([false, false]),
        1 => Some([true, false]),
        2 => Some([false, true]),
        3 => Some([true, true]),
        _ => None,
    }
}
