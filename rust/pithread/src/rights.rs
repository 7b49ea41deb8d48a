//! What the seats of a bench may do.

use std::ops::{Index, IndexMut};

use pithread_header::{
    BENCH_RIGHT, BOTH_RIGHTS, MAY_COLLECT, MAY_GIVE, MAY_STEP, MAY_TAKE, NO_RIGHT, PORTS, RIGHTS_BYTES,
    SEATS, SEAT_NUMBERS,
};

use crate::Refusal;

/// One of the eight seats of a bench.
///
/// ```
/// use pithread::{Refusal, Seat};
///
/// let [leader, trainee, ..] = Seat::ALL;
/// assert_eq!((leader.number(), trainee.number()), (0, 1));
/// assert_eq!(Seat::new(7), Ok(Seat::ALL[7]));
/// assert_eq!(Seat::new(8), Err(Refusal::Seat));
/// ```
#[derive(Clone, Copy, Debug, PartialEq, Eq, PartialOrd, Ord, Hash)]
pub struct Seat(u8);

impl Seat {
    /// All seats, in the order of their numbers.
    pub const ALL: [Seat; SEATS] = [Seat(0), Seat(1), Seat(2), Seat(3), Seat(4), Seat(5), Seat(6), Seat(7)];

    /// The seat of this number. Refused with ground 19 above 7.
    pub fn new(number: u32) -> Result<Seat, Refusal> {
        Seat::ALL.get(number as usize).copied().ok_or(Refusal::Seat)
    }

    /// Its number, from 0 to 7.
    pub fn number(self) -> u32 {
        u32::from(self.0)
    }
}

/// What a seat may do on a port.
#[repr(i32)]
#[derive(Clone, Copy, Debug, Default, PartialEq, Eq, Hash)]
pub enum PortRight {
    /// Nothing.
    #[default]
    Nothing = NO_RIGHT,
    /// Take.
    Take = MAY_TAKE,
    /// Give.
    Give = MAY_GIVE,
    /// Take and give.
    Both = BOTH_RIGHTS,
}

/// What a seat may do on the bench as a whole.
#[repr(i32)]
#[derive(Clone, Copy, Debug, Default, PartialEq, Eq, Hash)]
pub enum BenchRight {
    /// Nothing.
    #[default]
    Nothing = NO_RIGHT,
    /// Step and run.
    Step = MAY_STEP,
    /// Collect.
    Collect = MAY_COLLECT,
    /// Step, run and collect.
    Both = BOTH_RIGHTS,
}

const PORT_RIGHTS: [PortRight; 4] = [PortRight::Nothing, PortRight::Take, PortRight::Give, PortRight::Both];
const BENCH_RIGHTS: [BenchRight; 4] =
    [BenchRight::Nothing, BenchRight::Step, BenchRight::Collect, BenchRight::Both];

/// What one seat may do.
#[derive(Clone, Copy, Debug, Default, PartialEq, Eq, Hash)]
pub struct SeatRights {
    /// On each port. There is no right on any other.
    pub ports: [PortRight; PORTS],
    /// On the bench as a whole.
    pub bench: BenchRight,
}

impl SeatRights {
    /// No right.
    pub const NONE: SeatRights =
        SeatRights { ports: [PortRight::Nothing; PORTS], bench: BenchRight::Nothing };
    /// Every right.
    pub const FULL: SeatRights = SeatRights { ports: [PortRight::Both; PORTS], bench: BenchRight::Both };

    /// The nine numbers of the seat in a list.
    fn numbers(self) -> [i32; SEAT_NUMBERS] {
        let mut numbers = [self.bench as i32; SEAT_NUMBERS];
        numbers[..PORTS].copy_from_slice(&self.ports.map(|right| right as i32));
        numbers
    }

    /// The rights behind nine numbers; nothing if one of them is outside 0 to 3.
    fn from_numbers(numbers: [i32; SEAT_NUMBERS]) -> Option<SeatRights> {
        let mut rights = SeatRights::NONE;
        for (right, number) in rights.ports.iter_mut().zip(numbers) {
            *right = PORT_RIGHTS.into_iter().find(|right| *right as i32 == number)?;
        }
        let number = numbers[BENCH_RIGHT];
        rights.bench = BENCH_RIGHTS.into_iter().find(|right| *right as i32 == number)?;
        Some(rights)
    }
}

/// What each seat may do: a list of rights, which is always a right one.
///
/// ```
/// use pithread::{BenchRight, PortRight, Rights, Seat, SeatRights};
///
/// let [leader, trainee, ..] = Seat::ALL;
/// let mut rights = Rights::NONE;
/// rights[leader] = SeatRights::FULL;
/// rights[trainee].ports[1] = PortRight::Take;
/// rights[trainee].bench = BenchRight::Step;
///
/// let kept = rights.to_bytes();
/// assert_eq!(Rights::from_bytes(&kept), Ok(rights));
/// ```
#[derive(Clone, Copy, Debug, Default, PartialEq, Eq, Hash)]
pub struct Rights {
    seats: [SeatRights; SEATS],
}

impl Rights {
    /// No seat has any right.
    pub const NONE: Rights = Rights { seats: [SeatRights::NONE; SEATS] };
    /// Every seat has every right.
    pub const FULL: Rights = Rights { seats: [SeatRights::FULL; SEATS] };

    /// The list as the calls take it: nine numbers for each seat, each as four bytes, the lowest first.
    pub fn to_bytes(&self) -> [u8; RIGHTS_BYTES] {
        let mut bytes = [0; RIGHTS_BYTES];
        let numbers = self.seats.iter().flat_map(|seat| seat.numbers());
        for (word, number) in bytes.as_chunks_mut().0.iter_mut().zip(numbers) {
            *word = number.to_le_bytes();
        }
        bytes
    }

    /// A list that was kept as bytes. Refused with ground 8 for another length and with ground 18 if one of its
    /// numbers is outside 0 to 3.
    ///
    /// ```
    /// use pithread::{Refusal, Rights};
    ///
    /// assert_eq!(Rights::from_bytes(&[0; 288]), Ok(Rights::NONE));
    /// assert_eq!(Rights::from_bytes(&[0; 284]), Err(Refusal::BufferLength));
    /// assert_eq!(Rights::from_bytes(&[255; 288]), Err(Refusal::Rights)); // each number is -1
    /// ```
    pub fn from_bytes(bytes: &[u8]) -> Result<Rights, Refusal> {
        let bytes: &[u8; RIGHTS_BYTES] = bytes.try_into().map_err(|_| Refusal::BufferLength)?;
        let (words, _) = bytes.as_chunks();
        let mut rights = Rights::NONE;
        for (seat, words) in rights.seats.iter_mut().zip(words.as_chunks::<SEAT_NUMBERS>().0) {
            let numbers = words.map(i32::from_le_bytes);
            *seat = SeatRights::from_numbers(numbers).ok_or(Refusal::Rights)?;
        }
        Ok(rights)
    }
}

impl Index<Seat> for Rights {
    type Output = SeatRights;

    fn index(&self, seat: Seat) -> &SeatRights {
        &self.seats[usize::from(seat.0)]
    }
}

impl IndexMut<Seat> for Rights {
    fn index_mut(&mut self, seat: Seat) -> &mut SeatRights {
        &mut self.seats[usize::from(seat.0)]
    }
}
