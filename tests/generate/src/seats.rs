//! Lists of rights and seats: right ones, ones that lack a right, and ones with faults.

use interface::{
    Call, Seated, BENCH_RIGHT, BOTH_RIGHTS, FULL_RIGHTS, MAY_COLLECT, MAY_GIVE, MAY_STEP, MAY_TAKE, PORTS,
    RIGHTS_BYTES, SEATS, SEAT_NUMBERS,
};

use crate::random::Random;

/// Numbers of a list of rights.
pub const RIGHTS_NUMBERS: usize = SEATS * SEAT_NUMBERS;

/// The numbers of a list of rights.
pub type Rights = [i32; RIGHTS_NUMBERS];

/// The list in which every seat has this right on every port and on the bench as a whole.
pub const fn same_rights(right: i32) -> Rights {
    [right; RIGHTS_NUMBERS]
}

/// The list of these numbers as bytes, the lowest of each first.
pub fn rights_bytes(numbers: &[i32]) -> Vec<u8> {
    numbers.iter().flat_map(|number| number.to_le_bytes()).collect()
}

/// Who makes a call: a list of rights, and a seat. Both may be wrong.
#[derive(Clone)]
pub struct Caller {
    pub rights: Vec<u8>,
    pub seat: u32,
}

impl Caller {
    pub fn new(numbers: &Rights, seat: u32) -> Caller {
        Caller { rights: rights_bytes(numbers), seat }
    }

    pub fn makes(&self, call: Call) -> Seated<'_> {
        call.by(&self.rights, self.seat)
    }
}

/// The right that a call needs: its place among the numbers of the seat, and the number that says it and nothing
/// else. A start needs none, and there is none on a port above 7.
pub fn right_to(call: Call) -> Option<(usize, i32)> {
    let on_port = |port: u32, right| ((port as usize) < PORTS).then_some((port as usize, right));
    match call {
        Call::Start => None,
        Call::Step { .. } | Call::Run { .. } => Some((BENCH_RIGHT, MAY_STEP)),
        Call::Collect => Some((BENCH_RIGHT, MAY_COLLECT)),
        Call::Give { port, .. } => on_port(port, MAY_GIVE),
        Call::Take { port } => on_port(port, MAY_TAKE),
    }
}

/// A seat whose numbers would begin at this place, if nine times the seat is taken in 32 bits. Only for the
/// multiples of nine it is one that there is.
pub fn wrapped_seat(place: usize) -> u32 {
    const ONE_NINTH: u32 = 954_437_177;
    const { assert!(ONE_NINTH.wrapping_mul(9) == 1) }
    ONE_NINTH.wrapping_mul(place as u32)
}

/// Mostly somebody who has the right to the call; else the right is lacking, or the seat or the list is wrong.
pub fn any_caller(random: &mut Random, call: Call) -> Caller {
    match random.below(100) {
        0..40 => Caller { rights: FULL_RIGHTS.to_vec(), seat: any_seat(random) },
        40..88 => entitled_caller(random, call),
        88..92 => lacking_caller(random, call),
        92..95 => Caller { seat: no_seat(random), ..entitled_caller(random, call) },
        95..98 => damaged_caller(random, call),
        _ => {
            let mut caller = entitled_caller(random, call);
            let lengths = [0, 1, 36, RIGHTS_BYTES - 4, RIGHTS_BYTES - 1, RIGHTS_BYTES + 1, RIGHTS_BYTES + 4];
            caller.rights.resize(random.pick(&lengths), 0);
            caller
        }
    }
}

/// A seat that has the right to the call, if there is such a right, by a list of any numbers from 0 to 3.
pub fn entitled_caller(random: &mut Random, call: Call) -> Caller {
    with_number(random, call, |number, right| number | right)
}

/// A seat that has not the right to the call, by such a list.
pub fn lacking_caller(random: &mut Random, call: Call) -> Caller {
    with_number(random, call, |number, right| number & !right)
}

/// Some seat by some list, with the number that says whether it may make the call put right.
fn with_number(random: &mut Random, call: Call, put: impl FnOnce(i32, i32) -> i32) -> Caller {
    let (mut numbers, seat) = (any_rights(random), any_seat(random));
    if let Some((place, right)) = right_to(call) {
        let number = &mut numbers[seat as usize * SEAT_NUMBERS + place];
        *number = put(*number, right);
    }
    Caller::new(&numbers, seat)
}

/// A list of rights that may be anything right: all of it, nothing, or any numbers.
fn any_rights(random: &mut Random) -> Rights {
    match random.below(6) {
        0 => same_rights(0),
        1 => same_rights(BOTH_RIGHTS),
        _ => std::array::from_fn(|_| random.below(4) as i32),
    }
}

/// A list with one number or two outside 0 to 3, anywhere.
fn damaged_caller(random: &mut Random, call: Call) -> Caller {
    let mut caller = entitled_caller(random, call);
    for _ in 0..random.within(1..=2) {
        let bit = 1 << random.within(2..=30);
        let number = random.pick(&[-1, 4, bit, i32::MIN, i32::MAX]);
        let place = 4 * random.below(RIGHTS_NUMBERS);
        caller.rights[place..place + 4].copy_from_slice(&number.to_le_bytes());
    }
    caller
}

fn any_seat(random: &mut Random) -> u32 {
    random.below(SEATS) as u32
}

/// A seat that there is not: just beyond the last, right in its lower bits, or one that nine times in 32 bits is
/// a place of the list.
fn no_seat(random: &mut Random) -> u32 {
    let in_lower_bits = any_seat(random) | 1 << random.within(3..=31);
    let wrapped = wrapped_seat(SEAT_NUMBERS * random.below(SEATS) + random.within(1..=SEAT_NUMBERS - 1));
    random.pick(&[SEATS as u32, SEATS as u32 + 1, in_lower_bits, in_lower_bits, wrapped, wrapped, u32::MAX])
}
