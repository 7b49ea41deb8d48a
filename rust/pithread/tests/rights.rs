//! Rights as types and as bytes, and what a seat may do by them.

use pithread::header::{PORTS, RIGHTS_BYTES, SEATS, SEAT_NUMBERS};
use pithread::{raw, Bench, BenchRight, PortRight, Refusal, Rights, Seat, SeatRights};

const PORT_RIGHTS: [PortRight; 4] = [PortRight::Nothing, PortRight::Take, PortRight::Give, PortRight::Both];
const BENCH_RIGHTS: [BenchRight; 4] =
    [BenchRight::Nothing, BenchRight::Step, BenchRight::Collect, BenchRight::Both];

/// A list of zeros but for the number at this place.
fn only(place: usize, number: i32) -> [u8; RIGHTS_BYTES] {
    let mut bytes = [0; RIGHTS_BYTES];
    bytes[4 * place..4 * place + 4].copy_from_slice(&number.to_le_bytes());
    bytes
}

/// A bench whose one thread waits for a number at port 0.
fn bench() -> Bench {
    let path = format!("{}/../../examples/doubler.txt", env!("CARGO_MANIFEST_DIR"));
    let mut bench = Bench::load(&std::fs::read(path).expect("an example")).expect("it loads");
    bench.at(&Rights::FULL, Seat::ALL[0]).run(1).expect("the seat may run");
    bench
}

#[test]
fn each_right_stands_at_its_place() {
    for (number, seat) in Seat::ALL.into_iter().enumerate() {
        assert_eq!((seat.number() as usize, Seat::new(number as u32)), (number, Ok(seat)));
        for port in 0..PORTS {
            for (value, right) in (0..).zip(PORT_RIGHTS) {
                let mut rights = Rights::NONE;
                rights[seat].ports[port] = right;
                assert_eq!(rights.to_bytes(), only(number * SEAT_NUMBERS + port, value));
                assert_eq!(Rights::from_bytes(&rights.to_bytes()), Ok(rights));
            }
        }
        for (value, right) in (0..).zip(BENCH_RIGHTS) {
            let mut rights = Rights::NONE;
            rights[seat].bench = right;
            assert_eq!(rights.to_bytes(), only(number * SEAT_NUMBERS + 8, value));
            assert_eq!(Rights::from_bytes(&rights.to_bytes()), Ok(rights));
        }
    }
}

#[test]
fn all_rights_and_none() {
    let threes: Vec<u8> = (0..SEATS * SEAT_NUMBERS).flat_map(|_| 3_i32.to_le_bytes()).collect();
    assert_eq!(Rights::FULL.to_bytes()[..], threes);
    assert_eq!(Rights::NONE.to_bytes(), [0; RIGHTS_BYTES]);
    assert_eq!((Rights::default(), SeatRights::default()), (Rights::NONE, SeatRights::NONE));
    for seat in Seat::ALL {
        assert_eq!((Rights::FULL[seat], Rights::NONE[seat]), (SeatRights::FULL, SeatRights::NONE));
    }
}

#[test]
fn bytes_that_are_no_list() {
    for length in [0, 1, 284, 287, 289, 292, 576] {
        assert_eq!(Rights::from_bytes(&vec![255; length]), Err(Refusal::BufferLength), "{length} bytes");
    }
    for place in 0..SEATS * SEAT_NUMBERS {
        for number in [-1, 4, 256, 1 << 16, 1 << 24, i32::MIN, i32::MAX] {
            assert_eq!(Rights::from_bytes(&only(place, number)), Err(Refusal::Rights), "{place} is {number}");
        }
    }
    for number in [8, 9, 255, 256, 1 << 31, u32::MAX] {
        assert_eq!(Seat::new(number), Err(Refusal::Seat));
    }
}

/// A seat that has one right alone: for every other call it gets the same refusal, and the bench stays.
#[test]
fn one_right_alone() {
    type Attempt = fn(&mut Bench, &Rights, Seat) -> Result<(), Refusal>;
    let attempts: [Attempt; 5] = [
        |bench, rights, seat| bench.at(rights, seat).step(0).map(drop),
        |bench, rights, seat| bench.at(rights, seat).run(9).map(drop),
        |bench, rights, seat| bench.at(rights, seat).collect().map(drop),
        |bench, rights, seat| bench.at(rights, seat).give(0, 4).map(drop),
        |bench, rights, seat| bench.at(rights, seat).take(0).map(drop),
    ];
    let own = [
        SeatRights { bench: BenchRight::Step, ..SeatRights::NONE },
        SeatRights { bench: BenchRight::Step, ..SeatRights::NONE },
        SeatRights { bench: BenchRight::Collect, ..SeatRights::NONE },
        SeatRights { ports: [PortRight::Give; PORTS], ..SeatRights::NONE },
        SeatRights { ports: [PortRight::Take; PORTS], ..SeatRights::NONE },
    ];
    for seat in Seat::ALL {
        for (tried, attempt) in attempts.iter().enumerate() {
            for granted in own {
                let (mut rights, mut bench) = (Rights::NONE, bench());
                rights[seat] = granted;
                let before = bench.clone();
                let due = match (granted == own[tried], tried) {
                    (false, _) => Err(Refusal::Seat),
                    (true, 0) => Err(Refusal::Thread), // it waits
                    (true, _) => Ok(()),
                };
                assert_eq!(attempt(&mut bench, &rights, seat), due, "call {tried} by {granted:?}");
                assert!(due.is_ok() || bench == before);
            }
        }
    }
}

/// What one seat may do is nothing to another, and each call may name other rights.
#[test]
fn seats_take_turns() {
    let [leader, trainee, ..] = Seat::ALL;
    let mut rights = Rights::NONE;
    rights[leader] = SeatRights::FULL;
    rights[trainee].ports[1] = PortRight::Take;
    let mut bench = bench();
    assert_eq!(bench.at(&rights, trainee).give(0, 4), Err(Refusal::Seat));
    assert_eq!(bench.at(&rights, leader).give(0, 4), Ok(Some(0)));
    assert_eq!(bench.at(&rights, trainee).run(9), Err(Refusal::Seat));
    assert_eq!(bench.at(&rights, leader).run(9).map(|ran| ran.steps), Ok(3));
    assert_eq!(bench.at(&Rights::NONE, trainee).take(1), Err(Refusal::Seat));
    let taken = bench.at(&rights, trainee).take(1).expect("the seat may take");
    assert_eq!(taken.map(|taken| taken.number), Some(8));
}

/// Ports that the file has not are told apart from others only where the seat has the right, and above 7 no seat
/// has one.
#[test]
fn ports_that_there_are_not() {
    let (mut bench, seat) = (bench(), Seat::ALL[3]);
    for port in 2..8 {
        assert_eq!(bench.at(&Rights::NONE, seat).give(port, 1), Err(Refusal::Seat));
        assert_eq!(bench.at(&Rights::FULL, seat).give(port, 1), Err(Refusal::Port));
        assert_eq!(bench.at(&Rights::FULL, seat).take(port), Err(Refusal::Port));
    }
    for port in [8, 9, u32::MAX] {
        assert_eq!(bench.at(&Rights::FULL, seat).give(port, 1), Err(Refusal::Seat));
        assert_eq!(bench.at(&Rights::FULL, seat).take(port), Err(Refusal::Seat));
    }
}

/// A kept state is judged whatever rights anybody has, and a seat without the right learns nothing of it.
#[test]
fn a_state_is_judged_behind_the_rights() {
    let bench = bench();
    let table = bench.table();
    assert_eq!(Bench::resume(table.clone(), &[7; 6_156]), Err(Refusal::State));
    let refusal = |state: &mut [u8], rights: Rights| {
        raw::collect(table.as_bytes(), state, &rights.to_bytes(), 2).refusal
    };
    let mut sound = *bench.state().as_bytes();
    let mut damaged = [7; 6_156];
    assert_eq!((refusal(&mut sound, Rights::NONE), refusal(&mut damaged, Rights::NONE)), (19, 19));
    assert_eq!((refusal(&mut sound, Rights::FULL), refusal(&mut damaged, Rights::FULL)), (0, 10));
}
