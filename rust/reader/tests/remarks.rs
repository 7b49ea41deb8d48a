//! What loads and is likely not meant.

use std::fs;
use std::path::Path;

use generate::{profiled, Random, LIVELY};
use pithread::{Act, Bench, Rights, Seat, Status, Table};
use reader::{lengthen, remarks, Layout, Place, Remark, RemarkKind};

fn remarks_of(short: &str) -> Vec<Remark> {
    let file = lengthen(short.as_bytes()).unwrap_or_else(|slip| panic!("{slip}")).text();
    remarks(&Table::load(&file).unwrap_or_else(|refusal| panic!("{short}: {refusal}")))
}

/// The lines with what is said of each.
fn said(short: &str) -> Vec<(usize, String)> {
    remarks_of(short).iter().map(|remark| (remark.line, remark.kind.to_string())).collect()
}

/// A choice of these branches over two number slots that are set to 3 and 7 before, then an end.
fn choice(branches: &[&str]) -> String {
    let lines: String = branches.iter().map(|branch| format!("6 {branch}  3\n")).collect();
    let count = branches.len();
    format!("3 0 2 4\n4 0\n4 0\n5 1 1\n5 1 1\n5 1 {count}\n5 0\n6  0 0 0  5 0 3 0  1\n6  0 0 0  5 1 7 0  2\n{lines}")
}

#[test]
fn a_branch_behind_one_that_always_goes_ahead() {
    let behind = |line, ahead| {
        (line, format!("the branch is never tried, since the one in line {ahead} always goes ahead"))
    };
    let first_line = 11;
    for ahead in ["0 0 0  0 0 0 0", "0 0 0  5 1 1 0", "3 1 1  0 0 0 0"] {
        let short = choice(&["1 0 3  0 0 0 0", ahead, "1 0 3  0 0 0 0", "0 0 0  0 0 0 0"]);
        assert_eq!(
            said(&short),
            [behind(first_line + 2, first_line + 1), behind(first_line + 3, first_line + 1)]
        );
    }
    // A sum may not fit, and a guard may be false.
    assert_eq!(said(&choice(&["0 0 0  6 1 0 0", "1 0 3  0 0 0 0", "0 0 0  0 0 0 0"])), []);
}

#[test]
fn a_guard_that_can_never_be_true() {
    let never = |guard: &str| vec![(11, format!("the guard can never be true: {guard}"))];
    let of = |guard: &str| said(&choice(&[&format!("{guard}  0 0 0 0"), "0 0 0  0 0 0 0"]));
    assert_eq!(of("1 0 4"), never("if slot 0 is 4"));
    assert_eq!(of("2 0 3"), never("if slot 0 is below 3"));
    assert_eq!(of("3 0 1"), never("if slot 0 and slot 1 have the same number"));
    assert_eq!(of("4 1 0"), never("if slot 1 is below slot 0"));
    assert_eq!(of("4 0 0"), never("if slot 0 is below slot 0"));
    for guard in ["1 0 3", "2 0 4", "4 0 1"] {
        assert_eq!(of(guard), [], "{guard}");
    }
    // The slot is written by something else as well.
    assert_eq!(said(&choice(&["1 0 4  0 0 0 0", "0 0 0  6 0 0 1"])), []);
}

/// The second answer goes to port 0, since the second argument was forgotten.
#[test]
fn an_argument_given_twice() {
    let short = "2 0\n3 2 2 1\n3 2 3 3\n4 1\n4 1\n4 1\n4 1\n4 0\n5 2 1  0\n5 1 1\n5 1 1\n5 0\n\
                 6  0 0 0  2 0 2 0  1\n6  0 0 0  1 1 2 0  2\n";
    let found = remarks_of(short);
    let twice = RemarkKind::Twice { slot: 0, parameters: [0, 1] };
    assert_eq!((found[1].line, found[1].field, &found[1].kind), (10, Some(5), &twice));
    assert_eq!((found[0].line, &found[0].kind), (6, &RemarkKind::IdlePort { port: 1 }));
    assert_eq!(found.len(), 2);
    assert_eq!(
        found[1].to_string(),
        "a remark on line 10: slot 0 is given for parameter 0 and for parameter 1
     5     2     1     0     0     0     0     0     0     0     0     0
                             ^
the line says: node 0 of definition 0: a call of definition 1 with slots 0 and 0"
    );
    assert_eq!(remarks_of(&short.replace("5 2 1  0\n", "5 2 1  0 1\n")), []);
}

#[test]
fn the_file_without_bytes() {
    assert_eq!(remarks(&Table::load(b"").expect("it loads")), []);
}

/// The examples are meant as they are.
#[test]
fn examples() {
    let folder = Path::new(env!("CARGO_MANIFEST_DIR")).join("../../examples");
    let mut odd = Vec::new();
    for entry in fs::read_dir(folder).expect("the examples") {
        let path = entry.expect("an entry").path();
        if path.extension().is_some_and(|extension| extension == "txt") {
            let table = Table::load(&fs::read(&path).expect("an example")).expect("an example loads");
            let name = path.file_name().expect("a name").to_string_lossy().into_owned();
            odd.extend(
                remarks(&table).iter().map(|remark| format!("{name} {}: {}", remark.line, remark.kind)),
            );
        }
    }
    odd.sort();
    assert_eq!(odd, [""; 0]);
}

/// The branches, by node over the whole file and number, that are said to be never taken.
fn never_taken(table: &Table) -> Vec<(usize, usize)> {
    let rows: Vec<_> = (0..table.lines()).map(|row| table.row(row)).collect();
    let layout = Layout::of(&rows);
    let first_node = |definition: usize| {
        layout.definitions()[..definition].iter().map(|definition| definition.nodes).sum::<usize>()
    };
    let found = remarks(table);
    let lines = found
        .iter()
        .filter(|remark| matches!(remark.kind, RemarkKind::Behind { .. } | RemarkKind::NeverTrue { .. }));
    let taken = lines.map(|remark| match layout.place(remark.line) {
        Place::Branch { definition, node, number } => (first_node(definition) + node, number),
        place => panic!("{place:?} is no branch"),
    });
    taken.collect()
}

/// No step takes a branch that is said to be never tried, or whose guard is said to be never true.
#[test]
fn what_is_never_taken() {
    let (mut branches, mut never) = (0, 0);
    for seed in 73_000_000..73_002_000 {
        let random = &mut Random::new(seed);
        let profile = &LIVELY[random.below(LIVELY.len())];
        let table = Table::load(&profiled(random, profile).text()).expect("made to be right");
        let dead = never_taken(&table);
        never += dead.len();
        let ports = table.ports();
        let mut bench = Bench::start(table).expect("it starts");
        for _ in 0..120 {
            let ready: Vec<u32> = bench
                .state()
                .threads()
                .filter(|thread| thread.status == Status::Ready)
                .map(|thread| thread.number)
                .collect();
            let mut seat = bench.at(&Rights::FULL, Seat::ALL[0]);
            if let Some(port) = (ports > 0).then(|| random.below(ports as usize) as u32) {
                _ = seat.give(port, i32::from(random.number()));
                _ = seat.take(port);
            }
            let Some(thread) = random.choose(&ready) else { continue };
            if let Ok(stepped) = seat.step(thread) {
                if let Act::Branch { branch, .. } = stepped.act {
                    assert!(
                        !dead.contains(&(stepped.node as usize, branch as usize)),
                        "seed {seed}: {stepped:?}"
                    );
                    branches += 1;
                }
            }
        }
    }
    println!("{branches} branches taken, {never} never");
    assert!(branches >= 20_000 && never >= 1_000, "{branches} branches taken, {never} never");
}
