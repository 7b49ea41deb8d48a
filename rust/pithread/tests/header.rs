//! The calls that the raw layer declares are those of the header, to the letter, and the words for a ground are the
//! header's.

use pithread::Refusal;

const HEADER: &str = include_str!("../../../include/pithread.h");
const RAW: &str = include_str!("../src/raw.rs");

/// The calls of the header, each as Rust would declare it.
fn calls_of_header() -> Vec<String> {
    let code: Vec<&str> = HEADER.split("*/").map(|part| part.split("/*").next().unwrap_or("")).collect();
    let code = code.concat();
    let prototypes = code.split(';').filter(|part| part.contains('(') && part.contains("pithread_"));
    prototypes.map(in_rust).collect()
}

fn in_rust(prototype: &str) -> String {
    let words: Vec<&str> = prototype.split_whitespace().collect();
    let joined = words.join(" ");
    let (front, parameters) = joined.trim_end_matches(')').split_once('(').expect("a call has parameters");
    let [.., answer, name] = front.split(' ').collect::<Vec<&str>>()[..] else { panic!("{front}") };
    let parameters: Vec<String> = parameters.split(", ").map(parameter_in_rust).collect();
    let mut answer = answer.trim_start_matches("pithread_").to_string();
    answer[..1].make_ascii_uppercase();
    format!("fn {name}({}) -> {answer}", parameters.join(", "))
}

fn parameter_in_rust(parameter: &str) -> String {
    let (kind, name) = parameter.rsplit_once(' ').expect("a parameter has a type and a name");
    let pointer = name.starts_with('*');
    let kind = match (kind, pointer) {
        ("const uint8_t", true) => "*const u8",
        ("uint8_t", true) => "*mut u8",
        ("size_t", false) => "usize",
        ("uint32_t", false) => "u32",
        ("int32_t", false) => "i32",
        ("uint16_t", false) => "u16",
        _ => panic!("{parameter}"),
    };
    format!("{}: {kind}", name.trim_start_matches('*'))
}

/// The declarations of the raw layer, each on one line.
fn calls_of_raw() -> Vec<String> {
    let (_, block) = RAW.split_once("extern \"C\" {").expect("there is such a block");
    let (block, _) = block.split_once("\n}").expect("the block has an end");
    let declarations = block.split(';').map(|call| call.split_whitespace().collect::<Vec<&str>>().join(" "));
    let declarations = declarations.map(|call| call.replace("( ", "(").replace(", )", ")"));
    declarations.filter(|call| !call.is_empty()).collect()
}

#[test]
fn the_declarations_are_those_of_the_header() {
    assert_eq!(calls_of_raw(), calls_of_header());
    assert_eq!(calls_of_raw().len(), 9);
}

/// Every refusal, in the order of the numbers.
const REFUSALS: [Refusal; 19] = [
    Refusal::FileLength,
    Refusal::Field { line: 1 },
    Refusal::Counts { line: 1 },
    Refusal::Range { line: 1 },
    Refusal::Types { line: 1 },
    Refusal::Read { line: 1 },
    Refusal::Unreachable { line: 1 },
    Refusal::BufferLength,
    Refusal::Table,
    Refusal::State,
    Refusal::Thread,
    Refusal::Port,
    Refusal::NoThreadRow,
    Refusal::NoChannelRow,
    Refusal::ShortBuffer,
    Refusal::ForbiddenCall,
    Refusal::ManyThreads,
    Refusal::Rights,
    Refusal::Seat,
];

/// The comment of the header right before each ground, on one line, by the number of the ground.
fn comments_of_grounds() -> Vec<(i32, String)> {
    let (_, grounds) = HEADER.split_once("/* Grounds of a refusal").expect("the header has grounds");
    let (grounds, _) = grounds.split_once("};").expect("they have an end");
    let before = grounds.split(" = ").zip(grounds.split(" = ").skip(1));
    let commented = before.filter_map(|(before, after)| {
        let digits: String = after.chars().take_while(char::is_ascii_digit).collect();
        let (_, comment) = before.rsplit_once("/* ").filter(|_| digits != "0")?;
        let (comment, _) = comment.split_once("*/")?;
        let words: Vec<&str> = comment.split_whitespace().filter(|word| *word != "*").collect();
        Some((digits.parse().ok()?, words.join(" ")))
    });
    commented.collect()
}

/// The header may go on behind the words, after a stop, a comma or a colon.
#[test]
fn the_words_for_each_ground_are_those_of_the_header() {
    let mut comments = comments_of_grounds();
    comments.sort();
    let numbers: Vec<i32> = comments.iter().map(|(number, _)| *number).collect();
    assert_eq!(numbers, REFUSALS.map(Refusal::number));
    assert_eq!(numbers, (1..=19).collect::<Vec<i32>>());
    for (refusal, (_, comment)) in REFUSALS.iter().zip(&comments) {
        let mut comment = comment.clone();
        comment[..1].make_ascii_lowercase();
        let rest = comment.strip_prefix(refusal.words());
        let rest = rest.unwrap_or_else(|| panic!("{refusal} is in the header: {comment}"));
        assert!(rest.starts_with(['.', ',', ':']), "{refusal} is in the header: {comment}");
    }
}

/// A program whose `main` answers a refusal prints its debug form.
#[test]
fn both_forms_of_a_refusal_are_its_words() {
    for refusal in REFUSALS {
        let text = refusal.to_string();
        assert_eq!(format!("{refusal:?}"), text);
        assert_eq!(format!("{:?}", Box::<dyn std::error::Error>::from(refusal)), text);
        assert!(text.ends_with(refusal.words()) && text.starts_with(&format!("ground {}", refusal.number())));
    }
}
