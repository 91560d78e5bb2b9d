//! What the library has beside the eight jobs: refusals as errors, states, the decoder, the docs, and what the header has too.
//!
//! ZOMUWEDLI_PART: a divisor of the number of random cases.

mod support;

use std::collections::BTreeSet;
use std::fs;
use std::path::Path;

use support::boundary::{put_back_taken, PutBackFault};
use support::decoder::{decode, reference_decode};
use support::generate::{self, Random};
use support::{reference, Fault};
use zomuwedli::{End, HandState, PutBackRefusal, Record, Refusal, State, Unlawful};
use zomuwedli::{HAND_STATE_LENGTH, MAX_ITEMS, MAX_SETTINGS, NOT_NAMED, STATE_LENGTH};

const SEED: u64 = 90_125;

fn cases(all: u64) -> u64 {
    all / generate::from_environment("ZOMUWEDLI_PART", 1).max(1)
}

fn file(name: &str) -> String {
    let path = Path::new(env!("CARGO_MANIFEST_DIR")).join(name);
    fs::read_to_string(&path).unwrap_or_else(|error| panic!("{}: {error}", path.display()))
}

// ---- Refusals -----------------------------------------------------------------------------------------------------------------------

#[test]
fn each_refusal_says_its_number_and_a_cause_of_its_own() {
    let causes: BTreeSet<&str> = Refusal::ALL.iter().map(|refusal| refusal.cause()).collect();
    assert_eq!(causes.len(), Refusal::ALL.len());
    for (number, refusal) in (1..).zip(Refusal::ALL) {
        let error: Box<dyn std::error::Error> = Box::new(*refusal);
        assert_eq!(error.to_string(), format!("refused {number}: {}", refusal.cause()));
        assert!(refusal.cause().len() > 10);
    }
}

/// As the refusal, but for 17, which says the record, and the item and setting where they are named. It turns into the refusal.
#[test]
fn a_refused_putting_back_says_what_17_carries() {
    for &refusal in Refusal::ALL.iter().filter(|&&refusal| refusal != Refusal::RecordUnlawful) {
        let refused = PutBackRefusal { refusal, unlawful: None };
        assert_eq!((refused.to_string(), Refusal::from(refused)), (refusal.to_string(), refusal));
    }
    let front = Refusal::RecordUnlawful.to_string();
    let cases = [
        (512, NOT_NAMED, NOT_NAMED, "; it is record 512"),
        (0, 0, 0, "; it is record 0, and at item 0 setting 0 spoils the cover"),
        (509, 31, 15, "; it is record 509, and at item 31 setting 15 spoils the cover"),
    ];
    for (record, item, setting, rest) in cases {
        let unlawful = Unlawful { record, item, setting };
        let refused = PutBackRefusal { refusal: Refusal::RecordUnlawful, unlawful: Some(unlawful) };
        let error: Box<dyn std::error::Error> = Box::new(refused);
        assert_eq!(error.to_string(), format!("{front}{rest}"));
        assert_eq!(Refusal::from(refused), Refusal::RecordUnlawful);
        assert_eq!(unlawful.spoiler(), (item != NOT_NAMED).then_some((item, setting)));
    }
}

/// Each number by itself, 17 with each of its fields; and a word that putting back cannot answer is not guessed at.
#[test]
fn the_word_of_putting_back_is_taken_apart() {
    assert_eq!(put_back_taken(0), Ok(()));
    for number in (1..=255).filter(|&number| number != 17) {
        assert_eq!(put_back_taken(number.into()), Err(PutBackFault::Number(number)));
    }
    let unlawful = |record, item, setting| Err(PutBackFault::Unlawful { record, item, setting });
    assert_eq!(put_back_taken(0x0000_0003_0200_0111), unlawful(1, 2, 3));
    assert_eq!(put_back_taken(0x0000_00ff_ff00_0011), unlawful(0, NOT_NAMED, NOT_NAMED));
    assert_eq!(put_back_taken(0x0000_00ff_ff02_0011), unlawful(512, NOT_NAMED, NOT_NAMED));
    for bit in 8..64 {
        let answer = |number: u64| std::panic::catch_unwind(|| put_back_taken(number | 1 << bit)).ok();
        [0, 16, 18, 19, 201].iter().for_each(|&number| assert_eq!(answer(number), None, "{number} with bit {bit}"));
        let expected = match bit {
            8..=23 => Some(unlawful(1 << (bit - 8), 0, 0)),
            24..=31 => Some(unlawful(0, 1 << (bit - 24), 0)),
            32..=39 => Some(unlawful(0, 0, 1 << (bit - 32))),
            _ => None,
        };
        assert_eq!(answer(17), expected, "17 with bit {bit}");
    }
}

// ---- States -------------------------------------------------------------------------------------------------------------------------

/// Every accessor says of any 68 bytes what the reference says of them.
#[test]
fn states_say_what_their_bytes_hold() {
    let mut random = Random::new(SEED);
    for _ in 0..cases(2_000) {
        let mask = random.byte();
        let bytes: Vec<u8> = random.bytes(STATE_LENGTH).iter().map(|byte| byte & mask).collect();
        let bytes = <[u8; STATE_LENGTH]>::try_from(bytes).expect("as many bytes as asked for");
        let (state, expected) = (State::from_bytes(bytes), reference::State::from_bytes(&bytes));
        assert_eq!(state.to_bytes(), bytes);
        assert_eq!(HandState::from_bytes(bytes).to_bytes(), bytes);
        assert_eq!(*HandState::from_bytes(bytes).state(), state);
        assert_eq!(HandState::from(state.clone()).to_bytes(), bytes);
        says(&state, &expected);
    }
}

fn says(state: &State, expected: &reference::State) {
    let numbers = |members: &[usize]| members.iter().map(|&member| member as u8).collect::<Vec<u8>>();
    let bits = |members: &[usize]| members.iter().map(|&member| 1u32 << member).sum::<u32>();
    let on = |item: usize| if item < MAX_ITEMS { expected.live(item) } else { &[] };
    assert_eq!(state.items().collect::<Vec<u8>>(), numbers(expected.active()));
    assert_eq!(state.items_in(), bits(expected.active()));
    assert_eq!(state.count_items(), expected.active().len());
    assert_eq!(state.count_settings(), expected.active().iter().map(|&item| expected.live(item).len()).sum());
    for item in 0..=u8::MAX {
        let settings = on(item.into());
        assert_eq!(state.is_in(item), expected.is_active(item.into()));
        assert_eq!(state.settings(item).collect::<Vec<u8>>(), numbers(settings));
        assert_eq!(u32::from(state.settings_on(item)), bits(settings));
        for setting in (0..=MAX_SETTINGS as u8 + 1).chain([32, 64, u8::MAX]) {
            assert_eq!(state.is_on(item, setting), settings.contains(&setting.into()));
        }
    }
}

/// Two states that differ in any bit are shown differently.
#[test]
fn states_are_shown_in_full() {
    let shown = |bit: usize| {
        let mut bytes = [0; STATE_LENGTH];
        bytes[bit / 8] = 1 << (bit % 8);
        format!("{:?}", State::from_bytes(bytes))
    };
    assert_eq!((0..8 * STATE_LENGTH).map(shown).collect::<BTreeSet<String>>().len(), 8 * STATE_LENGTH);
    assert_eq!(shown(24), "State { items_in: [0], settings_on: {} }");
    assert_eq!(shown(49), "State { items_in: [], settings_on: {1: [9]} }");
}

// ---- The decoder --------------------------------------------------------------------------------------------------------------------

/// On bytes of any sort it agrees with the reference's reader, and comes to an end. Small bytes are mostly records; each end comes up.
#[test]
fn the_decoder_agrees_on_any_bytes() {
    let mut random = Random::new(SEED);
    let mut seen = [0; 3];
    for _ in 0..cases(200_000) {
        let trace = any_trace(&mut random);
        let decoded = decode(&trace);
        assert_eq!(decoded, reference_decode(&trace), "trace {trace:02x?}");
        seen[decoded.map_or_else(|refusal| usize::from(refusal.number() - 14), |_| 0)] += 1;
    }
    assert!(seen.iter().all(|&count| count >= cases(10_000)), "to the end, 15, 16: {seen:?}");
}

fn any_trace(random: &mut Random) -> Vec<u8> {
    if random.chance(20) {
        let length = random.below(24);
        return random.bytes(length);
    }
    let mut trace = vec![1];
    for _ in 0..random.below(6) {
        let kind = random.pick(&[1, 2, 3, 4, 5, 1, 2, 3, 4, 5, 0, 6]);
        let right = if kind == 2 || kind == 3 { 3 } else { 4 };
        let length = if random.chance(95) { right } else { random.below(7) };
        trace.extend([length as u8, kind]);
        trace.extend(random.bytes(right - 1));
    }
    if random.chance(10) {
        trace.truncate(random.below(trace.len() + 1));
    }
    trace
}

/// A fault ends the records: nothing comes after it, whatever bytes follow.
#[test]
fn nothing_comes_after_a_fault() {
    let mut records = zomuwedli::records(&[1, 3, 2, 0, 0, 3, 1, 0, 0, 3, 2, 1, 0]).expect("version 1");
    assert_eq!(records.next(), Some(Ok(Record::Snake { item: 0, setting: 0 })));
    assert_eq!(records.next(), Some(Err(Refusal::RecordShape)));
    assert_eq!((records.next(), records.next()), (None, None));
}

/// The words of docs/FORMAT.md, "What the program prints", and the fields in their order.
#[test]
fn records_are_shown_as_the_program_prints_them() {
    let shown = |bytes: &[u8]| decode(&[&[1], bytes].concat()).expect("a record")[0];
    let cases: [(&[u8], u8, &str); 5] = [
        (&[4, 1, 10, 11, 12], 1, "bare 10 11 12"),
        (&[3, 2, 10, 11], 2, "snake 10 11"),
        (&[3, 3, 10, 11], 3, "fold 10 11"),
        (&[4, 4, 10, 11, 12], 4, "cover 10 11 12"),
        (&[4, 5, 10, 11, 12], 5, "slide 10 11 12"),
    ];
    for (bytes, kind, line) in cases {
        assert_eq!((shown(bytes).kind(), shown(bytes).to_string().as_str()), (kind, line));
    }
}

// ---- The header ---------------------------------------------------------------------------------------------------------------------

fn header() -> String {
    file("../include/zomuwedli.h")
}

/// What `#define ZOMUWEDLI_NAME` stands for, without a comment behind it.
fn defined(name: &str) -> String {
    let rest = header().lines().find_map(|line| line.strip_prefix(&format!("#define ZOMUWEDLI_{name} ")).map(str::to_string));
    let rest = rest.unwrap_or_else(|| panic!("the header has no {name}"));
    rest.split("/*").next().expect("a first part").trim().to_string()
}

/// A number, or so many KiB: `(4 * 1024)`.
fn number(name: &str) -> usize {
    let text = defined(name);
    let (number, factor) = text.strip_prefix('(').and_then(|text| text.strip_suffix(" * 1024)")).map_or((&*text, 1), |kib| (kib, 1024));
    factor * number.parse::<usize>().unwrap_or_else(|_| panic!("{name} is {text}"))
}

#[test]
fn constants_are_those_of_the_header() {
    assert_eq!(zomuwedli::MAX_SHEET, number("MAX_SHEET"));
    assert_eq!(MAX_ITEMS, number("MAX_ITEMS"));
    assert_eq!(MAX_SETTINGS, number("MAX_SETTINGS"));
    assert_eq!(zomuwedli::MAX_TRACE, number("MAX_TRACE"));
    assert_eq!(zomuwedli::MAX_FILE, number("MAX_FILE"));
    assert_eq!(STATE_LENGTH, number("STATE_LENGTH"));
    assert_eq!(HAND_STATE_LENGTH, number("HAND_STATE_LENGTH"));
    assert_eq!(usize::from(zomuwedli::OUT), number("OUT"));
    assert_eq!(usize::from(NOT_NAMED), number("NOT_NAMED"));
    assert_eq!(zomuwedli::STACK, number("STACK"));
    assert_eq!(zomuwedli::PUT_BACK_STACK, number("PUT_BACK_STACK"));
    assert_eq!(zomuwedli::PICK_STACK, number("PICK_STACK"));
    assert_eq!(End::Impossible as usize, number("IMPOSSIBLE"));
    assert_eq!(End::Solved as usize, number("SOLVED"));
    assert_eq!(End::Rest as usize, number("REST"));
}

#[test]
fn the_version_is_that_of_the_header() {
    assert_eq!(format!("{:?}", env!("CARGO_PKG_VERSION")), defined("VERSION"));
}

/// The rows of a list of the header, from its `#define` to the last line that goes on: what stands in `ROW(..)`, its parts apart.
fn rows(list: &str) -> Vec<Vec<String>> {
    let header = header();
    let start = format!("#define ZOMUWEDLI_{list}(ROW) \\");
    let mut rows = Vec::new();
    for line in header.lines().skip_while(|line| *line != start).skip(1) {
        if let Some((_, row)) = line.split_once("ROW(") {
            let (row, after) = row.split_once("\")").expect("a row ends with a text");
            assert!(!after.contains("ROW("), "one row a line: {line}");
            let (front, text) = row.split_once(", \"").expect("a text");
            rows.push(front.split(", ").chain([text]).map(str::to_string).collect());
        }
        if !line.ends_with('\\') {
            break;
        }
    }
    rows
}

/// `SheetFront` as `SHEET_FRONT`.
fn upper_snake(name: &str) -> String {
    let letters = name.chars().enumerate().flat_map(|(k, c)| (k > 0 && c.is_uppercase()).then_some('_').into_iter().chain([c]));
    letters.collect::<String>().to_uppercase()
}

/// Name, number and text of each, in one order, and nothing more on either side. A comment over a case has the same sentence.
#[test]
fn refusals_are_those_of_the_header() {
    let row = |name: String, number: u8, text: &str| {
        vec![format!("ZOMUWEDLI_REFUSED_{}", upper_snake(&name)), number.to_string(), text.to_string()]
    };
    let of_jobs = Refusal::ALL.iter().map(|refusal| row(format!("{refusal:?}"), refusal.number(), refusal.cause()));
    // The boundary's own are no case of the library's, where a state is a type.
    let run = format!("the buffer for the run's state is not {STATE_LENGTH} bytes");
    let hand = format!("the buffer for the hand state is not {HAND_STATE_LENGTH} bytes");
    let own = [(Fault::RunStateLength, run), (Fault::HandStateLength, hand)];
    let own = own.iter().map(|(fault, text)| row(format!("{fault:?}"), fault.number(), text));
    assert_eq!(of_jobs.chain(own).collect::<Vec<_>>(), rows("REFUSALS"));

    let source = file("src/refusal.rs");
    for refusal in Refusal::ALL {
        let (first, rest) = refusal.cause().split_at(1);
        let case = format!("    /// {}{rest}.\n    {refusal:?} = {},\n", first.to_uppercase(), refusal.number());
        assert!(source.contains(&case), "src/refusal.rs has not:\n{case}");
    }
}

/// Name, number, fields and word of each, as a record of that kind has them.
#[test]
fn kinds_are_those_of_the_header() {
    let row = |record: &Record| {
        let (name, fields) = (record.word().to_uppercase(), zomuwedli::trace_of([*record]).len() - 2);
        vec![format!("ZOMUWEDLI_{name}"), record.kind().to_string(), fields.to_string(), record.word().to_string()]
    };
    let one_of_each = decode(&[1, 4, 1, 0, 0, 0, 3, 2, 0, 0, 3, 3, 0, 0, 4, 4, 0, 0, 0, 4, 5, 0, 0, 0]).expect("a trace");
    assert_eq!(one_of_each.iter().map(row).collect::<Vec<_>>(), rows("KINDS"));
}

/// The functions that the header declares.
fn functions() -> Vec<String> {
    let header = header();
    let declared = header.lines().filter_map(|line| line.strip_prefix("uint64_t ")?.split_once('('));
    declared.map(|(name, _)| name.to_string()).collect()
}

/// The table in the header's first comment has a line for each function, in their order, with its constant and how much that is; and
/// what is said to be enough for any call but putting back and picking is the most of these.
#[test]
fn the_stack_table_is_that_of_the_constants() {
    let header = header();
    let comment = header.split("*/").next().expect("a first comment");
    let lines = comment.lines().filter(|line| line.starts_with(" *     zomuwedli_"));
    // A comma stands where a reason follows.
    let words = |line: &str| line.split_whitespace().skip(1).take(4).map(|word| word.trim_end_matches(',')).collect::<Vec<_>>().join(" ");
    let (mut expected, mut most) = (Vec::new(), 0);
    for name in functions() {
        let constant = format!("{}_STACK", name.to_uppercase());
        let bytes = number(constant.strip_prefix("ZOMUWEDLI_").expect("a name of ours"));
        assert_eq!(bytes % 1024, 0, "{constant} is not so many KiB");
        expected.push(format!("{name} {constant} {} KiB", bytes / 1024));
        let puts_back = ["zomuwedli_put_back", "zomuwedli_pick"].contains(&name.as_str());
        most = if puts_back { most } else { most.max(bytes) };
    }
    assert_eq!(lines.map(words).collect::<Vec<String>>(), expected);
    assert_eq!(most, number("STACK"));
}

/// Each function of the header is declared for Rust, called from C, and measured.
#[test]
fn every_function_is_wrapped_called_and_measured() {
    let functions = functions();
    assert!(functions.len() >= 8, "only {functions:?}");
    for place in ["src/boundary.rs", "../tests/boundary.c", "../tests/stack.c"] {
        let source = file(place);
        functions.iter().for_each(|name| assert!(source.contains(&format!("{name}(")), "{place} has no {name}"));
    }
    let declared = file("src/boundary.rs").lines().filter(|line| line.starts_with("    fn zomuwedli_")).count();
    assert_eq!(declared, functions.len(), "src/boundary.rs declares others");
}

// ---- The docs -----------------------------------------------------------------------------------------------------------------------

/// Every public item has an example. That it has a doc comment at all is the compiler's to say (`missing_docs`), and that the example runs
/// `cargo test --doc`.
#[test]
fn every_public_item_has_an_example() {
    let library = file("src/lib.rs");
    let modules = library.lines().filter_map(|line| line.strip_prefix("mod ")?.strip_suffix(';'));
    // What boundary has is not passed on.
    let sources = modules.filter(|&module| module != "boundary").map(|module| file(&format!("src/{module}.rs")));
    let mut items = 0;
    for source in std::iter::once(library.clone()).chain(sources) {
        items += with_examples(&source);
    }
    assert!(items >= 40, "only {items} items were found");
}

/// The number of public items in a source, each of which has a fenced block among the doc comment lines above it.
fn with_examples(source: &str) -> usize {
    let kinds = ["fn ", "const ", "struct ", "enum ", "trait ", "type ", "mod "];
    let mut has_example = false;
    let mut items = 0;
    for line in source.lines().map(str::trim_start) {
        let public = line.strip_prefix("pub ").is_some_and(|item| kinds.iter().any(|kind| item.starts_with(kind)));
        if public {
            assert!(has_example, "without an example: {line}");
            items += 1;
        }
        // An attribute stands between a doc comment and its item.
        has_example = line.starts_with("/// ```") || (has_example && (line.starts_with("///") || line.starts_with("#[")));
    }
    items
}

/// What the two pages that lead callers and developers name of the callers' part is there.
#[test]
fn the_files_that_the_pages_name_exist() {
    let mut named = BTreeSet::new();
    for page in ["../README.md", "../docs/CONTRIBUTING.md"] {
        let text = file(page);
        let words = text.split(|c: char| !(c.is_ascii_alphanumeric() || "_-./".contains(c))).map(|word| word.trim_end_matches('.'));
        let ours = words.filter(|word| ["rust/", "include/", "tests/", "examples/c/"].iter().any(|folder| word.starts_with(folder)));
        named.extend(ours.map(str::to_string));
    }
    for name in &named {
        assert!(Path::new(env!("CARGO_MANIFEST_DIR")).join("..").join(name).exists(), "there is no {name}");
    }
    assert!(named.len() >= 30, "only {named:?}");
}
