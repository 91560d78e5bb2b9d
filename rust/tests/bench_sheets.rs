//! The bench sheets of docs/FORMAT.md, "Bench sheets", and the step lists of "Putting back", by both layers of the proved library
//! (support/proved.rs), with their bytes and what is expected written out: each sheet in version 1, and with the same answers in version 2.
//! And the cases of putting back and of picking in crates/bench_sheets, which tests/bench_cases.py answers, by the three implementations.

mod support;

use std::fs;
use std::path::Path;

use support::fast::Workspace;
use support::proved::{self, both};
use support::{reference, Answer, Chosen, Done, Fault};
use zomuwedli::{Accepted, End, Refusal, State, Taken, Unlawful, Written, HAND_STATE_LENGTH, NOT_NAMED, STATE_LENGTH};

const A: [u8; 9] = [1, 0, 0, 0, 9, 1, 0, 0, 2];
const B: [u8; 16] = [1, 0, 0, 0, 16, 2, 0, 1, 2, 2, 0, 1, 0, 2, 0, 1];
#[rustfmt::skip]
const C: [u8; 29] = [
    1, 0, 0, 0, 29, 3, 0, 3, 2, 2, 2,
    0, 1, 0, 2, 0, 1,
    0, 2, 0, 2, 0, 1,
    1, 2, 0, 2, 0, 1,
];
const D: [u8; 14] = [1, 0, 0, 0, 14, 2, 0, 1, 1, 1, 0, 1, 0, 0];
#[rustfmt::skip]
const E: [u8; 30] = [
    1, 0, 0, 0, 30, 4, 0, 3, 2, 2, 2, 2,
    0, 1, 0, 2, 0, 1,
    0, 2, 0, 2, 0, 1,
    0, 3, 0, 2, 0, 1,
];
#[rustfmt::skip]
const F: [u8; 35] = [
    1, 0, 0, 0, 35, 3, 0, 3, 3, 3, 3,
    0, 1, 0, 6, 0, 5, 0, 3,
    0, 2, 0, 6, 0, 5, 0, 3,
    1, 2, 0, 1, 0, 3, 0, 7,
];
#[rustfmt::skip]
const G: [u8; 36] = [
    1, 0, 0, 0, 36, 4, 0, 4, 2, 2, 2, 2,
    0, 1, 0, 2, 0, 1,
    0, 2, 0, 2, 0, 1,
    0, 3, 0, 1, 0, 2,
    1, 2, 0, 2, 0, 1,
];
#[rustfmt::skip]
const H: [u8; 33] = [
    1, 0, 0, 0, 33, 3, 0, 3, 3, 2, 2,
    0, 1, 0, 2, 0, 1, 0, 2,
    0, 2, 0, 2, 0, 1, 0, 2,
    1, 2, 0, 2, 0, 1,
];

#[rustfmt::skip]
const K: [u8; 33] = [
    1, 0, 0, 0, 33, 3, 0, 3, 3, 2, 2,
    0, 1, 0, 1, 0, 2, 0, 1,
    0, 2, 0, 2, 0, 1, 0, 1,
    1, 2, 0, 2, 0, 3,
];
#[rustfmt::skip]
const L: [u8; 35] = [
    1, 0, 0, 0, 35, 3, 0, 3, 3, 3, 2,
    0, 1, 0, 6, 0, 1, 0, 4,
    0, 2, 0, 1, 0, 1, 0, 3,
    1, 2, 0, 1, 0, 3, 0, 2,
];

const ALL: [&[u8]; 10] = [&A, &B, &C, &D, &E, &F, &G, &H, &K, &L];

// ---- The jobs with both versions ----------------------------------------------------------------------------------------------------

/// A sheet of version 1 in version 2: a row has its second byte only where item j has 8 settings or fewer.
fn in_version_2(sheet: &[u8]) -> Vec<u8> {
    let (sizes, mut rest) = sheet[8..].split_at(usize::from(sheet[5]));
    let mut moved = [&[2, 0, 0, 0, 0], &sheet[5..8], sizes].concat();
    while let [i, j, after @ ..] = rest {
        let left_out = usize::from(sizes[usize::from(*j)] <= 8);
        let (rows, others) = after.split_at(2 * usize::from(sizes[usize::from(*i)]));
        moved.extend([i, j]);
        rows.chunks(2).for_each(|row| moved.extend(&row[left_out..]));
        rest = others;
    }
    moved[4] = moved.len() as u8;
    moved
}

fn read(sheet: &[u8]) -> Answer<Accepted> {
    both([], |[]| proved::read(sheet), |[]| proved::read(&in_version_2(sheet)))
}

fn run(sheet: &[u8], trace: &mut [u8], state: &mut [u8]) -> Answer<Done> {
    let job = |sheet: &[u8], [trace, state]: [&mut [u8]; 2]| proved::run(sheet, trace, state);
    both([trace, state], |lent| job(sheet, lent), |lent| job(&in_version_2(sheet), lent))
}

fn start(sheet: &[u8], state: &mut [u8]) -> Answer<()> {
    let job = |sheet: &[u8], [state]: [&mut [u8]; 1]| proved::start(sheet, state);
    both([state], |lent| job(sheet, lent), |lent| job(&in_version_2(sheet), lent))
}

fn hand_call(sheet: &[u8], state: &mut [u8], item: u64) -> Answer<Taken> {
    let job = |sheet: &[u8], [state]: [&mut [u8]; 1]| proved::hand_call(sheet, state, item);
    both([state], |lent| job(sheet, lent), |lent| job(&in_version_2(sheet), lent))
}

fn put_back(sheet: &[u8], trace: &[u8], plan: &[u8], result: &mut [u8]) -> Answer<()> {
    let job = |sheet: &[u8], [result]: [&mut [u8]; 1]| proved::put_back(sheet, trace, plan, result);
    both([result], |lent| job(sheet, lent), |lent| job(&in_version_2(sheet), lent))
}

fn pick(sheet: &[u8], trace: &mut [u8], plan: &mut [u8], state: &mut [u8]) -> Answer<Chosen> {
    let job = |sheet: &[u8], [trace, plan, state]: [&mut [u8]; 3]| proved::pick(sheet, trace, plan, state);
    both([trace, plan, state], |lent| job(sheet, lent), |lent| job(&in_version_2(sheet), lent))
}

/// The two versions are each other's moved sheets.
#[test]
fn moved_and_back() {
    let mut lengths = Vec::new();
    for sheet in ALL {
        let other = in_version_2(sheet);
        for (sheet, moved) in [(sheet, &*other), (&other, sheet)] {
            let mut target = vec![OLD; moved.len() + 1];
            assert_eq!(proved::move_sheet(sheet, &mut target), Ok(Written { bytes: moved.len() }));
            assert_eq!((&target[..moved.len()], target[moved.len()]), (moved, OLD));
            target.truncate(moved.len() - 1);
            target.fill(OLD);
            assert_eq!(proved::move_sheet(sheet, &mut target), refuses(Refusal::TargetBuffer));
            assert!(untouched(&target));
        }
        lengths.push(other.len());
    }
    assert_eq!(lengths, [9, 14, 23, 13, 24, 26, 28, 25, 25, 26]);
    assert_eq!(in_version_2(&B), [2, 0, 0, 0, 14, 2, 0, 1, 2, 2, 0, 1, 2, 1]);
}

// ---- What is expected ---------------------------------------------------------------------------------------------------------------

/// What the old bytes of a buffer are.
const OLD: u8 = 0xa5;

fn untouched(buffer: &[u8]) -> bool {
    buffer.iter().all(|&byte| byte == OLD)
}

fn refuses<T>(refusal: Refusal) -> Answer<T> {
    Err(Fault::Refused(refusal))
}

/// 17, with what it carries.
fn unlawful<T>(record: u16, item: u8, setting: u8) -> Answer<T> {
    Err(Fault::Unlawful(Unlawful { record, item, setting }))
}

/// Runs a sheet in a buffer that is three bytes longer than asked for, and answers the end, the last state and the whole buffer.
fn worked(sheet: &[u8], sum_of_sizes: usize) -> (Answer<Done>, State, Vec<u8>) {
    let mut trace = vec![OLD; 1 + 5 * sum_of_sizes + 3];
    let mut state = [OLD; STATE_LENGTH];
    let answer = run(sheet, &mut trace, &mut state);
    (answer, State::from_bytes(state), trace)
}

/// The sheet runs to this end with this trace, with the buffer's old bytes after it; answers the last state.
fn runs(sheet: &[u8], sum_of_sizes: usize, end: End, steps: usize, trace: &[u8]) -> State {
    let (answer, state, buffer) = worked(sheet, sum_of_sizes);
    assert_eq!(answer, Ok(Done { end, steps, written: trace.len() }));
    assert_eq!(buffer[..trace.len()], *trace);
    assert!(untouched(&buffer[trace.len()..]));
    state
}

/// The plan that is picked from the sheet, or none, which leaves the lent plan as it was; the rest is the run's.
fn picks(sheet: &[u8], expected: Option<&[u8]>) {
    let n = usize::from(sheet[5]);
    let sum_of_sizes = sheet[8..8 + n].iter().map(|&size| usize::from(size)).sum();
    let (ran, last, ran_trace) = worked(sheet, sum_of_sizes);
    let (mut trace, mut plan, mut state) = (vec![OLD; ran_trace.len()], vec![OLD; n], [OLD; STATE_LENGTH]);
    let answer = pick(sheet, &mut trace, &mut plan, &mut state);
    assert_eq!(answer, ran.map(|run| Chosen { run, has_plan: expected.is_some() }));
    assert_eq!(plan, expected.unwrap_or(&vec![OLD; n]));
    assert_eq!((State::from_bytes(state), trace), (last, ran_trace));
}

/// The state with these items in and these settings on, as bits.
fn state(items: u32, settings: &[u16]) -> State {
    let mut bytes = items.to_be_bytes().to_vec();
    settings.iter().for_each(|set| bytes.extend(set.to_be_bytes()));
    bytes.resize(STATE_LENGTH, 0);
    proved::state(&bytes)
}

fn started(sheet: &[u8]) -> [u8; HAND_STATE_LENGTH] {
    let mut state = [OLD; HAND_STATE_LENGTH];
    assert_eq!(start(sheet, &mut state), Ok(()));
    state
}

/// A hand call from the start is refused so and leaves the state as it was.
fn hand_refused(sheet: &[u8], item: u64, refusal: Refusal) {
    let mut state = started(sheet);
    let given = state;
    assert_eq!(hand_call(sheet, &mut state, item), refuses(refusal));
    assert_eq!(state, given);
}

/// Every job refuses the sheet with this number and writes to no buffer.
fn refused(sheet: &[u8], number: u8) {
    let refusal = Refusal::from_number(number).unwrap();
    let (mut trace, mut state, mut result) = ([OLD; 21], [OLD; STATE_LENGTH], [OLD; 2]);
    assert_eq!(proved::read(sheet), refuses(refusal));
    assert_eq!(proved::run(sheet, &mut trace, &mut state), refuses(refusal));
    assert!(untouched(&trace) && untouched(&state));
    assert_eq!(proved::start(sheet, &mut state), refuses(refusal));
    assert!(untouched(&state));
    assert_eq!(proved::hand_call(sheet, &mut state, 0), refuses(refusal));
    assert!(untouched(&state));
    assert_eq!(proved::put_back(sheet, &[1], &[0, 0], &mut result), refuses(refusal));
    assert!(untouched(&result));
    assert_eq!(proved::pick(sheet, &mut trace, &mut result, &mut state), refuses(refusal));
    assert!(untouched(&trace) && untouched(&result) && untouched(&state));
    assert_eq!(proved::move_sheet(sheet, &mut trace), refuses(refusal));
    assert!(untouched(&trace));
}

/// "Picked, by the same sheets", and the fold of "Picking a plan".
#[test]
fn picked() {
    let fold = [1, 0, 0, 0, 23, 3, 0, 2, 2, 2, 2, 0, 1, 0, 1, 0, 2, 1, 2, 0, 1, 0, 3];
    let with_plans: [(&[u8], &[u8]); 7] =
        [(&A, &[0]), (&B, &[0, 1]), (&E, &[0, 1, 1, 1]), (&F, &[1, 0, 0]), (&K, &[0, 0, 1]), (&L, &[0, 1, 0]), (&fold, &[1, 1, 0])];
    with_plans.iter().for_each(|(sheet, plan)| picks(sheet, Some(plan)));
    let without: [&[u8]; 4] = [&C, &D, &G, &H];
    without.iter().for_each(|sheet| picks(sheet, None));
    assert!(is_plan(&F, &[0, 1, 1]) && is_plan(&fold, &[0, 0, 0]));
}

/// 200 before 10, and 10 before 20; no byte changes.
#[test]
fn b_pick_buffers() {
    let refused = |trace: usize, plan: usize, state: usize| {
        let (mut trace, mut plan, mut state) = (vec![OLD; trace], vec![OLD; plan], vec![OLD; state]);
        let answer = pick(&B, &mut trace, &mut plan, &mut state);
        assert!(untouched(&trace) && untouched(&plan) && untouched(&state));
        answer
    };
    assert_eq!(refused(20, 2, STATE_LENGTH), refuses(Refusal::TraceBuffer));
    assert_eq!(refused(21, 1, STATE_LENGTH), refuses(Refusal::ResultLength));
    assert_eq!(refused(21, 3, STATE_LENGTH), refuses(Refusal::ResultLength));
    assert_eq!(refused(20, 3, STATE_LENGTH), refuses(Refusal::TraceBuffer));
    assert_eq!(refused(20, 3, STATE_LENGTH - 1), Err(Fault::RunStateLength));
}

#[test]
fn a_one_item() {
    assert_eq!(read(&A), Ok(Accepted { items: 1, blocks: 0 }));
    assert_eq!(runs(&A, 2, End::Solved, 1, &[1, 3, 2, 0, 0]), state(0, &[]));
    assert_eq!(State::from_bytes(started(&A)), state(1, &[3]));
}

#[test]
fn b_two_unequal_items() {
    assert_eq!(read(&B), Ok(Accepted { items: 2, blocks: 1 }));
    assert_eq!(runs(&B, 4, End::Solved, 2, &[1, 3, 2, 0, 0, 3, 2, 1, 0]), state(0, &[]));
    let mut plan = [OLD; 2];
    assert_eq!(put_back(&B, &[1, 3, 2, 0, 0, 3, 2, 1, 0], &[255, 255], &mut plan), Ok(()));
    assert_eq!(plan, [0, 1]);
}

/// A slide that the rule of before does not allow is accepted; the cover of the same settings is not.
#[test]
fn b_slide() {
    let mut plan = [OLD; 2];
    assert_eq!(put_back(&B, &[1, 4, 5, 0, 0, 1], &[1, 1], &mut plan), refuses(Refusal::PlanUnfit));
    assert_eq!(put_back(&B, &[1, 4, 5, 0, 0, 1], &[0, 1], &mut plan), refuses(Refusal::PlanUnfit));
    assert_eq!(put_back(&B, &[1, 4, 4, 0, 0, 1], &[1, 0], &mut plan), unlawful(0, 1, 1));
    assert!(untouched(&plan));
    assert_eq!(put_back(&B, &[1, 4, 5, 0, 0, 1], &[1, 0], &mut plan), Ok(()));
    assert_eq!(plan, [1, 0]);
}

/// A slide that neither rule allows names nothing.
#[test]
fn c_slide() {
    let mut plan = [OLD; 3];
    assert_eq!(put_back(&C, &[1, 4, 5, 0, 0, 1], &[1, 0, 0], &mut plan), unlawful(0, NOT_NAMED, NOT_NAMED));
    assert!(untouched(&plan));
}

#[test]
fn b_buffers() {
    let (mut exact, mut short) = ([OLD; 21], [OLD; 20]);
    let mut state = [OLD; STATE_LENGTH];
    assert_eq!(run(&B, &mut short, &mut state), refuses(Refusal::TraceBuffer));
    assert!(untouched(&short) && untouched(&state));
    assert_eq!(run(&B, &mut exact, &mut state), Ok(Done { end: End::Solved, steps: 2, written: 9 }));
}

/// The numbers of the lines `sheet 2 4` and `solved 2 0 0`.
#[test]
fn b_printed() {
    let Ok(Accepted { items, .. }) = read(&B) else { panic!("accepted") };
    let sum_of_sizes: u32 = B[8..10].iter().map(|&size| u32::from(size)).sum();
    assert_eq!((items, sum_of_sizes), (2, 4));
    let (answer, last, _) = worked(&B, 4);
    let Ok(Done { end, steps, .. }) = answer else { panic!("accepted") };
    assert_eq!((end, steps, last.count_items(), last.count_settings()), (End::Solved, 2, 0, 0));
}

#[test]
fn c_three_unequal_items() {
    let last = runs(&C, 6, End::Rest, 0, &[1]);
    assert_eq!(last, state(7, &[3, 3, 3]));
    assert_eq!((last.count_items(), last.count_settings()), (3, 6));
    assert!(every_plan(3, 2).iter().all(|plan| !is_plan(&C, plan)));
}

#[test]
fn d_barred_pair() {
    assert_eq!(runs(&D, 2, End::Impossible, 1, &[1, 4, 1, 0, 0, 1]), state(3, &[0, 1]));
    assert_eq!(State::from_bytes(started(&D)), state(3, &[]));
    hand_refused(&D, 0, Refusal::ItemEmpty);
}

#[test]
fn e_header_and_three() {
    let trace = [1, 3, 2, 0, 0, 3, 2, 1, 0, 3, 2, 2, 0, 3, 2, 3, 0];
    assert_eq!(runs(&E, 8, End::Solved, 4, &trace), state(0, &[]));
    assert_eq!(every_plan(4, 2).iter().filter(|plan| is_plan(&E, plan)).count(), 2);
    let left = every_plan(3, 2);
    assert_eq!(left.len(), 8);
    for plan in left {
        let mut full = [OLD; 4];
        assert_eq!(put_back(&E, &trace[..5], &[&[255], &plan[..]].concat(), &mut full), Ok(()));
        assert_eq!(full, [0, 1, 1, 1]);
    }
}

#[test]
fn f_setting_0_does_not_serve() {
    let trace = [1, 3, 2, 0, 1, 3, 2, 1, 0, 3, 2, 2, 0];
    assert_eq!(runs(&F, 9, End::Solved, 3, &trace), state(0, &[]));
    let mut plan = [OLD; 3];
    assert_eq!(put_back(&F, &trace, &[255; 3], &mut plan), Ok(()));
    assert_eq!(plan, [1, 0, 0]);
    let other = [1, 3, 2, 0, 0];
    assert_eq!(put_back(&F, &other, &[255, 0, 0], &mut plan), unlawful(0, NOT_NAMED, NOT_NAMED));
    assert_eq!(plan, [1, 0, 0]);
    let mut by_hand = started(&F);
    assert_eq!(hand_call(&F, &mut by_hand, 0), Ok(Taken { setting: 1 }));
    assert_eq!(State::from_bytes(by_hand), state(6, &[0, 7, 7]));
}

#[test]
fn g_fold() {
    assert_eq!(runs(&G, 8, End::Rest, 1, &[1, 3, 3, 3, 0]), state(7, &[3, 3, 3]));
}

#[test]
fn h_cover() {
    assert_eq!(runs(&H, 7, End::Rest, 1, &[1, 4, 4, 0, 0, 2]), state(7, &[6, 3, 3]));
}

#[test]
fn i_by_hand() {
    hand_refused(&C, 0, Refusal::NoSnake);
    hand_refused(&C, 3, Refusal::ItemNotIn);
}

#[test]
fn j_barred_plan() {
    let mut result = [OLD; 3];
    assert_eq!(put_back(&C, &[1], &[0, 1, 0], &mut result), refuses(Refusal::PlanUnfit));
    assert!(untouched(&result));
}

#[test]
fn k_slide() {
    let trace = [1, 4, 5, 0, 2, 0, 3, 3, 1, 0, 3, 2, 0, 0, 3, 2, 2, 0];
    assert_eq!(runs(&K, 7, End::Solved, 4, &trace), state(0, &[]));
    let mut plan = [OLD; 3];
    assert_eq!(put_back(&K, &trace, &[255; 3], &mut plan), Ok(()));
    assert_eq!(plan, [0, 0, 1]);
    no_step_before(&K);
}

#[test]
fn l_bare_after_a_slide() {
    let trace = [1, 4, 5, 0, 1, 0, 4, 1, 1, 0, 0];
    assert_eq!(runs(&L, 8, End::Rest, 2, &trace), state(7, &[5, 6, 3]));
    let mut plan = [OLD; 3];
    assert_eq!(put_back(&L, &trace, &[0, 0, 0], &mut plan), refuses(Refusal::PlanUnfit));
    assert!(untouched(&plan));
    assert_eq!(put_back(&L, &trace, &[0, 1, 0], &mut plan), Ok(()));
    assert_eq!(plan, [0, 1, 0]);
    no_step_before(&L);
}

/// By the slide rule of before the run took no step.
fn no_step_before(sheet: &[u8]) {
    let (problem, _) = reference::read_sheet(sheet).unwrap();
    assert_eq!(problem.of_before().reduce().0, []);
}

/// A slide that the rule of before allows too.
#[test]
fn a_slide_of_before() {
    let sheet = [1, 0, 0, 0, 16, 2, 0, 1, 2, 2, 0, 1, 0, 3, 0, 2];
    let (trace, mut plan, mut before) = ([1, 4, 5, 0, 0, 1], [OLD; 2], [OLD; 2]);
    assert_eq!(put_back(&sheet, &trace, &[1, 1], &mut plan), Ok(()));
    let (problem, _) = reference::read_sheet(&sheet).unwrap();
    assert_eq!(reference::put_back_over(&problem.of_before(), &trace, &[1, 1], &mut before), Ok(()));
    assert_eq!((plan, before), ([1, 1], [1, 1]));
}

/// "A step list that is refused, and mended": a pond gate, a tail gate and a sluice.
#[test]
fn a_step_list_mended() {
    #[rustfmt::skip]
    let gates = [
        1, 0, 0, 0, 23, 3, 0, 2, 2, 2, 4,
        0, 1, 0, 3, 0, 1,
        0, 2, 0, 15, 0, 7,
    ];
    let (snake, cover, first) = ([3, 2, 1, 0], [4, 4, 0, 0, 1], [4, 4, 2, 3, 2]);
    let (left, mut plan) = ([1, 255, 2], [OLD; 3]);
    assert_eq!(put_back(&gates, &[&[1][..], &snake, &cover].concat(), &left, &mut plan), unlawful(1, 2, 3));
    assert_eq!(put_back(&gates, &[&[1][..], &cover, &snake].concat(), &left, &mut plan), unlawful(0, 1, 1));
    assert!(untouched(&plan));
    assert_eq!(put_back(&gates, &[&[1][..], &snake, &first, &cover].concat(), &left, &mut plan), Ok(()));
    assert_eq!(plan, [1, 0, 2]);
}

// ---- The cases of crates/bench_sheets -----------------------------------------------------------------------------------------------

/// The cases of one job: the name of each, its fields, and its answer.
fn bench_cases(job: &str, least: usize) -> Vec<(String, Vec<Vec<u8>>, String)> {
    let folder = Path::new(env!("CARGO_MANIFEST_DIR")).join("../crates/bench_sheets");
    let [cases, answers] = ["stdin", "stdout"].map(|name| fs::read_to_string(folder.join(name)).expect("a file of the bench cases"));
    let (names, lines): (Vec<&str>, Vec<&str>) = cases.lines().partition(|line| line.starts_with('#'));
    assert_eq!((names.len(), lines.len()), (lines.len(), answers.lines().count()));
    let bytes = |digits: &str| (0..digits.len()).step_by(2).map(|k| u8::from_str_radix(&digits[k..k + 2], 16).expect("digits")).collect();
    let fields = |line: &str| line.strip_prefix(job)?.strip_prefix(' ').map(|fields| fields.split(' ').map(bytes).collect());
    let all = names.iter().zip(lines).zip(answers.lines());
    let of_job = all.filter_map(|((name, line), answer)| Some((name.to_string(), fields(line)?, answer.to_string())));
    let of_job: Vec<_> = of_job.collect();
    assert!(of_job.len() >= least, "only {} cases of {job}", of_job.len());
    of_job
}

fn digits(bytes: &[u8]) -> String {
    bytes.iter().map(|byte| format!("{byte:02x}")).collect()
}

/// An answer of putting back as its line in the file.
fn line(answer: Answer<()>, result: &[u8]) -> String {
    let result = digits(result);
    match answer {
        Ok(()) => format!("done {result}"),
        Err(Fault::Unlawful(Unlawful { record, item, setting })) => format!("refused 17 {record} {item} {setting} {result}"),
        Err(fault) => format!("refused {} {result}", fault.number()),
    }
}

/// Every case of putting back is answered as the file has it, by this implementation.
fn answers(mut put_back: impl FnMut(&[u8], &[u8], &[u8], &mut [u8]) -> Answer<()>) {
    for (name, fields, expected) in bench_cases("back", 400) {
        let [sheet, trace, plan, mut result] = <[Vec<u8>; 4]>::try_from(fields).expect("four fields");
        let answer = put_back(&sheet, &trace, &plan, &mut result);
        assert_eq!(line(answer, &result), expected, "{name}");
    }
}

/// A line of picking has the length of the trace buffer, which is lent in a pattern, the sheet and the lent plan; its answer the run's own
/// behind the word `plan` or `none`, or the number, and both buffers.
fn picking_answers(mut pick: impl FnMut(&[u8], &mut [u8], &mut [u8], &mut [u8]) -> Answer<Chosen>) {
    for (name, fields, expected) in bench_cases("pick", 150) {
        let [length, sheet, mut plan] = <[Vec<u8>; 3]>::try_from(fields).expect("three fields");
        let length = usize::from(u16::from_be_bytes([length[0], length[1]]));
        let mut trace: Vec<u8> = (0..length).map(|place| ((37 * place + 11) % 251) as u8).collect();
        let mut state = [OLD; STATE_LENGTH];
        let told = match pick(&sheet, &mut trace, &mut plan, &mut state) {
            Ok(Chosen { run: Done { end, steps, written }, has_plan }) => {
                format!("{} {} {steps} {written} {}", if has_plan { "plan" } else { "none" }, end as u8, digits(&state))
            }
            Err(fault) => format!("refused {}", fault.number()),
        };
        assert_eq!(format!("{told} {} {}", digits(&trace), digits(&plan)), expected, "{name}");
    }
}

#[test]
fn the_reference_answers_the_bench_cases() {
    answers(reference::put_back);
    picking_answers(reference::pick);
}

#[test]
fn the_fast_implementation_answers_the_bench_cases() {
    let mut workspace = Workspace::new();
    answers(|sheet, trace, plan, result| workspace.put_back(sheet, trace, plan, result));
    picking_answers(|sheet, trace, plan, state| workspace.pick(sheet, trace, plan, state));
}

#[test]
fn the_library_answers_the_bench_cases() {
    answers(proved::put_back);
    picking_answers(proved::pick);
}

#[test]
fn refused_sheets() {
    refused(&[1, 0, 0, 0, 16, 2, 0, 1, 2, 2, 0, 1, 0, 4, 0, 1], 8);
    refused(&[1, 0, 0, 0, 16, 2, 0, 1, 2, 2, 0, 1, 0, 3, 0, 3], 9);
    refused(&[1, 0, 0, 0, 16, 33, 0, 1, 2, 2, 0, 1, 0, 2, 0, 1], 4);
    refused(&[1, 0, 0, 0, 16, 2, 0, 1, 17, 2, 0, 1, 0, 2, 0, 1], 5);
    refused(&[1, 0, 0, 0, 16, 2, 0, 1, 2, 17, 0, 1, 0, 2, 0, 1], 5);
    refused(&[2, 0, 0, 0, 14, 2, 0, 1, 2, 2, 0, 1, 4, 1], 8);
    refused(&[2, 0, 0, 0, 14, 2, 0, 1, 2, 2, 0, 1, 3, 3], 9);
    refused(&[2, 0, 0, 0, 14, 33, 0, 1, 2, 2, 0, 1, 2, 1], 4);
    refused(&[2, 0, 0, 0, 14, 2, 0, 1, 17, 2, 0, 1, 2, 1], 5);
    refused(&[2, 0, 0, 0, 14, 2, 0, 1, 2, 17, 0, 1, 2, 1], 5);
}

#[test]
fn every_refusal_has_its_number() {
    let numbers = |known: fn(u8) -> bool| (0..=255).filter(|&number| known(number)).collect::<Vec<u8>>();
    assert_eq!(numbers(|number| Refusal::from_number(number).is_some()), (1..=26).collect::<Vec<u8>>());
    assert_eq!(numbers(|number| Fault::from_number(number).is_some()), (1..=26).chain([200, 201]).collect::<Vec<u8>>());
    assert!(Refusal::ALL.iter().all(|&refusal| Refusal::from_number(refusal.number()) == Some(refusal)));
}

#[test]
fn state_lengths() {
    for length in [0, 67, 69, 136] {
        for sheet in [&B[..], &in_version_2(&B), &[]] {
            let (mut trace, mut wrong) = ([OLD; 21], vec![OLD; length]);
            assert_eq!(proved::run(sheet, &mut trace, &mut wrong), Err(Fault::RunStateLength));
            assert!(untouched(&trace) && untouched(&wrong));
            assert_eq!(proved::pick(sheet, &mut trace, &mut [OLD; 2], &mut wrong), Err(Fault::RunStateLength));
            assert!(untouched(&trace) && untouched(&wrong));
            assert_eq!(proved::start(sheet, &mut wrong), Err(Fault::HandStateLength));
            assert!(untouched(&wrong));
            assert_eq!(proved::hand_call(sheet, &mut wrong, 0), Err(Fault::HandStateLength));
            assert!(untouched(&wrong));
        }
    }
}

/// All ways to give each of n items one of so many settings.
fn every_plan(n: u32, settings: usize) -> Vec<Vec<u8>> {
    let digit = |number: usize, place: u32| (number / settings.pow(place) % settings) as u8;
    (0..settings.pow(n)).map(|number| (0..n).map(|place| digit(number, place)).collect()).collect()
}

/// Whether the empty trace takes this plan for the full sheet, as it must exactly where it is one.
fn is_plan(sheet: &[u8], plan: &[u8]) -> bool {
    let mut result = vec![OLD; plan.len()];
    match put_back(sheet, &[1], plan, &mut result) {
        Ok(()) => {
            assert_eq!(result, plan);
            true
        }
        Err(fault) => {
            assert_eq!(fault, Fault::Refused(Refusal::PlanUnfit));
            assert!(untouched(&result));
            false
        }
    }
}
