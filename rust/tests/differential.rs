//! Compares every job of the proved library with the reference and with the fast implementation, and those that the fixed peer has, reading,
//! run, start, hand call and putting back, with it too: answers, and each lent byte afterwards. Half of the sheets are of version 2, and
//! every call that is lent a sheet, but the move, is made with both its versions: the archive's function and the peer have the sheet, the
//! library's (support/proved.rs) has it in the other version, and the fast implementation has both. The library's decoder is asked of every
//! trace.
//!
//! ZOMUWEDLI_SEED: the seed. ZOMUWEDLI_PART: a divisor of the sizes and of the least counts.

mod support;

use std::collections::BTreeMap;
use std::fmt::Debug;

use support::corpus::{corpus, Entry};
use support::decoder::{decode, record, reference_decode};
use support::generate::{self, Random};
use support::proved::{library, raw};
use support::reference::{self, Problem, State, Step};
use support::{fast, peer, proved, Answer, Chosen, Done, Fault};
use zomuwedli::{Accepted, End, Record, Refusal, Unlawful, Written, HAND_STATE_LENGTH, MAX_FILE, MAX_SHEET, OUT, STATE_LENGTH};

const SEED: u64 = 20_260_917;

/// How many cases each part has; a case of sheets compares about six calls, one of the others about as many.
const SHEETS: u64 = 94_000;
const SLIDING_SHEETS: u64 = 15_000;
const LARGE_SLIDING_SHEETS: u64 = 2_000;
const LARGE_SHEETS: u64 = 200;
const LONG_RUNS: u64 = 1_150;
const HAND_LISTS: u64 = 14_000;
const TRACES: u64 = 12_000;
const UNLAWFUL_TRACES: u64 = 24_000;
const LONG_TRACES: u64 = 500;
const PICKS: u64 = 14_000;
const FILES: u64 = 60_000;
const LONG_FILES: u64 = 200;
const LARGE_MOVES: u64 = 600;

/// The least counts. Of each: of each answer that a job can give, of each end, of each kind.
const LEAST_SHEETS: u64 = 100_000;
const LEAST_CALLS: u64 = 20_000;
const LEAST_OF_EACH: u64 = 100;
const LEAST_FULLEST: u64 = 50;
const LEAST_LONG: u64 = 10;
const LEAST_FILES: u64 = 50_000;
/// Of each answer of a job that writes a sheet.
const LEAST_OF_EACH_WRITTEN: u64 = 500;
const LEAST_OF_EACH_VERSION: u64 = 500;
const LEAST_OF_EACH_WIDTH: u64 = 500;
const LEAST_ALIKE: u64 = 10_000;
const LEAST_OF_EACH_CAUSE: u64 = 500;
const LEAST_SLIDING: u64 = 2_000;
const LEAST_BARE_AFTER: u64 = 200;
/// Runs of so many steps in which a test that failed holds later.
const LONG: usize = 200;
const LEAST_WOKEN: u64 = 1_000;
const LEAST_PICKS: u64 = 10_000;
const LEAST_OF_EACH_PICK: u64 = 1_000;

const JOBS: [&str; 8] = ["read", "run", "start", "hand call", "put back", "pick", "colour", "move"];
const RUN: usize = 1;
const PICK: usize = 5;
/// The job that is lent no sheet but a colouring file.
const COLOUR: usize = 6;
const MOVE: usize = 7;
const KINDS: [&str; 5] = ["bare", "snake", "fold", "cover", "slide"];

/// Why a record is refused with 17, those first that name an item and a setting. Each but the last two is counted where it alone speaks
/// against the record.
const CAUSES: [&str; 16] = [
    "a cover that breaks at the first other item in",
    "a cover that breaks between",
    "a cover that breaks at the last",
    "a cover that breaks at the only one",
    "a cover, a = b",
    "a cover, i out",
    "a cover, i not below n",
    "a cover, a off",
    "a cover, b off",
    "a cover that breaks, an item emptied",
    "bare",
    "snake",
    "fold",
    "slide",
    "a cover that holds, an item emptied",
    "several",
];
/// Those that name an item and a setting.
const NAMES: &[&str] = CAUSES.split_at(4).0;

const EVERY_JOB: [usize; 8] = [0, 1, 2, 3, 4, PICK, COLOUR, MOVE];
/// The jobs that answer of a sheet what they answer of the same sheet in the other version. A move is none of them: it goes by the version.
const ALIKE_JOBS: [usize; 6] = [0, 1, 2, 3, 4, PICK];

/// The refusals that each job has beside those of the sheet, 1 to 9, which all have that are lent one.
const OWN_REFUSALS: [&[u8]; 8] =
    [&[], &[10, 200], &[201], &[11, 12, 13, 14, 201], &[15, 16, 17, 18, 19, 20], &[10, 20, 200], &[21, 22, 23, 24, 25], &[26]];

/// What byte 0 of a sheet is that is refused with 2.
const NO_VERSIONS: [&str; 3] = ["0", "3", "another"];

/// What an accepted sheet of version 2 has: among its blocks rows of both widths, or a block of an i and a j of these sizes.
const WIDTHS: [&str; 3] = ["rows of both widths", "a block of 8 and 9 settings", "a block of 9 and 8"];

/// What a pick comes to, by the end of its run and whether there is a plan. There are no others.
const PICKED: [(&str, (End, bool)); 4] = [
    ("a plan after solved", (End::Solved, true)),
    ("a plan after rest", (End::Rest, true)),
    ("none after rest", (End::Rest, false)),
    ("none after impossible", (End::Impossible, false)),
];

fn main() {
    let seed = generate::from_environment("ZOMUWEDLI_SEED", SEED);
    let divisor = generate::from_environment("ZOMUWEDLI_PART", 1).max(1);
    let mut comparison = Comparison::new(seed);
    comparison.part("hand calls", HAND_LISTS / divisor, hand_case);
    comparison.part("putting back", TRACES / divisor, trace_case);
    comparison.part("unlawful records", UNLAWFUL_TRACES / divisor, unlawful_case);
    comparison.part("unlawful records far on", LONG_TRACES / divisor, far_unlawful_case);
    comparison.part("sheets", SHEETS / divisor, sheet_case);
    comparison.part("sheets whose runs slide", SLIDING_SHEETS / divisor, sliding_case);
    comparison.part("larger ones", LARGE_SLIDING_SHEETS / divisor, large_sliding_case);
    comparison.part("large sheets", LARGE_SHEETS / divisor, large_case);
    comparison.part("large sheets put back", LARGE_SHEETS / 4 / divisor, large_trace_case);
    comparison.part("long runs", LONG_RUNS / divisor, long_case);
    comparison.part("picking", PICKS / divisor, picking_case);
    comparison.part("picking from the corpus", comparison.corpus.len() as u64 / divisor, corpus_case);
    comparison.part("colouring files", FILES / divisor, colouring_case);
    comparison.part("long colouring files", LONG_FILES / divisor, long_colouring_case);
    comparison.part("moves of large sheets", LARGE_MOVES / divisor, large_move_case);
    comparison.counts.print();
    let (missing, strange) = (comparison.counts.missing(divisor), comparison.counts.strange());
    missing.iter().for_each(|line| println!("too few: {line}"));
    strange.iter().for_each(|line| println!("cannot be: {line}"));
    println!("differential: {} calls compared, 0 differences", comparison.counts.calls());
    if !missing.is_empty() || !strange.is_empty() {
        std::process::exit(1);
    }
}

/// Every answer by its number, 0 for accepted.
fn numbers() -> impl Iterator<Item = u8> {
    std::iter::once(0).chain(Fault::all().map(Fault::number))
}

fn can_answer(job: usize, number: u8) -> bool {
    number == 0 || (job != COLOUR && number <= 9) || OWN_REFUSALS[job].contains(&number)
}

// ---- Counts -------------------------------------------------------------------------------------------------------------------------

#[derive(Default)]
struct Counts {
    sheets: u64,
    accepted_sheets: u64,
    /// By job and number, 0 for accepted.
    answers: BTreeMap<(usize, u8), u64>,
    ends: BTreeMap<u8, u64>,
    run_steps: [u64; 6],
    /// Runs whose number of steps is more than a byte holds.
    long_runs: u64,
    /// Runs with a slide, with several, and those in which a bare step follows one, by the trace that the fast implementation wrote.
    sliding_runs: u64,
    sliding_on: u64,
    bare_after_slide: u64,
    /// Runs of LONG steps and more in which a test that failed holds later, and how often it does in them, by kind; and how many of all
    /// long runs the reference made too.
    woken_runs: u64,
    woken: [u64; 6],
    long_by_reference: u64,
    /// Runs that were compared with those by the slide rule of before, and those that go on where these end.
    runs_of_before: u64,
    longer_than_before: u64,
    lent_records: [u64; 6],
    /// Records refused with 17, by CAUSES; those after a lawful one, and those whose number is more than a byte holds, the latter also
    /// where they name an item and a setting; and those that name an item with one out below it.
    unlawful: BTreeMap<&'static str, u64>,
    unlawful_later: u64,
    unlawful_far_on: u64,
    named_far_on: u64,
    named_above_out: u64,
    /// Slides of accepted lent traces: those that are no covers, and those that the rule of before does not allow.
    slides_not_covers: u64,
    slides_added: u64,
    /// Accepted lent traces with slides that the rule of before accepts too.
    sliding_before: u64,
    /// Steps that took an item out and switched off settings elsewhere: in accepted lent traces, and by hand.
    lent_partners_lost: u64,
    hand_partners_lost: u64,
    changed_when_undone: u64,
    /// Picks that were done, by the run's end and whether there is a plan; those whose plan is not the first of the full sheet; and those
    /// that were lent a short trace buffer and a plan of a wrong length at once.
    picks: BTreeMap<(End, bool), u64>,
    not_first_of_all: u64,
    both_buffers_wrong: u64,
    /// Picks from the corpus that were left to the library and the fast implementation.
    picked_by_two: u64,
    /// Accepted sheets by the number of items, and those of 32 items of 16 settings with 496 blocks.
    sheets_by_items: BTreeMap<usize, u64>,
    fullest_sheets: u64,
    /// Traces that the decoder was asked of, by its number: 0 where it took them apart to their end.
    decoded: BTreeMap<u8, u64>,
    /// Colouring files, those of 64 KiB exactly, and what was written for the accepted ones: sheets with fewer blocks than `e` lines,
    /// sheets of the longest length, and sheets of one channel with a block, which bars everything.
    files: u64,
    longest_files: u64,
    repeated_edges: u64,
    longest_written: u64,
    bars_everything: u64,
    /// Accepted sheets of every part by their version, and those of version 2 by WIDTHS; sheets refused with 2 by NO_VERSIONS.
    versions: [u64; 2],
    widths: [u64; WIDTHS.len()],
    no_versions: [u64; NO_VERSIONS.len()],
    /// Calls that were made with both versions of a sheet, by job; and those of them in which the one is shorter.
    alike: BTreeMap<usize, u64>,
    alike_shorter: u64,
    /// Sheets that were moved and moved back by all, and those of the longest length.
    moved_twice: u64,
    longest_moved: u64,
}

impl Counts {
    fn calls(&self) -> u64 {
        self.answers.values().sum()
    }

    fn of_job(&self, job: usize) -> u64 {
        self.answers.iter().filter(|(key, _)| key.0 == job).map(|(_, count)| count).sum()
    }

    /// The calls of one job that no fault of the sheet turned away.
    fn past_the_sheet(&self, job: usize) -> u64 {
        self.answers.iter().filter(|(key, _)| key.0 == job && !(1..=9).contains(&key.1)).map(|(_, count)| count).sum()
    }

    fn of_answer(&self, job: usize, number: u8) -> u64 {
        *self.answers.get(&(job, number)).unwrap_or(&0)
    }

    fn of_causes(&self) -> [(&'static str, u64); CAUSES.len()] {
        CAUSES.map(|cause| (cause, *self.unlawful.get(cause).unwrap_or(&0)))
    }

    fn of_picks(&self) -> [(&'static str, u64); PICKED.len()] {
        PICKED.map(|(name, outcome)| (name, *self.picks.get(&outcome).unwrap_or(&0)))
    }

    fn of_alike(&self) -> [(&'static str, u64); ALIKE_JOBS.len()] {
        ALIKE_JOBS.map(|job| (JOBS[job], *self.alike.get(&job).unwrap_or(&0)))
    }

    fn of_decoding(&self, number: u8) -> u64 {
        *self.decoded.get(&number).unwrap_or(&0)
    }

    fn print(&self) {
        println!("sheets: {}, {} of them accepted", self.sheets, self.accepted_sheets);
        let of_items =
            |(first, last)| format!("{first} to {last} {}", self.sheets_by_items.range(first..=last).map(|(_, count)| count).sum::<u64>());
        println!("accepted by items: {}", [(1, 3), (4, 6), (7, 12), (13, 31), (32, 32)].map(of_items).join(", "));
        println!("accepted with 32 items of 16 settings and 496 blocks: {}", self.fullest_sheets);
        println!("{:>10} {}", "answer", JOBS.map(|job| format!("{job:>10}")).join(" "));
        for number in numbers() {
            let name = if number == 0 { "accepted".to_string() } else { number.to_string() };
            let count = |job: usize| format!("{:>10}", self.of_answer(job, number));
            println!("{name:>10} {}", EVERY_JOB.map(count).join(" "));
        }
        println!("{:>10} {}", "all", EVERY_JOB.map(|job| format!("{:>10}", self.of_job(job))).join(" "));
        let past = EVERY_JOB.iter().filter(|&&job| job != COLOUR).map(|&job| format!("{} {}", JOBS[job], self.past_the_sheet(job)));
        println!("calls that no fault of the sheet turned away: {}", past.collect::<Vec<_>>().join(", "));
        let ends = [End::Impossible, End::Solved, End::Rest].map(|end| format!("{end:?} {}", self.ends.get(&(end as u8)).unwrap_or(&0)));
        println!("ends of runs: {}", ends.join(", "));
        println!("steps of runs: {}; runs of more than 255: {}", by_kind(&self.run_steps), self.long_runs);
        println!(
            "runs with a slide: {}; with several: {}; in which a bare step follows one: {}",
            self.sliding_runs, self.sliding_on, self.bare_after_slide
        );
        println!(
            "runs of {LONG} steps and more in which a test that failed holds later: {}; how often: {}; long runs by the reference too: {}",
            self.woken_runs,
            by_kind(&self.woken),
            self.long_by_reference
        );
        println!(
            "runs that begin as by the slide rule of before: {}, {} of these going on, with a slide that it does not allow",
            self.runs_of_before, self.longer_than_before
        );
        println!("records of accepted lent traces: {}", by_kind(&self.lent_records));
        println!(
            "slides among them that are no covers: {}, that the rule of before does not allow: {}; traces with slides that it accepts: {}",
            self.slides_not_covers, self.slides_added, self.sliding_before
        );
        println!("records refused with 17: {}", self.of_causes().map(|(cause, count)| format!("{cause} {count}")).join("; "));
        println!(
            "among them after a lawful record: {}; of a number over 255: {}, {} of these naming a setting; naming an item above one out: {}",
            self.unlawful_later, self.unlawful_far_on, self.named_far_on, self.named_above_out
        );
        println!(
            "items taken out that cost another item a setting: {} in lent traces, {} by hand",
            self.lent_partners_lost, self.hand_partners_lost
        );
        println!("plans put back in which an item left has another setting than before: {}", self.changed_when_undone);
        let decoded = [0, 15, 16].map(|number| self.of_decoding(number));
        println!("traces taken apart: {} to their end, {} refused with 15, {} with 16", decoded[0], decoded[1], decoded[2]);
        println!("picks: {}", self.of_picks().map(|(name, count)| format!("{name} {count}")).join(", "));
        println!(
            "among them with another plan than the first of the full sheet: {}; refused with both buffers wrong: {}; by two alone: {}",
            self.not_first_of_all, self.both_buffers_wrong, self.picked_by_two
        );
        println!("colouring files: {}, {} of them 64 KiB long", self.files, self.longest_files);
        println!(
            "sheets written: {} with an edge given again, {} of the longest length, {} with a block that bars everything",
            self.repeated_edges, self.longest_written, self.bars_everything
        );
        let widths = WIDTHS.iter().zip(self.widths).map(|(name, count)| format!("with {name} {count}"));
        println!(
            "accepted sheets of all parts: {} of version 1, {} of version 2; of these {}",
            self.versions[0],
            self.versions[1],
            widths.collect::<Vec<_>>().join(", ")
        );
        let no_versions = NO_VERSIONS.iter().zip(self.no_versions).map(|(name, count)| format!("{name} {count}"));
        println!("sheets refused with 2, by their byte 0: {}", no_versions.collect::<Vec<_>>().join(", "));
        println!(
            "calls made with both versions of a sheet, and answered alike: {}; in {} the one is shorter",
            self.of_alike().map(|(name, count)| format!("{name} {count}")).join(", "),
            self.alike_shorter
        );
        println!("sheets moved and moved back, byte for byte: {}, {} of the longest length", self.moved_twice, self.longest_moved);
    }

    /// What falls short of its least count.
    fn missing(&self, divisor: u64) -> Vec<String> {
        let jobs = [3, 4].map(|job| (JOBS[job].to_string(), self.past_the_sheet(job), LEAST_CALLS));
        let of_job = |job| numbers().filter(move |&number| can_answer(job, number)).map(move |number| (job, number));
        let least = |job| if job == COLOUR || job == MOVE { LEAST_OF_EACH_WRITTEN } else { LEAST_OF_EACH };
        let of_answer = |(job, number): (usize, u8)| (format!("{}, answer {number}", JOBS[job]), self.of_answer(job, number), least(job));
        let answers = (0..JOBS.len()).flat_map(of_job).map(of_answer);
        let ends = [0, 1, 2].map(|end| (format!("end {end}"), *self.ends.get(&end).unwrap_or(&0), LEAST_OF_EACH));
        let steps = [1, 2, 3, 4, 5].map(|kind| (format!("steps of runs of kind {kind}"), self.run_steps[kind], LEAST_OF_EACH));
        let woken = [2, 3, 4, 5].map(|kind| (format!("tests of kind {kind} that failed and hold later"), self.woken[kind], LEAST_OF_EACH));
        let records = [1, 2, 3, 4, 5].map(|kind| (format!("lent records of kind {kind}"), self.lent_records[kind], LEAST_OF_EACH));
        let decoded = [0, 15, 16].map(|number| (format!("traces taken apart, {number}"), self.of_decoding(number), LEAST_OF_EACH));
        let causes = self.of_causes().map(|(cause, count)| (format!("17: {cause}"), count, LEAST_OF_EACH_CAUSE));
        let picks = self.of_picks().map(|(name, count)| (format!("picks, {name}"), count, LEAST_OF_EACH_PICK));
        let widths = WIDTHS.iter().zip(self.widths).map(|(name, count)| (format!("sheets with {name}"), count, LEAST_OF_EACH_WIDTH));
        let no_versions = NO_VERSIONS.iter().zip(self.no_versions);
        let no_versions = no_versions.map(|(name, count)| (format!("2 for byte 0: {name}"), count, LEAST_OF_EACH_VERSION));
        let alike = self.of_alike().map(|(name, count)| (format!("{name} with both versions"), count, LEAST_ALIKE));
        let others = [
            ("picks".to_string(), self.picks.values().sum(), LEAST_PICKS),
            ("picks of another plan than the first of all".to_string(), self.not_first_of_all, LEAST_OF_EACH),
            ("picks with both buffers wrong".to_string(), self.both_buffers_wrong, LEAST_OF_EACH),
            ("picks by two alone".to_string(), self.picked_by_two, LEAST_OF_EACH),
            ("17 after a lawful record".to_string(), self.unlawful_later, LEAST_OF_EACH_CAUSE),
            ("17 of a record over 255".to_string(), self.unlawful_far_on, LEAST_OF_EACH_CAUSE),
            ("17 of a record over 255 that names a setting".to_string(), self.named_far_on, LEAST_OF_EACH),
            ("17 that names an item above one out".to_string(), self.named_above_out, LEAST_OF_EACH_CAUSE),
            ("sheets".to_string(), self.sheets, LEAST_SHEETS),
            ("runs of more than 255 steps".to_string(), self.long_runs, LEAST_LONG),
            ("runs with a slide".to_string(), self.sliding_runs, LEAST_SLIDING),
            ("runs with several slides".to_string(), self.sliding_on, LEAST_OF_EACH_CAUSE),
            ("runs in which a bare step follows a slide".to_string(), self.bare_after_slide, LEAST_BARE_AFTER),
            ("long runs in which a test that failed holds later".to_string(), self.woken_runs, LEAST_WOKEN),
            ("long runs by the reference too".to_string(), self.long_by_reference, LEAST_FULLEST),
            ("runs compared with those of before".to_string(), self.runs_of_before, LEAST_SHEETS / 2),
            ("runs that are longer than before".to_string(), self.longer_than_before, LEAST_SLIDING),
            ("slides that are no covers".to_string(), self.slides_not_covers, LEAST_OF_EACH),
            ("slides that the rule of before does not allow".to_string(), self.slides_added, LEAST_OF_EACH_CAUSE),
            ("traces with slides that the rule of before accepts".to_string(), self.sliding_before, LEAST_OF_EACH_CAUSE),
            ("partners lost in lent traces".to_string(), self.lent_partners_lost, LEAST_OF_EACH),
            ("partners lost by hand".to_string(), self.hand_partners_lost, LEAST_OF_EACH),
            ("sheets of 32 items of 16 settings, 496 blocks".to_string(), self.fullest_sheets, LEAST_FULLEST),
            ("settings changed when put back".to_string(), self.changed_when_undone, LEAST_OF_EACH),
            ("colouring files".to_string(), self.files, LEAST_FILES),
            ("colouring files of 64 KiB".to_string(), self.longest_files, LEAST_FULLEST),
            ("edges given again".to_string(), self.repeated_edges, LEAST_OF_EACH_WRITTEN),
            ("longest sheets written".to_string(), self.longest_written, LEAST_LONG),
            ("blocks written that bar everything".to_string(), self.bars_everything, LEAST_OF_EACH),
            ("accepted sheets of version 1".to_string(), self.versions[0], LEAST_SHEETS / 2),
            ("accepted sheets of version 2".to_string(), self.versions[1], LEAST_SHEETS / 2),
            ("calls with both versions, one shorter".to_string(), self.alike_shorter, LEAST_SHEETS),
            ("sheets moved and moved back".to_string(), self.moved_twice, LEAST_ALIKE),
            ("longest sheets moved and moved back".to_string(), self.longest_moved, LEAST_FULLEST / 2),
        ];
        let all = jobs.into_iter().chain(answers).chain(ends).chain(steps).chain(records).chain(decoded).chain(causes).chain(picks);
        let all = all.chain(widths).chain(no_versions).chain(alike).chain(woken).chain(others);
        let scaled = all.map(|(name, count, least)| (name, count, least / divisor));
        scaled.filter(|(_, count, least)| count < least).map(|(name, count, least)| format!("{name}: {count}, least {least}")).collect()
    }

    /// What must not come up: an answer that the job cannot give, or a plan where the run says that there is none, or the other way round.
    fn strange(&self) -> Vec<String> {
        let answers = self.answers.iter().filter(|((job, number), _)| !can_answer(*job, *number));
        let answers = answers.map(|((job, number), count)| format!("{}, answer {number}: {count}", JOBS[*job]));
        let picks = self.picks.iter().filter(|(outcome, _)| !PICKED.iter().any(|(_, picked)| picked == *outcome));
        answers.chain(picks.map(|(outcome, count)| format!("a pick with {outcome:?}: {count}"))).collect()
    }
}

fn by_kind(counts: &[u64; 6]) -> String {
    [1, 2, 3, 4, 5].map(|kind| format!("{} {}", KINDS[kind - 1], counts[kind])).join(", ")
}

// ---- One call of each implementation ------------------------------------------------------------------------------------------------

struct Comparison {
    seed: u64,
    part: &'static str,
    case: u64,
    unproved: Unproved,
    /// The sheets of the corpus that are held to the bar.
    corpus: Vec<Entry>,
    /// The sheet of the last call, and the same sheet in the other version where it keeps the layout.
    last: (Lent, Option<Lent>),
    counts: Counts,
}

/// Bytes on the heap, in a box of exactly their number: memcheck sees every access beyond.
type Lent = Box<[u8]>;

fn lend(bytes: &[u8]) -> Lent {
    Box::from(bytes)
}

/// A buffer whose old bytes differ from place to place.
fn buffer(length: usize) -> Lent {
    (0..length).map(|place| (place * 167 + 59) as u8).collect()
}

fn hexadecimal(bytes: &[u8]) -> String {
    bytes.iter().map(|byte| format!("{byte:02x}")).collect()
}

/// The number of an answer, 0 for accepted.
fn number<T>(answer: &Answer<T>) -> u8 {
    answer.as_ref().map_or_else(|fault| fault.number(), |_| 0)
}

/// The workspaces of the two implementations that have one.
struct Unproved {
    peer: peer::Workspace,
    fast: fast::Workspace,
}

/// A call of one layer or implementation: it is lent inputs, and buffers to write.
type Call<'a, T> = &'a dyn Fn(&mut Unproved, &[Lent], &mut [Lent]) -> Answer<T>;

impl Comparison {
    fn new(seed: u64) -> Comparison {
        let corpus = corpus().into_iter().filter(|entry| entry.held).collect();
        let unproved = Unproved { peer: peer::Workspace::new(), fast: fast::Workspace::new() };
        // No byte is no sheet.
        Comparison { seed, part: "", case: 0, unproved, corpus, last: (lend(&[]), None), counts: Counts::default() }
    }

    fn part(&mut self, part: &'static str, cases: u64, compare: fn(&mut Comparison, &mut Random)) {
        self.part = part;
        let began = std::time::Instant::now();
        let salt = part.bytes().fold(0, |salt, byte| salt * 31 + u64::from(byte));
        for case in 0..cases {
            self.case = case;
            let place = OnPanic(self.seed, part, case);
            compare(self, &mut Random::of_case(self.seed, salt, case));
            std::mem::forget(place);
        }
        println!("{part}: {cases} cases in {:.1} s", began.elapsed().as_secs_f64());
    }

    /// Calls the implementations, the peer where it has the job, each with its own copies of the lent bytes: inputs, and buffers that it may
    /// write. All must give one answer and leave the same bytes, and a refused call must leave them as they were. The first input is a
    /// sheet, or a file.
    fn call<T: PartialEq + Debug>(
        &mut self,
        job: usize,
        inputs: &[&[u8]],
        buffers: &[&[u8]],
        note: &str,
        calls: [Call<T>; 4],
        peer: Option<Call<T>>,
    ) -> (Answer<T>, Vec<Lent>) {
        let other = if ALIKE_JOBS.contains(&job) { self.other_version(inputs[0]) } else { None };
        let [archive, library, reference, fast] = calls;
        // "Every other job answers on the moved sheet as on the sheet, whatever else it is lent, and leaves the same bytes."
        let (first, last) = (inputs[0], other.as_deref().unwrap_or(inputs[0]));
        let mut calls = vec![("archive", archive, first), ("library", library, last), ("reference", reference, first)];
        calls.extend(peer.map(|peer| ("peer", peer, first)));
        calls.push(("fast", fast, first));
        calls.extend(other.iter().map(|other| ("fast", fast, &**other)));
        let mut result = |call: Call<T>, front: &[u8]| {
            let lent: Vec<Lent> = std::iter::once(front).chain(inputs[1..].iter().copied()).map(lend).collect();
            let mut written: Vec<Lent> = buffers.iter().map(|bytes| lend(bytes)).collect();
            let answer = call(&mut self.unproved, &lent, &mut written);
            let inputs_stay = *lent[0] == *front && lent[1..].iter().zip(&inputs[1..]).all(|(after, before)| **after == **before);
            (answer, written, inputs_stay)
        };
        let mut results: Vec<_> = calls.iter().map(|&(_, call, front)| result(call, front)).collect();
        let (answer, written, _) = &results[0];
        let unchanged = written.iter().zip(buffers).all(|(after, before)| **after == **before);
        let alike = results.iter().all(|(other, left, inputs_stay)| other == answer && left == written && *inputs_stay);
        if !alike || (answer.is_err() && !unchanged) {
            self.difference(job, inputs, buffers, note);
            for ((name, _, front), (answer, written, inputs_stay)) in calls.iter().zip(&results) {
                let version = if *front == inputs[0] { "" } else { ", with the other version" };
                let changed = if *inputs_stay { "" } else { ", and an input is changed" };
                println!("{name}{version}: {answer:?}{changed}");
                written.iter().for_each(|bytes| println!("    written {}", hexadecimal(bytes)));
            }
            std::process::exit(1);
        }
        *self.counts.answers.entry((job, number(answer))).or_default() += 1;
        if let Some(other) = &other {
            *self.counts.alike.entry(job).or_default() += 1;
            self.counts.alike_shorter += u64::from(other.len() != inputs[0].len());
        }
        let (answer, written, _) = results.swap_remove(0);
        (answer, written)
    }

    /// The sheet in the other version, where it keeps the layout, by the reference: which reads the same problem from both, and moves it back
    /// byte for byte.
    fn other_version(&mut self, sheet: &[u8]) -> Option<Lent> {
        if *self.last.0 != *sheet {
            let moved = reference::moved(sheet).ok();
            if let Some(moved) = &moved {
                let [problem, other] = [sheet, moved].map(|sheet| reference::read_sheet(sheet).map(|(problem, _)| problem).ok());
                assert!(problem == other, "a moved sheet says something else: {}", hexadecimal(sheet));
                assert!(reference::moved(moved).as_deref() == Ok(sheet), "a sheet moved twice is another: {}", hexadecimal(sheet));
                self.count_accepted(sheet);
            }
            self.last = (lend(sheet), moved.map(Vec::into_boxed_slice));
        }
        self.last.1.clone()
    }

    /// Counts an accepted sheet by its version and, of version 2, by the widths of its rows.
    fn count_accepted(&mut self, sheet: &[u8]) {
        self.counts.versions[usize::from(sheet[0] - 1)] += 1;
        if sheet[0] == 2 {
            let blocks = block_sizes(sheet);
            let narrow = |&(_, j): &(u8, u8)| j <= 8;
            let mixed = blocks.iter().any(narrow) && !blocks.iter().all(narrow);
            let has = [mixed, blocks.contains(&(8, 9)), blocks.contains(&(9, 8))];
            self.counts.widths.iter_mut().zip(has).for_each(|(count, has)| *count += u64::from(has));
        }
    }

    fn difference(&self, job: usize, inputs: &[&[u8]], buffers: &[&[u8]], note: &str) {
        println!("difference in {}: seed {}, {}, case {}{note}", JOBS[job], self.seed, self.part, self.case);
        inputs.iter().for_each(|bytes| println!("    input {}", hexadecimal(bytes)));
        buffers.iter().for_each(|bytes| println!("    buffer {}", hexadecimal(bytes)));
    }

    fn read(&mut self, sheet: &[u8]) {
        self.counts.sheets += 1;
        let (answer, _) = self.call(
            0,
            &[sheet],
            &[],
            "",
            [
                &|_, lent, _| raw::read(&lent[0]),
                &|_, lent, _| library::read(&lent[0]),
                &|_, lent, _| reference::read(&lent[0]),
                &|by, lent, _| by.fast.read(&lent[0]),
            ],
            Some(&|by, lent, _| by.peer.read(&lent[0])),
        );
        match answer {
            Ok(Accepted { items, blocks }) => {
                self.counts.accepted_sheets += 1;
                *self.counts.sheets_by_items.entry(items).or_default() += 1;
                self.counts.fullest_sheets += u64::from(blocks == 496 && sheet.len() == MAX_SHEET);
            }
            Err(Fault::Refused(Refusal::SheetVersion)) => {
                let place = [0, 3].iter().position(|&byte| byte == sheet[0]);
                self.counts.no_versions[place.unwrap_or(2)] += 1;
            }
            Err(_) => {}
        }
    }

    fn run(&mut self, sheet: &[u8], trace_length: usize, state_length: usize) -> (Option<Done>, Lent, Lent) {
        let (answer, written) = self.call(
            1,
            &[sheet],
            &[&buffer(trace_length), &buffer(state_length)],
            "",
            [
                &|_, lent, written| on_two(written, |trace, state| raw::run(&lent[0], trace, state)),
                &|_, lent, written| on_two(written, |trace, state| library::run(&lent[0], trace, state)),
                &|_, lent, written| on_two(written, |trace, state| reference::run(&lent[0], trace, state)),
                &|by, lent, written| on_two(written, |trace, state| by.fast.run(&lent[0], trace, state)),
            ],
            Some(&|by, lent, written| on_two(written, |trace, state| by.peer.run(&lent[0], trace, state))),
        );
        let [trace, state] = <[Lent; 2]>::try_from(written).expect("two buffers");
        (answer.ok(), trace, state)
    }

    fn start(&mut self, sheet: &[u8], state_length: usize) -> Lent {
        let (_, mut written) = self.call(
            2,
            &[sheet],
            &[&buffer(state_length)],
            "",
            [
                &|_, lent, written| raw::start(&lent[0], &mut written[0]),
                &|_, lent, written| library::start(&lent[0], &mut written[0]),
                &|_, lent, written| reference::start(&lent[0], &mut written[0]),
                &|by, lent, written| by.fast.start(&lent[0], &mut written[0]),
            ],
            Some(&|by, lent, written| by.peer.start(&lent[0], &mut written[0])),
        );
        written.remove(0)
    }

    fn hand_call(&mut self, sheet: &[u8], state: &[u8], item: u64) -> Lent {
        let (answer, mut written) = self.call(
            3,
            &[sheet],
            &[state],
            &format!(", item {item}"),
            [
                &|_, lent, written| raw::hand_call(&lent[0], &mut written[0], item),
                &|_, lent, written| library::hand_call(&lent[0], &mut written[0], item),
                &|_, lent, written| reference::hand_call(&lent[0], &mut written[0], item),
                &|by, lent, written| by.fast.hand_call(&lent[0], &mut written[0], item),
            ],
            Some(&|by, lent, written| by.peer.hand_call(&lent[0], &mut written[0], item)),
        );
        let after = written.remove(0);
        if answer.is_ok() {
            self.counts.hand_partners_lost += u64::from(partners_lost(&State::from_bytes(state), &State::from_bytes(&after)));
        }
        after
    }

    fn put_back(&mut self, sheet: &[u8], trace: &[u8], plan: &[u8], result_length: usize) -> Answer<Lent> {
        let (answer, mut written) = self.call(
            4,
            &[sheet, trace, plan],
            &[&buffer(result_length)],
            "",
            [
                &|_, lent, written| raw::put_back(&lent[0], &lent[1], &lent[2], &mut written[0]),
                &|_, lent, written| library::put_back(&lent[0], &lent[1], &lent[2], &mut written[0]),
                &|_, lent, written| reference::put_back(&lent[0], &lent[1], &lent[2], &mut written[0]),
                &|by, lent, written| by.fast.put_back(&lent[0], &lent[1], &lent[2], &mut written[0]),
            ],
            Some(&|by, lent, written| by.peer.put_back(&lent[0], &lent[1], &lent[2], &mut written[0])),
        );
        let decoded = decode(trace);
        let agrees = match answer {
            // The trace was gone through to its end.
            Ok(()) | Err(Fault::Refused(Refusal::PlanUnfit)) => decoded.is_ok(),
            Err(Fault::Refused(refusal @ (Refusal::TraceFront | Refusal::RecordShape))) => decoded == Err(refusal),
            // Nothing was said of its shape, or not of all of it.
            _ => true,
        };
        if !agrees || decoded != reference_decode(trace) {
            self.difference(4, &[sheet, trace, plan], &[], " (the decoder)");
            println!("decoder: {decoded:?}, library: {answer:?}");
            std::process::exit(1);
        }
        *self.counts.decoded.entry(decoded.map_or_else(Refusal::number, |_| 0)).or_default() += 1;
        answer.map(|()| written.remove(0))
    }

    /// What was answered, or nothing where the call was refused, and the trace, the plan and the state afterwards.
    fn pick(&mut self, sheet: &[u8], trace_length: usize, plan_length: usize, state_length: usize) -> (Option<Chosen>, [Lent; 3]) {
        let (answer, written) = self.call(
            PICK,
            &[sheet],
            &[&buffer(trace_length), &buffer(plan_length), &buffer(state_length)],
            "",
            [
                &|_, lent, written| on_three(written, |trace, plan, state| raw::pick(&lent[0], trace, plan, state)),
                &|_, lent, written| on_three(written, |trace, plan, state| library::pick(&lent[0], trace, plan, state)),
                &|_, lent, written| on_three(written, |trace, plan, state| reference::pick(&lent[0], trace, plan, state)),
                &|by, lent, written| on_three(written, |trace, plan, state| by.fast.pick(&lent[0], trace, plan, state)),
            ],
            None,
        );
        (answer.ok(), written.try_into().expect("three buffers"))
    }

    /// The bytes written, or nothing where the file was refused, and the sheet buffer afterwards.
    fn colour(&mut self, file: &[u8], channels: u64, sheet_length: usize) -> (Option<usize>, Lent) {
        let (answer, mut written) = self.call(
            COLOUR,
            &[file],
            &[&buffer(sheet_length)],
            &format!(", {channels} channels"),
            [
                &|_, lent, written| raw::colour(&lent[0], channels, &mut written[0]),
                &|_, lent, written| library::colour(&lent[0], channels, &mut written[0]),
                &|_, lent, written| reference::colour(&lent[0], channels, &mut written[0]),
                &|_, lent, written| fast::colour(&lent[0], channels, &mut written[0]),
            ],
            None,
        );
        (answer.ok().map(|Written { bytes }| bytes), written.remove(0))
    }

    /// The bytes written, or nothing where the sheet was refused, and the target afterwards.
    fn move_sheet(&mut self, sheet: &[u8], target_length: usize) -> (Option<usize>, Lent) {
        let (answer, mut written) = self.call(
            MOVE,
            &[sheet],
            &[&buffer(target_length)],
            "",
            [
                &|_, lent, written| raw::move_sheet(&lent[0], &mut written[0]),
                &|_, lent, written| library::move_sheet(&lent[0], &mut written[0]),
                &|_, lent, written| reference::move_sheet(&lent[0], &mut written[0]),
                &|by, lent, written| by.fast.move_sheet(&lent[0], &mut written[0]),
            ],
            None,
        );
        (answer.ok().map(|Written { bytes }| bytes), written.remove(0))
    }

    /// Counts what a written sheet holds, which must keep the layout.
    fn count_written(&mut self, file: &[u8], sheet: &[u8]) {
        let Accepted { blocks, .. } = proved::read(sheet).expect("a written sheet keeps the layout");
        assert_eq!(reference::read(sheet), proved::read(sheet), "a written sheet is read otherwise by the reference");
        let edges = file.split(|&byte| byte == b'\n').filter(|line| line.first() == Some(&b'e')).count();
        self.counts.repeated_edges += u64::from(blocks < edges);
        self.counts.longest_written += u64::from(sheet.len() == MAX_SHEET);
        self.counts.bars_everything += u64::from(blocks > 0 && sheet[8] == 1);
    }

    /// Counts why a record was refused with 17; only a cover that breaks may name something, and it must. The slide rule of before allows
    /// none that is refused.
    fn count_unlawful(&mut self, problem: &Problem, trace: &[u8], unlawful: Unlawful) {
        let (state, step) = state_at(problem, trace, unlawful.record);
        let was_lawful = step.kind() == 5 && !state.emptied() && problem.of_before().lawful(&state, step);
        assert!(!was_lawful, "a slide that was lawful before is refused");
        let cause = cause_of(problem, &state, step, usize::from(unlawful.item));
        let named = NAMES.contains(&cause);
        assert_eq!(unlawful.spoiler().is_some(), named, "{unlawful:?} for: {cause}");
        *self.counts.unlawful.entry(cause).or_default() += 1;
        self.counts.unlawful_later += u64::from(unlawful.record > 0);
        self.counts.unlawful_far_on += u64::from(unlawful.record > 255);
        self.counts.named_far_on += u64::from(unlawful.record > 255 && named);
        self.counts.named_above_out += u64::from(named && (0..usize::from(unlawful.item)).any(|i| !state.is_active(i)));
    }

    /// Counts the slides of a run, by the trace that the fast implementation writes.
    fn count_slides(&mut self, sheet: &[u8], problem: &Problem) {
        let (mut trace, mut state) = (buffer(trace_length(problem)), buffer(STATE_LENGTH));
        let Done { written, .. } = self.unproved.fast.run(sheet, &mut trace, &mut state).expect("the sheet was accepted");
        let steps = reference::steps_of(&trace[..written]).expect("a run's trace has whole records");
        let kinds: Vec<usize> = steps.iter().map(|step| step.kind()).collect();
        let slides = kinds.iter().filter(|&&kind| kind == 5).count();
        self.counts.sliding_runs += u64::from(slides > 0);
        self.counts.sliding_on += u64::from(slides > 1);
        self.counts.bare_after_slide += u64::from(kinds.windows(2).any(|two| two == [5, 1]));
    }

    /// Counts the steps of a long run whose test failed before. A run takes the lowest step that holds, by kind, item and third field: so
    /// where it took a later one, the test of this one had failed.
    fn count_woken(&mut self, steps: &[Step]) {
        let mut woken = [0; 6];
        let mut latest = (0, 0, 0);
        for step in steps {
            let test = tested(*step);
            woken[test.0] += u64::from(test.0 > 1 && test < latest);
            latest = latest.max(test);
        }
        if steps.len() >= LONG && woken != [0; 6] {
            self.counts.woken_runs += 1;
            self.counts.woken.iter_mut().zip(woken).for_each(|(all, count)| *all += count);
        }
    }

    /// A run begins as that by the slide rule of before, and ends with it or goes on with a slide that this rule does not allow.
    fn compare_before(&mut self, problem: &Problem, steps: &[(State, Step)]) {
        let before = problem.of_before();
        let (steps_before, reached) = before.reduce();
        let count = steps_before.len();
        assert!(
            steps.len() >= count && steps.iter().map(|(_, step)| *step).take(count).eq(steps_before),
            "a run begins otherwise than before"
        );
        if let Some((state, step)) = steps.get(count) {
            assert_eq!((*state == reached, step.kind()), (true, 5), "a run goes on otherwise than with a slide where that of before ends");
            assert!(!before.lawful(state, *step), "the first slide of a run is one of the rule of before");
            self.counts.longer_than_before += 1;
        }
        self.counts.runs_of_before += 1;
    }

    /// Counts what an accepted lent trace holds. One that the slide rule of before accepts is put back to the same bytes by both.
    fn count_lent(&mut self, problem: &Problem, trace: &[u8], plan: &[u8], result: &[u8]) {
        let (steps, _) = reference::replay(problem, trace).expect("the trace was accepted");
        let before = problem.of_before();
        let (mut slides, mut added) = (0, 0);
        for (state, step) in steps {
            self.counts.lent_records[step.kind()] += 1;
            self.counts.lent_partners_lost += u64::from(partners_lost(&state, &problem.perform(&state, step)));
            if let Step::SnakeSubstitution { i, b, a } = step {
                self.counts.slides_not_covers += u64::from(!problem.neighbourhood(&state, i, b, a));
                slides += 1;
                added += u64::from(!before.lawful(&state, step));
            }
        }
        if slides > 0 {
            let mut full = vec![0; plan.len()];
            let answer = reference::put_back_over(&before, trace, plan, &mut full);
            assert_eq!(answer.is_ok(), added == 0, "the rule of before judges a trace otherwise than its slides");
            assert!(answer.is_err() || full == result, "a trace that was lawful before is put back otherwise");
            self.counts.sliding_before += u64::from(answer.is_ok());
        }
        self.counts.slides_added += added;
        let moved = plan.iter().zip(result).any(|(&left, &full)| left != OUT && left != full);
        self.counts.changed_when_undone += u64::from(moved);
    }
}

/// What a step is the outcome of a test of: its kind, its item and its third field.
fn tested(step: Step) -> (usize, usize, usize) {
    match step {
        Step::Unsupported { i, b, .. } | Step::Neighbourhood { i, b, .. } | Step::SnakeSubstitution { i, b, .. } => (step.kind(), i, b),
        Step::Snake { i, v } => (step.kind(), i, v),
        Step::Triangle { i, j } => (step.kind(), i, j),
    }
}

/// The record of this number, and the state that those before it lead to, which are lawful.
fn state_at(problem: &Problem, trace: &[u8], record: u16) -> (State, Step) {
    let (mut state, mut rest) = (State::full(problem), &trace[1..]);
    for _ in 0..record {
        let (step, after) = Step::read(rest).expect("a lawful record");
        state = problem.perform(&state, step);
        rest = after;
    }
    (state, Step::read(rest).expect("a whole record").0)
}

/// Which of CAUSES it is that a record gets 17 in this state: by what it says, and not by what was answered. Of a cover that breaks, which of
/// the other items in the one answered is.
fn cause_of(problem: &Problem, state: &State, step: Step, item: usize) -> &'static str {
    let off = |i: usize, c: usize| !state.is_live(i, c);
    match step {
        // Whether the rule holds does not ask for items that are emptied.
        Step::Neighbourhood { i, b, a } if a != b && state.is_live(i, a) && state.is_live(i, b) => {
            let others: Vec<usize> = state.active().iter().copied().filter(|&l| l != i).collect();
            match (state.emptied(), problem.neighbourhood(state, i, b, a)) {
                (false, _) if others == [item] => "a cover that breaks at the only one",
                (false, _) if others.first() == Some(&item) => "a cover that breaks at the first other item in",
                (false, _) if others.last() == Some(&item) => "a cover that breaks at the last",
                (false, _) => "a cover that breaks between",
                (true, false) => "a cover that breaks, an item emptied",
                (true, true) => "a cover that holds, an item emptied",
            }
        }
        _ if state.emptied() => "several",
        Step::Neighbourhood { i, .. } if i >= problem.sizes().len() => "a cover, i not below n",
        Step::Neighbourhood { i, .. } if !state.is_active(i) => "a cover, i out",
        Step::Neighbourhood { i, b, a } => match (off(i, a), off(i, b)) {
            (false, false) => "a cover, a = b",
            (true, false) => "a cover, a off",
            (false, true) => "a cover, b off",
            (true, true) => "several",
        },
        Step::Unsupported { .. } => "bare",
        Step::Snake { .. } => "snake",
        Step::Triangle { .. } => "fold",
        Step::SnakeSubstitution { .. } => "slide",
    }
}

/// The sizes of i and j of each block of an accepted sheet of version 2.
fn block_sizes(sheet: &[u8]) -> Vec<(u8, u8)> {
    let (sizes, mut rest) = sheet[8..].split_at(usize::from(sheet[5]));
    let mut blocks = Vec::new();
    while let [i, j, rows @ ..] = rest {
        let (i, j) = (sizes[usize::from(*i)], sizes[usize::from(*j)]);
        blocks.push((i, j));
        rest = &rows[usize::from(i) * if j <= 8 { 1 } else { 2 }..];
    }
    blocks
}

/// Whether an item went out and another one lost a setting.
fn partners_lost(before: &State, after: &State) -> bool {
    let went_out = after.active().len() < before.active().len();
    went_out && after.active().iter().any(|&i| after.live(i).len() < before.live(i).len())
}

fn on_two<A>(written: &mut [Lent], call: impl FnOnce(&mut [u8], &mut [u8]) -> A) -> A {
    let [first, second] = written else { panic!("two buffers") };
    call(first, second)
}

fn on_three<A>(written: &mut [Lent], call: impl FnOnce(&mut [u8], &mut [u8], &mut [u8]) -> A) -> A {
    let [first, second, third] = written else { panic!("three buffers") };
    call(first, second, third)
}

/// Says where a panic came from; forgotten where there was none.
struct OnPanic(u64, &'static str, u64);

impl Drop for OnPanic {
    fn drop(&mut self) {
        println!("difference: a panic at seed {}, {}, case {}", self.0, self.1, self.2);
    }
}

// ---- Cases --------------------------------------------------------------------------------------------------------------------------

/// A length that is wrong by a little or by much.
fn wrong_length(random: &mut Random, right: usize) -> usize {
    random.pick(&[0, right - 1, right + 1, right + 7])
}

fn trace_length(problem: &Problem) -> usize {
    1 + 5 * problem.sizes().iter().sum::<usize>()
}

/// Read, run and start on one sheet, three in ten of them with a fault.
fn sheet_case(comparison: &mut Comparison, random: &mut Random) {
    let sheet = if random.chance(30) { generate::damaged_sheet(random) } else { generate::random_draft(random).bytes() };
    every_job(comparison, random, &sheet);
}

/// Read and run on a sheet whose run often takes a slide. Every tenth time its run's own trace and others are put back.
fn sliding_case(comparison: &mut Comparison, random: &mut Random) {
    let sheet = generate::sliding_draft(random).bytes();
    sliding_calls(comparison, random, &sheet);
}

fn large_sliding_case(comparison: &mut Comparison, random: &mut Random) {
    let sheet = generate::large_sliding_draft(random).bytes();
    sliding_calls(comparison, random, &sheet);
}

fn sliding_calls(comparison: &mut Comparison, random: &mut Random, sheet: &[u8]) {
    comparison.read(sheet);
    let (problem, _) = reference::read_sheet(sheet).expect("the sheet keeps the layout");
    counted_run(comparison, sheet, &problem);
    if random.chance(10) {
        put_back_calls(comparison, random, sheet);
    }
}

/// The same on a large sheet, one in ten with a fault, and a list of hand calls from the start.
fn large_case(comparison: &mut Comparison, random: &mut Random) {
    let draft = generate::large_draft(random);
    let sheet = if random.chance(10) { generate::damaged(random, draft) } else { draft.bytes() };
    every_job(comparison, random, &sheet);
    if let Ok((problem, _)) = reference::read_sheet(&sheet) {
        let start = comparison.start(&sheet, HAND_STATE_LENGTH);
        hand_list(comparison, random, &sheet, &problem, start);
    }
}

fn every_job(comparison: &mut Comparison, random: &mut Random, sheet: &[u8]) {
    comparison.read(sheet);
    match reference::read_sheet(sheet) {
        Ok((problem, _)) => accepted_sheet(comparison, random, sheet, &problem),
        Err(_) => refused_sheet(comparison, random, sheet),
    }
}

/// Trace buffers exact, longer, too short by one and empty; state buffers now and then of a wrong length, which is judged first.
fn accepted_sheet(comparison: &mut Comparison, random: &mut Random, sheet: &[u8], problem: &Problem) {
    counted_run(comparison, sheet, problem);
    let exact = trace_length(problem);
    if random.chance(50) {
        comparison.run(sheet, exact + random.between(1, 40), STATE_LENGTH);
    }
    comparison.run(sheet, random.pick(&[0, exact - 1]), STATE_LENGTH);
    comparison.start(sheet, HAND_STATE_LENGTH);
    move_calls(comparison, random, sheet);
    if random.chance(5) {
        comparison.run(sheet, random.pick(&[0, exact - 1, exact]), wrong_length(random, STATE_LENGTH));
        comparison.start(sheet, wrong_length(random, HAND_STATE_LENGTH));
    }
}

/// A run with a trace buffer that is long enough, and what it took.
fn counted_run(comparison: &mut Comparison, sheet: &[u8], problem: &Problem) {
    let (answer, trace, _) = comparison.run(sheet, trace_length(problem), STATE_LENGTH);
    if let Some(Done { end, steps: count, written }) = answer {
        *comparison.counts.ends.entry(end as u8).or_default() += 1;
        let (steps, _) = reference::replay(problem, &trace[..written]).expect("a run's own trace is lawful");
        let records: Vec<Record> = steps.iter().map(|(_, step)| record(*step)).collect();
        assert_eq!(decode(&trace[..written]), Ok(records), "the decoder takes a run's trace apart otherwise than the reference");
        assert_eq!(steps.len(), count, "a run's trace has not as many records as the run has steps");
        *comparison.counts.decoded.entry(0).or_default() += 1;
        comparison.counts.long_runs += u64::from(steps.len() > 255);
        steps.iter().for_each(|(_, step)| comparison.counts.run_steps[step.kind()] += 1);
        comparison.count_slides(sheet, problem);
        // The reference takes long for the largest sheets: every eighth of them.
        if sheet.len() < MAX_SHEET / 4 || comparison.case % 8 == 0 {
            comparison.compare_before(problem, &steps);
        }
    }
}

/// A run by one layer or implementation, lent a trace buffer and a state.
type Run<'a> = &'a mut dyn FnMut(&mut [u8], &mut [u8]) -> Answer<Done>;

/// A run of hundreds of steps, by the library, the fast implementation and the peer; by the reference, which takes long for it, every
/// twentieth time, of a smaller sheet.
fn long_case(comparison: &mut Comparison, random: &mut Random) {
    let by_reference = comparison.case % 20 == 0;
    let sheet = &generate::long_draft(random, by_reference).bytes()[..];
    let (problem, _) = reference::read_sheet(sheet).expect("the sheet keeps the layout");
    let other = comparison.other_version(sheet).expect("the sheet keeps the layout");
    let ran = |run: Run| {
        let mut lent = [trace_length(&problem), STATE_LENGTH].map(buffer);
        (on_two(&mut lent, run), lent)
    };
    let Unproved { peer, fast } = &mut comparison.unproved;
    let mut results = vec![
        ran(&mut |trace, state| raw::run(sheet, trace, state)),
        ran(&mut |trace, state| library::run(&other, trace, state)),
        ran(&mut |trace, state| peer.run(sheet, trace, state)),
        ran(&mut |trace, state| fast.run(sheet, trace, state)),
        ran(&mut |trace, state| fast.run(&other, trace, state)),
    ];
    if by_reference {
        results.push(ran(&mut |trace, state| reference::run(sheet, trace, state)));
    }
    if results.iter().any(|result| *result != results[0]) {
        comparison.difference(RUN, &[sheet], &[], "");
        println!("archive, library with the other version, peer, fast with each, and the reference every twentieth time: {results:02x?}");
        std::process::exit(1);
    }
    let (answer, [trace, _]) = &results[0];
    let Done { written, .. } = answer.expect("the sheet was accepted");
    comparison.count_woken(&reference::steps_of(&trace[..written]).expect("a run's trace has whole records"));
    comparison.counts.long_by_reference += u64::from(by_reference);
}

/// Each job reads its sheet first: whatever else is wrong, the sheet's number is the answer; but the boundary looks at states before.
fn refused_sheet(comparison: &mut Comparison, random: &mut Random, sheet: &[u8]) {
    let wrong = random.chance(10);
    let state_length = if wrong { wrong_length(random, STATE_LENGTH) } else { STATE_LENGTH };
    comparison.run(sheet, random.pick(&[0, 1, 100, 2561]), state_length);
    comparison.start(sheet, state_length);
    let state = random.bytes(state_length);
    comparison.hand_call(sheet, &state, random.pick(&[0, 1, 32, u64::MAX]));
    comparison.pick(sheet, random.pick(&[0, 1, 100, 2561]), random.pick(&[0, 1, 3, 32]), state_length);
    comparison.move_sheet(sheet, random.pick(&[0, 1, 100, MAX_SHEET]));
    let (trace, plan) = (random.bytes(3), random.bytes(2));
    let answer = comparison.put_back(sheet, random.pick(&[&[1][..], &[], &trace]), &plan, random.pick(&[0, 2, 3]));
    assert!(answer.is_err(), "putting back takes a sheet that the reference refuses");
}

/// Targets exact, longer, too short by one and shorter; every other moved sheet is moved back.
fn move_calls(comparison: &mut Comparison, random: &mut Random, sheet: &[u8]) {
    let exact = comparison.other_version(sheet).expect("the sheet keeps the layout").len();
    let length = match random.below(8) {
        0..=3 => exact,
        4 => exact + random.between(1, 40),
        5 | 6 => exact - 1,
        _ => random.pick(&[0, 8, exact / 2]),
    };
    let (answer, target) = comparison.move_sheet(sheet, length);
    assert!(answer.map_or(length < exact, |bytes| bytes == exact), "a move is refused otherwise than by its target");
    if answer.is_some() && random.chance(50) {
        let (answer, back) = comparison.move_sheet(&target[..exact], sheet.len() + random.below(2));
        assert_eq!(answer.map(|bytes| &back[..bytes]), Some(sheet), "a sheet that is moved twice is another");
        comparison.counts.moved_twice += 1;
        comparison.counts.longest_moved += u64::from(sheet.len() == MAX_SHEET);
    }
}

/// A large sheet with rows of both widths, or of one, some with a fault: read and moved only.
fn large_move_case(comparison: &mut Comparison, random: &mut Random) {
    let draft = if random.chance(60) { generate::large_mixed_draft(random) } else { generate::large_draft(random) };
    let sheet = if random.chance(20) { generate::damaged(random, draft) } else { draft.bytes() };
    comparison.read(&sheet);
    match reference::read(&sheet) {
        Ok(_) => move_calls(comparison, random, &sheet),
        Err(_) => {
            comparison.move_sheet(&sheet, random.pick(&[0, sheet.len(), MAX_SHEET]));
        }
    }
}

/// A list of hand calls from the start state, from a state that fits or from one that does not; each later call is given the state that
/// the one before it answered.
fn hand_case(comparison: &mut Comparison, random: &mut Random) {
    let sheet = generate::random_draft(random).bytes();
    let (problem, _) = reference::read_sheet(&sheet).expect("the sheet keeps the layout");
    let state = match random.below(4) {
        0 => lend(&generate::misfitting_state(random, &problem)),
        1 => lend(&generate::fitting_state(random, &problem).to_bytes()),
        2 => lend(&arc_consistent(&problem, &generate::fitting_state(random, &problem).to_bytes())),
        _ => comparison.start(&sheet, HAND_STATE_LENGTH),
    };
    hand_list(comparison, random, &sheet, &problem, state);
    if random.chance(10) {
        let length = wrong_length(random, HAND_STATE_LENGTH);
        let state = random.bytes(length);
        comparison.hand_call(&sheet, &state, 0);
    }
}

fn hand_list(comparison: &mut Comparison, random: &mut Random, sheet: &[u8], problem: &Problem, mut state: Lent) {
    for _ in 0..random.between(1, 6) {
        let item = named_item(random, problem, &state);
        state = comparison.hand_call(sheet, &state, item);
    }
}

/// An item that is in, or any number.
fn named_item(random: &mut Random, problem: &Problem, state: &[u8]) -> u64 {
    let any = generate::named_item(random, problem);
    let active = State::from_bytes(state).active().to_vec();
    if active.is_empty() || random.chance(50) {
        any
    } else {
        random.pick(&active) as u64
    }
}

fn arc_consistent(problem: &Problem, state: &[u8]) -> Vec<u8> {
    problem.arc_consistent(&State::from_bytes(state)).to_bytes()
}

/// A sheet whose traces and plans are put back: mostly small.
fn trace_case(comparison: &mut Comparison, random: &mut Random) {
    let draft = if random.chance(60) { generate::small_draft(random) } else { generate::random_draft(random) };
    put_back_calls(comparison, random, &draft.bytes());
}

fn large_trace_case(comparison: &mut Comparison, random: &mut Random) {
    let sheet = generate::large_draft(random).bytes();
    put_back_calls(comparison, random, &sheet);
}

/// The run's own trace and lawful ones of random steps, one of them by the slide rule of before, each with plans of what is left.
fn put_back_calls(comparison: &mut Comparison, random: &mut Random, sheet: &[u8]) {
    let (problem, _) = reference::read_sheet(sheet).expect("the sheet keeps the layout");
    let lawful = [&problem, &problem.of_before()].map(|problem| generate::lawful_steps(random, problem));
    for (steps, last) in std::iter::once(problem.reduce()).chain(lawful) {
        let plan = generate::find_plan(random, &problem, &last).unwrap_or_else(|| generate::any_plan(random, &problem, &last));
        let again = generate::find_plan(random, &problem, &last).filter(|other| *other != plan);
        let trace = reference::trace_of(&steps);
        damaged_calls(comparison, random, &Lending { sheet, problem: &problem, trace: &trace, plan: &plan }, &steps);
        if let Some(plan) = again {
            Lending { sheet, problem: &problem, trace: &trace, plan: &plan }.put_back(comparison, plan.len());
        }
    }
}

/// What is lent to be put back.
#[derive(Clone, Copy)]
struct Lending<'a> {
    sheet: &'a [u8],
    problem: &'a Problem,
    trace: &'a [u8],
    plan: &'a [u8],
}

impl Lending<'_> {
    fn put_back(self, comparison: &mut Comparison, result_length: usize) {
        match comparison.put_back(self.sheet, self.trace, self.plan, result_length) {
            Ok(result) => comparison.count_lent(self.problem, self.trace, self.plan, &result),
            Err(Fault::Unlawful(unlawful)) => comparison.count_unlawful(self.problem, self.trace, unlawful),
            Err(_) => {}
        }
    }
}

/// A trace and a plan as they are, and each damaged, and both; now and then with a result buffer of a wrong length.
fn damaged_calls(comparison: &mut Comparison, random: &mut Random, lending: &Lending, steps: &[Step]) {
    let n = lending.problem.sizes().len();
    let (trace, plan) = (generate::damaged_trace(random, steps), generate::damaged_plan(random, lending.plan));
    lending.put_back(comparison, n);
    Lending { plan: &plan, ..*lending }.put_back(comparison, n);
    Lending { trace: &trace, ..*lending }.put_back(comparison, n);
    let length = if random.chance(10) { wrong_length(random, n) } else { n };
    Lending { trace: &trace, plan: &plan, ..*lending }.put_back(comparison, length);
}

/// Lawful steps, and after some of them one that is mostly unlawful; of three in ten sheets they empty an item.
fn unlawful_case(comparison: &mut Comparison, random: &mut Random) {
    let draft = if random.chance(60) { generate::small_draft(random) } else { generate::random_draft(random) };
    let emptied = if random.chance(30) { generate::emptied(random, draft.clone()) } else { None };
    match emptied {
        Some((draft, steps)) => doubtful_calls(comparison, random, &draft.bytes(), &steps, steps.len()),
        None => {
            let sheet = draft.bytes();
            let (problem, _) = reference::read_sheet(&sheet).expect("the sheet keeps the layout");
            let (steps, _) = generate::lawful_steps(random, &problem);
            let place = random.below(steps.len() + 1);
            doubtful_calls(comparison, random, &sheet, &steps, place);
        }
    }
}

fn far_unlawful_case(comparison: &mut Comparison, random: &mut Random) {
    let (draft, steps) = generate::long_trace(random);
    doubtful_calls(comparison, random, &draft.bytes(), &steps, steps.len());
}

/// A few doubtful steps, each by itself after the first ones of a lawful trace, with the other steps behind it.
fn doubtful_calls(comparison: &mut Comparison, random: &mut Random, sheet: &[u8], steps: &[Step], place: usize) {
    let (problem, _) = reference::read_sheet(sheet).expect("the sheet keeps the layout");
    let state = steps[..place].iter().fold(State::full(&problem), |state, &step| problem.perform(&state, step));
    let plan = generate::any_plan(random, &problem, &state);
    for _ in 0..4 {
        let doubtful = generate::doubtful_step(random, &problem, &state);
        let trace = reference::trace_of(&[&steps[..place], &[doubtful], &steps[place..]].concat());
        Lending { sheet, problem: &problem, trace: &trace, plan: &plan }.put_back(comparison, plan.len());
    }
}

/// A plan picked from a sheet, mostly one whose run comes to rest.
fn picking_case(comparison: &mut Comparison, random: &mut Random) {
    let sheet = if random.chance(70) { generate::resting_draft(random) } else { generate::small_draft(random) }.bytes();
    picking_calls(comparison, random, &sheet);
}

/// The sheets of the corpus that the reference, which tries one choice after the other, is done with in no time.
const QUICK: [&str; 9] =
    ["queens-0", "latin-3x3", "latin-4x4", "pigeons-03", "pigeons-04", "pigeons-05", "pigeons-06", "petersen", "mycielski-3-4"];

/// A sheet of the corpus by all, or where the reference would take too long by the library and the fast implementation.
fn corpus_case(comparison: &mut Comparison, random: &mut Random) {
    let Entry { name, sheet, solvable, .. } = comparison.corpus[comparison.case as usize].clone();
    let quick = QUICK.iter().any(|front| name.starts_with(front));
    let has_plan = if quick { picking_calls(comparison, random, &sheet) } else { picked_by_two(comparison, &sheet) };
    assert!(solvable.map_or(true, |solvable| solvable == has_plan), "{name} is known to be otherwise");
}

/// A pick by one layer or implementation, lent a trace buffer, a plan and a state.
type Pick<'a> = &'a mut dyn FnMut(&mut [u8], &mut [u8], &mut [u8]) -> Answer<Chosen>;

fn picked_by_two(comparison: &mut Comparison, sheet: &[u8]) -> bool {
    let (problem, _) = reference::read_sheet(sheet).expect("the sheet keeps the layout");
    let other = comparison.other_version(sheet).expect("the sheet keeps the layout");
    let picked = |pick: Pick| {
        let mut lent = [trace_length(&problem), problem.sizes().len(), STATE_LENGTH].map(buffer);
        (on_three(&mut lent, pick), lent)
    };
    let results = [
        picked(&mut |trace, plan, state| raw::pick(sheet, trace, plan, state)),
        picked(&mut |trace, plan, state| library::pick(&other, trace, plan, state)),
        picked(&mut |trace, plan, state| comparison.unproved.fast.pick(sheet, trace, plan, state)),
        picked(&mut |trace, plan, state| comparison.unproved.fast.pick(&other, trace, plan, state)),
    ];
    if results.iter().any(|result| *result != results[0]) {
        comparison.difference(PICK, &[sheet], &[], "");
        println!("archive, library with the other version, fast with each: {results:02x?}");
        std::process::exit(1);
    }
    let [(answer, [_, plan, _]), ..] = &results;
    let has_plan = answer.is_ok_and(|chosen| chosen.has_plan);
    assert!(!has_plan || problem.is_solution(&State::full(&problem), plan), "what was picked is no plan");
    comparison.counts.picked_by_two += 1;
    has_plan
}

/// Buffers as they must be, and now and then a longer trace buffer; one too short, a plan of a wrong length, both, and a state of a wrong
/// length, which comes first. Trace, state and answer are those of a run. Whether there is a plan.
fn picking_calls(comparison: &mut Comparison, random: &mut Random, sheet: &[u8]) -> bool {
    let (problem, _) = reference::read_sheet(sheet).expect("the sheet keeps the layout");
    let (exact, n) = (trace_length(&problem), problem.sizes().len());
    let length = if random.chance(20) { exact + random.between(1, 40) } else { exact };
    let (answer, [trace, plan, state]) = comparison.pick(sheet, length, n, STATE_LENGTH);
    let Some(Chosen { run, has_plan }) = answer else { panic!("a pick of a sheet that keeps the layout is refused") };
    let (ran, run_trace, run_state) = comparison.run(sheet, length, STATE_LENGTH);
    assert_eq!((Some(run), trace, state), (ran, run_trace, run_state), "a pick answers otherwise than a run");
    *comparison.counts.picks.entry((run.end, has_plan)).or_default() += 1;
    let first_of_all = problem.first_plan(&State::full(&problem));
    assert_eq!(first_of_all.is_some(), has_plan, "a plan is picked where the full sheet has none, or the other way round");
    comparison.counts.not_first_of_all += u64::from(first_of_all.is_some_and(|first| *first != *plan));
    if random.chance(10) {
        comparison.pick(sheet, random.pick(&[exact - 1, 0]), n, STATE_LENGTH);
        comparison.pick(sheet, exact, wrong_length(random, n), STATE_LENGTH);
        let short = comparison.counts.of_answer(PICK, Refusal::TraceBuffer.number());
        comparison.pick(sheet, random.pick(&[exact - 1, 0]), wrong_length(random, n), STATE_LENGTH);
        comparison.counts.both_buffers_wrong += comparison.counts.of_answer(PICK, Refusal::TraceBuffer.number()) - short;
        comparison.pick(sheet, random.pick(&[0, exact]), random.pick(&[n, n + 1]), wrong_length(random, STATE_LENGTH));
    }
    has_plan
}

/// A colouring file, half of them with a fault or several.
fn colouring_case(comparison: &mut Comparison, random: &mut Random) {
    let (file, channels) = match random.below(10) {
        0..=4 => {
            let graph = generate::random_graph(random);
            (generate::colouring_file(random, &graph), generate::channels(random))
        }
        5..=7 => {
            let faults = generate::colouring_faults(random);
            generate::faulty_colouring(random, &faults)
        }
        _ => (generate::damaged_file(random), generate::channels(random)),
    };
    colour_calls(comparison, random, &file, channels);
}

/// A file of about 64 KiB, and one byte more than that is too long. Half of the graphs have an edge for each two vertices.
fn long_colouring_case(comparison: &mut Comparison, random: &mut Random) {
    let graph = if random.chance(50) { generate::Graph::of_pairs(32, |_, _| true) } else { generate::random_graph(random) };
    let length = random.pick(&[MAX_FILE, MAX_FILE, MAX_FILE, MAX_FILE - 1, MAX_FILE + 1, MAX_FILE + 40]);
    let file = generate::long_file(random, &graph, length);
    let channels = random.pick(&[1, 3, 16, 16]);
    colour_calls(comparison, random, &file, channels);
}

/// Sheet buffers longer than the sheet, exact, too short by one and empty.
fn colour_calls(comparison: &mut Comparison, random: &mut Random, file: &[u8], channels: u64) {
    comparison.counts.files += 1;
    comparison.counts.longest_files += u64::from(file.len() == MAX_FILE);
    let (answer, sheet) = comparison.colour(file, channels, MAX_SHEET + random.below(3));
    match answer {
        Some(exact) => {
            comparison.count_written(file, &sheet[..exact]);
            let longer = exact + random.between(1, 40);
            let length = random.pick(&[exact, exact, exact - 1, exact - 1, longer, 0, 8]);
            comparison.colour(file, channels, length);
        }
        // Every other fault is told before a short buffer.
        None => {
            comparison.colour(file, channels, random.pick(&[0, 8, 100]));
        }
    }
}
