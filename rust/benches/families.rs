//! Times ten families of sheets of 32 items, nine of 16 settings and one of 4 whose run takes slides, each in both versions; runs of sheets
//! that grow, and the longest run; moves of sheets; and colouring files: the proved library, the reference, the fixed peer and the fast
//! implementation, side by side in one run. The peer has no moves and no colouring files, and for these files there is a plain reader.
//! `families --names` lists these cases, and `families --count NAME IMPLEMENTATION` does one of them, for counting instructions
//! (callgrind.sh).

mod plain;
#[path = "../tests/support/mod.rs"]
mod support;

use std::hint::black_box;
use std::time::{Duration, Instant};

use support::generate::{self, Random};
use support::proved::{self, raw};
use support::reference::{self, State};
use support::{fast, peer, Answer, Done};
use zomuwedli::{Taken, Written, HAND_STATE_LENGTH, MAX_ITEMS, MAX_SETTINGS, MAX_SHEET, MAX_TRACE, OUT, STATE_LENGTH};

const ROUNDS: usize = 7;
/// A round repeats a call until it has taken about this long.
const ROUND: Duration = Duration::from_millis(4);

/// Who has which cases, the proved library first.
const NAMES: &[&str] = &["proved", "reference", "peer", "fast"];
const MOVE_NAMES: &[&str] = &["proved", "reference", "fast"];
const FILE_NAMES: &[&str] = &["proved", "reference", "plain", "fast"];

/// The timed jobs of one implementation.
enum Implementation {
    Proved,
    Reference,
    Plain,
    Peer(peer::Workspace),
    Fast(fast::Workspace),
}

impl Implementation {
    fn named(name: &str) -> Implementation {
        match name {
            "proved" => Implementation::Proved,
            "reference" => Implementation::Reference,
            "plain" => Implementation::Plain,
            "peer" => Implementation::Peer(peer::Workspace::new()),
            "fast" => Implementation::Fast(fast::Workspace::new()),
            _ => panic!("no implementation {name}"),
        }
    }

    fn run(&mut self, sheet: &[u8], trace: &mut [u8], state: &mut [u8]) -> Answer<Done> {
        match self {
            Implementation::Proved => raw::run(sheet, trace, state),
            Implementation::Reference => reference::run(sheet, trace, state),
            Implementation::Plain => no_such_job(),
            Implementation::Peer(workspace) => workspace.run(sheet, trace, state),
            Implementation::Fast(workspace) => workspace.run(sheet, trace, state),
        }
    }

    fn start(&mut self, sheet: &[u8], state: &mut [u8]) -> Answer<()> {
        match self {
            Implementation::Proved => raw::start(sheet, state),
            Implementation::Reference => reference::start(sheet, state),
            Implementation::Plain => no_such_job(),
            Implementation::Peer(workspace) => workspace.start(sheet, state),
            Implementation::Fast(workspace) => workspace.start(sheet, state),
        }
    }

    fn hand_call(&mut self, sheet: &[u8], state: &mut [u8], item: u64) -> Answer<Taken> {
        match self {
            Implementation::Proved => raw::hand_call(sheet, state, item),
            Implementation::Reference => reference::hand_call(sheet, state, item),
            Implementation::Plain => no_such_job(),
            Implementation::Peer(workspace) => workspace.hand_call(sheet, state, item),
            Implementation::Fast(workspace) => workspace.hand_call(sheet, state, item),
        }
    }

    fn put_back(&mut self, sheet: &[u8], trace: &[u8], plan: &[u8], result: &mut [u8]) -> Answer<()> {
        match self {
            Implementation::Proved => raw::put_back(sheet, trace, plan, result),
            Implementation::Reference => reference::put_back(sheet, trace, plan, result),
            Implementation::Plain => no_such_job(),
            Implementation::Peer(workspace) => workspace.put_back(sheet, trace, plan, result),
            Implementation::Fast(workspace) => workspace.put_back(sheet, trace, plan, result),
        }
    }

    fn colour(&mut self, file: &[u8], channels: u64, sheet: &mut [u8]) -> Answer<Written> {
        match self {
            Implementation::Proved => raw::colour(file, channels, sheet),
            Implementation::Reference => reference::colour(file, channels, sheet),
            Implementation::Plain => plain::colour(file, channels, sheet),
            Implementation::Peer(_) => no_such_job(),
            Implementation::Fast(_) => fast::colour(file, channels, sheet),
        }
    }

    fn move_sheet(&mut self, sheet: &[u8], target: &mut [u8]) -> Answer<Written> {
        match self {
            Implementation::Proved => raw::move_sheet(sheet, target),
            Implementation::Reference => reference::move_sheet(sheet, target),
            Implementation::Plain | Implementation::Peer(_) => no_such_job(),
            Implementation::Fast(workspace) => workspace.move_sheet(sheet, target),
        }
    }
}

fn no_such_job() -> ! {
    panic!("the plain reader has colouring files only, and the peer neither these nor moves")
}

/// The buffers that a job writes, cleared before each call and outside the time.
#[derive(PartialEq)]
struct Buffers {
    trace: Vec<u8>,
    state: Vec<u8>,
    result: Vec<u8>,
    sheet: Vec<u8>,
}

impl Buffers {
    fn new() -> Buffers {
        Buffers { trace: vec![0; MAX_TRACE], state: vec![0; STATE_LENGTH], result: vec![0; MAX_ITEMS], sheet: vec![0; MAX_SHEET] }
    }

    fn clear(&mut self) {
        self.trace.fill(0);
        self.state.fill(0);
        self.result.fill(0);
        self.sheet.fill(0);
    }
}

/// What a case answers.
#[derive(Clone, Copy, PartialEq, Debug)]
enum Timed {
    Run(Answer<Done>),
    Start(Answer<()>),
    TakenOut(usize),
    PutBack(Answer<()>),
    Written(Answer<Written>),
}

/// A case made ready: its answer and the buffers must be the same for all implementations.
type Call = Box<dyn Fn(&mut Implementation, &mut Buffers) -> Timed>;

#[derive(Clone, Copy)]
enum Job {
    Run,
    PutBack,
    Start,
    /// A hand call for each item, the lowest first, from the state that a start answers.
    HandCalls,
    Move,
    Colour {
        channels: u64,
    },
}

/// What is timed and counted: a row of a table.
struct Case {
    table: String,
    row: String,
    job: Job,
    /// A sheet of version 1, or a colouring file.
    input: Vec<u8>,
    /// Whether it is lent the sheet in version 2.
    moved: bool,
}

impl Case {
    fn name(&self) -> String {
        format!("{}: {}", self.table, self.row)
    }

    fn implementations(&self) -> &'static [&'static str] {
        match self.job {
            Job::Run | Job::PutBack | Job::Start | Job::HandCalls => NAMES,
            Job::Move => MOVE_NAMES,
            Job::Colour { .. } => FILE_NAMES,
        }
    }

    /// How many calls it makes: what is told of it is of one, their mean.
    fn calls(&self) -> usize {
        match self.job {
            Job::HandCalls => MAX_ITEMS,
            _ => 1,
        }
    }

    /// Makes ready all that the case needs, outside the time and the count.
    fn call(&self) -> Call {
        let lent = if self.moved { proved::moved(&self.input) } else { self.input.clone() };
        match self.job {
            Job::Run => Box::new(move |by, buffers| Timed::Run(by.run(&lent, &mut buffers.trace, &mut buffers.state))),
            Job::PutBack => {
                let (trace, plan) = trace_and_plan(&lent);
                Box::new(move |by, buffers| Timed::PutBack(by.put_back(&lent, &trace, &plan, &mut buffers.result)))
            }
            Job::Start => Box::new(move |by, buffers| Timed::Start(by.start(&lent, &mut buffers.state))),
            Job::HandCalls => {
                let start = started(&lent);
                Box::new(move |by, buffers| {
                    buffers.state.copy_from_slice(&start);
                    let is_taken = |item: &usize| by.hand_call(&lent, &mut buffers.state, *item as u64).is_ok();
                    Timed::TakenOut((0..MAX_ITEMS).filter(is_taken).count())
                })
            }
            Job::Move => Box::new(move |by, buffers| Timed::Written(by.move_sheet(&lent, &mut buffers.sheet))),
            Job::Colour { channels } => Box::new(move |by, buffers| Timed::Written(by.colour(&lent, channels, &mut buffers.sheet))),
        }
    }
}

/// All cases, table by table.
fn cases() -> Vec<Case> {
    let (families, moves) = (generate::families(), generate::timed_moves());
    let jobs = [
        ("run in", Job::Run, &families),
        ("put back in", Job::PutBack, &families),
        ("start in", Job::Start, &families),
        ("hand call in", Job::HandCalls, &families),
        ("move from", Job::Move, &moves),
    ];
    let mut cases = Vec::new();
    for (name, job, sheets) in jobs {
        for (version, moved) in [(1, false), (2, true)] {
            let table = format!("{name} version {version}");
            cases.extend(sheets.iter().map(|(row, sheet)| case(&table, row, job, sheet, moved)));
        }
    }
    cases.extend(generate::growing_sheets().iter().map(|(row, sheet)| case("growth", row, Job::Run, sheet, false)));
    let longest = generate::longest_run();
    cases.push(case("longest", "512 steps", Job::Run, &longest, false));
    for (row, file, channels) in generate::timed_files() {
        cases.push(case("colouring file", row, Job::Colour { channels }, &file, false));
    }
    cases
}

fn case(table: &str, row: &str, job: Job, input: &[u8], moved: bool) -> Case {
    Case { table: table.to_string(), row: row.to_string(), job, input: input.to_vec(), moved }
}

fn started(sheet: &[u8]) -> Vec<u8> {
    let mut state = vec![0; HAND_STATE_LENGTH];
    assert_eq!(raw::start(sheet, &mut state), Ok(()));
    state
}

/// The run's own trace, and a plan of what it leaves; where a search finds none, the lowest setting on for each item in, which is refused
/// when the whole trace has been judged.
fn trace_and_plan(sheet: &[u8]) -> (Vec<u8>, Vec<u8>) {
    let mut buffers = Buffers::new();
    let Ok(Done { written, .. }) = raw::run(sheet, &mut buffers.trace, &mut buffers.state) else {
        panic!("the sheets of the families keep the layout");
    };
    let (problem, _) = reference::read_sheet(sheet).expect("the sheets of the families keep the layout");
    let left = State::from_bytes(&buffers.state);
    let lowest = || (0..MAX_ITEMS).map(|i| left.live(i).first().map_or(OUT, |&a| a as u8)).collect();
    let plan = generate::find_plan(&mut Random::new(1), &problem, &left).unwrap_or_else(lowest);
    (buffers.trace[..written].to_vec(), plan)
}

// ---- Times --------------------------------------------------------------------------------------------------------------------------

/// The time of a case.
fn once(call: &Call, implementation: &mut Implementation, buffers: &mut Buffers) -> Duration {
    buffers.clear();
    let before = Instant::now();
    black_box(call(black_box(implementation), black_box(buffers)));
    before.elapsed()
}

/// The best time of each implementation, over rounds in which they take turns.
fn best(names: &[&str], call: &Call) -> Vec<Duration> {
    let mut implementations: Vec<Implementation> = names.iter().map(|name| Implementation::named(name)).collect();
    let mut buffers = Buffers::new();
    let mut best: Vec<Duration> = implementations.iter_mut().map(|implementation| once(call, implementation, &mut buffers)).collect();
    let repetitions: Vec<u128> = best.iter().map(|time| (ROUND.as_nanos() / time.as_nanos().max(1)).clamp(1, 500)).collect();
    for _ in 0..ROUNDS {
        for (which, implementation) in implementations.iter_mut().enumerate() {
            for _ in 0..repetitions[which] {
                best[which] = best[which].min(once(call, implementation, &mut buffers));
            }
        }
    }
    best
}

/// What all answer and write; stops where they differ.
fn agreed(case: &Case, call: &Call) -> Timed {
    let done_by = |implementation: &str| {
        let mut buffers = Buffers::new();
        (call(&mut Implementation::named(implementation), &mut buffers), buffers)
    };
    let (answer, buffers) = done_by("proved");
    for other in &case.implementations()[1..] {
        let (other_answer, other_buffers) = done_by(other);
        if other_answer != answer || other_buffers != buffers {
            println!("{}: proved and {other} differ: {answer:?} and {other_answer:?}", case.name());
            std::process::exit(1);
        }
    }
    answer
}

/// The proved library's time, and the others' over it.
fn print_row(case: &Case) {
    let call = case.call();
    let answer = match agreed(case, &call) {
        Timed::Run(Ok(Done { end, steps, .. })) => format!("{end:?}, {steps} steps"),
        Timed::TakenOut(count) => format!("{count} of {MAX_ITEMS} taken out"),
        Timed::Start(Ok(())) => "Start(Started)".to_string(),
        Timed::PutBack(Ok(())) => "PutBack(Done)".to_string(),
        Timed::Written(Ok(Written { bytes })) => format!("{bytes} bytes written"),
        Timed::Run(Err(fault)) => format!("Run({fault:?})"),
        Timed::Start(Err(fault)) => format!("Start({fault:?})"),
        Timed::PutBack(Err(fault)) => format!("PutBack({fault:?})"),
        Timed::Written(Err(fault)) => format!("Written({fault:?})"),
    };
    let times: Vec<f64> = best(case.implementations(), &call).iter().map(|time| time.as_nanos() as f64 / 1000.0).collect();
    let ratios: String = times[1..].iter().map(|time| format!(" {:>12.3}", time / times[0])).collect();
    println!("{:<44} {:>11.1}{ratios}  {answer}", case.row, times[0] / case.calls() as f64);
}

fn print_head(case: &Case) {
    let head = |name: &&str| format!(" {:>12}", format!("{}/proved", name.replace("reference", "ref")));
    let heads: String = case.implementations()[1..].iter().map(head).collect();
    println!("\n{:<44} {:>11}{heads}  answer", case.table, "proved us");
}

/// How many steps of each kind the run of a sheet takes.
fn steps_by_kind(sheet: &[u8]) -> [usize; 5] {
    let (trace, _) = trace_and_plan(sheet);
    let steps = reference::steps_of(&trace).expect("a run's trace has whole records");
    [1, 2, 3, 4, 5].map(|kind| steps.iter().filter(|step| step.kind() == kind).count())
}

/// The run of the family with slides has one in each of its eight groups at least, the last two families have steps of all kinds, and the
/// longest run uses up one setting with each step.
fn check_steps() {
    let families = generate::families();
    let kinds = families.iter().map(|(name, sheet)| (*name, steps_by_kind(sheet)));
    for (name, kinds) in kinds.skip_while(|(name, _)| *name != generate::SLIDING_FAMILY) {
        let least = if name == generate::SLIDING_FAMILY { kinds[4] >= 8 } else { kinds.iter().all(|&count| count >= 8) };
        assert!(least, "{name} has {kinds:?}");
        println!("{name}: {kinds:?} steps of kinds 1 to 5.");
    }
    let longest = steps_by_kind(&generate::longest_run());
    assert_eq!(longest.iter().sum::<usize>(), MAX_ITEMS * MAX_SETTINGS);
    println!("The longest run: {longest:?}.");
}

fn print_tables() {
    println!("Times of one call, best of {ROUNDS} rounds in which the implementations take turns. Ratios: the other's time over the");
    println!("proved library's; below 1 is faster than the proved library. Each call reads the sheet, fills its table and does the job;");
    println!("the buffers are cleared before, outside the time. All gave the same answer and the same bytes before they were timed.");
    println!("Put back: the run's own trace. A hand call: the mean of one for each item from the start, taken out or refused.");
    check_steps();
    let mut table = String::new();
    for case in cases() {
        if case.table != table {
            print_head(&case);
            table.clone_from(&case.table);
        }
        print_row(&case);
    }
}

// ---- Instructions -------------------------------------------------------------------------------------------------------------------

/// The name of each case, and how many calls it makes.
fn print_names() {
    cases().iter().for_each(|case| println!("{} {}", case.name(), case.calls()));
}

/// Has one implementation do one case: once for what is done the first time only, and once to be counted.
fn count(name: &str, implementation: &str) {
    let case = cases().into_iter().find(|case| case.name() == name).unwrap_or_else(|| panic!("no case {name}"));
    let (call, mut implementation, mut buffers) = (case.call(), Implementation::named(implementation), Buffers::new());
    black_box(call(&mut implementation, &mut buffers));
    counted(&call, &mut implementation, &mut buffers);
}

/// callgrind.sh counts what is done inside this function and nothing else.
#[inline(never)]
fn counted(call: &Call, implementation: &mut Implementation, buffers: &mut Buffers) {
    black_box(call(black_box(implementation), black_box(buffers)));
}

fn main() {
    let arguments: Vec<String> = std::env::args().skip(1).filter(|argument| argument != "--bench").collect();
    let arguments: Vec<&str> = arguments.iter().map(String::as_str).collect();
    match arguments[..] {
        [] => print_tables(),
        ["--names"] => print_names(),
        ["--count", name, implementation] => count(name, implementation),
        _ => panic!("families [--names | --count NAME IMPLEMENTATION]"),
    }
}
