//! Times picking a plan over the corpus of 200 sheets (src/corpus.rs): the proved library, the fast implementation and, where they are given,
//! Gecode and a SAT solver, one after the other on each sheet. Each runs in a process of its own, which is ended where it takes too long.
//!
//! `corpus [program=PLAN_SHEET] [gecode=PROGRAM] [sat=COMMAND] [limit=SECONDS] [only=WHICH]` prints the tables, in Markdown; corpus.sh calls
//! it so. WHICH is `held`, the sheets that are held to the bar, `reported`, the others, or the front of names.
//! `corpus --write FOLDER` writes every sheet, and for the SAT solver its clauses. `corpus --pick IMPLEMENTATION NAME` is one such process.

#[path = "../tests/support/mod.rs"]
mod support;

use std::fmt::Write;
use std::fs;
use std::path::{Path, PathBuf};
use std::process::Command;
use std::time::{Duration, Instant};

use support::corpus::{corpus, Entry};
use support::fast::Workspace;
use support::proved::raw;
use support::reference;
use support::Chosen;
use zomuwedli::{MAX_ITEMS, MAX_TRACE, STATE_LENGTH};

/// What a bar asks for: no more than so many times Gecode's time, and no more than a second.
const BAR: f64 = 2.0;
const SECOND: f64 = 1_000.0;
/// Milliseconds below which a time counts as these where two are compared: a process measures nothing there.
const LEAST: f64 = 0.05;
/// Milliseconds from which a sheet is one to wait for. Below, the library's time is mostly that of the run.
const NOTICED: f64 = 5.0;

// ---- One sheet by one implementation ------------------------------------------------------------------------------------------------

/// A call is made three times, and a short one again until so many or so long; a long one once.
const CALLS: usize = 20;
const LONG_ENOUGH: Duration = Duration::from_millis(50);
const LONG: Duration = Duration::from_secs(1);

/// Prints the milliseconds of one call, the best of a few, and `plan` or `none`; of the library's run alone `unknown`.
fn pick(implementation: &str, name: &str) {
    let entries = corpus();
    let entry = entries.iter().find(|entry| entry.name == name).unwrap_or_else(|| panic!("no sheet {name}"));
    let mut workspace = Workspace::new();
    let (mut trace, mut plan, mut state) = ([0; MAX_TRACE], [0; MAX_ITEMS], [0; STATE_LENGTH]);
    let plan = &mut plan[..usize::from(entry.sheet[5])];
    let word = |chosen: Chosen| if chosen.has_plan { "plan" } else { "none" };
    let mut call = || match implementation {
        "library" => raw::pick(&entry.sheet, &mut trace, plan, &mut state).map(word),
        "run" => raw::run(&entry.sheet, &mut trace, &mut state).map(|_| "unknown"),
        "fast" => workspace.pick(&entry.sheet, &mut trace, plan, &mut state).map(word),
        _ => panic!("no implementation {implementation}: library, run or fast"),
    };
    let began = Instant::now();
    let (mut best, mut told) = (Duration::MAX, "");
    for number in 1..=CALLS {
        let before = Instant::now();
        told = call().unwrap_or_else(|fault| panic!("{name} is refused: {fault:?}"));
        best = best.min(before.elapsed());
        if best > LONG || (number >= 3 && began.elapsed() > LONG_ENOUGH) {
            break;
        }
    }
    println!("{} {told}", milliseconds(best));
}

fn milliseconds(time: Duration) -> f64 {
    time.as_secs_f64() * 1_000.0
}

// ---- The peers ----------------------------------------------------------------------------------------------------------------------

/// The usual encoding for a SAT solver: a variable for each setting of each item; each item has one of its settings and no two; no barred
/// pair. In DIMACS form.
fn clauses(sheet: &[u8]) -> String {
    let (problem, _) = reference::read_sheet(sheet).expect("the sheet keeps the layout");
    let sizes = problem.sizes();
    let variable = |i: usize, a: usize| (sizes[..i].iter().sum::<usize>() + a + 1) as i32;
    let mut clauses: Vec<Vec<i32>> = Vec::new();
    for i in 0..sizes.len() {
        clauses.push((0..sizes[i]).map(|a| variable(i, a)).collect());
        for a in 0..sizes[i] {
            clauses.extend((a + 1..sizes[i]).map(|b| vec![-variable(i, a), -variable(i, b)]));
            for j in i + 1..sizes.len() {
                let barred = (0..sizes[j]).filter(|&b| !problem.allowed(i, a, j, b));
                clauses.extend(barred.map(|b| vec![-variable(i, a), -variable(j, b)]));
            }
        }
    }
    let mut text = format!("p cnf {} {}\n", sizes.iter().sum::<usize>(), clauses.len());
    for clause in clauses {
        clause.iter().for_each(|literal| write!(text, "{literal} ").expect("a string takes all"));
        text.push_str("0\n");
    }
    text
}

fn write(folder: &Path) {
    for Entry { name, sheet, .. } in corpus() {
        let written = fs::write(folder.join(format!("{name}.sheet")), &sheet);
        written.and_then(|()| fs::write(folder.join(format!("{name}.cnf")), clauses(&sheet))).expect("the folder takes files");
    }
}

/// What a process came to in its time: so many milliseconds, and whether there is a plan, where it tells; or nothing, where it was ended.
type Outcome = Option<(f64, Option<bool>)>;

/// Who is timed, with the columns' heads.
#[derive(Clone, Copy, PartialEq)]
enum Who {
    Library,
    Run,
    Fast,
    Sat,
    First,
    Any,
    Program,
    Process,
}

const ALL: [(Who, &str); 8] = [
    (Who::Library, "library"),
    (Who::Run, "its run alone"),
    (Who::Fast, "fast"),
    (Who::Sat, "SAT solver"),
    (Who::First, "Gecode, same order"),
    (Who::Any, "Gecode, any order"),
    (Who::Program, "process of plan_sheet"),
    (Who::Process, "process of Gecode, same order"),
];

/// What is timed, and how.
struct Setting {
    folder: PathBuf,
    program: Option<String>,
    gecode: Option<String>,
    sat: Option<String>,
    limit: String,
}

impl Setting {
    /// The words of the command; nothing where it is not at hand.
    fn command(&self, who: Who, name: &str) -> Option<Vec<String>> {
        let file = |ending: &str| self.folder.join(format!("{name}.{ending}")).display().to_string();
        let own = |implementation: &str| {
            let program = std::env::current_exe().expect("the path of this program").display().to_string();
            Some(vec![program, "--pick".into(), implementation.into(), name.into()])
        };
        match who {
            Who::Library => own("library"),
            Who::Run => own("run"),
            Who::Fast => own("fast"),
            Who::Sat => self.sat.as_ref().map(|command| command.split(' ').map(String::from).chain([file("cnf")]).collect()),
            Who::First | Who::Process => self.gecode.as_ref().map(|program| vec![program.clone(), "first".into(), file("sheet")]),
            Who::Any => self.gecode.as_ref().map(|program| vec![program.clone(), "any".into(), file("sheet")]),
            Who::Program => self
                .program
                .as_ref()
                .map(|program| vec!["sh".into(), "-c".into(), "exec \"$0\" <\"$1\"".into(), program.clone(), file("sheet")]),
        }
    }

    /// A SAT solver tells by its status, plan_sheet by its last line, and their time is that of the process. The others print their own
    /// times, posting and search apart.
    fn timed(&self, who: Who, name: &str) -> Option<Outcome> {
        let command = self.command(who, name)?;
        let before = Instant::now();
        let output = Command::new("timeout").args(["-s", "KILL", &self.limit]).args(&command).output().expect("timeout runs");
        let elapsed = milliseconds(before.elapsed());
        let text = String::from_utf8(output.stdout).expect("text");
        let words: Vec<&str> = text.split_whitespace().collect();
        let number = |word: &str| word.parse::<f64>().expect("a number");
        let told = |word: &str| (word != "unknown").then_some(word == "plan");
        Some(match (who, output.status.code(), &words[..]) {
            (Who::Sat, Some(10), _) => Some((elapsed, Some(true))),
            (Who::Sat, Some(20), _) => Some((elapsed, Some(false))),
            (Who::Library | Who::Run | Who::Fast, Some(0), [time, plan]) => Some((number(time), told(plan))),
            (Who::Program, Some(0), _) => Some((elapsed, Some(text.lines().last().is_some_and(|line| line.starts_with("plan "))))),
            (Who::Process, Some(0), [_, _, plan]) => Some((elapsed, told(plan))),
            (Who::First | Who::Any, Some(0), [posting, search, plan]) => Some(((number(posting) + number(search)) / 1_000.0, told(plan))),
            (_, None | Some(124 | 137), _) => None,
            (_, status, _) => panic!("{command:?} ended with {status:?}: {text}{}", String::from_utf8_lossy(&output.stderr)),
        })
    }
}

// ---- The tables ---------------------------------------------------------------------------------------------------------------------

/// One sheet with what each came to, in the order of ALL.
struct Row {
    entry: Entry,
    outcomes: [Option<Outcome>; ALL.len()],
}

impl Row {
    fn of(&self, who: Who) -> Option<Outcome> {
        let place = ALL.iter().position(|(other, _)| *other == who).expect("one of all");
        self.outcomes[place]
    }

    /// Its milliseconds, or more than any where it was ended.
    fn time(&self, who: Who) -> Option<f64> {
        self.of(who).map(|outcome| outcome.map_or(f64::INFINITY, |(time, _)| time))
    }

    /// One's time over another's. Where the other was ended, it is none to speak of; where the one was, it is without bound.
    fn ratio(&self, one: Who, other: Who) -> Option<f64> {
        Some(self.time(one)?.max(LEAST) / self.time(other)?.max(LEAST)).filter(|ratio| !ratio.is_nan())
    }

    fn over(&self, who: Who) -> Option<f64> {
        self.ratio(Who::Library, who)
    }

    /// Whether there is a plan, as all say that came to an end.
    fn has_plan(&self) -> Option<bool> {
        let outcomes = self.outcomes.iter().flatten().flatten();
        let told: Vec<bool> = outcomes.filter_map(|(_, has_plan)| *has_plan).chain(self.entry.solvable).collect();
        assert!(told.windows(2).all(|two| two[0] == two[1]), "{}: the answers differ", self.entry.name);
        told.first().copied()
    }
}

fn shown(time: f64, limit: &str) -> String {
    match time {
        _ if time.is_infinite() => format!("> {limit} s"),
        _ if time >= 100.0 => format!("{time:.0}"),
        _ if time >= 1.0 => format!("{time:.1}"),
        _ => format!("{time:.3}"),
    }
}

/// The median and the worst of a family.
fn spread(rows: &[&Row], who: Who, limit: &str) -> String {
    let mut times: Vec<f64> = rows.iter().filter_map(|row| row.time(who)).collect();
    times.sort_by(f64::total_cmp);
    match times[..] {
        [] => "not at hand".into(),
        [.., worst] => format!("{}, {}", shown(times[(times.len() - 1) / 2], limit), shown(worst, limit)),
    }
}

/// The row for which a figure is greatest.
fn worst<'a>(rows: &[&'a Row], figure: impl Fn(&Row) -> Option<f64>) -> Option<(f64, &'a Row)> {
    rows.iter().filter_map(|row| Some((figure(row)?, *row))).max_by(|one, other| one.0.total_cmp(&other.0))
}

fn ratio(rows: &[&Row], who: Who) -> String {
    worst(rows, |row| row.over(who)).map_or("".into(), |(ratio, row)| format!("{ratio:.3} ({})", row.entry.name))
}

fn print_tables(rows: &[Row], limit: &str) {
    let heads: String = ALL.iter().map(|(_, head)| format!(" {head} |")).collect();
    println!("| family | sheets | with a plan |{heads} library / Gecode same order, worst | library / Gecode any order, worst | slowest |");
    println!("|---|---|---|{}---|---|---|", "---|".repeat(ALL.len()));
    let mut families: Vec<(&str, bool)> = rows.iter().map(|row| (row.entry.family, row.entry.held)).collect();
    families.sort_by_key(|(_, held)| !held);
    families.dedup();
    for (family, held) in families {
        let of_family: Vec<&Row> = rows.iter().filter(|row| (row.entry.family, row.entry.held) == (family, held)).collect();
        let plans = of_family.iter().filter(|row| row.has_plan() == Some(true)).count();
        let times: String = ALL.iter().map(|(who, _)| format!(" {} |", spread(&of_family, *who, limit))).collect();
        let slowest = worst(&of_family, |row| row.time(Who::Library)).map_or("", |(_, row)| &row.entry.name);
        let note = if held { "" } else { ", not held to the bar" };
        let (same, any) = (ratio(&of_family, Who::First), ratio(&of_family, Who::Any));
        println!("| {family}{note} | {} | {plans} |{times} {same} | {any} | {slowest} |", of_family.len());
    }
}

/// What the bar asks, by the sheets that are held to it; and the slowest of all.
fn print_bar(rows: &[Row], limit: &str) {
    let held: Vec<&Row> = rows.iter().filter(|row| row.entry.held).collect();
    let over = |figure: &dyn Fn(&Row) -> Option<f64>, most: f64| {
        let names: Vec<&str> = held.iter().filter(|row| figure(row) > Some(most)).map(|row| &*row.entry.name).collect();
        format!("{} ({})", names.len(), names.join(", "))
    };
    println!("\nHeld to the bar: {} of {} sheets.", held.len(), rows.len());
    for (who, order) in [(Who::First, "the same order"), (Who::Any, "any order")] {
        let noticed = |row: &Row| row.over(who).filter(|_| row.time(Who::Library) > Some(NOTICED));
        println!("Over {BAR} times Gecode in {order}: {}.", over(&|row| row.over(who), BAR));
        println!("Among them over {NOTICED} ms: {}.", over(&noticed, BAR));
    }
    println!("As processes, over {BAR} times Gecode in the same order: {}.", over(&|row| row.ratio(Who::Program, Who::Process), BAR));
    println!("Over a second: {}.", over(&|row| row.time(Who::Library), SECOND));
    for (who, name) in [(Who::Library, "the library"), (Who::Fast, "the fast implementation")] {
        if let Some((time, row)) = worst(&held, |row| row.time(who)) {
            println!("The slowest of these for {name}: {}, {} ms.", row.entry.name, shown(time, limit));
        }
        println!("All of these together for {name}: {} ms.", shown(held.iter().filter_map(|row| row.time(who)).sum(), limit));
    }
    if let Some((ratio, row)) = worst(&held, |row| row.over(Who::Fast)) {
        println!("The library over the fast implementation, worst: {ratio:.2} ({}).", row.entry.name);
    }
}

fn compare(setting: &Setting, only: &str) {
    write(&setting.folder);
    println!("Milliseconds, median and worst. Library and fast: the whole call, from the sheet to the plan, best of up to {CALLS}. Gecode: posting and");
    println!("search, measured inside its process. SAT solver: the process, its start and the reading of the clauses included; any plan. Both get");
    println!("the full sheet. The last two columns: from the start of the process to its end, the sheet read and the plan printed.");
    println!("Each is ended after {} s. Where two are compared, less than {LEAST} ms counts as that.\n", setting.limit);
    let mut rows = Vec::new();
    let wanted = |entry: &Entry| match only {
        "held" => entry.held,
        "reported" => !entry.held,
        front => entry.name.starts_with(front),
    };
    for entry in corpus().into_iter().filter(wanted) {
        let outcomes = ALL.map(|(who, _)| setting.timed(who, &entry.name));
        let row = Row { entry, outcomes };
        let times: Vec<String> = ALL.iter().map(|(who, _)| row.time(*who).map_or("-".into(), |time| shown(time, &setting.limit))).collect();
        eprintln!(
            "{:<22} {:<5} {}",
            row.entry.name,
            row.has_plan().map_or("?", |plan| if plan { "plan" } else { "none" }),
            times.join("  ")
        );
        rows.push(row);
    }
    print_tables(&rows, &setting.limit);
    print_bar(&rows, &setting.limit);
}

fn main() {
    let arguments: Vec<String> = std::env::args().skip(1).filter(|argument| argument != "--bench").collect();
    let words: Vec<&str> = arguments.iter().map(String::as_str).collect();
    match words[..] {
        ["--pick", implementation, name] => pick(implementation, name),
        ["--write", folder] => write(Path::new(folder)),
        _ => {
            let given = |name: &str| words.iter().find_map(|word| word.strip_prefix(name)?.strip_prefix('=').map(String::from));
            let folder = std::env::temp_dir().join(format!("corpus-{}", std::process::id()));
            fs::create_dir_all(&folder).expect("a folder for the sheets");
            let setting = Setting {
                folder,
                program: given("program"),
                gecode: given("gecode"),
                sat: given("sat"),
                limit: given("limit").unwrap_or_else(|| "60".into()),
            };
            compare(&setting, &given("only").unwrap_or_default());
            fs::remove_dir_all(&setting.folder).expect("the folder of the sheets");
        }
    }
}
