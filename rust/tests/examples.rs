//! Builds and runs the six programs of examples/ on the files of the top folder's examples/, which the C programs are run on too
//! (tests/callers): what they print, their status, and the reasons on standard error.

use std::ffi::OsStr;
use std::fs::{self, File};
use std::path::{Path, PathBuf};
use std::process::{Command, Output, Stdio};
use std::sync::OnceLock;

use zomuwedli::Refusal;

/// The top folder, which the programs are run in: the files of examples/ name others from there.
fn top() -> PathBuf {
    Path::new(env!("CARGO_MANIFEST_DIR")).join("..")
}

/// The folder of the examples' programs. `cargo test --test examples` builds none of them, and older ones would pass for these: so they
/// are built here, in the folder and the profile of this test.
fn programs() -> &'static Path {
    static PROGRAMS: OnceLock<PathBuf> = OnceLock::new();
    PROGRAMS.get_or_init(|| {
        let test = std::env::current_exe().expect("the path of this test");
        let [_, _, profile, target] = *test.ancestors().take(4).collect::<Vec<_>>() else { panic!("TARGET/PROFILE/deps/TEST") };
        let name = profile.file_name().expect("the name of the profile");
        let name = if name == "debug" { OsStr::new("dev") } else { name };
        let cargo = Command::new(env!("CARGO"))
            .args(["build", "--examples", "--quiet", "--offline", "--locked", "--profile"])
            .arg(name)
            .arg("--target-dir")
            .arg(target)
            .current_dir(env!("CARGO_MANIFEST_DIR"))
            .status();
        assert!(cargo.expect("cargo runs").success(), "the examples are not built");
        profile.join("examples")
    })
}

fn program(example: &str) -> Command {
    let mut program = Command::new(programs().join(example));
    program.current_dir(top()).stdin(Stdio::null());
    program
}

/// What the example printed, which may be a sheet and no text, what it said, and its status.
fn ended(output: Output) -> (Vec<u8>, String, Option<i32>) {
    (output.stdout, String::from_utf8(output.stderr).expect("text"), output.status.code())
}

// ---- The files ----------------------------------------------------------------------------------------------------------------------

/// The files of examples/ with this ending, `examples/NAME.ENDING`, of which there are at least so many.
fn files(ending: &str, least: usize) -> Vec<String> {
    let entries = fs::read_dir(top().join("examples")).expect("the folder of the examples");
    let names = entries.map(|entry| entry.expect("an entry").file_name().into_string().expect("a name in UTF-8"));
    let files = names.filter(|name| Path::new(name).extension() == Some(OsStr::new(ending)));
    let mut files: Vec<String> = files.map(|name| format!("examples/{name}")).collect();
    files.sort();
    assert!(files.len() >= least, "only {} files .{ending}", files.len());
    files
}

fn bytes(file: &str) -> Vec<u8> {
    fs::read(top().join(file)).unwrap_or_else(|error| panic!("{file}: {error}"))
}

fn text(file: &str) -> String {
    String::from_utf8(bytes(file)).unwrap_or_else(|error| panic!("{file}: {error}"))
}

/// The sheet of examples/SHEET.CASE.hand is examples/SHEET.sheet.
fn sheet_of(file: &str) -> String {
    format!("{}.sheet", file.split('.').next().expect("a first part"))
}

/// What standard error says where this text is printed for a sheet or a file: for each refused call a line, with its cause, and with the
/// three numbers after 17 what they say.
fn reasons(text: &str, lent: &str) -> String {
    let reason = |line: &str| {
        let (call, numbers) = line.split_once("refused ")?;
        let what = call.strip_prefix("hand ").map_or(lent.to_string(), |item| format!("item {}", item.trim_end()));
        let numbers: Vec<u16> = numbers.split(' ').map(|number| number.parse().expect("a number")).collect();
        let carried = match numbers[..] {
            [17, record, 255, 255] => format!("; it is record {record}"),
            [17, record, item, setting] => format!("; it is record {record}, and at item {item} setting {setting} spoils the cover"),
            [_] => String::new(),
            _ => panic!("no refusal: {line}"),
        };
        let refusal = Refusal::from_number(numbers[0].try_into().expect("a byte")).expect("a refusal");
        Some(format!("{what}: refused {}: {}{carried}\n", numbers[0], refusal.cause()))
    };
    text.lines().filter_map(reason).collect()
}

/// The example, on a sheet and what follows it, prints what the file has, says why for each refusal in it, and ends with 1 where there is
/// one.
fn prints(example: &str, sheet: &str, arguments: &str, file: &str) {
    let expected = text(file);
    let reasons = reasons(&expected, &format!("sheet {sheet}"));
    let status = i32::from(!reasons.is_empty());
    let arguments: Vec<&str> = std::iter::once(sheet).chain(arguments.split_whitespace()).collect();
    ends(example, &arguments, (expected.into_bytes(), reasons, Some(status)));
}

/// The same with the sheet in its other version too, where there is a file of that.
fn prints_of_both(example: &str, sheet: &str, arguments: &str, file: &str) {
    prints(example, sheet, arguments, file);
    let moved = sheet.replace(".sheet", ".moved");
    if top().join(&moved).exists() {
        prints(example, &moved, arguments, file);
    }
}

/// The example, with these arguments, prints so, says so and ends so.
fn ends(example: &str, arguments: &[&str], expected: (Vec<u8>, String, Option<i32>)) {
    let output = program(example).args(arguments).output();
    assert_eq!(ended(output.expect("the example runs")), expected, "{example} {arguments:?}");
}

#[test]
fn run_prints_what_the_program_prints() {
    files("sheet", 32).iter().for_each(|sheet| prints_of_both("run", sheet, "", &sheet.replace(".sheet", ".txt")));
}

#[test]
fn plan_prints_a_plan_or_that_there_is_none() {
    files("plan", 21).iter().for_each(|file| prints_of_both("plan", &sheet_of(file), "", file));
}

#[test]
fn hand_prints_each_call_and_the_state_left() {
    files("hand", 9).iter().for_each(|file| prints_of_both("hand", &sheet_of(file), &text(file), &format!("{file}.txt")));
}

#[test]
fn put_back_prints_the_plan() {
    files("back", 21).iter().for_each(|file| prints_of_both("put_back", &sheet_of(file), &text(file), &format!("{file}.txt")));
}

/// examples/NAME.moved is examples/NAME.sheet in the other version, and the other way round. A refused sheet has the line of its NAME.txt.
#[test]
fn move_writes_the_other_version() {
    for moved in files("moved", 13) {
        let sheet = sheet_of(&moved);
        ends("move", &[&sheet], (bytes(&moved), String::new(), Some(0)));
        ends("move", &[&moved], (bytes(&sheet), String::new(), Some(0)));
    }
    let sheets = files("sheet", 32);
    let refused: Vec<&String> = sheets.iter().filter(|sheet| sheet.starts_with("examples/refused-")).collect();
    assert!(refused.len() >= 11, "only {refused:?}");
    refused.iter().for_each(|sheet| prints("move", sheet, "", &sheet.replace(".sheet", ".txt")));
}

/// examples/NAME-CHANNELS.sheet is the sheet of examples/NAME.col, and NAME-CHANNELS.refused the line of one that is refused.
#[test]
fn colour_writes_the_sheet() {
    let (sheets, refusals) = (files("sheet", 32), files("refused", 9));
    let (mut written, mut refused) = (0, 0);
    for file in files("col", 9) {
        let name = file.strip_suffix(".col").expect("the ending");
        // What stands between the file's name and the ending, where that is a number.
        let channels = |other: &str, ending: &str| {
            let number = other.strip_prefix(name)?.strip_prefix('-')?.strip_suffix(ending)?;
            number.bytes().all(|byte| byte.is_ascii_digit()).then(|| number.to_string())
        };
        for channels in sheets.iter().filter_map(|sheet| channels(sheet, ".sheet")) {
            let sheet = bytes(&format!("{name}-{channels}.sheet"));
            ends("colour", &[&file, &channels], (sheet, String::new(), Some(0)));
            written += 1;
        }
        for channels in refusals.iter().filter_map(|refusal| channels(refusal, ".refused")) {
            let line = text(&format!("{name}-{channels}.refused"));
            let reasons = reasons(&line, &format!("file {file}"));
            ends("colour", &[&file, &channels], (line.into_bytes(), reasons, Some(1)));
            refused += 1;
        }
    }
    assert!(written >= 7 && refused == refusals.len(), "{written} sheets and {refused} of {} refusals", refusals.len());
}

// ---- What goes wrong besides --------------------------------------------------------------------------------------------------------

const B: &str = "examples/B.sheet";
const TRACE: &str = "examples/B.trace";
const COL: &str = "examples/petersen.col";

/// Each example that is given a sheet with what it is given after that.
const ALL: [(&str, &[&str]); 5] = [("run", &[]), ("plan", &[]), ("hand", &["0"]), ("put_back", &[TRACE, "255", "255"]), ("move", &[])];

/// Nothing is printed, the status is this one, and standard error begins so and ends so.
fn astray(example: &str, arguments: &[&str], status: i32, first: &str, last: &str) {
    let (printed, said, ended) = ended(program(example).args(arguments).output().expect("the example runs"));
    assert_eq!((&*printed, ended), (&b""[..], Some(status)), "{example} {arguments:?}: {said}");
    assert!(said.starts_with(first) && said.ends_with(last), "{example} {arguments:?} says {said:?}");
}

#[test]
fn bad_usage_is_told() {
    let bad = |example: &str, arguments: &[&str], usage: &str| {
        astray(example, arguments, 2, "usage: ", &format!("{example} {usage}\n"));
    };
    for example in ["run", "plan", "move"] {
        bad(example, &[], "SHEET");
        bad(example, &[B, B], "SHEET");
    }
    bad("hand", &[], "SHEET [ITEM]...");
    for item in ["", "-1", "+1", "1x", "18446744073709551616"] {
        bad("hand", &[B, "0", item], "SHEET [ITEM]...");
    }
    bad("put_back", &[], "SHEET TRACE [SETTING]...");
    bad("put_back", &[B], "SHEET TRACE [SETTING]...");
    for setting in ["", "-1", "+1", "256"] {
        bad("put_back", &[B, TRACE, "255", setting], "SHEET TRACE [SETTING]...");
    }
    for arguments in [&[][..], &[COL], &[COL, "3", "3"]] {
        bad("colour", arguments, "FILE CHANNELS");
    }
    for channels in ["", "-1", "+1", "3x", "18446744073709551616"] {
        bad("colour", &[COL, channels], "FILE CHANNELS");
    }
}

/// A folder opens and cannot be read.
#[test]
fn a_failed_read_is_told() {
    for unread in ["examples/missing.sheet", "examples"] {
        let first = format!("{unread}: ");
        for (example, arguments) in ALL {
            astray(example, &[&[unread], arguments].concat(), 3, &first, "\n");
        }
        astray("put_back", &[B, unread, "255", "255"], 3, &first, "\n");
        astray("colour", &[unread, "3"], 3, &first, "\n");
    }
}

/// /dev/full takes no byte, of an answer or of a refusal.
#[test]
fn a_failed_write_is_told() {
    let unwritten = |example: &str, arguments: &[&str]| {
        let full = File::options().write(true).open("/dev/full").expect("/dev/full");
        let (_, said, status) = ended(program(example).args(arguments).stdout(full).output().expect("the example runs"));
        assert_eq!(status, Some(3), "{example} {arguments:?}: {said}");
        assert!(said.lines().any(|line| line.starts_with("standard output: ")), "{example} {arguments:?} says {said:?}");
    };
    for sheet in [B, "examples/refused-8.sheet"] {
        ALL.iter().for_each(|(example, arguments)| unwritten(example, &[&[sheet], *arguments].concat()));
    }
    ["3", "17"].iter().for_each(|channels| unwritten("colour", &[COL, channels]));
}
