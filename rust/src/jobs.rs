//! The eight jobs of the proved library.

use std::fmt;

use crate::boundary::{self, PutBackFault};
use crate::{HandState, PutBackRefusal, Refusal, State, Unlawful};

/// What reading a sheet that keeps the layout answers.
///
/// ```
/// use zomuwedli::{read, Accepted};
///
/// assert_eq!(read(&[1, 0, 0, 0, 9, 1, 0, 0, 2])?, Accepted { items: 1, blocks: 0 });
/// # Ok::<(), zomuwedli::Refusal>(())
/// ```
#[must_use]
#[derive(Clone, Copy, PartialEq, Eq, Hash, Debug)]
pub struct Accepted {
    /// How many items the sheet has, n.
    pub items: usize,
    /// How many pair blocks it has, m.
    pub blocks: usize,
}

/// Reads a sheet, of version 1 or 2: whether it keeps the layout. Refused: 1 to 9.
///
/// Every job that is lent a sheet takes both versions, and every one but [`move_sheet`] answers alike on a sheet and on the same sheet in
/// the other version.
///
/// ```
/// use zomuwedli::{read, Refusal};
///
/// // Sheet B: two items of two settings, unequal.
/// let sheet = [1, 0, 0, 0, 16, 2, 0, 1, 2, 2, 0, 1, 0, 2, 0, 1];
/// let accepted = read(&sheet)?;
/// assert_eq!((accepted.items, accepted.blocks), (2, 1));
/// assert_eq!(read(&sheet[..15]), Err(Refusal::SheetLength));
/// # Ok::<(), Refusal>(())
/// ```
pub fn read(sheet: &[u8]) -> Result<Accepted, Refusal> {
    let (items, blocks) = boundary::read(sheet).map_err(refusal)?;
    Ok(Accepted { items: items.into(), blocks: blocks.into() })
}

/// How a run ends.
///
/// ```
/// use zomuwedli::{run, End, MAX_TRACE};
///
/// // Sheet D: two items of one setting, the pair barred.
/// let run = run(&[1, 0, 0, 0, 14, 2, 0, 1, 1, 1, 0, 1, 0, 0], &mut [0; MAX_TRACE])?;
/// assert_eq!(run.end, End::Impossible);
/// assert_eq!(run.end.to_string(), "impossible");
/// # Ok::<(), zomuwedli::Refusal>(())
/// ```
#[must_use]
#[derive(Clone, Copy, PartialEq, Eq, PartialOrd, Ord, Hash, Debug)]
#[repr(u8)]
pub enum End {
    /// An item in has no setting on: the full sheet has no plan.
    Impossible = 0,
    /// No item is in: the full sheet has a plan, and putting back gives one.
    Solved = 1,
    /// Items are in and no rule holds: a search decides.
    Rest = 2,
}

impl End {
    /// The end with this number, if there is one.
    ///
    /// ```
    /// use zomuwedli::End;
    ///
    /// assert_eq!(End::from_number(2), Some(End::Rest));
    /// assert_eq!(End::from_number(3), None);
    /// ```
    #[must_use]
    pub fn from_number(number: u8) -> Option<End> {
        [End::Impossible, End::Solved, End::Rest].into_iter().find(|&end| end as u8 == number)
    }
}

/// The word of the program's last line.
impl fmt::Display for End {
    fn fmt(&self, f: &mut fmt::Formatter<'_>) -> fmt::Result {
        f.write_str(match self {
            End::Impossible => "impossible",
            End::Solved => "solved",
            End::Rest => "rest",
        })
    }
}

/// What a run answers.
///
/// ```
/// use zomuwedli::{run, End, MAX_TRACE};
///
/// let mut trace = [0; MAX_TRACE];
/// let run = run(&[1, 0, 0, 0, 9, 1, 0, 0, 2], &mut trace)?;
/// assert_eq!((run.end, run.steps), (End::Solved, 1));
/// assert_eq!(trace[..run.written], [1, 3, 2, 0, 0]);
/// assert_eq!(run.state.count_items(), 0);
/// # Ok::<(), zomuwedli::Refusal>(())
/// ```
#[must_use]
#[derive(Clone, PartialEq, Eq, Hash, Debug)]
pub struct Run {
    /// How it ended.
    pub end: End,
    /// How many steps it took: the records of its trace.
    pub steps: usize,
    /// How many bytes its trace has, from the front of the buffer.
    pub written: usize,
    /// The last state.
    pub state: State,
}

impl Run {
    /// The end, the number of steps and the bytes written, and the state.
    fn new((end, steps, written): (u8, u16, u16), state: State) -> Run {
        let end = End::from_number(end).unwrap_or_else(|| panic!("the library answered the end {end}"));
        Run { end, steps: steps.into(), written: written.into(), state }
    }
}

/// Works a sheet down to its end. Refused: 1 to 9, then 10.
///
/// The trace goes to the front of the buffer, which keeps its old bytes after it. A buffer of [`MAX_TRACE`](crate::MAX_TRACE) bytes is
/// long enough for every sheet; at least it has 1 + 5 × the sum of the sizes.
///
/// ```
/// use zomuwedli::{run, End, Refusal};
///
/// // Sheet B: two items of two settings, unequal.
/// let sheet = [1, 0, 0, 0, 16, 2, 0, 1, 2, 2, 0, 1, 0, 2, 0, 1];
/// let mut trace = [0; 1 + 5 * 4];
/// let answer = run(&sheet, &mut trace)?;
/// assert_eq!((answer.end, answer.steps, answer.written), (End::Solved, 2, 9));
/// assert_eq!(trace[..answer.written], [1, 3, 2, 0, 0, 3, 2, 1, 0]);
///
/// assert_eq!(run(&sheet, &mut [0; 20]), Err(Refusal::TraceBuffer));
/// # Ok::<(), Refusal>(())
/// ```
pub fn run(sheet: &[u8], trace: &mut [u8]) -> Result<Run, Refusal> {
    let mut state = State::EMPTY;
    let fields = boundary::run(sheet, trace, &mut state.bytes).map_err(refusal)?;
    Ok(Run::new(fields, state))
}

/// Starts taking out by hand. Refused: 1 to 9.
///
/// Answers the state with all items in and the largest sets of settings in which each has a partner at every other item.
///
/// ```
/// // Items of one and two settings; with setting 0 of item 0, setting 0 of item 1 is allowed, and setting 1 is not.
/// let state = zomuwedli::start(&[1, 0, 0, 0, 14, 2, 0, 1, 1, 2, 0, 1, 0, 1])?;
/// assert!(state.state().is_on(1, 0));
/// assert!(!state.state().is_on(1, 1));
/// # Ok::<(), zomuwedli::Refusal>(())
/// ```
pub fn start(sheet: &[u8]) -> Result<HandState, Refusal> {
    let mut state = State::EMPTY;
    boundary::start(sheet, &mut state.bytes).map_err(refusal)?;
    Ok(HandState { state })
}

/// What a hand call answers. The setting is needed to put the item back: whoever takes items out by hand keeps it, as the record of a
/// snake step.
///
/// ```
/// use zomuwedli::{hand_call, start, Taken};
///
/// let sheet = [1, 0, 0, 0, 9, 1, 0, 0, 2];
/// assert_eq!(hand_call(&sheet, &mut start(&sheet)?, 0)?, Taken { setting: 0 });
/// # Ok::<(), zomuwedli::Refusal>(())
/// ```
#[must_use]
#[derive(Clone, Copy, PartialEq, Eq, Hash, Debug)]
pub struct Taken {
    /// The setting v of the snake step, the lowest that fits.
    pub setting: u8,
}

/// Takes the named item out under the snake rule. Refused: 1 to 9, then 11, 12, 13, 14.
///
/// A refused call leaves the state as it was. The item may be any number.
///
/// ```
/// use zomuwedli::{hand_call, put_back, start, trace_of, Record, Refusal, OUT};
///
/// // Sheet B: two items of two settings, unequal.
/// let sheet = [1, 0, 0, 0, 16, 2, 0, 1, 2, 2, 0, 1, 0, 2, 0, 1];
/// let mut state = start(&sheet)?;
/// let taken = hand_call(&sheet, &mut state, 1)?;
/// assert_eq!(taken.setting, 0);
/// assert!(!state.state().is_in(1));
///
/// let before = state.clone();
/// assert_eq!(hand_call(&sheet, &mut state, 1), Err(Refusal::ItemNotIn));
/// assert_eq!(state, before);
///
/// // Back again, with setting 0 for item 0, which is left. It is barred with item 1's, and changed.
/// let trace = trace_of([Record::Snake { item: 1, setting: taken.setting }]);
/// let mut plan = [0; 2];
/// put_back(&sheet, &trace, &[0, OUT], &mut plan)?;
/// assert_eq!(plan, [1, 0]);
/// # Ok::<(), Refusal>(())
/// ```
pub fn hand_call(sheet: &[u8], state: &mut HandState, item: u64) -> Result<Taken, Refusal> {
    let setting = boundary::hand_call(sheet, &mut state.state.bytes, item).map_err(refusal)?;
    Ok(Taken { setting })
}

/// Puts the items that a trace took out back: from a plan for the items left, the plan of the full sheet. Refused: 1 to 9, then 18, 20, 15,
/// then 16 and 17 record by record, then 19. 17 carries which record it is and, where a cover breaks, what spoils it ([`Unlawful`]).
///
/// Any lawful trace is accepted, whoever wrote it. The plan has a byte for each item, [`OUT`](crate::OUT) for one that is out; the result
/// has as many, and a refused call leaves it as it was. The call keeps a state for each record on the stack, for which
/// [`PUT_BACK_STACK`](crate::PUT_BACK_STACK) bytes are enough.
///
/// ```
/// use zomuwedli::{put_back, Refusal, OUT};
///
/// // Sheet B: two items of two settings, unequal. Its run took out both items.
/// let sheet = [1, 0, 0, 0, 16, 2, 0, 1, 2, 2, 0, 1, 0, 2, 0, 1];
/// let trace = [1, 3, 2, 0, 0, 3, 2, 1, 0];
/// let mut plan = [0; 2];
/// put_back(&sheet, &trace, &[OUT, OUT], &mut plan)?;
/// assert_eq!(plan, [0, 1]);
///
/// let refused = put_back(&sheet, &trace, &[OUT, 0], &mut plan).unwrap_err();
/// assert_eq!((refused.refusal, refused.unlawful), (Refusal::PlanUnfit, None));
/// assert_eq!(plan, [0, 1]);
/// # Ok::<(), Refusal>(())
/// ```
pub fn put_back(sheet: &[u8], trace: &[u8], plan: &[u8], result: &mut [u8]) -> Result<(), PutBackRefusal> {
    boundary::put_back(sheet, trace, plan, result).map_err(|fault| match fault {
        PutBackFault::Number(number) => PutBackRefusal { refusal: refusal(number), unlawful: None },
        PutBackFault::Unlawful { record, item, setting } => {
            PutBackRefusal { refusal: Refusal::RecordUnlawful, unlawful: Some(Unlawful { record, item, setting }) }
        }
    })
}

/// What picking a plan answers: the run's own, and whether the sheet has a plan.
///
/// ```
/// use zomuwedli::{pick, End, MAX_TRACE};
///
/// // Sheet D: two items of one setting, the pair barred.
/// let mut plan = [7, 7];
/// let picked = pick(&[1, 0, 0, 0, 14, 2, 0, 1, 1, 1, 0, 1, 0, 0], &mut [0; MAX_TRACE], &mut plan)?;
/// assert_eq!((picked.run.end, picked.has_plan), (End::Impossible, false));
/// assert_eq!(plan, [7, 7]);
/// # Ok::<(), zomuwedli::Refusal>(())
/// ```
#[must_use]
#[derive(Clone, PartialEq, Eq, Hash, Debug)]
pub struct Picked {
    /// What the run answered: its trace is in the trace buffer, with a plan and without.
    pub run: Run,
    /// Whether there is a plan, and it was written. Where there is none the sheet has no plan at all, and the lent plan is as it was.
    pub has_plan: bool,
}

/// Picks a plan of a sheet: runs it, searches among the items left, lowest item first, lowest setting first, and puts the first plan in that
/// order back. Refused: 1 to 9, then 10, then 20.
///
/// The trace buffer is that of [`run`], and holds the run's trace afterwards, with a plan and without. The plan has a byte for each item; it
/// is written where there is one, and what it holds before is not read. That there is none is an answer, and no error.
///
/// The time has no bound but the sheet: in the worst case it is exponential in the number of items left.
/// [`PICK_STACK`](crate::PICK_STACK) bytes of stack are enough for the search, and for putting back inside.
///
/// ```
/// use zomuwedli::{pick, Refusal, MAX_TRACE};
///
/// // Sheet L: three items of 3, 3 and 2 settings. Its run takes no item out, and a search decides.
/// let sheet = [
///     1, 0, 0, 0, 35, 3, 0, 3, 3, 3, 2, 0, 1, 0, 6, 0, 1, 0, 4, 0, 2, 0, 1, 0, 1, 0, 3, 1, 2, 0, 1, 0, 3, 0, 2,
/// ];
/// let mut trace = [0; MAX_TRACE];
/// let mut plan = [0; 3];
/// let picked = pick(&sheet, &mut trace, &mut plan)?;
/// assert!(picked.has_plan);
/// assert_eq!(plan, [0, 1, 0]);
/// assert_eq!(picked.run.state.count_items(), 3);
///
/// assert_eq!(pick(&sheet, &mut trace, &mut [0; 2]), Err(Refusal::ResultLength));
/// # Ok::<(), Refusal>(())
/// ```
pub fn pick(sheet: &[u8], trace: &mut [u8], plan: &mut [u8]) -> Result<Picked, Refusal> {
    let mut state = State::EMPTY;
    let (fields, has_plan) = boundary::pick(sheet, trace, plan, &mut state.bytes).map_err(refusal)?;
    Ok(Picked { run: Run::new(fields, state), has_plan })
}

/// What a job that writes a sheet answers.
///
/// ```
/// use zomuwedli::{colour, Written};
///
/// // One vertex and no edge.
/// assert_eq!(colour(b"p edge 1 0\n", 3, &mut [0; 9])?, Written { bytes: 9 });
/// # Ok::<(), zomuwedli::Refusal>(())
/// ```
#[must_use]
#[derive(Clone, Copy, PartialEq, Eq, Hash, Debug)]
pub struct Written {
    /// How many bytes the sheet has, from the front of the buffer.
    pub bytes: usize,
}

/// Writes the sheet whose plans are the proper colourings of a graph. Refused: 21, 22, 23, 24, 25, each looked for in the whole file before
/// the next.
///
/// The file is a DIMACS graph colouring file of at most [`MAX_FILE`](crate::MAX_FILE) bytes: lines that begin with `c`, one line
/// `p edge VERTICES EDGES`, and after it a line `e A B` for each edge, with vertices counted from 1. Vertex v is item v - 1 of the sheet,
/// and its settings are the channels. The sheet goes to the front of the buffer, which keeps its old bytes after it. A buffer of
/// [`MAX_SHEET`](crate::MAX_SHEET) bytes is long enough for every file.
///
/// ```
/// use zomuwedli::{colour, put_back, run, End, Refusal, MAX_SHEET, MAX_TRACE, OUT};
///
/// // Two loggers that hear each other, and a third that hears the second.
/// let file = b"c three loggers\np edge 3 2\ne 1 2\ne 2 3\n";
/// let mut sheet = [0; MAX_SHEET];
/// let written = colour(file, 2, &mut sheet)?;
/// let sheet = &sheet[..written.bytes];
///
/// let mut trace = [0; MAX_TRACE];
/// let run = run(sheet, &mut trace)?;
/// assert_eq!(run.end, End::Solved);
/// let mut channels = [0; 3];
/// put_back(sheet, &trace[..run.written], &[OUT; 3], &mut channels)?;
/// assert!(channels[0] != channels[1] && channels[1] != channels[2]);
///
/// assert_eq!(colour(file, 2, &mut [0; 22]), Err(Refusal::SheetBuffer));
/// assert_eq!(colour(b"p edge 3 1\ne 1 4\n", 2, &mut [0; MAX_SHEET]), Err(Refusal::GraphFile));
/// # Ok::<(), Refusal>(())
/// ```
pub fn colour(file: &[u8], channels: u64, sheet: &mut [u8]) -> Result<Written, Refusal> {
    boundary::colour(file, channels, sheet).map(written).map_err(refusal)
}

/// Moves a sheet to the other version: version 2 of a sheet of version 1, and version 1 of a sheet of version 2. Refused: 1 to 9, then 26.
///
/// In version 2 a row has one byte where item j has 8 settings or fewer. Moved again the sheet is what it was, byte for byte; a trace, a plan
/// or a state that was made with one version serves with the other. The moved sheet goes to the front of the target, which keeps its old
/// bytes after it. A target of [`MAX_SHEET`](crate::MAX_SHEET) bytes is long enough for every sheet.
///
/// ```
/// use zomuwedli::{move_sheet, put_back, run, Refusal, MAX_SHEET, MAX_TRACE, OUT};
///
/// // Sheet B: two items of two settings, unequal.
/// let sheet = [1, 0, 0, 0, 16, 2, 0, 1, 2, 2, 0, 1, 0, 2, 0, 1];
/// let mut target = [0; MAX_SHEET];
/// let written = move_sheet(&sheet, &mut target)?;
/// let moved = &target[..written.bytes];
/// assert_eq!(moved, [2, 0, 0, 0, 14, 2, 0, 1, 2, 2, 0, 1, 2, 1]);
///
/// let mut back = [0; 16];
/// assert_eq!(move_sheet(moved, &mut back)?.bytes, 16);
/// assert_eq!(back, sheet);
/// assert_eq!(move_sheet(moved, &mut [0; 15]), Err(Refusal::TargetBuffer));
///
/// // The trace of the one puts back with the other.
/// let mut trace = [0; MAX_TRACE];
/// let run = run(&sheet, &mut trace)?;
/// let mut plan = [0; 2];
/// put_back(moved, &trace[..run.written], &[OUT, OUT], &mut plan)?;
/// assert_eq!(plan, [0, 1]);
/// # Ok::<(), Refusal>(())
/// ```
pub fn move_sheet(sheet: &[u8], target: &mut [u8]) -> Result<Written, Refusal> {
    boundary::move_sheet(sheet, target).map(written).map_err(refusal)
}

/// The answer of a job that writes a sheet.
fn written(bytes: u32) -> Written {
    Written { bytes: usize::try_from(bytes).expect("no more than the buffer has") }
}

/// The refusal with this number. The library answers no other: states are lent in their length, so that 200 and 201 do not come up.
fn refusal(number: u8) -> Refusal {
    Refusal::from_number(number).unwrap_or_else(|| panic!("the library answered {number}, which is no refusal of this call"))
}
