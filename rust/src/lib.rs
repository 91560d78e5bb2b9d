//! A preprocessor for binary constraint problems, proved in Rattle, for use from Rust.
//!
//! A *sheet* lists items, the settings of each, and which settings of two items may stand together. A run crosses off settings and takes
//! out items that cannot matter, and writes each step into a trace; a plan for the items left is put back through the trace into a plan
//! of the full sheet. Picking does all of it, with a search for the plan between. What each job does, byte for byte, is in docs/FORMAT.md of the repository.
//!
//! | job | refused, by number |
//! |---|---|
//! | [`read`]: whether bytes are a sheet | 1 to 9 |
//! | [`run`]: works a sheet down to its end | 1 to 9, 10 |
//! | [`start`]: starts taking items out by hand | 1 to 9 |
//! | [`hand_call`]: takes one item out by hand | 1 to 9, 11, 12, 13, 14 |
//! | [`put_back`]: from a trace and a plan for the items left, the plan of the full sheet | 1 to 9, 18, 20, 15, 16, 17, 19 |
//! | [`pick`]: from a sheet to a finished plan, or that it has none | 1 to 9, 10, 20 |
//! | [`colour`]: from a graph colouring file and a channel count, the sheet of its proper colourings | 21, 22, 23, 24, 25 |
//! | [`move_sheet`]: from a sheet, the same sheet in the other of its two versions | 1 to 9, 26 |
//!
//! Each answers a `Result`, and a refused call changes no byte that was lent to it. The error is a [`Refusal`], and of putting back a
//! [`PutBackRefusal`], in which 17 tells the record and, where a cover breaks, what spoils it. The library allocates nothing, keeps nothing
//! between calls and may be called from several threads. [`records`] takes a trace apart and [`trace_of`] writes one; these two are plain
//! Rust.
//!
//! Here two items of two settings each are unequal. A plan in one call, and by its parts: the run takes out both items, and nothing is left
//! to plan.
//!
//! ```
//! use zomuwedli::{pick, put_back, run, End, MAX_TRACE, OUT};
//!
//! let sheet = [1, 0, 0, 0, 16, 2, 0, 1, 2, 2, 0, 1, 0, 2, 0, 1];
//! let (mut trace, mut plan) = ([0; MAX_TRACE], [0; 2]);
//! assert!(pick(&sheet, &mut trace, &mut plan)?.has_plan);
//! assert_eq!(plan, [0, 1]);
//!
//! let run = run(&sheet, &mut trace)?;
//! assert_eq!(run.end, End::Solved);
//! put_back(&sheet, &trace[..run.written], &[OUT, OUT], &mut plan)?;
//! assert_eq!(plan, [0, 1]);
//! # Ok::<(), zomuwedli::Refusal>(())
//! ```

#![deny(missing_docs)]
#![deny(unsafe_code)]
#![deny(unsafe_op_in_unsafe_fn)]

// reference.rs, fast.rs, peer.rs, generate.rs and corpus.rs beside this file are no part of the library: tests/support has them.
#[allow(unsafe_code)]
mod boundary;
/// An answer that is dropped is warned of, here as an error: each of these eight does not compile.
///
/// ```compile_fail
/// # #![deny(unused_must_use)]
/// # fn dropped() -> Result<(), zomuwedli::Refusal> {
/// zomuwedli::read(&[])?;
/// # Ok(())
/// # }
/// ```
///
/// ```compile_fail
/// # #![deny(unused_must_use)]
/// # fn dropped() -> Result<(), zomuwedli::Refusal> {
/// zomuwedli::run(&[], &mut [])?;
/// # Ok(())
/// # }
/// ```
///
/// ```compile_fail
/// # #![deny(unused_must_use)]
/// # fn dropped() -> Result<(), zomuwedli::Refusal> {
/// zomuwedli::start(&[])?;
/// # Ok(())
/// # }
/// ```
///
/// ```compile_fail
/// # #![deny(unused_must_use)]
/// # fn dropped(state: &mut zomuwedli::HandState) -> Result<(), zomuwedli::Refusal> {
/// zomuwedli::hand_call(&[], state, 0)?;
/// # Ok(())
/// # }
/// ```
///
/// ```compile_fail
/// # #![deny(unused_must_use)]
/// # fn dropped() {
/// zomuwedli::put_back(&[], &[], &[], &mut []);
/// # }
/// ```
///
/// ```compile_fail
/// # #![deny(unused_must_use)]
/// # fn dropped() -> Result<(), zomuwedli::Refusal> {
/// zomuwedli::pick(&[], &mut [], &mut [])?;
/// # Ok(())
/// # }
/// ```
///
/// ```compile_fail
/// # #![deny(unused_must_use)]
/// # fn dropped() -> Result<(), zomuwedli::Refusal> {
/// zomuwedli::colour(&[], 1, &mut [])?;
/// # Ok(())
/// # }
/// ```
///
/// ```compile_fail
/// # #![deny(unused_must_use)]
/// # fn dropped() -> Result<(), zomuwedli::Refusal> {
/// zomuwedli::move_sheet(&[], &mut [])?;
/// # Ok(())
/// # }
/// ```
///
/// And each is right but for that:
///
/// ```
/// # #![deny(unused_must_use)]
/// # fn kept(state: &mut zomuwedli::HandState) -> Result<(), zomuwedli::Refusal> {
/// let _ = zomuwedli::read(&[])?;
/// let _ = zomuwedli::run(&[], &mut [])?;
/// let _ = zomuwedli::start(&[])?;
/// let _ = zomuwedli::hand_call(&[], state, 0)?;
/// let _ = zomuwedli::put_back(&[], &[], &[], &mut []);
/// let _ = zomuwedli::pick(&[], &mut [], &mut [])?;
/// let _ = zomuwedli::colour(&[], 1, &mut [])?;
/// let _ = zomuwedli::move_sheet(&[], &mut [])?;
/// # Ok(())
/// # }
/// ```
mod jobs;
mod refusal;
mod state;
mod trace;

/// So that the example in the README runs too.
#[cfg(doctest)]
#[doc = include_str!("../README.md")]
mod readme {}

pub use jobs::{colour, hand_call, move_sheet, pick, put_back, read, run, start, Accepted, End, Picked, Run, Taken, Written};
pub use refusal::{PutBackRefusal, Refusal, Unlawful};
pub use state::{HandState, State};
pub use trace::{records, trace_of, Record, Records};

/// The most items that a sheet has.
///
/// ```
/// // A plan for any sheet, every item out.
/// let plan = [zomuwedli::OUT; zomuwedli::MAX_ITEMS];
/// assert_eq!(plan.len(), 32);
/// ```
pub const MAX_ITEMS: usize = 32;

/// The most settings that an item has.
///
/// ```
/// assert_eq!(zomuwedli::MAX_SETTINGS, 16);
/// ```
pub const MAX_SETTINGS: usize = 16;

/// The bytes of the longest sheet: its front, a size for each item, and a block of 16 rows for each two items. It has as many in version 1
/// as in version 2.
///
/// ```
/// use std::io::Read;
///
/// // One byte more than the longest sheet has, so that a longer file is refused and not cut to a sheet.
/// fn sheet(file: impl Read) -> std::io::Result<Vec<u8>> {
///     let mut bytes = Vec::new();
///     file.take(zomuwedli::MAX_SHEET as u64 + 1).read_to_end(&mut bytes)?;
///     Ok(bytes)
/// }
///
/// assert_eq!(sheet(std::io::repeat(1))?.len(), 16_905);
/// # Ok::<(), std::io::Error>(())
/// ```
pub const MAX_SHEET: usize = 8 + MAX_ITEMS + MAX_ITEMS * (MAX_ITEMS - 1) / 2 * (2 + 2 * MAX_SETTINGS);

/// The most records of a lawful trace, a run's own or not: each uses up at least one setting.
///
/// ```
/// assert_eq!(zomuwedli::MAX_RECORDS, 512);
/// ```
pub const MAX_RECORDS: usize = MAX_ITEMS * MAX_SETTINGS;

/// The bytes of the longest lawful trace: a buffer that is long enough for every run.
///
/// ```
/// assert_eq!(zomuwedli::MAX_TRACE, 2_561);
/// assert!(zomuwedli::run(&[1, 0, 0, 0, 9, 1, 0, 0, 2], &mut [0; zomuwedli::MAX_TRACE]).is_ok());
/// ```
pub const MAX_TRACE: usize = 1 + 5 * MAX_RECORDS;

/// The bytes of the longest colouring file: 64 KiB.
///
/// ```
/// use zomuwedli::{colour, Refusal, MAX_FILE};
///
/// let mut file = b"p edge 1 0\nc".to_vec();
/// file.resize(MAX_FILE, b' ');
/// assert!(colour(&file, 1, &mut [0; 9]).is_ok());
/// file.push(b' ');
/// assert_eq!(colour(&file, 1, &mut [0; 9]), Err(Refusal::GraphFile));
/// ```
pub const MAX_FILE: usize = 64 * 1024;

/// The bytes of a run's state.
///
/// ```
/// assert_eq!(zomuwedli::State::from_bytes([0; zomuwedli::STATE_LENGTH]).count_items(), 0);
/// ```
pub const STATE_LENGTH: usize = 68;

/// The bytes of a hand state. It has a length of its own; today its bytes are those of a run's state.
///
/// ```
/// let bytes: [u8; zomuwedli::HAND_STATE_LENGTH] = zomuwedli::start(&[1, 0, 0, 0, 9, 1, 0, 0, 2])?.to_bytes();
/// assert_eq!(bytes[..6], [0, 0, 0, 1, 0, 3]);
/// # Ok::<(), zomuwedli::Refusal>(())
/// ```
pub const HAND_STATE_LENGTH: usize = 68;

/// The plan's byte for an item that is out.
///
/// ```
/// use zomuwedli::{put_back, OUT};
///
/// let mut result = [0];
/// put_back(&[1, 0, 0, 0, 9, 1, 0, 0, 2], &[1, 3, 2, 0, 1], &[OUT], &mut result)?;
/// assert_eq!(result, [1]);
/// # Ok::<(), zomuwedli::Refusal>(())
/// ```
pub const OUT: u8 = 255;

/// The item and the setting of [`Unlawful`] where none is named.
///
/// ```
/// use zomuwedli::{put_back, Unlawful, NOT_NAMED, OUT};
///
/// // A sheet of one item. The second record takes it out again.
/// let refused = put_back(&[1, 0, 0, 0, 9, 1, 0, 0, 2], &[1, 3, 2, 0, 1, 3, 2, 0, 1], &[OUT], &mut [0]).unwrap_err();
/// assert_eq!(refused.unlawful, Some(Unlawful { record: 1, item: NOT_NAMED, setting: NOT_NAMED }));
/// ```
pub const NOT_NAMED: u8 = 255;

/// The stack that is enough for any call but putting back and picking, in bytes.
///
/// ```
/// // A thread needs some beside that of the call.
/// let room = zomuwedli::STACK + 64 * 1024;
/// let thread = std::thread::Builder::new().stack_size(room).spawn(|| zomuwedli::start(&[1, 0, 0, 0, 9, 1, 0, 0, 2]))?;
/// assert!(thread.join().expect("the thread ends").is_ok());
/// # Ok::<(), std::io::Error>(())
/// ```
pub const STACK: usize = 56 * 1024;

/// The stack that is enough for putting back, in bytes: it keeps a state for each record of the trace.
///
/// ```
/// assert!(zomuwedli::PUT_BACK_STACK >= zomuwedli::MAX_RECORDS * zomuwedli::STATE_LENGTH);
/// ```
pub const PUT_BACK_STACK: usize = 320 * 1024;

/// The stack that is enough for picking, in bytes: it puts back inside.
///
/// ```
/// assert!(zomuwedli::PICK_STACK >= zomuwedli::PUT_BACK_STACK);
/// ```
pub const PICK_STACK: usize = 320 * 1024;
