//! Traces: their records taken apart and written down.

use std::fmt;
use std::iter::FusedIterator;

use crate::Refusal;

/// One step of a trace. Its fields are a record's bytes, and say what the sheet and the state make of them: decoding asks for no sheet,
/// so an item may be one that no sheet has.
///
/// ```
/// use zomuwedli::{records, Record, Refusal};
///
/// let trace = [1, 4, 1, 0, 2, 2, 3, 3, 1, 0];
/// let steps: Result<Vec<Record>, Refusal> = records(&trace)?.collect();
/// assert_eq!(steps?, [Record::Bare { item: 0, setting: 2, at: 2 }, Record::Fold { item: 1, onto: 0 }]);
/// # Ok::<(), Refusal>(())
/// ```
#[must_use]
#[derive(Clone, Copy, PartialEq, Eq, PartialOrd, Ord, Hash, Debug)]
pub enum Record {
    /// Kind 1: the setting goes off, since it has no partner at another item.
    Bare {
        /// The item i.
        item: u8,
        /// Its setting b, which goes off.
        setting: u8,
        /// The item k at which b has no partner.
        at: u8,
    },
    /// Kind 2: the item goes out under the snake rule.
    Snake {
        /// The item i, which goes out.
        item: u8,
        /// The setting v that it gets when it is put back.
        setting: u8,
    },
    /// Kind 3: the item goes out, and follows another when it is put back.
    Fold {
        /// The item i, which goes out.
        item: u8,
        /// The item j that it is folded onto.
        onto: u8,
    },
    /// Kind 4: the setting goes off, since another one of the item covers it at every other item.
    Cover {
        /// The item i.
        item: u8,
        /// Its setting b, which goes off.
        setting: u8,
        /// Its setting a, which covers b.
        by: u8,
    },
    /// Kind 5: the setting goes off, since a plan that has it can slide to another one of the item. A run takes it only where no other rule
    /// holds.
    Slide {
        /// The item i.
        item: u8,
        /// Its setting b, which goes off.
        setting: u8,
        /// Its setting a, which b slides to.
        to: u8,
    },
}

impl Record {
    /// The kind, 1 to 5.
    ///
    /// ```
    /// assert_eq!(zomuwedli::Record::Fold { item: 1, onto: 0 }.kind(), 3);
    /// ```
    #[must_use]
    pub fn kind(self) -> u8 {
        self.fields().0
    }

    /// The word of the kind, as the program prints it.
    ///
    /// ```
    /// assert_eq!(zomuwedli::Record::Fold { item: 1, onto: 0 }.word(), "fold");
    /// ```
    #[must_use]
    pub fn word(self) -> &'static str {
        match self {
            Record::Bare { .. } => "bare",
            Record::Snake { .. } => "snake",
            Record::Fold { .. } => "fold",
            Record::Cover { .. } => "cover",
            Record::Slide { .. } => "slide",
        }
    }

    /// The kind, and the second, third and fourth field; kinds 2 and 3 have no fourth.
    fn fields(self) -> (u8, u8, u8, Option<u8>) {
        match self {
            Record::Bare { item, setting, at } => (1, item, setting, Some(at)),
            Record::Snake { item, setting } => (2, item, setting, None),
            Record::Fold { item, onto } => (3, item, onto, None),
            Record::Cover { item, setting, by } => (4, item, setting, Some(by)),
            Record::Slide { item, setting, to } => (5, item, setting, Some(to)),
        }
    }

    /// The record at the front of these bytes and the bytes after it; nothing where it is cut short, of an unknown kind, or has a wrong
    /// length byte.
    fn decode(bytes: &[u8]) -> Option<(Record, &[u8])> {
        match *bytes {
            [4, 1, item, setting, at, ref rest @ ..] => Some((Record::Bare { item, setting, at }, rest)),
            [3, 2, item, setting, ref rest @ ..] => Some((Record::Snake { item, setting }, rest)),
            [3, 3, item, onto, ref rest @ ..] => Some((Record::Fold { item, onto }, rest)),
            [4, 4, item, setting, by, ref rest @ ..] => Some((Record::Cover { item, setting, by }, rest)),
            [4, 5, item, setting, to, ref rest @ ..] => Some((Record::Slide { item, setting, to }, rest)),
            _ => None,
        }
    }
}

/// The words of a step line of the program after its number, as `bare 0 1 2`.
impl fmt::Display for Record {
    fn fmt(&self, f: &mut fmt::Formatter<'_>) -> fmt::Result {
        let (_, second, third, fourth) = self.fields();
        write!(f, "{} {second} {third}", self.word())?;
        fourth.map_or(Ok(()), |fourth| write!(f, " {fourth}"))
    }
}

/// The records of a trace, in order. [`Refusal::TraceFront`] where it has no byte or its byte 0 is not 1.
///
/// Whether a record is lawful is not asked: [`put_back`](crate::put_back) does.
///
/// ```
/// use zomuwedli::{records, run, Refusal, MAX_TRACE};
///
/// // Sheet B: two items of two settings, unequal.
/// let sheet = [1, 0, 0, 0, 16, 2, 0, 1, 2, 2, 0, 1, 0, 2, 0, 1];
/// let mut trace = [0; MAX_TRACE];
/// let run = run(&sheet, &mut trace)?;
/// let mut lines = Vec::new();
/// for record in records(&trace[..run.written])? {
///     lines.push(record?.to_string());
/// }
/// assert_eq!(lines, ["snake 0 0", "snake 1 0"]);
///
/// assert_eq!(records(&[]).unwrap_err(), Refusal::TraceFront);
/// # Ok::<(), Refusal>(())
/// ```
pub fn records(trace: &[u8]) -> Result<Records<'_>, Refusal> {
    match trace {
        [1, rest @ ..] => Ok(Records { rest }),
        _ => Err(Refusal::TraceFront),
    }
}

/// The records of a trace, one after another: what [`records`] answers.
///
/// A record that is cut short, of an unknown kind or with a wrong length byte is [`Refusal::RecordShape`], and nothing comes after it.
///
/// ```
/// use zomuwedli::{records, Record, Refusal};
///
/// let mut cut_short = records(&[1, 3, 2, 0, 1, 3, 2])?;
/// assert_eq!(cut_short.next(), Some(Ok(Record::Snake { item: 0, setting: 1 })));
/// assert_eq!(cut_short.next(), Some(Err(Refusal::RecordShape)));
/// assert_eq!(cut_short.next(), None);
/// # Ok::<(), Refusal>(())
/// ```
#[must_use]
#[derive(Clone, Debug)]
pub struct Records<'a> {
    rest: &'a [u8],
}

impl Iterator for Records<'_> {
    type Item = Result<Record, Refusal>;

    fn next(&mut self) -> Option<Self::Item> {
        if self.rest.is_empty() {
            return None;
        }
        let decoded = Record::decode(self.rest);
        self.rest = decoded.map_or(&[], |(_, after)| after);
        Some(decoded.map(|(record, _)| record).ok_or(Refusal::RecordShape))
    }
}

impl FusedIterator for Records<'_> {}

/// The trace with these records: what whoever takes steps of their own lends to [`put_back`](crate::put_back).
///
/// ```
/// use zomuwedli::{put_back, trace_of, Record, OUT};
///
/// // Two items of two settings; setting 0 of item 0 is allowed with both, setting 1 with setting 1. A plan with setting 1 can slide to
/// // setting 0.
/// let sheet = [1, 0, 0, 0, 16, 2, 0, 1, 2, 2, 0, 1, 0, 3, 0, 2];
/// let trace = trace_of([Record::Slide { item: 0, setting: 1, to: 0 }, Record::Snake { item: 1, setting: 1 }]);
/// assert_eq!(trace, [1, 4, 5, 0, 1, 0, 3, 2, 1, 1]);
///
/// let mut result = [0; 2];
/// put_back(&sheet, &trace, &[0, OUT], &mut result)?;
/// assert_eq!(result, [0, 1]);
/// # Ok::<(), zomuwedli::Refusal>(())
/// ```
#[must_use]
pub fn trace_of(records: impl IntoIterator<Item = Record>) -> Vec<u8> {
    let mut trace = vec![1];
    for record in records {
        let (kind, second, third, fourth) = record.fields();
        trace.extend([if fourth.is_some() { 4 } else { 3 }, kind, second, third]);
        trace.extend(fourth);
    }
    trace
}
