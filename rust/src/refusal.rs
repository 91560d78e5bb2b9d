//! Why a call is turned away.

use std::fmt;

use crate::NOT_NAMED;

/// Why a call was turned away: one case for each number of docs/FORMAT.md, "Where each thing is turned away".
///
/// A call is refused for its first fault, and a refused call changes no byte that was lent to it. The boundary's own numbers, 200 and 201,
/// are for state buffers of a wrong length; a state is a type here, so they have no case.
///
/// ```
/// use zomuwedli::{read, Refusal};
///
/// let refusal = read(&[1, 0, 0]).unwrap_err();
/// assert_eq!(refusal, Refusal::SheetFront);
/// assert_eq!(refusal.to_string(), "refused 1: the sheet has fewer than 8 bytes");
/// ```
///
/// It is an error as others are:
///
/// ```
/// fn items(sheet: &[u8]) -> Result<usize, Box<dyn std::error::Error>> {
///     Ok(zomuwedli::read(sheet)?.items)
/// }
///
/// assert!(items(&[]).is_err());
/// ```
#[must_use]
#[derive(Clone, Copy, PartialEq, Eq, PartialOrd, Ord, Hash, Debug)]
#[non_exhaustive]
#[repr(u8)]
pub enum Refusal {
    /// The sheet has fewer than 8 bytes.
    SheetFront = 1,
    /// Byte 0 of the sheet is neither 1 nor 2.
    SheetVersion = 2,
    /// The sheet's stated length is not the length lent.
    SheetLength = 3,
    /// The number of items is 0 or above 32.
    ItemCount = 4,
    /// A size is missing, 0 or above 16.
    ItemSize = 5,
    /// A block's bytes are missing or cut short, or bytes are left over after the blocks.
    BlockBytes = 6,
    /// A block is without i < j < n, or not after the block before.
    BlockOrder = 7,
    /// A row has a bit for a setting that item j lacks.
    RowBeyond = 8,
    /// A block bars nothing.
    BarsNothing = 9,
    /// The trace buffer is shorter than 1 + 5 x the sum of the sizes.
    TraceBuffer = 10,
    /// The state does not fit the sheet.
    StateMisfit = 11,
    /// The named item is not on the sheet or not in.
    ItemNotIn = 12,
    /// Some item in has no setting on.
    ItemEmpty = 13,
    /// The snake rule holds for no setting of the named item.
    NoSnake = 14,
    /// The trace has no byte, or its byte 0 is not 1.
    TraceFront = 15,
    /// A record is cut short, of an unknown kind, or has a wrong length byte.
    RecordShape = 16,
    /// A record is not lawful in the state reached, or an item in has no setting on there.
    RecordUnlawful = 17,
    /// The plan does not have one byte for each item.
    PlanLength = 18,
    /// The plan has an item out that is not 255, a setting not on, or a barred pair.
    PlanUnfit = 19,
    /// The buffer for the finished plan does not have one byte for each item.
    ResultLength = 20,
    /// The colouring file is over 64 KiB, has a line of no known form, has no p line or a second one or one after an e line, or names a vertex outside the stated range.
    GraphFile = 21,
    /// Both ends of an edge are one vertex.
    GraphLoop = 22,
    /// The e lines are not as many as the p line states.
    EdgeCount = 23,
    /// The vertices are not 1 to 32, or the channels not 1 to 16.
    ColourRange = 24,
    /// The sheet buffer is shorter than the sheet.
    SheetBuffer = 25,
    /// The target buffer is shorter than the moved sheet.
    TargetBuffer = 26,
}

impl Refusal {
    /// Every refusal, by its number.
    ///
    /// ```
    /// let numbers: Vec<u8> = zomuwedli::Refusal::ALL.iter().map(|refusal| refusal.number()).collect();
    /// assert_eq!(numbers, (1..=26).collect::<Vec<u8>>());
    /// ```
    pub const ALL: &'static [Refusal] = &[
        Refusal::SheetFront,
        Refusal::SheetVersion,
        Refusal::SheetLength,
        Refusal::ItemCount,
        Refusal::ItemSize,
        Refusal::BlockBytes,
        Refusal::BlockOrder,
        Refusal::RowBeyond,
        Refusal::BarsNothing,
        Refusal::TraceBuffer,
        Refusal::StateMisfit,
        Refusal::ItemNotIn,
        Refusal::ItemEmpty,
        Refusal::NoSnake,
        Refusal::TraceFront,
        Refusal::RecordShape,
        Refusal::RecordUnlawful,
        Refusal::PlanLength,
        Refusal::PlanUnfit,
        Refusal::ResultLength,
        Refusal::GraphFile,
        Refusal::GraphLoop,
        Refusal::EdgeCount,
        Refusal::ColourRange,
        Refusal::SheetBuffer,
        Refusal::TargetBuffer,
    ];

    /// The number of this refusal.
    ///
    /// ```
    /// assert_eq!(zomuwedli::Refusal::RowBeyond.number(), 8);
    /// ```
    #[must_use]
    pub fn number(self) -> u8 {
        self as u8
    }

    /// The refusal with this number, if there is one.
    ///
    /// ```
    /// use zomuwedli::Refusal;
    ///
    /// assert_eq!(Refusal::from_number(8), Some(Refusal::RowBeyond));
    /// assert_eq!(Refusal::from_number(0), None);
    /// ```
    #[must_use]
    pub fn from_number(number: u8) -> Option<Refusal> {
        Refusal::ALL.iter().copied().find(|refusal| refusal.number() == number)
    }

    /// The cause in words, without the number; the header has the same for C (`zomuwedli_text`).
    ///
    /// ```
    /// assert_eq!(zomuwedli::Refusal::BarsNothing.cause(), "a block bars nothing");
    /// ```
    #[must_use]
    pub fn cause(self) -> &'static str {
        match self {
            Refusal::SheetFront => "the sheet has fewer than 8 bytes",
            Refusal::SheetVersion => "byte 0 of the sheet is neither 1 nor 2",
            Refusal::SheetLength => "the sheet's stated length is not the length lent",
            Refusal::ItemCount => "the number of items is 0 or above 32",
            Refusal::ItemSize => "a size is missing, 0 or above 16",
            Refusal::BlockBytes => "a block's bytes are missing or cut short, or bytes are left over after the blocks",
            Refusal::BlockOrder => "a block is without i < j < n, or not after the block before",
            Refusal::RowBeyond => "a row has a bit for a setting that item j lacks",
            Refusal::BarsNothing => "a block bars nothing",
            Refusal::TraceBuffer => "the trace buffer is shorter than 1 + 5 x the sum of the sizes",
            Refusal::StateMisfit => "the state does not fit the sheet",
            Refusal::ItemNotIn => "the named item is not on the sheet or not in",
            Refusal::ItemEmpty => "some item in has no setting on",
            Refusal::NoSnake => "the snake rule holds for no setting of the named item",
            Refusal::TraceFront => "the trace has no byte, or its byte 0 is not 1",
            Refusal::RecordShape => "a record is cut short, of an unknown kind, or has a wrong length byte",
            Refusal::RecordUnlawful => "a record is not lawful in the state reached, or an item in has no setting on there",
            Refusal::PlanLength => "the plan does not have one byte for each item",
            Refusal::PlanUnfit => "the plan has an item out that is not 255, a setting not on, or a barred pair",
            Refusal::ResultLength => "the buffer for the finished plan does not have one byte for each item",
            Refusal::GraphFile => "the colouring file is over 64 KiB, has a line of no known form, has no p line or a second one or one after an e line, or names a vertex outside the stated range",
            Refusal::GraphLoop => "both ends of an edge are one vertex",
            Refusal::EdgeCount => "the e lines are not as many as the p line states",
            Refusal::ColourRange => "the vertices are not 1 to 32, or the channels not 1 to 16",
            Refusal::SheetBuffer => "the sheet buffer is shorter than the sheet",
            Refusal::TargetBuffer => "the target buffer is shorter than the moved sheet",
        }
    }
}

impl fmt::Display for Refusal {
    fn fmt(&self, f: &mut fmt::Formatter<'_>) -> fmt::Result {
        write!(f, "refused {}: {}", self.number(), self.cause())
    }
}

impl std::error::Error for Refusal {}

/// What 17 carries: which record of a lent trace is not lawful and, where a cover breaks, what spoils it.
///
/// Item and setting are named for a cover, kind 4, whose item is in, whose settings a and b are different and on, and where no item in is
/// without a setting on: `item` is the lowest other item where a does not cover b, and `setting` the lowest setting on there that is
/// allowed with b and barred with a. With every other cause both are [`NOT_NAMED`]. To mend such a trace, switch that setting off first,
/// or name another a.
///
/// ```
/// use zomuwedli::{put_back, trace_of, Record, Unlawful, OUT};
///
/// // A pond gate (half, full), a tail gate (hours 0 and 1) and a sluice (shut, a quarter, half, wide open). With the pond gate full the
/// // tail gate opens at hour 0, and the sluice is not wide open.
/// let sheet = [1, 0, 0, 0, 23, 3, 0, 2, 2, 2, 4, 0, 1, 0, 3, 0, 1, 0, 2, 0, 15, 0, 7];
/// let tail_gate_out = Record::Snake { item: 1, setting: 0 };
/// let half_off = Record::Cover { item: 0, setting: 0, by: 1 };
/// let mut result = [0; 3];
///
/// let refused = put_back(&sheet, &trace_of([tail_gate_out, half_off]), &[1, OUT, 2], &mut result).unwrap_err();
/// assert_eq!(refused.unlawful, Some(Unlawful { record: 1, item: 2, setting: 3 }));
///
/// // Wide open goes off first: the sluice's half covers it.
/// let wide_open_off = Record::Cover { item: 2, setting: 3, by: 2 };
/// put_back(&sheet, &trace_of([tail_gate_out, wide_open_off, half_off]), &[1, OUT, 2], &mut result)?;
/// assert_eq!(result, [1, 0, 2]);
/// # Ok::<(), zomuwedli::Refusal>(())
/// ```
#[must_use]
#[derive(Clone, Copy, PartialEq, Eq, Hash, Debug)]
pub struct Unlawful {
    /// The record's number, from 0: how many lawful records stand before it, at most [`MAX_RECORDS`](crate::MAX_RECORDS).
    pub record: u16,
    /// The lowest item where the cover breaks, or [`NOT_NAMED`].
    pub item: u8,
    /// The lowest setting that spoils the cover there, or [`NOT_NAMED`].
    pub setting: u8,
}

impl Unlawful {
    /// The item where the cover breaks and the setting that spoils it, where they are named.
    ///
    /// ```
    /// use zomuwedli::{Unlawful, NOT_NAMED};
    ///
    /// assert_eq!(Unlawful { record: 1, item: 2, setting: 3 }.spoiler(), Some((2, 3)));
    /// assert_eq!(Unlawful { record: 1, item: NOT_NAMED, setting: NOT_NAMED }.spoiler(), None);
    /// ```
    #[must_use]
    pub fn spoiler(self) -> Option<(u8, u8)> {
        (self.item != NOT_NAMED).then_some((self.item, self.setting))
    }
}

/// Why a putting back was turned away: the refusal and, with 17, what it carries.
///
/// It is a [`Refusal`] where that is asked for, so that `?` goes on:
///
/// ```
/// use zomuwedli::{put_back, Refusal};
///
/// fn put(trace: &[u8]) -> Result<(), Refusal> {
///     // Sheet B: two items of two settings, unequal.
///     put_back(&[1, 0, 0, 0, 16, 2, 0, 1, 2, 2, 0, 1, 0, 2, 0, 1], trace, &[0, 1], &mut [0; 2])?;
///     Ok(())
/// }
///
/// assert_eq!(put(&[1]), Ok(()));
/// assert_eq!(put(&[]), Err(Refusal::TraceFront));
/// // A cover of setting 0 of item 0 by setting 1: setting 1 of item 1 is allowed with 0 and barred with 1.
/// assert_eq!(put(&[1, 4, 4, 0, 0, 1]), Err(Refusal::RecordUnlawful));
/// ```
///
/// As an error it says what it carries:
///
/// ```
/// use zomuwedli::{put_back, Refusal};
///
/// let sheet = [1, 0, 0, 0, 16, 2, 0, 1, 2, 2, 0, 1, 0, 2, 0, 1];
/// let refused = put_back(&sheet, &[1, 4, 4, 0, 0, 1], &[0, 1], &mut [0; 2]).unwrap_err();
/// assert_eq!(refused.refusal, Refusal::RecordUnlawful);
/// assert_eq!(
///     refused.to_string(),
///     "refused 17: a record is not lawful in the state reached, or an item in has no setting on there; \
///      it is record 0, and at item 1 setting 1 spoils the cover"
/// );
/// ```
#[must_use]
#[derive(Clone, Copy, PartialEq, Eq, Hash, Debug)]
pub struct PutBackRefusal {
    /// The refusal.
    pub refusal: Refusal,
    /// What 17 carries: there exactly with [`Refusal::RecordUnlawful`].
    pub unlawful: Option<Unlawful>,
}

impl From<PutBackRefusal> for Refusal {
    fn from(refused: PutBackRefusal) -> Refusal {
        refused.refusal
    }
}

/// As a [`Refusal`] is shown, and with 17 also the record, and the item and setting where they are named.
impl fmt::Display for PutBackRefusal {
    fn fmt(&self, f: &mut fmt::Formatter<'_>) -> fmt::Result {
        self.refusal.fmt(f)?;
        let Some(unlawful) = self.unlawful else { return Ok(()) };
        write!(f, "; it is record {}", unlawful.record)?;
        match unlawful.spoiler() {
            Some((item, setting)) => write!(f, ", and at item {item} setting {setting} spoils the cover"),
            None => Ok(()),
        }
    }
}

impl std::error::Error for PutBackRefusal {}
