//! The library's decoder of traces beside the reference's reader.

use zomuwedli::{Record, Refusal};

use super::reference::{self, Step};

/// The records of a trace by the library's decoder; written down again they must give the same bytes.
pub fn decode(trace: &[u8]) -> Result<Vec<Record>, Refusal> {
    let records = zomuwedli::records(trace)?.collect::<Result<Vec<Record>, Refusal>>()?;
    assert_eq!(zomuwedli::trace_of(records.iter().copied()), trace, "written down again a trace is another");
    Ok(records)
}

/// The same by the reference's reader.
pub fn reference_decode(trace: &[u8]) -> Result<Vec<Record>, Refusal> {
    reference::steps_of(trace).map(|steps| steps.into_iter().map(record).collect())
}

pub fn record(step: Step) -> Record {
    let byte = |field: usize| u8::try_from(field).expect("a field is a byte");
    match step {
        Step::Unsupported { i, b, k } => Record::Bare { item: byte(i), setting: byte(b), at: byte(k) },
        Step::Snake { i, v } => Record::Snake { item: byte(i), setting: byte(v) },
        Step::Triangle { i, j } => Record::Fold { item: byte(i), onto: byte(j) },
        Step::Neighbourhood { i, b, a } => Record::Cover { item: byte(i), setting: byte(b), by: byte(a) },
        Step::SnakeSubstitution { i, b, a } => Record::Slide { item: byte(i), setting: byte(b), to: byte(a) },
    }
}
