//! What the tests and the bench share and the library does not have: the reference, the fast implementation, the fixed peer, what is
//! compared, and the calls of the archive with states of any length.

// Each test has all of it and uses a part.
#![allow(dead_code)]

use zomuwedli::{Accepted, End, PutBackRefusal, Refusal, Taken, Unlawful, Written, HAND_STATE_LENGTH, STATE_LENGTH};

#[path = "../../src/boundary.rs"]
pub mod boundary;
#[path = "../../src/corpus.rs"]
pub mod corpus;
pub mod decoder;
#[path = "../../src/fast.rs"]
pub mod fast;
#[path = "../../src/generate.rs"]
pub mod generate;
#[path = "../../src/peer.rs"]
pub mod peer;
pub mod proved;
#[path = "../../src/reference.rs"]
pub mod reference;

/// Why a call at the boundary is turned away, where a state is a buffer of any length.
#[derive(Clone, Copy, PartialEq, Eq, Debug)]
pub enum Fault {
    /// By the job, with a number other than 17 of putting back.
    Refused(Refusal),
    /// 17 of putting back, with what it carries.
    Unlawful(Unlawful),
    /// 200: the buffer for the state of a run is not [`STATE_LENGTH`] bytes.
    RunStateLength,
    /// 201: the buffer for the state of a start or hand call is not [`HAND_STATE_LENGTH`] bytes.
    HandStateLength,
}

impl Fault {
    /// Every fault, by its number and without what 17 carries.
    pub fn all() -> impl Iterator<Item = Fault> {
        Refusal::ALL.iter().copied().map(Fault::Refused).chain([Fault::RunStateLength, Fault::HandStateLength])
    }

    pub fn number(self) -> u8 {
        match self {
            Fault::Refused(refusal) => refusal.number(),
            Fault::Unlawful(_) => Refusal::RecordUnlawful.number(),
            Fault::RunStateLength => 200,
            Fault::HandStateLength => 201,
        }
    }

    pub fn from_number(number: u8) -> Option<Fault> {
        Fault::all().find(|fault| fault.number() == number)
    }
}

impl From<Refusal> for Fault {
    fn from(refusal: Refusal) -> Fault {
        Fault::Refused(refusal)
    }
}

impl From<Unlawful> for Fault {
    fn from(unlawful: Unlawful) -> Fault {
        Fault::Unlawful(unlawful)
    }
}

/// What 17 carries is there exactly with 17.
impl From<PutBackRefusal> for Fault {
    fn from(refused: PutBackRefusal) -> Fault {
        assert_eq!(refused.unlawful.is_some(), refused.refusal == Refusal::RecordUnlawful, "{refused:?}");
        refused.unlawful.map_or(Fault::Refused(refused.refusal), Fault::Unlawful)
    }
}

/// What a call at the boundary answers.
pub type Answer<T> = Result<T, Fault>;

/// What a run answers beside its buffers.
#[derive(Clone, Copy, PartialEq, Eq, Debug)]
pub struct Done {
    pub end: End,
    pub steps: usize,
    pub written: usize,
}

/// What picking answers beside its buffers: the run's own, and whether a plan was written.
#[derive(Clone, Copy, PartialEq, Eq, Debug)]
pub struct Chosen {
    pub run: Done,
    pub has_plan: bool,
}
