//! The proved library by both its layers: the archive's functions over buffers of any length, in `raw`, and the library's, in `library`. The
//! functions beside these two call both, which must give one answer and leave the same bytes.

use std::fmt::Debug;

use zomuwedli::{State, MAX_SHEET};

use super::{Accepted, Answer, Chosen, Done, Taken, Written};

/// The archive's functions, their numbers read as answers.
pub mod raw {
    use super::super::boundary::{self, PutBackFault};
    use super::super::Fault;
    use super::{Accepted, Answer, Chosen, Done, Taken, Written};
    use zomuwedli::{End, Unlawful};

    pub fn read(sheet: &[u8]) -> Answer<Accepted> {
        let (items, blocks) = boundary::read(sheet).map_err(fault)?;
        Ok(Accepted { items: items.into(), blocks: blocks.into() })
    }

    pub fn run(sheet: &[u8], trace: &mut [u8], state: &mut [u8]) -> Answer<Done> {
        boundary::run(sheet, trace, state).map(done).map_err(fault)
    }

    fn done((end, steps, written): (u8, u16, u16)) -> Done {
        Done { end: End::from_number(end).expect("one of the three ends"), steps: steps.into(), written: written.into() }
    }

    pub fn start(sheet: &[u8], state: &mut [u8]) -> Answer<()> {
        boundary::start(sheet, state).map_err(fault)
    }

    pub fn hand_call(sheet: &[u8], state: &mut [u8], item: u64) -> Answer<Taken> {
        let setting = boundary::hand_call(sheet, state, item).map_err(fault)?;
        Ok(Taken { setting })
    }

    pub fn put_back(sheet: &[u8], trace: &[u8], plan: &[u8], result: &mut [u8]) -> Answer<()> {
        boundary::put_back(sheet, trace, plan, result).map_err(|refused| match refused {
            PutBackFault::Number(number) => fault(number),
            PutBackFault::Unlawful { record, item, setting } => Fault::Unlawful(Unlawful { record, item, setting }),
        })
    }

    pub fn pick(sheet: &[u8], trace: &mut [u8], plan: &mut [u8], state: &mut [u8]) -> Answer<Chosen> {
        let (run, has_plan) = boundary::pick(sheet, trace, plan, state).map_err(fault)?;
        Ok(Chosen { run: done(run), has_plan })
    }

    pub fn colour(file: &[u8], channels: u64, sheet: &mut [u8]) -> Answer<Written> {
        boundary::colour(file, channels, sheet).map(written).map_err(fault)
    }

    pub fn move_sheet(sheet: &[u8], target: &mut [u8]) -> Answer<Written> {
        boundary::move_sheet(sheet, target).map(written).map_err(fault)
    }

    fn written(bytes: u32) -> Written {
        Written { bytes: bytes as usize }
    }

    fn fault(number: u8) -> Fault {
        Fault::from_number(number).unwrap_or_else(|| panic!("the archive answered {number}, which is no refusal"))
    }
}

/// The library's functions. A state is a type there, which a buffer of another length cannot be turned into: then nothing is called.
pub mod library {
    use super::super::{Fault, HAND_STATE_LENGTH, STATE_LENGTH};
    use super::{Accepted, Answer, Chosen, Done, Taken, Written};
    use zomuwedli::{HandState, Refusal, Run};

    pub fn read(sheet: &[u8]) -> Answer<Accepted> {
        refused(zomuwedli::read(sheet))
    }

    pub fn run(sheet: &[u8], trace: &mut [u8], state: &mut [u8]) -> Answer<Done> {
        let state = run_state(state)?;
        let run = refused(zomuwedli::run(sheet, trace))?;
        Ok(done(run, state))
    }

    fn run_state(state: &mut [u8]) -> Answer<&mut [u8; STATE_LENGTH]> {
        state.try_into().map_err(|_| Fault::RunStateLength)
    }

    /// What a run answers beside its state, which is written down.
    fn done(run: Run, state: &mut [u8; STATE_LENGTH]) -> Done {
        *state = run.state.to_bytes();
        Done { end: run.end, steps: run.steps, written: run.written }
    }

    pub fn start(sheet: &[u8], state: &mut [u8]) -> Answer<()> {
        let state = hand_state(state)?;
        *state = refused(zomuwedli::start(sheet))?.to_bytes();
        Ok(())
    }

    fn hand_state(state: &mut [u8]) -> Answer<&mut [u8; HAND_STATE_LENGTH]> {
        state.try_into().map_err(|_| Fault::HandStateLength)
    }

    pub fn hand_call(sheet: &[u8], state: &mut [u8], item: u64) -> Answer<Taken> {
        let state = hand_state(state)?;
        let mut given = HandState::from_bytes(*state);
        let answer = refused(zomuwedli::hand_call(sheet, &mut given, item));
        *state = given.to_bytes();
        answer
    }

    pub fn put_back(sheet: &[u8], trace: &[u8], plan: &[u8], result: &mut [u8]) -> Answer<()> {
        zomuwedli::put_back(sheet, trace, plan, result).map_err(Fault::from)
    }

    pub fn pick(sheet: &[u8], trace: &mut [u8], plan: &mut [u8], state: &mut [u8]) -> Answer<Chosen> {
        let state = run_state(state)?;
        let picked = refused(zomuwedli::pick(sheet, trace, plan))?;
        Ok(Chosen { run: done(picked.run, state), has_plan: picked.has_plan })
    }

    pub fn colour(file: &[u8], channels: u64, sheet: &mut [u8]) -> Answer<Written> {
        refused(zomuwedli::colour(file, channels, sheet))
    }

    pub fn move_sheet(sheet: &[u8], target: &mut [u8]) -> Answer<Written> {
        refused(zomuwedli::move_sheet(sheet, target))
    }

    fn refused<T>(answer: Result<T, Refusal>) -> Answer<T> {
        answer.map_err(Fault::Refused)
    }
}

/// Two calls, the second with copies of the buffers: one answer, and the same bytes.
pub fn both<T: PartialEq + Debug, const N: usize>(
    mut buffers: [&mut [u8]; N],
    first: impl FnOnce([&mut [u8]; N]) -> Answer<T>,
    second: impl FnOnce([&mut [u8]; N]) -> Answer<T>,
) -> Answer<T> {
    let mut copies: Vec<Box<[u8]>> = buffers.iter().map(|buffer| Box::from(&**buffer)).collect();
    let (mut lent, mut lent_copies) = (buffers.iter_mut(), copies.iter_mut());
    let answer = first(std::array::from_fn(|_| &mut **lent.next().expect("each buffer")));
    let other = second(std::array::from_fn(|_| &mut **lent_copies.next().expect("a copy of each")));
    assert_eq!(other, answer, "the second call answers otherwise than the first");
    assert!(buffers.iter().zip(&copies).all(|(buffer, copy)| **buffer == **copy), "the second call leaves other bytes than the first");
    answer
}

pub fn read(sheet: &[u8]) -> Answer<Accepted> {
    both([], |[]| raw::read(sheet), |[]| library::read(sheet))
}

pub fn run(sheet: &[u8], trace: &mut [u8], state: &mut [u8]) -> Answer<Done> {
    both([trace, state], |[trace, state]| raw::run(sheet, trace, state), |[trace, state]| library::run(sheet, trace, state))
}

pub fn start(sheet: &[u8], state: &mut [u8]) -> Answer<()> {
    both([state], |[state]| raw::start(sheet, state), |[state]| library::start(sheet, state))
}

pub fn hand_call(sheet: &[u8], state: &mut [u8], item: u64) -> Answer<Taken> {
    both([state], |[state]| raw::hand_call(sheet, state, item), |[state]| library::hand_call(sheet, state, item))
}

pub fn put_back(sheet: &[u8], trace: &[u8], plan: &[u8], result: &mut [u8]) -> Answer<()> {
    both([result], |[result]| raw::put_back(sheet, trace, plan, result), |[result]| library::put_back(sheet, trace, plan, result))
}

pub fn pick(sheet: &[u8], trace: &mut [u8], plan: &mut [u8], state: &mut [u8]) -> Answer<Chosen> {
    both(
        [trace, plan, state],
        |[trace, plan, state]| raw::pick(sheet, trace, plan, state),
        |[trace, plan, state]| library::pick(sheet, trace, plan, state),
    )
}

pub fn colour(file: &[u8], channels: u64, sheet: &mut [u8]) -> Answer<Written> {
    both([sheet], |[sheet]| raw::colour(file, channels, sheet), |[sheet]| library::colour(file, channels, sheet))
}

pub fn move_sheet(sheet: &[u8], target: &mut [u8]) -> Answer<Written> {
    both([target], |[target]| raw::move_sheet(sheet, target), |[target]| library::move_sheet(sheet, target))
}

/// The bytes of the moved sheet.
pub fn moved(sheet: &[u8]) -> Vec<u8> {
    let mut target = vec![77; MAX_SHEET];
    let Written { bytes } = move_sheet(sheet, &mut target).unwrap_or_else(|fault| panic!("{fault:?}: sheet {sheet:02x?}"));
    target.truncate(bytes);
    target
}

/// The state that these bytes hold, which must be as many as a state has.
pub fn state(bytes: &[u8]) -> State {
    State::from_bytes(bytes.try_into().expect("the bytes of a state"))
}
