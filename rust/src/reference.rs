//! The eight jobs written from docs/FORMAT.md alone, for clarity: lists of items and settings, one function for each rule, and the
//! sentence of that paper over it. The answers' types and the limits are those of the library; all else is written here. No part of the
//! library: tests/support has it.
//!
//! Its words and ours ("Terms" there): item, setting = variable, value; in, on = active, live; partner = support; plan = solution;
//! covers = has no spoiler; bare, snake, fold, cover, slide = unsupported, snake, triangle, neighbourhood, snake substitution.

use zomuwedli::{Accepted, End, Refusal, Taken, Unlawful, Written};
use zomuwedli::{HAND_STATE_LENGTH, MAX_FILE, MAX_ITEMS, MAX_SETTINGS, NOT_NAMED, OUT, STATE_LENGTH};

use super::{Answer, Chosen, Done, Fault};

/// What a sheet says: how many values each variable has, and which pairs are allowed.
#[derive(Clone, PartialEq)]
pub struct Problem {
    sizes: Vec<usize>,
    /// One entry for every variable and value with every variable and value.
    table: Vec<bool>,
    /// Whether the slide rule spares i. Every job's does; the rule of before does not.
    spares: bool,
}

impl Problem {
    /// "A pair with no block allows everything."
    fn without_blocks(sizes: Vec<usize>) -> Problem {
        let settings = sizes.len() * MAX_SETTINGS;
        Problem { sizes, table: vec![true; settings * settings], spares: true }
    }

    fn entry(&self, i: usize, a: usize, j: usize, b: usize) -> usize {
        ((i * MAX_SETTINGS + a) * self.sizes.len() + j) * MAX_SETTINGS + b
    }

    fn bar(&mut self, i: usize, a: usize, j: usize, b: usize) {
        let entries = [self.entry(i, a, j, b), self.entry(j, b, i, a)];
        entries.into_iter().for_each(|entry| self.table[entry] = false);
    }

    /// Whether value a of variable i and value b of variable j may stand together.
    pub fn allowed(&self, i: usize, a: usize, j: usize, b: usize) -> bool {
        self.table[self.entry(i, a, j, b)]
    }

    /// How many values each variable has.
    pub fn sizes(&self) -> &[usize] {
        &self.sizes
    }

    /// "1 + 5 × the sum of the sizes."
    fn trace_length(&self) -> usize {
        1 + 5 * self.sizes.iter().sum::<usize>()
    }

    /// The same by the slide rule of before, which "had i among the items where e covers d". "No job has it": it is to be compared with.
    pub fn of_before(&self) -> Problem {
        Problem { spares: false, ..self.clone() }
    }
}

// ---- The sheet ----------------------------------------------------------------------------------------------------------------------

/// How many bytes a row has. "In version 1 every row has two bytes"; in version 2 "a row has one byte when item j has 8 settings or fewer,
/// two otherwise".
fn row_bytes(version: u8, size_of_j: usize) -> usize {
    if version == 2 && size_of_j <= 8 {
        1
    } else {
        2
    }
}

/// A sheet and its number of blocks, or the first fault: "checks run in the order of the rows".
pub fn read_sheet(sheet: &[u8]) -> Result<(Problem, usize), Refusal> {
    let (version, n, m) = read_front(sheet)?;
    let mut problem = Problem::without_blocks(read_sizes(&sheet[8..], n)?);
    let mut rest = &sheet[8 + n..];
    let mut before = None;
    for _ in 0..m {
        let pair = read_pair(rest, n, before)?;
        rest = read_rows(&rest[2..], version, pair, &mut problem)?;
        before = Some(pair);
    }
    match rest {
        [] => Ok((problem, m)),
        _ => Err(Refusal::BlockBytes),
    }
}

/// The version, n and m. "Fewer than 8 bytes; byte 0 is neither 1 nor 2; stated length is not the length lent; n is 0 or above 32."
fn read_front(sheet: &[u8]) -> Result<(u8, usize, usize), Refusal> {
    let &[version, l0, l1, l2, l3, n, m0, m1, ..] = sheet else {
        return Err(Refusal::SheetFront);
    };
    if version != 1 && version != 2 {
        return Err(Refusal::SheetVersion);
    }
    if u64::from(u32::from_be_bytes([l0, l1, l2, l3])) != sheet.len() as u64 {
        return Err(Refusal::SheetLength);
    }
    if n == 0 || usize::from(n) > MAX_ITEMS {
        return Err(Refusal::ItemCount);
    }
    Ok((version, usize::from(n), usize::from(u16::from_be_bytes([m0, m1]))))
}

/// "A size is missing, 0 or above 16."
fn read_sizes(bytes: &[u8], n: usize) -> Result<Vec<usize>, Refusal> {
    let sizes = bytes.get(..n).ok_or(Refusal::ItemSize)?;
    if sizes.iter().any(|&size| size == 0 || usize::from(size) > MAX_SETTINGS) {
        return Err(Refusal::ItemSize);
    }
    Ok(sizes.iter().map(|&size| usize::from(size)).collect())
}

/// "Item bytes missing; not i < j < n, or not after the block before." Blocks "rise strictly by i, then j".
fn read_pair(bytes: &[u8], n: usize, before: Option<(usize, usize)>) -> Result<(usize, usize), Refusal> {
    let &[i, j, ..] = bytes else {
        return Err(Refusal::BlockBytes);
    };
    let pair = (usize::from(i), usize::from(j));
    let ordered = pair.0 < pair.1 && pair.1 < n;
    if !ordered || before.is_some_and(|before| pair <= before) {
        return Err(Refusal::BlockOrder);
    }
    Ok(pair)
}

/// What follows the rows. "Rows cut short; a row has a bit for a setting j lacks; it bars nothing."
fn read_rows<'a>(bytes: &'a [u8], version: u8, (i, j): (usize, usize), problem: &mut Problem) -> Result<&'a [u8], Refusal> {
    let width = row_bytes(version, problem.sizes[j]);
    let length = width * problem.sizes[i];
    let rows = bytes.get(..length).ok_or(Refusal::BlockBytes)?;
    // "Its one byte, or its two bytes read in one go, the first worth the most."
    let word = |row: &[u8]| row.iter().fold(0, |word, &byte| word << 8 | u32::from(byte));
    let rows: Vec<u32> = rows.chunks(width).map(word).collect();
    let everything = (1 << problem.sizes[j]) - 1;
    if rows.iter().any(|&row| row > everything) {
        return Err(Refusal::RowBeyond);
    }
    if rows.iter().all(|&row| row == everything) {
        return Err(Refusal::BarsNothing);
    }
    for (a, row) in rows.into_iter().enumerate() {
        // "The bit worth 2^c is set when setting c of j is allowed."
        let barred = (0..problem.sizes[j]).filter(|c| row >> c & 1 == 0);
        barred.collect::<Vec<_>>().into_iter().for_each(|c| problem.bar(i, a, j, c));
    }
    Ok(&bytes[length..])
}

impl Problem {
    /// The sheet of this version that says it. "A pair with no block allows everything; so a block that bars nothing is refused": each two
    /// variables with a barred pair have a block, and no others.
    fn sheet(&self, version: u8) -> Vec<u8> {
        let mut rest: Vec<u8> = self.sizes.iter().map(|&size| size as u8).collect();
        let mut m: u16 = 0;
        for (i, j) in (0..self.sizes.len()).flat_map(|i| (i + 1..self.sizes.len()).map(move |j| (i, j))) {
            // "The bit worth 2^c is set when setting c of j is allowed with the setting of i whose row it is."
            let row = |a: usize| (0..self.sizes[j]).filter(|&c| self.allowed(i, a, j, c)).map(|c| 1u16 << c).sum::<u16>();
            let rows: Vec<u16> = (0..self.sizes[i]).map(row).collect();
            if rows.iter().any(|row| row.count_ones() < self.sizes[j] as u32) {
                rest.extend([i as u8, j as u8]);
                rows.iter().for_each(|row| rest.extend(&row.to_be_bytes()[2 - row_bytes(version, self.sizes[j])..]));
                m += 1;
            }
        }
        let mut sheet = vec![version];
        sheet.extend((8 + rest.len() as u32).to_be_bytes());
        sheet.push(self.sizes.len() as u8);
        sheet.extend(m.to_be_bytes());
        sheet.extend(rest);
        sheet
    }
}

/// "The buffer holds the sheet at its front and its old bytes after"; or this refusal where it is shorter.
fn write_sheet(sheet: &[u8], buffer: &mut [u8], too_short: Refusal) -> Answer<Written> {
    let front = buffer.get_mut(..sheet.len()).ok_or(too_short)?;
    front.copy_from_slice(sheet);
    Ok(Written { bytes: sheet.len() })
}

// ---- The state ----------------------------------------------------------------------------------------------------------------------

/// "A state says which items are in and, for each, which settings are on." Both as rising lists.
#[derive(Clone, PartialEq, Eq, PartialOrd, Ord, Debug)]
pub struct State {
    active: Vec<usize>,
    live: Vec<Vec<usize>>,
}

impl State {
    /// "At first all items are in and all settings on."
    pub fn full(problem: &Problem) -> State {
        let live = (0..MAX_ITEMS).map(|i| (0..problem.sizes.get(i).copied().unwrap_or(0)).collect());
        State { active: (0..problem.sizes.len()).collect(), live: live.collect() }
    }

    /// Items in: 4 bytes, bit i for item i. Then settings on: 2 bytes for each of 32 items, bit c for setting c.
    pub fn from_bytes(bytes: &[u8]) -> State {
        let number = |bytes: &[u8]| bytes.iter().fold(0u32, |number, &byte| number << 8 | u32::from(byte));
        let members = |set: u32, most: usize| (0..most).filter(|c| set >> c & 1 == 1).collect::<Vec<_>>();
        State {
            active: members(number(&bytes[..4]), MAX_ITEMS),
            live: bytes[4..STATE_LENGTH].chunks(2).map(|set| members(number(set), MAX_SETTINGS)).collect(),
        }
    }

    pub fn to_bytes(&self) -> Vec<u8> {
        let set = |members: &[usize]| members.iter().map(|&c| 1u32 << c).sum::<u32>();
        let mut bytes = set(&self.active).to_be_bytes().to_vec();
        self.live.iter().for_each(|live| bytes.extend_from_slice(&set(live).to_be_bytes()[2..]));
        bytes
    }

    /// The variables that are active.
    pub fn active(&self) -> &[usize] {
        &self.active
    }

    /// The values that are live at variable i.
    pub fn live(&self, i: usize) -> &[usize] {
        &self.live[i]
    }

    pub fn is_active(&self, i: usize) -> bool {
        self.active.contains(&i)
    }

    pub fn is_live(&self, i: usize, a: usize) -> bool {
        self.is_active(i) && self.live[i].contains(&a)
    }

    /// "'Other item' always means one still in."
    fn others(&self, i: usize) -> impl Iterator<Item = usize> + '_ {
        self.active.iter().copied().filter(move |&j| j != i)
    }

    /// "An item in has no setting on."
    pub fn emptied(&self) -> bool {
        self.active.iter().any(|&i| self.live[i].is_empty())
    }

    fn switch_off(&mut self, i: usize, b: usize) {
        self.live[i].retain(|&a| a != b);
    }
}

// ---- The five rules -----------------------------------------------------------------------------------------------------------------

impl Problem {
    /// "A setting spoils the cover at l when it is on at l, allowed with b and barred with a; the cover test answers the lowest setting at
    /// l that spoils it, or that there is none." Here a is a value of i and b one of j: the same variable, but in the fold.
    fn spoiler(&self, state: &State, (i, a): (usize, usize), (j, b): (usize, usize), l: usize) -> Option<usize> {
        state.live(l).iter().copied().find(|&x| self.allowed(j, b, l, x) && !self.allowed(i, a, l, x))
    }

    /// The lowest variable other than the two named where the cover breaks, and the lowest value that spoils it there; or nothing, where a
    /// covers b "at every item other than" these.
    fn breach(&self, state: &State, a: (usize, usize), b: (usize, usize), apart: [usize; 2]) -> Option<(usize, usize)> {
        let mut thirds = state.active().iter().copied().filter(|l| !apart.contains(l));
        thirds.find_map(|l| Some((l, self.spoiler(state, a, b, l)?)))
    }

    /// The same for two values of one variable, at every other one.
    fn breach_of_two(&self, state: &State, i: usize, a: usize, b: usize) -> Option<(usize, usize)> {
        self.breach(state, (i, a), (i, b), [i, i])
    }

    /// "A partner of a setting at another item is a setting on there and allowed with it."
    fn has_support(&self, state: &State, i: usize, a: usize, j: usize) -> bool {
        state.live(j).iter().any(|&b| self.allowed(i, a, j, b))
    }

    /// bare: "b is on at i and no setting on at another item k is allowed with it".
    pub fn unsupported(&self, state: &State, i: usize, b: usize, k: usize) -> bool {
        state.is_live(i, b) && state.is_active(k) && k != i && !self.has_support(state, i, b, k)
    }

    /// snake: "v is on at i; for every other item j and every setting w on at j barred with v, some w' ..."
    pub fn snake(&self, state: &State, i: usize, v: usize) -> bool {
        let served =
            |j: usize| state.live(j).iter().all(|&w| self.allowed(i, v, j, w) || self.replacement(state, (i, v), (j, w)).is_some());
        state.is_live(i, v) && state.others(i).all(served)
    }

    /// The lowest w': "some w' on at j is allowed with v and covers w at every item other than i and j".
    fn replacement(&self, state: &State, (i, v): (usize, usize), (j, w): (usize, usize)) -> Option<usize> {
        let serves = |new: &usize| self.allowed(i, v, j, *new) && self.breach(state, (j, *new), (j, w), [i, j]).is_none();
        state.live(j).iter().copied().find(serves)
    }

    /// fold: "j is another item; for every v on at j some u ..."
    pub fn triangle(&self, state: &State, i: usize, j: usize) -> bool {
        let another = state.is_active(i) && state.is_active(j) && i != j;
        another && state.live(j).iter().all(|&v| self.stand_in(state, i, (j, v)).is_some())
    }

    /// The lowest u: "some u on at i is allowed with v, and covers v at every item other than i and j (every setting there allowed with v
    /// is allowed with u)".
    fn stand_in(&self, state: &State, i: usize, (j, v): (usize, usize)) -> Option<usize> {
        let serves = |u: &usize| self.allowed(i, *u, j, v) && self.breach(state, (i, *u), (j, v), [i, j]).is_none();
        state.live(i).iter().copied().find(serves)
    }

    /// cover: "a and b are different and on at i; a covers b at every other item".
    pub fn neighbourhood(&self, state: &State, i: usize, b: usize, a: usize) -> bool {
        two_live(state, i, b, a) && self.breach_of_two(state, i, a, b).is_none()
    }

    /// slide: "a and b are different and on at i; for each other item k and each d on at k allowed with b, some e ..."
    pub fn snake_substitution(&self, state: &State, i: usize, b: usize, a: usize) -> bool {
        let follows = |k: usize| state.live(k).iter().all(|&d| !self.allowed(i, b, k, d) || self.slides(state, (i, a), (k, d)));
        two_live(state, i, b, a) && state.others(i).all(follows)
    }

    /// "Some e on at k is allowed with a and covers d at every item other than i and k." A setting covers itself, so d is the first to be
    /// tried.
    fn slides(&self, state: &State, (i, a): (usize, usize), (k, d): (usize, usize)) -> bool {
        let apart = if self.spares { [i, k] } else { [k, k] };
        let serves = |&e: &usize| self.allowed(i, a, k, e) && self.breach(state, (k, e), (k, d), apart).is_none();
        self.allowed(i, a, k, d) || state.live(k).iter().any(serves)
    }
}

/// "a and b are different and on at i."
fn two_live(state: &State, i: usize, b: usize, a: usize) -> bool {
    a != b && state.is_live(i, a) && state.is_live(i, b)
}

// ---- Steps --------------------------------------------------------------------------------------------------------------------------

/// A step, with the fields of its record.
#[derive(Clone, Copy, PartialEq, Eq, Debug)]
pub enum Step {
    Unsupported { i: usize, b: usize, k: usize },
    Snake { i: usize, v: usize },
    Triangle { i: usize, j: usize },
    Neighbourhood { i: usize, b: usize, a: usize },
    SnakeSubstitution { i: usize, b: usize, a: usize },
}

impl Step {
    /// The kind, 1 to 5.
    pub fn kind(self) -> usize {
        match self {
            Step::Unsupported { .. } => 1,
            Step::Snake { .. } => 2,
            Step::Triangle { .. } => 3,
            Step::Neighbourhood { .. } => 4,
            Step::SnakeSubstitution { .. } => 5,
        }
    }

    /// "First a length byte (4 for kinds 1, 4, 5; 3 for kinds 2, 3), then the bytes above."
    pub fn record(self) -> Vec<u8> {
        let fields = match self {
            Step::Unsupported { i, b, k } => vec![1, i, b, k],
            Step::Snake { i, v } => vec![2, i, v],
            Step::Triangle { i, j } => vec![3, i, j],
            Step::Neighbourhood { i, b, a } => vec![4, i, b, a],
            Step::SnakeSubstitution { i, b, a } => vec![5, i, b, a],
        };
        std::iter::once(fields.len()).chain(fields).map(|byte| byte as u8).collect()
    }

    /// The step that the record at the front of these bytes says, and the bytes after it.
    /// "Cut short, unknown kind, or length byte wrong for the kind."
    pub fn read(bytes: &[u8]) -> Result<(Step, &[u8]), Refusal> {
        let field = |byte: u8| usize::from(byte);
        match *bytes {
            [4, 1, i, b, k, ref rest @ ..] => Ok((Step::Unsupported { i: field(i), b: field(b), k: field(k) }, rest)),
            [3, 2, i, v, ref rest @ ..] => Ok((Step::Snake { i: field(i), v: field(v) }, rest)),
            [3, 3, i, j, ref rest @ ..] => Ok((Step::Triangle { i: field(i), j: field(j) }, rest)),
            [4, 4, i, b, a, ref rest @ ..] => Ok((Step::Neighbourhood { i: field(i), b: field(b), a: field(a) }, rest)),
            [4, 5, i, b, a, ref rest @ ..] => Ok((Step::SnakeSubstitution { i: field(i), b: field(b), a: field(a) }, rest)),
            _ => Err(Refusal::RecordShape),
        }
    }
}

impl Problem {
    /// Whether the rule of the step's kind holds for its fields.
    pub fn lawful(&self, state: &State, step: Step) -> bool {
        match step {
            Step::Unsupported { i, b, k } => self.unsupported(state, i, b, k),
            Step::Snake { i, v } => self.snake(state, i, v),
            Step::Triangle { i, j } => self.triangle(state, i, j),
            Step::Neighbourhood { i, b, a } => self.neighbourhood(state, i, b, a),
            Step::SnakeSubstitution { i, b, a } => self.snake_substitution(state, i, b, a),
        }
    }

    /// "Kinds 1, 4 and 5 switch b off at i. Kinds 2 and 3 take i out."
    pub fn perform(&self, state: &State, step: Step) -> State {
        let mut after = state.clone();
        match step {
            Step::Unsupported { i, b, .. } | Step::Neighbourhood { i, b, .. } | Step::SnakeSubstitution { i, b, .. } => {
                after.switch_off(i, b)
            }
            Step::Snake { i, .. } | Step::Triangle { i, .. } => self.take_out(state, i, &mut after),
        }
        after
    }

    /// "... take i out, all its settings going off, and, in the same step, switch off at every other item each setting that had no partner
    /// on at i."
    fn take_out(&self, state: &State, i: usize, after: &mut State) {
        after.active.retain(|&j| j != i);
        after.live[i].clear();
        for j in state.others(i) {
            after.live[j].retain(|&c| self.has_support(state, j, c, i));
        }
    }

    /// The steps of one kind that could be lawful, "then the lowest i, then the lowest third field, then the lowest fourth".
    pub fn candidates<'a>(&'a self, state: &'a State, kind: usize) -> Box<dyn Iterator<Item = Step> + 'a> {
        let values = || state.active().iter().flat_map(|&i| state.live(i).iter().map(move |&b| (i, b)));
        let pairs = move || values().flat_map(|(i, b)| state.live(i).iter().map(move |&a| (i, b, a)));
        match kind {
            1 => Box::new(values().flat_map(|(i, b)| state.others(i).map(move |k| Step::Unsupported { i, b, k }))),
            2 => Box::new(values().map(|(i, v)| Step::Snake { i, v })),
            3 => Box::new(state.active().iter().flat_map(|&i| state.others(i).map(move |j| Step::Triangle { i, j }))),
            4 => Box::new(pairs().map(|(i, b, a)| Step::Neighbourhood { i, b, a })),
            _ => Box::new(pairs().map(|(i, b, a)| Step::SnakeSubstitution { i, b, a })),
        }
    }

    /// "No step is taken once some item in has no setting on. Otherwise the next step is of the lowest kind that holds anywhere ..."
    pub fn next_step(&self, state: &State) -> Option<Step> {
        if state.emptied() {
            return None;
        }
        (1..=5).flat_map(|kind| self.candidates(state, kind)).find(|&step| self.lawful(state, step))
    }

    /// All steps of the run, and the last state.
    pub fn reduce(&self) -> (Vec<Step>, State) {
        let mut state = State::full(self);
        let mut steps = Vec::new();
        while let Some(step) = self.next_step(&state) {
            state = self.perform(&state, step);
            steps.push(step);
        }
        (steps, state)
    }

    /// "The largest sets of settings in which each has a partner at every other item": what no set can hold is crossed off, round by round.
    pub fn arc_consistent(&self, state: &State) -> State {
        let supported = |i: usize, a: usize| state.others(i).all(|j| self.has_support(state, i, a, j));
        let keep = |i: usize| state.live(i).iter().copied().filter(|&a| supported(i, a)).collect();
        let kept = State { active: state.active.clone(), live: (0..MAX_ITEMS).map(keep).collect() };
        if kept == *state {
            kept
        } else {
            self.arc_consistent(&kept)
        }
    }

    /// Puts one step back into a plan, "against the state before it".
    pub fn undo(&self, before: &State, step: Step, plan: &mut [u8]) {
        match step {
            Step::Snake { i, v } => self.undo_snake(before, i, v, plan),
            Step::Triangle { i, j } => {
                let value = usize::from(plan[j]);
                plan[i] = self.stand_in(before, i, (j, value)).expect("the step was lawful") as u8;
            }
            // "Kinds 1, 4, 5 change nothing."
            _ => {}
        }
    }

    /// "Kind 2 gives i the setting v, then changes each other item's setting that is barred with v to the lowest w' the rule allows."
    fn undo_snake(&self, before: &State, i: usize, v: usize, plan: &mut [u8]) {
        plan[i] = v as u8;
        for j in before.others(i) {
            let w = usize::from(plan[j]);
            if !self.allowed(i, v, j, w) {
                plan[j] = self.replacement(before, (i, v), (j, w)).expect("the step was lawful") as u8;
            }
        }
    }

    /// "An item out not 255, a setting not on, or a barred pair among items left" speaks against a plan; nothing else does.
    pub fn is_solution(&self, state: &State, plan: &[u8]) -> bool {
        let value = |i: usize| usize::from(plan[i]);
        let out = |i: usize| !state.is_active(i) && plan[i] == OUT;
        let all_live = (0..plan.len()).all(|i| out(i) || state.is_live(i, value(i)));
        all_live && state.active().iter().all(|&i| state.others(i).all(|j| self.allowed(i, value(i), j, value(j))))
    }
}

// ---- The search ---------------------------------------------------------------------------------------------------------------------

impl Problem {
    /// The first plan of a state, "lowest item first, lowest setting first": 255 for the items out.
    pub fn first_plan(&self, state: &State) -> Option<Vec<u8>> {
        let mut plan = vec![OUT; self.sizes.len()];
        // Where an item in has no setting on there is nothing to be searched for, among however many others.
        (!state.emptied() && self.complete(state, state.active(), &mut plan)).then_some(plan)
    }

    /// Gives these variables values, the lowest that go with those chosen before; whether it can be done.
    fn complete(&self, state: &State, left: &[usize], plan: &mut [u8]) -> bool {
        let [i, rest @ ..] = left else { return true };
        for &a in state.live(*i) {
            let chosen = |j: &usize| plan[*j] != OUT;
            if state.others(*i).filter(chosen).all(|j| self.allowed(*i, a, j, usize::from(plan[j]))) {
                plan[*i] = a as u8;
                if self.complete(state, rest, plan) {
                    return true;
                }
                plan[*i] = OUT;
            }
        }
        false
    }
}

// ---- The jobs -----------------------------------------------------------------------------------------------------------------------

/// Reads a sheet.
pub fn read(sheet: &[u8]) -> Answer<Accepted> {
    let (problem, blocks) = read_sheet(sheet)?;
    Ok(Accepted { items: problem.sizes.len(), blocks })
}

/// Runs a sheet to its end.
pub fn run(sheet: &[u8], trace: &mut [u8], state: &mut [u8]) -> Answer<Done> {
    if state.len() != STATE_LENGTH {
        return Err(Fault::RunStateLength);
    }
    let (problem, _) = read_sheet(sheet)?;
    if trace.len() < problem.trace_length() {
        return Err(Refusal::TraceBuffer.into());
    }
    let (steps, last) = problem.reduce();
    let written = trace_of(&steps);
    trace[..written.len()].copy_from_slice(&written);
    state.copy_from_slice(&last.to_bytes());
    Ok(Done { end: end(&last), steps: steps.len(), written: written.len() })
}

/// "The trace is byte 0, version 1, then one record a step."
pub fn trace_of(steps: &[Step]) -> Vec<u8> {
    std::iter::once(1).chain(steps.iter().flat_map(|step| step.record())).collect()
}

/// "The end is impossible (an item in has no setting on), solved (no item in) or rest (items in, no rule holds)."
fn end(last: &State) -> End {
    if last.emptied() {
        End::Impossible
    } else if last.active.is_empty() {
        End::Solved
    } else {
        End::Rest
    }
}

/// "Starting answers the state with all items in and the largest sets of settings in which each has a partner at every other item."
pub fn start(sheet: &[u8], state: &mut [u8]) -> Answer<()> {
    if state.len() != HAND_STATE_LENGTH {
        return Err(Fault::HandStateLength);
    }
    let (problem, _) = read_sheet(sheet)?;
    state.copy_from_slice(&problem.arc_consistent(&State::full(&problem)).to_bytes());
    Ok(())
}

/// "A hand call names one item. It performs the snake step with the lowest fitting v and answers the new state and v."
pub fn hand_call(sheet: &[u8], state: &mut [u8], item: u64) -> Answer<Taken> {
    if state.len() != HAND_STATE_LENGTH {
        return Err(Fault::HandStateLength);
    }
    let (problem, _) = read_sheet(sheet)?;
    let before = State::from_bytes(state);
    if !fits(&problem, &before) {
        return Err(Refusal::StateMisfit.into());
    }
    let i = item_in(&before, item).ok_or(Refusal::ItemNotIn)?;
    if before.emptied() {
        return Err(Refusal::ItemEmpty.into());
    }
    let v = before.live(i).iter().copied().find(|&v| problem.snake(&before, i, v)).ok_or(Refusal::NoSnake)?;
    state.copy_from_slice(&problem.perform(&before, Step::Snake { i, v }).to_bytes());
    Ok(Taken { setting: v as u8 })
}

/// "An item in is not below n, an item out has a setting on, or a setting on is not below its size" speaks against a state.
fn fits(problem: &Problem, state: &State) -> bool {
    let below_n = |i: usize| i < problem.sizes.len();
    let below_size = |i: usize, c: usize| problem.sizes.get(i).is_some_and(|&size| c < size);
    state.active.iter().all(|&i| below_n(i))
        && (0..MAX_ITEMS).all(|i| state.is_active(i) || state.live(i).is_empty())
        && (0..MAX_ITEMS).all(|i| state.live(i).iter().all(|&c| below_size(i, c)))
}

/// The item that a hand call names, if it is in. "Named item not below n or not in"; items in are below n where the state fits.
fn item_in(state: &State, item: u64) -> Option<usize> {
    state.active.iter().copied().find(|&i| i as u64 == item)
}

/// Puts a plan for the items left back through a trace.
pub fn put_back(sheet: &[u8], trace: &[u8], plan: &[u8], result: &mut [u8]) -> Answer<()> {
    put_back_over(&read_sheet(sheet)?.0, trace, plan, result)
}

/// The same once the sheet is read.
pub fn put_back_over(problem: &Problem, trace: &[u8], plan: &[u8], result: &mut [u8]) -> Answer<()> {
    if plan.len() != problem.sizes.len() {
        return Err(Refusal::PlanLength.into());
    }
    if result.len() != problem.sizes.len() {
        return Err(Refusal::ResultLength.into());
    }
    let (steps, last) = replay(problem, trace)?;
    if !problem.is_solution(&last, plan) {
        return Err(Refusal::PlanUnfit.into());
    }
    let mut full = plan.to_vec();
    // "Records are undone last first, each against the state before it."
    for (before, step) in steps.iter().rev() {
        problem.undo(before, *step, &mut full);
    }
    result.copy_from_slice(&full);
    Ok(())
}

/// "It runs the sheet, searches the items left, lowest item first, lowest setting first, and puts the first plan in that order back into the
/// lent plan." After the sheet, 10 for the trace buffer and then 20 for the plan.
pub fn pick(sheet: &[u8], trace: &mut [u8], plan: &mut [u8], state: &mut [u8]) -> Answer<Chosen> {
    if state.len() != STATE_LENGTH {
        return Err(Fault::RunStateLength);
    }
    let (problem, _) = read_sheet(sheet)?;
    if trace.len() < problem.trace_length() {
        return Err(Refusal::TraceBuffer.into());
    }
    if plan.len() != problem.sizes.len() {
        return Err(Refusal::ResultLength.into());
    }
    let run = run(sheet, trace, state)?;
    let first = problem.first_plan(&State::from_bytes(state));
    if let Some(first) = &first {
        put_back_over(&problem, &trace[..run.written], first, plan)?;
    }
    Ok(Chosen { run, has_plan: first.is_some() })
}

/// "A move writes the other version at the target's front, old bytes after: version 2 of a sheet of version 1, and version 1 of a sheet of
/// version 2."
pub fn move_sheet(sheet: &[u8], target: &mut [u8]) -> Answer<Written> {
    write_sheet(&moved(sheet)?, target, Refusal::TargetBuffer)
}

/// The bytes of the moved sheet.
pub fn moved(sheet: &[u8]) -> Result<Vec<u8>, Refusal> {
    let (problem, _) = read_sheet(sheet)?;
    Ok(problem.sheet(if sheet[0] == 1 { 2 } else { 1 }))
}

/// The steps that a trace's bytes say, lawful or not: the two faults of its shape alone.
pub fn steps_of(trace: &[u8]) -> Result<Vec<Step>, Refusal> {
    let [1, records @ ..] = trace else {
        return Err(Refusal::TraceFront);
    };
    let mut rest = records;
    let mut steps = Vec::new();
    while !rest.is_empty() {
        let (step, after) = Step::read(rest)?;
        steps.push(step);
        rest = after;
    }
    Ok(steps)
}

/// The steps of a trace, each with the state before it, and the last state. "No byte, or byte 0 is not 1"; then each record in turn:
/// its shape, and then "not lawful in the state reached, or an item in has no setting on".
pub fn replay(problem: &Problem, trace: &[u8]) -> Answer<(Vec<(State, Step)>, State)> {
    let [1, records @ ..] = trace else {
        return Err(Refusal::TraceFront.into());
    };
    let mut rest = records;
    let mut state = State::full(problem);
    let mut steps = Vec::new();
    while !rest.is_empty() {
        let (step, after) = Step::read(rest)?;
        if state.emptied() || !problem.lawful(&state, step) {
            let (item, setting) = named(problem, &state, step);
            return Err(Unlawful { record: steps.len() as u16, item, setting }.into());
        }
        let next = problem.perform(&state, step);
        steps.push((std::mem::replace(&mut state, next), step));
        rest = after;
    }
    Ok((steps, state))
}

/// What 17 names of an unlawful record: "for a kind 4 record with i in, a and b different and on, and no item in left without a setting,
/// the lowest item where the cover breaks and the lowest setting that spoils it there; for every other cause both are 255".
fn named(problem: &Problem, state: &State, step: Step) -> (u8, u8) {
    match step {
        Step::Neighbourhood { i, b, a } if two_live(state, i, b, a) && !state.emptied() => {
            let (item, setting) = problem.breach_of_two(state, i, a, b).expect("nothing else speaks against the record");
            (item as u8, setting as u8)
        }
        _ => (NOT_NAMED, NOT_NAMED),
    }
}

// ---- The colouring file -------------------------------------------------------------------------------------------------------------

/// What one line of a colouring file says.
enum Line {
    Comment,
    Size { vertices: u64, edges: u64 },
    Edge(u64, u64),
}

/// "Each line ends in a newline, which the last may lack": so nothing after the last newline is no line.
fn lines(file: &[u8]) -> Vec<&[u8]> {
    let mut lines: Vec<&[u8]> = file.split(|&byte| byte == b'\n').collect();
    if lines.last().is_some_and(|last| last.is_empty()) {
        lines.pop();
    }
    lines
}

/// "Any lines beginning with `c`, one `p edge` line with vertices and edges, and `e` lines with two vertices"; "fields stand one space
/// apart". Where two spaces meet, or one stands at an end, there is an empty field, which is no number and no word.
fn line(bytes: &[u8]) -> Option<Line> {
    if bytes.first() == Some(&b'c') {
        return Some(Line::Comment);
    }
    let fields: Vec<&[u8]> = bytes.split(|&byte| byte == b' ').collect();
    match fields[..] {
        [b"p", b"edge", vertices, edges] => Some(Line::Size { vertices: number(vertices)?, edges: number(edges)? }),
        [b"e", a, b] => Some(Line::Edge(number(a)?, number(b)?)),
        _ => None,
    }
}

/// "Numbers have one to nine digits."
fn number(field: &[u8]) -> Option<u64> {
    let is_number = (1..=9).contains(&field.len()) && field.iter().all(|byte| byte.is_ascii_digit());
    is_number.then(|| field.iter().fold(0, |number, digit| 10 * number + u64::from(digit - b'0')))
}

/// What a colouring file states, and its edges, line by line.
struct Graph {
    vertices: u64,
    stated: u64,
    edges: Vec<(u64, u64)>,
}

/// A graph, or nothing where "the file is over 64 KiB, a line is of none of these forms (a blank one too), the `p` line is missing,
/// repeated or after an `e` line, or a vertex is outside the stated range".
fn read_graph(file: &[u8]) -> Option<Graph> {
    if file.len() > MAX_FILE {
        return None;
    }
    let lines: Vec<Line> = lines(file).into_iter().map(line).collect::<Option<_>>()?;
    let mut told = lines.into_iter().filter(|line| !matches!(line, Line::Comment));
    // The first line that tells something is the `p` line, and every later one is an `e` line.
    let Some(Line::Size { vertices, edges: stated }) = told.next() else { return None };
    let edge = |line: Line| match line {
        Line::Edge(a, b) => Some((a, b)),
        _ => None,
    };
    let edges: Vec<(u64, u64)> = told.map(edge).collect::<Option<_>>()?;
    let inside = |vertex: u64| 1 <= vertex && vertex <= vertices;
    edges.iter().all(|&(a, b)| inside(a) && inside(b)).then_some(Graph { vertices, stated, edges })
}

/// "Given such a file and a channel count, write the sheet whose plans are exactly the proper colourings." The five refusals "in that
/// order, over the whole file".
pub fn colour(file: &[u8], channels: u64, sheet: &mut [u8]) -> Answer<Written> {
    let graph = read_graph(file).ok_or(Refusal::GraphFile)?;
    if graph.edges.iter().any(|(a, b)| a == b) {
        return Err(Refusal::GraphLoop.into());
    }
    if graph.edges.len() as u64 != graph.stated {
        return Err(Refusal::EdgeCount.into());
    }
    if !(1..=MAX_ITEMS as u64).contains(&graph.vertices) || !(1..=MAX_SETTINGS as u64).contains(&channels) {
        return Err(Refusal::ColourRange.into());
    }
    // "The sheet is of version 1."
    write_sheet(&problem_of(&graph, channels as usize).sheet(1), sheet, Refusal::SheetBuffer)
}

/// "Vertex v is item v - 1, each edge's block bars equal settings only, and no other pair has a block. An edge given again, either way
/// round, counts as a line but makes one block."
fn problem_of(graph: &Graph, channels: usize) -> Problem {
    let mut problem = Problem::without_blocks(vec![channels; graph.vertices as usize]);
    for &(a, b) in &graph.edges {
        (0..channels).for_each(|channel| problem.bar(a as usize - 1, channel, b as usize - 1, channel));
    }
    problem
}
