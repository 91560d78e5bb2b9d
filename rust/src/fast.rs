//! The eight jobs written for speed, from docs/FORMAT.md: sets as bit masks, and the rows of every pair both ways in one dense table. The
//! answers' types and the limits are those of the library; all else is written here. No part of the library: tests/support has it.
//!
//! Two things save most of the work, and neither changes the trace. The sixteen values of an item are asked together, in loops of constant
//! length which the compiler makes vectors of (`Table::serving`). And a test that failed rests on a few items only: since sets only shrink,
//! it fails until one of them changes, and is not made again before (`Reduction::pending`, `waiting`). The search for a plan asks in an order
//! of its own, and has all items in a few vectors (`Search`). A move goes over the sheet's bytes once, and fills no table (`Workspace::move_sheet`).
//!
//! What this was before, with a mark for each two values in place of these words, is kept as the fixed peer (peer.rs).

use zomuwedli::{Accepted, End, Refusal, Taken, Unlawful, Written};
use zomuwedli::{HAND_STATE_LENGTH, MAX_FILE, MAX_ITEMS, MAX_SETTINGS, MAX_SHEET, NOT_NAMED, OUT, STATE_LENGTH};

use super::{Answer, Chosen, Done, Fault};

type Rows = [[[u16; MAX_SETTINGS]; MAX_ITEMS]; MAX_ITEMS];

/// The members of a set, rising.
fn members(set: u32) -> impl Iterator<Item = usize> {
    let mut rest = set;
    std::iter::from_fn(move || {
        let lowest = rest.trailing_zeros() as usize;
        rest &= rest.wrapping_sub(1);
        (lowest < 32).then_some(lowest)
    })
}

/// The members of a set, falling: a failure that is shown by high items lasts, since the run works from the lowest item up.
fn falling(set: u32) -> impl Iterator<Item = usize> {
    let mut rest = set;
    std::iter::from_fn(move || {
        let highest = 31_u32.checked_sub(rest.leading_zeros())?;
        rest ^= 1 << highest;
        Some(highest as usize)
    })
}

fn values(set: u16) -> impl Iterator<Item = usize> {
    let mut rest = set;
    std::iter::from_fn(move || {
        let lowest = rest.trailing_zeros() as usize;
        rest &= rest.wrapping_sub(1);
        (lowest < MAX_SETTINGS).then_some(lowest)
    })
}

fn falling_values(set: u16) -> impl Iterator<Item = usize> {
    let mut rest = set;
    std::iter::from_fn(move || {
        let highest = 15_u32.checked_sub(rest.leading_zeros())?;
        rest ^= 1 << highest;
        Some(highest as usize)
    })
}

/// The set of all values below a size of 1 to 16.
fn below(size: usize) -> u16 {
    u16::MAX >> (MAX_SETTINGS - size)
}

fn has(set: u32, member: usize) -> bool {
    member < 32 && set >> member & 1 == 1
}

/// A state: bit i of `items` for an item in, bit c of `settings[i]` for a setting on at it.
#[derive(Clone)]
pub struct State {
    pub items: u32,
    pub settings: [u16; MAX_ITEMS],
}

impl State {
    /// The state that these bytes hold.
    pub fn from_bytes(bytes: &[u8; STATE_LENGTH]) -> State {
        let items = u32::from_be_bytes([bytes[0], bytes[1], bytes[2], bytes[3]]);
        let settings = std::array::from_fn(|i| u16::from_be_bytes([bytes[4 + 2 * i], bytes[5 + 2 * i]]));
        State { items, settings }
    }

    /// The bytes that hold this state.
    pub fn to_bytes(&self) -> [u8; STATE_LENGTH] {
        let mut bytes = [0; STATE_LENGTH];
        bytes[..4].copy_from_slice(&self.items.to_be_bytes());
        for (place, settings) in bytes[4..].chunks_exact_mut(2).zip(&self.settings) {
            place.copy_from_slice(&settings.to_be_bytes());
        }
        bytes
    }

    fn is_live(&self, i: usize, a: usize) -> bool {
        has(self.items, i) && has(u32::from(self.settings[i]), a)
    }

    fn two_live(&self, i: usize, b: usize, a: usize) -> bool {
        self.is_live(i, a) && self.is_live(i, b) && a != b
    }

    fn is_emptied(&self) -> bool {
        members(self.items).any(|i| self.settings[i] == 0)
    }
}

// ---- The sheet ----------------------------------------------------------------------------------------------------------------------

/// A sheet's table: `rows[i][j][a]` is the set of values of j allowed with value a of i, so that the sixteen rows of a pair stand side by
/// side. Where a pair has no block, and for j = i, all 16 bits are set: every use meets the row with values that are live.
struct Table {
    version: u8,
    sizes: [usize; MAX_ITEMS],
    count: usize,
    blocks: usize,
    rows: Rows,
    /// The values that no row of some block allows: they have no support before the first step.
    unsupported: [u16; MAX_ITEMS],
    /// The items that have a block with i.
    neighbours: [u32; MAX_ITEMS],
    /// The set of each value alone, in memory: the compiler takes a constant list apart, and with it the loops over it.
    bits: [u16; MAX_SETTINGS],
}

impl Table {
    fn new() -> Table {
        Table {
            version: 1,
            sizes: [0; MAX_ITEMS],
            count: 0,
            blocks: 0,
            rows: [[[0; MAX_SETTINGS]; MAX_ITEMS]; MAX_ITEMS],
            unsupported: [0; MAX_ITEMS],
            neighbours: [0; MAX_ITEMS],
            bits: std::array::from_fn(|a| 1 << a),
        }
    }

    /// Reads a sheet into the table; a refused one leaves the table without meaning.
    fn fill(&mut self, sheet: &[u8]) -> Result<(), Refusal> {
        self.read_front(sheet)?;
        self.read_sizes(&sheet[8..])?;
        self.rows[..self.count].fill([[u16::MAX; MAX_SETTINGS]; MAX_ITEMS]);
        self.unsupported = [0; MAX_ITEMS];
        self.neighbours = [0; MAX_ITEMS];
        let (count, blocks) = (self.count, self.blocks);
        each_block(&sheet[8 + count..], count, blocks, |bytes, pair| self.read_block(bytes, pair))
    }

    fn read_front(&mut self, sheet: &[u8]) -> Result<(), Refusal> {
        if sheet.len() < 8 {
            return Err(Refusal::SheetFront);
        }
        self.version = sheet[0];
        if !(1..=2).contains(&self.version) {
            return Err(Refusal::SheetVersion);
        }
        if u32::from_be_bytes([sheet[1], sheet[2], sheet[3], sheet[4]]) as usize != sheet.len() {
            return Err(Refusal::SheetLength);
        }
        self.count = usize::from(sheet[5]);
        self.blocks = usize::from(u16::from_be_bytes([sheet[6], sheet[7]]));
        if (1..=MAX_ITEMS).contains(&self.count) {
            Ok(())
        } else {
            Err(Refusal::ItemCount)
        }
    }

    fn read_sizes(&mut self, bytes: &[u8]) -> Result<(), Refusal> {
        let sizes = bytes.get(..self.count).ok_or(Refusal::ItemSize)?;
        for (size, byte) in self.sizes.iter_mut().zip(sizes) {
            *size = usize::from(*byte);
            if !(1..=MAX_SETTINGS).contains(size) {
                return Err(Refusal::ItemSize);
            }
        }
        Ok(())
    }

    /// Enters one block both ways, and answers what follows it.
    fn read_block<'a>(&mut self, bytes: &'a [u8], (i, j): (usize, usize)) -> Result<&'a [u8], Refusal> {
        let size = self.sizes[i];
        let width = row_bytes(self.version, self.sizes[j]);
        if bytes.len() < width * size {
            return Err(Refusal::BlockBytes);
        }
        let (lines, rest) = bytes.split_at(width * size);
        let all = below(self.sizes[j]);
        let mut block = [0; MAX_SETTINGS];
        if width == 2 {
            for (row, line) in block.iter_mut().zip(lines.chunks_exact(2)) {
                *row = u16::from_be_bytes([line[0], line[1]]);
            }
        } else {
            block.iter_mut().zip(lines).for_each(|(row, &line)| *row = line.into());
        }
        if block.iter().any(|row| row & !all != 0) {
            return Err(Refusal::RowBeyond);
        }
        if block[..size].iter().all(|&row| row == all) {
            return Err(Refusal::BarsNothing);
        }
        self.enter(i, j, &block);
        self.enter(j, i, &transposed(block));
        Ok(rest)
    }

    fn enter(&mut self, i: usize, j: usize, block: &[u16; MAX_SETTINGS]) {
        self.neighbours[i] |= 1 << j;
        self.rows[i][j] = *block;
        self.unsupported[j] |= !block.iter().fold(0, |all, row| all | row);
    }

    fn full_state(&self) -> State {
        let settings = std::array::from_fn(|i| if i < self.count { below(self.sizes[i]) } else { 0 });
        State { items: u32::MAX >> (MAX_ITEMS - self.count), settings }
    }

    fn trace_length(&self) -> usize {
        1 + 5 * self.sizes[..self.count].iter().sum::<usize>()
    }
}

/// How many bytes a row has, by the size of j.
fn row_bytes(version: u8, size: usize) -> usize {
    1 + usize::from(version == 1 || size > 8)
}

/// Goes through the blocks, so many, of a sheet with so many items: `take` is given what follows a block's two items, and answers what
/// follows the block.
#[inline(always)]
fn each_block<'a>(
    bytes: &'a [u8],
    count: usize,
    blocks: usize,
    mut take: impl FnMut(&'a [u8], (usize, usize)) -> Result<&'a [u8], Refusal>,
) -> Result<(), Refusal> {
    let mut rest = bytes;
    let mut before = None;
    for _ in 0..blocks {
        let [i, j, rows @ ..] = rest else { return Err(Refusal::BlockBytes) };
        let pair = (usize::from(*i), usize::from(*j));
        if pair.0 >= pair.1 || pair.1 >= count || before >= Some(pair) {
            return Err(Refusal::BlockOrder);
        }
        rest = take(rows, pair)?;
        before = Some(pair);
    }
    if rest.is_empty() {
        Ok(())
    } else {
        Err(Refusal::BlockBytes)
    }
}

/// Bit a of row c for bit c of row a: squares off the diagonal are exchanged, 8 wide, then 4, 2 and 1.
fn transposed(mut block: [u16; MAX_SETTINGS]) -> [u16; MAX_SETTINGS] {
    for (width, low) in [(8, 0x00ff), (4, 0x0f0f), (2, 0x3333), (1, 0x5555)] {
        for a in (0..MAX_SETTINGS).filter(|a| a & width == 0) {
            let swap = ((block[a] >> width) ^ block[a + width]) & low;
            block[a] ^= swap << width;
            block[a + width] ^= swap;
        }
    }
    block
}

// ---- The rules ----------------------------------------------------------------------------------------------------------------------

impl Table {
    /// The values of j allowed with value a of i that are live.
    fn supports(&self, state: &State, i: usize, a: usize, j: usize) -> u16 {
        self.rows[i][j][a] & state.settings[j]
    }

    /// The values live at l that spoil a cover of b by a, two values of i: they are allowed with b and barred with a.
    fn spoilers(&self, state: &State, i: usize, b: usize, a: usize, l: usize) -> u16 {
        self.rows[i][l][b] & !self.rows[i][l][a] & state.settings[l]
    }

    /// The values of i that are allowed with some of these values of l. All sixteen rows are met, without a branch.
    #[inline(always)]
    fn partners(&self, set: u16, l: usize, i: usize) -> u16 {
        self.rows[l][i].iter().zip(&self.bits).fold(0, |all, (row, bit)| all | if set & bit != 0 { *row } else { 0 })
    }

    /// The values of i, of a set of them, that are allowed with each of these values of l: all sixteen at once, without a branch.
    #[inline(always)]
    fn allowed_with(&self, some: u16, set: u16, i: usize, l: usize) -> u16 {
        self.rows[i][l].iter().zip(&self.bits).fold(0, |all, (row, bit)| all | if set & !row == 0 { *bit } else { 0 }) & some
    }

    /// The values that i and j are allowed to have both.
    #[inline(always)]
    fn allowed_equal(&self, i: usize, j: usize) -> u16 {
        self.rows[i][j].iter().zip(&self.bits).fold(0, |all, (row, bit)| all | row & bit)
    }

    /// The values of i, of the good ones, that cover w, a value of j, at each of these items but i; and the items at which one failed. Where
    /// none is left, it rests on these items alone. An item that has no block with i breaks nothing.
    #[inline(always)]
    fn serving(&self, state: &State, rest: u32, good: u16, i: usize, (j, w): (usize, usize)) -> (u16, u32) {
        let (mut left, mut rests_on) = (good, 0);
        let mut rest = falling(rest & self.neighbours[i]);
        while left != 0 {
            let Some(l) = rest.next() else { break };
            let next = self.allowed_with(left, self.supports(state, j, w, l), i, l);
            rests_on |= u32::from(next != left) << l;
            left = next;
        }
        (left, rests_on)
    }

    /// The values of j that the snake rule allows for w, with v of i, and what it rests on that there are no more.
    #[inline(always)]
    fn replacements(&self, state: &State, (i, v): (usize, usize), (j, w): (usize, usize)) -> (u16, u32) {
        self.serving(state, state.items & !(1 << i), self.supports(state, i, v, j), j, (j, w))
    }

    /// The values of i that the fold rule allows for v of j, and what it rests on that there are no more.
    #[inline(always)]
    fn stand_ins(&self, state: &State, i: usize, (j, v): (usize, usize)) -> (u16, u32) {
        self.serving(state, state.items & !(1 << j), self.supports(state, j, v, i), i, (j, v))
    }

    /// The values of i that cover b, and what it rests on that there are no more.
    #[inline(always)]
    fn covering(&self, state: &State, i: usize, b: usize) -> (u16, u32) {
        self.serving(state, state.items, state.settings[i] & !(1 << b), i, (i, b))
    }

    /// Nothing where the snake rule holds for a live v; else the items that its failure rests on.
    #[inline(always)]
    fn snake_fails(&self, state: &State, i: usize, v: usize) -> Option<u32> {
        for j in falling(state.items & self.neighbours[i]) {
            for w in falling_values(state.settings[j] & !self.rows[i][j][v]) {
                let (left, rests_on) = self.replacements(state, (i, v), (j, w));
                if left == 0 {
                    return Some(rests_on | 1 << j);
                }
            }
        }
        None
    }

    /// Nothing where the fold rule holds for two items in; else the items other than j that its failure rests on, and the value of j.
    #[inline(always)]
    fn triangle_fails(&self, state: &State, i: usize, j: usize) -> Option<(u32, usize)> {
        for v in falling_values(state.settings[j]) {
            let (left, rests_on) = self.stand_ins(state, i, (j, v));
            if left == 0 {
                return Some((rests_on, v));
            }
        }
        None
    }

    /// For each value b of i the values a that it can slide to, and the items that it rests on that there are no more. Each value d of
    /// another item is looked at once, for all b and a.
    fn slides_from(&self, state: &State, i: usize) -> ([u16; MAX_SETTINGS], u32) {
        let live = state.settings[i];
        let mut slides = self.bits.map(|b| if live & b == 0 { 0 } else { live & !b });
        let mut rests_on = 0;
        for k in falling(state.items & self.neighbours[i]) {
            for d in falling_values(state.settings[k]) {
                let with_d = self.rows[k][i][d];
                // What d asks of a slide of b: nothing where d is barred with b, else one of these goals. Where a is allowed with d, d serves.
                let asks = |goals: u16| self.bits.map(|b| if with_d & b == 0 { u16::MAX } else { goals });
                let served = asks(with_d);
                if slides.iter().zip(served).fold(0, |lost, (set, served)| lost | set & !served) == 0 {
                    continue;
                }
                let (goals, fails_at) = self.slide_goals(state, i, k, d);
                slides.iter_mut().zip(asks(goals)).for_each(|(set, served)| *set &= served);
                rests_on |= fails_at | 1 << k;
            }
            if slides == [0; MAX_SETTINGS] {
                break;
            }
        }
        (slides, rests_on)
    }

    /// The values of i that are allowed with d, or with a value e of k that covers d at every item other than i and k; and the items that
    /// it rests on that there are no more.
    #[inline(always)]
    fn slide_goals(&self, state: &State, i: usize, k: usize, d: usize) -> (u16, u32) {
        let (serving, rests_on) = self.serving(state, state.items & !(1 << i), state.settings[k] & !(1 << d), k, (k, d));
        (self.partners(serving | 1 << d, k, i), rests_on)
    }

    /// Whether the slide rule holds for two live values of i.
    fn slides(&self, state: &State, i: usize, b: usize, a: usize) -> bool {
        members(state.items & self.neighbours[i])
            .all(|k| values(self.spoilers(state, i, b, a, k)).all(|d| self.replacements(state, (i, a), (k, d)).0 != 0))
    }

    /// The lowest item at which a fails to cover b.
    fn first_gap(&self, state: &State, i: usize, b: usize, a: usize) -> Option<usize> {
        members(state.items & self.neighbours[i]).find(|&l| self.spoilers(state, i, b, a, l) != 0)
    }

    fn lawful(&self, state: &State, step: Step) -> bool {
        match step {
            Step::Unsupported { i, b, k } => state.is_live(i, b) && has(state.items, k) && i != k && self.supports(state, i, b, k) == 0,
            Step::Snake { i, v } => state.is_live(i, v) && self.snake_fails(state, i, v).is_none(),
            Step::Triangle { i, j } => has(state.items, i) && has(state.items, j) && i != j && self.triangle_fails(state, i, j).is_none(),
            Step::Neighbourhood { i, b, a } => state.two_live(i, b, a) && self.first_gap(state, i, b, a).is_none(),
            Step::SnakeSubstitution { i, b, a } => state.two_live(i, b, a) && self.slides(state, i, b, a),
        }
    }

    /// What 17 of an unlawful step names where no item is emptied: the lowest item where a cover breaks, and the lowest bit of the word of
    /// what spoils it there.
    #[cold]
    fn named(&self, state: &State, step: Step) -> (u8, u8) {
        match step {
            Step::Neighbourhood { i, b, a } if state.two_live(i, b, a) => {
                let item = self.first_gap(state, i, b, a).expect("the step is not lawful");
                (item as u8, self.spoilers(state, i, b, a, item).trailing_zeros() as u8)
            }
            _ => (NOT_NAMED, NOT_NAMED),
        }
    }

    /// Does a lawful step where no item is emptied.
    fn perform(&self, state: &mut State, step: Step) {
        match step {
            Step::Unsupported { i, b, .. } | Step::Neighbourhood { i, b, .. } | Step::SnakeSubstitution { i, b, .. } => {
                state.settings[i] &= !(1 << b)
            }
            Step::Snake { i, .. } | Step::Triangle { i, .. } => self.take_out(state, i),
        }
    }

    /// Takes an item out that is not emptied, and with it what elsewhere has no support at it.
    fn take_out(&self, state: &mut State, i: usize) {
        let live = std::mem::take(&mut state.settings[i]);
        state.items &= !(1 << i);
        for j in members(state.items & self.neighbours[i]) {
            state.settings[j] &= self.partners(live, i, j);
        }
    }

    /// The full state without the values that have no support, until each has its supports; where an item is emptied, all of them go. Item
    /// after item is held against those of its neighbours that changed since it was looked at last.
    fn started(&self) -> State {
        let mut state = self.full_state();
        let mut changed = 0;
        for i in members(state.items) {
            changed |= u32::from(state.settings[i] & self.unsupported[i] != 0) << i;
            state.settings[i] &= !self.unsupported[i];
        }
        let mut changed_near = self.neighbours.map(|near| near & changed);
        while changed != 0 && !state.is_emptied() {
            changed = 0;
            for i in members(state.items) {
                let near = members(std::mem::take(&mut changed_near[i]));
                let left = near.fold(state.settings[i], |left, k| left & self.partners(state.settings[k], k, i));
                if left != state.settings[i] {
                    state.settings[i] = left;
                    changed |= 1 << i;
                    members(self.neighbours[i]).for_each(|j| changed_near[j] |= 1 << i);
                }
            }
        }
        if state.is_emptied() {
            state.settings = [0; MAX_ITEMS];
        }
        state
    }

    fn undo(&self, before: &State, step: Step, plan: &mut [u8]) {
        match step {
            Step::Snake { i, v } => {
                plan[i] = v as u8;
                for j in members(before.items & self.neighbours[i]) {
                    let w = usize::from(plan[j]);
                    if self.rows[i][j][v] >> w & 1 == 0 {
                        plan[j] = lowest(self.replacements(before, (i, v), (j, w)).0);
                    }
                }
            }
            Step::Triangle { i, j } => plan[i] = lowest(self.stand_ins(before, i, (j, usize::from(plan[j]))).0),
            _ => {}
        }
    }

    fn is_solution(&self, state: &State, plan: &[u8]) -> bool {
        let live = |i: usize| has(u32::from(state.settings[i]), usize::from(plan[i]));
        let placed = |i: usize| if has(state.items, i) { live(i) } else { plan[i] == OUT };
        let agrees = |i: usize, j: usize| has(u32::from(self.rows[i][j][usize::from(plan[i])]), usize::from(plan[j]));
        (0..self.count).all(placed) && members(state.items).all(|i| members(state.items & self.neighbours[i]).all(|j| agrees(i, j)))
    }
}

/// The lowest of the values that a lawful step allows: there is one.
fn lowest(values: u16) -> u8 {
    assert!(values != 0, "the step was lawful");
    values.trailing_zeros() as u8
}

#[derive(Clone, Copy)]
enum Step {
    Unsupported { i: usize, b: usize, k: usize },
    Snake { i: usize, v: usize },
    Triangle { i: usize, j: usize },
    Neighbourhood { i: usize, b: usize, a: usize },
    SnakeSubstitution { i: usize, b: usize, a: usize },
}

impl Step {
    /// Whether undoing it changes a plan.
    fn takes_out(self) -> bool {
        matches!(self, Step::Snake { .. } | Step::Triangle { .. })
    }

    /// Writes the record at the front of the buffer, and answers its length.
    fn write(self, buffer: &mut [u8]) -> usize {
        let (fields, length) = match self {
            Step::Unsupported { i, b, k } => ([4, 1, i, b, k], 5),
            Step::Snake { i, v } => ([3, 2, i, v, 0], 4),
            Step::Triangle { i, j } => ([3, 3, i, j, 0], 4),
            Step::Neighbourhood { i, b, a } => ([4, 4, i, b, a], 5),
            Step::SnakeSubstitution { i, b, a } => ([4, 5, i, b, a], 5),
        };
        for (byte, field) in buffer[..length].iter_mut().zip(fields) {
            *byte = field as u8;
        }
        length
    }

    /// The step of the record at the front, and its length.
    fn read(bytes: &[u8]) -> Result<(Step, usize), Refusal> {
        let field = |place: usize| usize::from(bytes[place]);
        let (length, kind) = (*bytes.first().unwrap_or(&0), *bytes.get(1).unwrap_or(&0));
        if bytes.len() <= usize::from(length) {
            return Err(Refusal::RecordShape);
        }
        match (length, kind) {
            (4, 1) => Ok((Step::Unsupported { i: field(2), b: field(3), k: field(4) }, 5)),
            (3, 2) => Ok((Step::Snake { i: field(2), v: field(3) }, 4)),
            (3, 3) => Ok((Step::Triangle { i: field(2), j: field(3) }, 4)),
            (4, 4) => Ok((Step::Neighbourhood { i: field(2), b: field(3), a: field(4) }, 5)),
            (4, 5) => Ok((Step::SnakeSubstitution { i: field(2), b: field(3), a: field(4) }, 5)),
            _ => Err(Refusal::RecordShape),
        }
    }
}

// ---- The reduction ------------------------------------------------------------------------------------------------------------------

/// The tests of kinds 2 to 5, a bit for each: in each of these groups a word for each variable. A fold's bit is that of its j, in two groups;
/// a snake's and a cover's that of its value; all slides of a variable are one test, bit 0.
type Tests = [[u16; MAX_ITEMS]; 5];

const SNAKES: usize = 0;
const FOLDS: [usize; 2] = [1, 2];
const COVERS: usize = 3;
const SLIDES: usize = 4;

const NO_TESTS: Tests = [[0; MAX_ITEMS]; 5];
const ALL_TESTS: Tests = [[u16::MAX; MAX_ITEMS]; 5];

/// A state on its way down, with what is known of it.
struct Reduction {
    state: State,
    emptied: bool,
    /// Values found without support at some other item; those still live are switched off next.
    unsupported: [u16; MAX_ITEMS],
    /// The tests to be made. Any other has failed, and fails still: what its failure rests on has not changed since.
    pending: Tests,
    /// `waiting[l]`: the tests whose failure rests on item l.
    waiting: [Tests; MAX_ITEMS],
    /// `shown_by[j][i]`: the value of j for which i has no stand-in. Of all that is live at j, the failed fold rests on this alone.
    shown_by: [[u16; MAX_ITEMS]; MAX_ITEMS],
}

impl Reduction {
    fn new() -> Reduction {
        Reduction {
            state: State { items: 0, settings: [0; MAX_ITEMS] },
            emptied: false,
            unsupported: [0; MAX_ITEMS],
            pending: NO_TESTS,
            waiting: [NO_TESTS; MAX_ITEMS],
            shown_by: [[0; MAX_ITEMS]; MAX_ITEMS],
        }
    }

    fn begin(&mut self, table: &Table) {
        self.state = table.full_state();
        self.emptied = false;
        self.unsupported = table.unsupported;
        self.pending = ALL_TESTS;
        self.waiting = [NO_TESTS; MAX_ITEMS];
    }

    /// Notes that a test failed, and the items that this rests on.
    fn note(&mut self, group: usize, i: usize, bit: usize, rests_on: u32) {
        self.pending[group][i] &= !(1 << bit);
        for l in members(rests_on) {
            self.waiting[l][group][i] |= 1 << bit;
        }
    }

    /// Item l changed: what waits for it is to be tested again.
    fn wake(&mut self, l: usize) {
        for (pending, waiting) in self.pending.iter_mut().zip(&mut self.waiting[l]) {
            pending.iter_mut().zip(waiting).for_each(|(pending, waiting)| *pending |= std::mem::take(waiting));
        }
    }

    /// Switches c off at l.
    fn switch_off(&mut self, l: usize, c: usize) {
        self.state.settings[l] &= !(1 << c);
        self.emptied = self.state.settings[l] == 0;
        self.wake(l);
        let (fold, c) = (1 << (l % 16), c as u16);
        for (pending, by) in self.pending[FOLDS[l / 16]].iter_mut().zip(&self.shown_by[l]) {
            *pending |= if *by == c { fold } else { 0 };
        }
    }

    /// Notes the values elsewhere that had no other support at l than c, which is off. Most have one in the lowest or highest that is live.
    fn note_unsupported(&mut self, table: &Table, l: usize, c: usize) {
        let State { items, settings } = &self.state;
        let live = settings[l];
        if live == 0 {
            return;
        }
        // Of these it is clear to the compiler that they are within the rows.
        let [lowest, highest, c] = [live.trailing_zeros() as usize, live.ilog2() as usize, c].map(|value| value % MAX_SETTINGS);
        for i in members(items & table.neighbours[l]) {
            let rows = &table.rows[l][i];
            let touched = settings[i] & rows[c] & !self.unsupported[i];
            if touched & !(rows[lowest] | rows[highest]) != 0 {
                self.unsupported[i] |= touched & !table.partners(live, l, i);
            }
        }
    }

    /// Takes an item out where every value has its supports: then nothing else changes.
    fn take_out(&mut self, i: usize) {
        self.state.items &= !(1 << i);
        self.state.settings[i] = 0;
        self.wake(i);
    }

    /// Does the step that was found. What is covered leaves no value without support: each has one in the value that covers.
    fn perform(&mut self, table: &Table, step: Step) {
        match step {
            Step::Unsupported { i, b, .. } | Step::SnakeSubstitution { i, b, .. } => {
                self.switch_off(i, b);
                self.note_unsupported(table, i, b);
            }
            Step::Neighbourhood { i, b, .. } => self.switch_off(i, b),
            Step::Snake { i, .. } | Step::Triangle { i, .. } => self.take_out(i),
        }
    }

    fn next_unsupported(&self, table: &Table) -> Option<Step> {
        let i = members(self.state.items).find(|&i| self.unsupported[i] & self.state.settings[i] != 0)?;
        let b = values(self.unsupported[i] & self.state.settings[i]).next()?;
        let k = members(self.state.items & table.neighbours[i]).find(|&k| table.supports(&self.state, i, b, k) == 0)?;
        Some(Step::Unsupported { i, b, k })
    }

    // The four searches are not inlined, so that each is compiled as if it were alone.

    #[inline(never)]
    fn next_snake(&mut self, table: &Table) -> Option<Step> {
        for i in members(self.state.items) {
            for v in values(self.state.settings[i] & self.pending[SNAKES][i]) {
                match table.snake_fails(&self.state, i, v) {
                    None => return Some(Step::Snake { i, v }),
                    Some(rests_on) => self.note(SNAKES, i, v, rests_on),
                }
            }
        }
        None
    }

    #[inline(never)]
    fn next_triangle(&mut self, table: &Table) -> Option<Step> {
        for i in members(self.state.items) {
            let pending = u32::from(self.pending[FOLDS[0]][i]) | u32::from(self.pending[FOLDS[1]][i]) << 16;
            for j in members(self.state.items & pending & !(1 << i)) {
                match table.triangle_fails(&self.state, i, j) {
                    None => return Some(Step::Triangle { i, j }),
                    Some((rests_on, v)) => {
                        self.shown_by[j][i] = v as u16;
                        self.note(FOLDS[j / 16], i, j % 16, rests_on);
                    }
                }
            }
        }
        None
    }

    #[inline(never)]
    fn next_neighbourhood(&mut self, table: &Table) -> Option<Step> {
        for i in members(self.state.items) {
            for b in values(self.state.settings[i] & self.pending[COVERS][i]) {
                let (covering, rests_on) = table.covering(&self.state, i, b);
                if covering != 0 {
                    return Some(Step::Neighbourhood { i, b, a: covering.trailing_zeros() as usize });
                }
                self.note(COVERS, i, b, rests_on);
            }
        }
        None
    }

    #[inline(never)]
    fn next_slide(&mut self, table: &Table) -> Option<Step> {
        for i in members(self.state.items) {
            if self.pending[SLIDES][i] & 1 == 0 {
                continue;
            }
            let (slides, rests_on) = table.slides_from(&self.state, i);
            if let Some(b) = slides.iter().position(|goals| *goals != 0) {
                return Some(Step::SnakeSubstitution { i, b, a: slides[b].trailing_zeros() as usize });
            }
            self.note(SLIDES, i, 0, rests_on);
        }
        None
    }

    /// The next step of the run: a slide only where no other rule holds. A slide can leave values elsewhere without support, so these are
    /// looked for before every step.
    fn next_step(&mut self, table: &Table) -> Option<Step> {
        if self.emptied {
            return None;
        }
        if let Some(step) = self.next_unsupported(table) {
            return Some(step);
        }
        if let Some(step) = self.next_snake(table) {
            return Some(step);
        }
        self.next_triangle(table).or_else(|| self.next_neighbourhood(table)).or_else(|| self.next_slide(table))
    }

    fn end(&self) -> End {
        match (self.emptied, self.state.items) {
            (true, _) => End::Impossible,
            (false, 0) => End::Solved,
            _ => End::Rest,
        }
    }
}

// ---- The search ---------------------------------------------------------------------------------------------------------------------

/// The values still open at each item, a word for each, so that what is done for every item the compiler does for eight at once. An item out
/// has one value, which every line allows: it is never open, and never empty.
type Sets = [u16; MAX_ITEMS];

fn is_one(set: u16) -> bool {
    set & set.wrapping_sub(1) == 0
}

fn lowest_of(set: u16) -> u16 {
    set & set.wrapping_neg()
}

/// How many values a set has. Not `count_ones`, which eight words at once do not have on every machine.
#[inline(always)]
fn count_of(set: u16) -> u16 {
    let twos = set.wrapping_sub(set >> 1 & 0x5555);
    let fours = (twos & 0x3333).wrapping_add(twos >> 2 & 0x3333);
    let eights = fours.wrapping_add(fours >> 4) & 0x0f0f;
    eights.wrapping_add(eights >> 8) & 0x1f
}

/// Where a search is: the sets, and the items with one value that were met with all others. Where all were met, the sets are a plan.
#[derive(Clone, Copy)]
struct Place {
    sets: Sets,
    met: u32,
}

/// After so many tries for one value in vain, it is worth a look whether some items are too many.
const PATIENCE: u64 = 300;
/// What a value costs at most: sixteen of them are a number of fifteen bits.
const DEAREST: u16 = 2047;
/// What a value of the heaviest item costs at least, so that the costs tell heavy items apart.
const CHEAPEST: u64 = 32;

/// The search for the first plan of a state. It goes item by item and value by value, and before it goes into one it settles whether any plan
/// goes on from there, so that it never goes back. That is a question, a search of its own whose order is free: what is answered is the first
/// plan all the same.
struct Search {
    /// `lines[i][a]`: what is allowed with value a of i at each item; at i itself a alone.
    lines: [[Sets; MAX_SETTINGS]; MAX_ITEMS],
    /// The items that i must differ from: they allow no equal value.
    far: [u32; MAX_ITEMS],
    /// `swaps[a]`: the values that can change places with a at all items, and nothing else changes; as the channels of a colouring can.
    swaps: [u16; MAX_SETTINGS],
    /// 1 for each item in.
    inside: Sets,
    /// How many values were tried.
    tries: u64,
    /// With how many items in an item is linked, and one more for each failure at it: a question goes where it or one before it failed. They
    /// stay from question to question of one pick. Nothing that is answered rests on them.
    weights: [u64; MAX_ITEMS],
    /// What each value of an item costs: the scale by the weight, as far as there is room. The scale grows with the weights.
    costs: [u16; MAX_ITEMS],
    scale: u64,
    /// As in `Table`.
    bits: [u16; MAX_SETTINGS],
}

impl Search {
    fn new() -> Search {
        Search {
            lines: [[[0; MAX_ITEMS]; MAX_SETTINGS]; MAX_ITEMS],
            far: [0; MAX_ITEMS],
            swaps: [0; MAX_SETTINGS],
            inside: [0; MAX_ITEMS],
            tries: 0,
            weights: [1; MAX_ITEMS],
            costs: [DEAREST; MAX_ITEMS],
            scale: DEAREST.into(),
            bits: std::array::from_fn(|a| 1 << a),
        }
    }

    /// The first plan of a state in which every value has its supports, as that of a run has, and no item is emptied: a set of one value for
    /// each item. The plan that was found last answers the question by itself where it has the value that is asked for.
    fn first_plan(&mut self, table: &Table, state: &State) -> Option<Sets> {
        let mut place = self.begin(table, state);
        let mut known = place;
        if self.crowded(&place) || !self.any_plan(&mut known) {
            return None;
        }
        for i in members(state.items) {
            while !is_one(place.sets[i]) {
                let value = lowest_of(place.sets[i]);
                let mut fixed = place;
                let fits = self.fix(&mut fixed, i, value);
                let mut found = fixed;
                if known.sets[i] == value {
                    place = fixed;
                } else if fits && self.any_plan(&mut found) {
                    (place, known) = (fixed, found);
                } else {
                    // The plan that is known stays, so that no set is emptied.
                    self.take_off(&mut place, i, value);
                }
            }
        }
        Some(known.sets)
    }

    /// Takes the rows of the items in over. An item that has one value from the start bars nothing that is left.
    fn begin(&mut self, table: &Table, state: &State) -> Place {
        let State { items, settings } = state;
        let out: Sets = std::array::from_fn(|i| if has(*items, i) { 0 } else { u16::MAX });
        (self.scale, self.far) = (DEAREST.into(), [0; MAX_ITEMS]);
        self.inside = std::array::from_fn(|i| u16::from(has(*items, i)));
        for i in members(*items) {
            self.weights[i] = u64::from((table.neighbours[i] & items).count_ones()).max(1);
            self.costs[i] = self.cost(i);
            for a in values(settings[i]) {
                self.lines[i][a] = std::array::from_fn(|j| table.rows[i][j][a] & settings[j] | out[j]);
                self.lines[i][a][i] = 1 << a;
            }
            for j in members(items & (u32::MAX << i) << 1) {
                let apart = u32::from(settings[i] & settings[j] & table.allowed_equal(i, j) == 0);
                self.far[i] |= apart << j;
                self.far[j] |= apart << i;
            }
        }
        let sets = std::array::from_fn(|i| if has(*items, i) { settings[i] } else { 1 });
        self.find_swaps(*items, &sets);
        Place { sets, met: self.items(&sets, is_one) }
    }

    /// Values that change places with a third one change places with each other, so that each is tried with one of those that do.
    fn find_swaps(&mut self, items: u32, sets: &Sets) {
        self.swaps = [0; MAX_SETTINGS];
        let mut firsts = 0;
        for b in 0..MAX_SETTINGS {
            match values(firsts).find(|&a| !self.told_apart(sets, a, b) && self.can_swap(items, sets, a, b)) {
                None => firsts |= 1 << b,
                Some(a) => {
                    let others = self.swaps[a] | 1 << a;
                    values(others).for_each(|other| self.swaps[other] |= 1 << b);
                    self.swaps[b] = others;
                }
            }
        }
    }

    /// Whether a line of the one is the other's with these two bits exchanged, for each item that has both.
    fn can_swap(&self, items: u32, sets: &Sets, a: usize, b: usize) -> bool {
        members(items).filter(|&i| sets[i] >> a & 1 == 1).all(|i| {
            let differ = |(x, y): (&u16, &u16)| {
                let unlike = (x >> a ^ x >> b) & 1;
                x ^ unlike << a ^ unlike << b ^ y
            };
            self.lines[i][a].iter().zip(&self.lines[i][b]).map(differ).fold(0, |all, differ| all | differ) == 0
        })
    }

    /// Whether some item has one of these two values and not the other.
    fn told_apart(&self, sets: &Sets, a: usize, b: usize) -> bool {
        sets.iter().zip(&self.inside).fold(0, |all, (set, inside)| all | (set >> a ^ set >> b) & inside) != 0
    }

    /// Whether some items that must all differ are more than the values that they have together: then there is no plan, and trying values would
    /// not show it in time. From each item on, those are taken that must differ from all taken before: first the one that must differ from
    /// most of those left, since others end the taking, and that adds few values. It stops where all that are left are too few.
    fn crowded(&self, place: &Place) -> bool {
        let (open, sets) = (!place.met, &place.sets);
        members(open).any(|first| {
            let (mut rest, mut together, mut count) = (self.far[first] & open, sets[first], 1);
            while count <= together.count_ones() && count + rest.count_ones() > together.count_ones() {
                let gain = |j: &usize| (self.far[*j] & rest).count_ones() as i32 - 2 * (sets[*j] & !together).count_ones() as i32;
                // The last of the greatest, which is the lowest item.
                let Some(j) = falling(rest).max_by_key(gain) else { break };
                (rest, together, count) = (rest & self.far[j], together | sets[j], count + 1);
            }
            count > together.count_ones()
        })
    }

    /// Goes on to some plan, where there is one. After each value that is refuted the next item is chosen anew, for the weights tell more by
    /// then; but where the value failed at once, they hardly do.
    fn any_plan(&mut self, place: &mut Place) -> bool {
        let mut i = self.next_item(&place.sets);
        while place.met != u32::MAX {
            let value = lowest_of(place.sets[i]);
            let before = self.tries;
            self.tries += 1;
            let mut fixed = *place;
            let fits = self.fix(&mut fixed, i, value);
            if fits && self.any_plan(&mut fixed) {
                *place = fixed;
                return true;
            }
            if (self.tries - before > PATIENCE && self.crowded(place)) || !self.take_off(place, i, value) {
                return false;
            }
            if fits || is_one(place.sets[i]) {
                i = self.next_item(&place.sets);
            }
        }
        true
    }

    /// Leaves this value alone at i: whether no set is emptied.
    fn fix(&mut self, place: &mut Place, i: usize, value: u16) -> bool {
        place.sets[i] = value;
        self.settle(place, i)
    }

    /// Takes off a value of i that was refuted, and those with it that can change places with it and that no set tells from it: whether no set
    /// is emptied.
    fn take_off(&mut self, place: &mut Place, i: usize, value: u16) -> bool {
        let a = value.trailing_zeros() as usize % MAX_SETTINGS;
        let alike = values(self.swaps[a]).filter(|&b| !self.told_apart(&place.sets, a, b)).fold(value, |all, b| all | 1 << b);
        place.sets[i] &= !alike;
        !is_one(place.sets[i]) || (place.sets[i] != 0 && self.settle(place, i))
    }

    // The next three are not inlined, so that each is compiled as if it were alone.

    /// Takes off what is barred with an item that has one value, from i on, until each of these was met: whether no set is emptied. Keeping
    /// all values supported would take fewer tries, and more time.
    #[inline(never)]
    fn settle(&mut self, place: &mut Place, i: usize) -> bool {
        let mut rest = 1_u32 << i;
        while rest != 0 {
            let k = rest.trailing_zeros() as usize % MAX_ITEMS;
            let line = &self.lines[k][place.sets[k].trailing_zeros() as usize % MAX_SETTINGS];
            place.sets.iter_mut().zip(line).for_each(|(set, allowed)| *set &= allowed);
            place.met |= 1 << k;
            if place.sets.contains(&0) {
                self.failed(&place.sets, k);
                return false;
            }
            rest = self.items(&place.sets, is_one) & !place.met;
        }
        true
    }

    /// Weighs the item that emptied some, and the lowest of these.
    #[inline(never)]
    fn failed(&mut self, sets: &Sets, k: usize) {
        let emptied = sets.iter().position(|set| *set == 0).unwrap_or(k);
        for i in [k, emptied] {
            self.weights[i] += 1;
            self.costs[i] = self.cost(i);
            if self.weights[i] > self.scale / CHEAPEST {
                self.grow();
            }
        }
    }

    #[cold]
    fn grow(&mut self) {
        self.scale *= 2;
        self.costs = std::array::from_fn(|i| self.cost(i));
    }

    fn cost(&self, i: usize) -> u16 {
        (self.scale / self.weights[i]).min(DEAREST.into()) as u16
    }

    /// The open item that costs least, the lowest of them.
    #[inline(never)]
    fn next_item(&self, sets: &Sets) -> usize {
        let mut costs = [0; MAX_ITEMS];
        for (cost, (set, each)) in costs.iter_mut().zip(sets.iter().zip(&self.costs)) {
            *cost = count_of(*set).wrapping_mul(*each) | if is_one(*set) { i16::MAX as u16 } else { 0 };
        }
        // Signed numbers, of which eight at once have a least one on every machine; first of two halves, and of halves of these.
        let (mut halves, mut quarters) = ([0; MAX_ITEMS / 2], [0; MAX_ITEMS / 4]);
        for i in 0..MAX_ITEMS / 2 {
            halves[i] = (costs[i] as i16).min(costs[i + MAX_ITEMS / 2] as i16);
        }
        for i in 0..MAX_ITEMS / 4 {
            quarters[i] = halves[i].min(halves[i + MAX_ITEMS / 4]);
        }
        let least = quarters.iter().fold(i16::MAX, |least, cost| least.min(*cost)) as u16;
        self.items(&costs, |cost| cost == least).trailing_zeros() as usize % MAX_ITEMS
    }

    /// The items whose word is such.
    #[inline(always)]
    fn items(&self, words: &[u16; MAX_ITEMS], such: impl Fn(u16) -> bool) -> u32 {
        let gather = |words: &[u16]| words.iter().zip(&self.bits).fold(0, |all, (word, bit)| all | if such(*word) { *bit } else { 0 });
        let (low, high) = words.split_at(MAX_SETTINGS);
        u32::from(gather(low)) | u32::from(gather(high)) << MAX_SETTINGS
    }
}

// ---- The jobs -----------------------------------------------------------------------------------------------------------------------

/// The memory that the jobs work in, to be used again from call to call.
pub struct Workspace {
    table: Box<Table>,
    reduction: Box<Reduction>,
    search: Box<Search>,
    /// A moved sheet before it is known to be whole.
    moved: Box<[u8; MAX_SHEET]>,
}

impl Default for Workspace {
    fn default() -> Self {
        Workspace::new()
    }
}

impl Workspace {
    pub fn new() -> Workspace {
        Workspace {
            table: Box::new(Table::new()),
            reduction: Box::new(Reduction::new()),
            search: Box::new(Search::new()),
            moved: Box::new([0; MAX_SHEET]),
        }
    }

    /// Reads a sheet.
    pub fn read(&mut self, sheet: &[u8]) -> Answer<Accepted> {
        self.table.fill(sheet)?;
        Ok(Accepted { items: self.table.count, blocks: self.table.blocks })
    }

    /// Runs a sheet to its end.
    pub fn run(&mut self, sheet: &[u8], trace: &mut [u8], state: &mut [u8]) -> Answer<Done> {
        if state.len() != STATE_LENGTH {
            return Err(Fault::RunStateLength);
        }
        self.table.fill(sheet)?;
        if trace.len() < self.table.trace_length() {
            return Err(Refusal::TraceBuffer.into());
        }
        let done = self.reduce(trace, |_, _| {});
        state.copy_from_slice(&self.reduction.state.to_bytes());
        Ok(done)
    }

    /// The run once its sheet is read, and its buffer is long enough; each step is told with the state before it.
    #[inline(always)]
    fn reduce(&mut self, trace: &mut [u8], mut tell: impl FnMut(&State, Step)) -> Done {
        self.reduction.begin(&self.table);
        let mut steps = 0;
        let mut written = 1;
        trace[0] = 1;
        while let Some(step) = self.reduction.next_step(&self.table) {
            tell(&self.reduction.state, step);
            self.reduction.perform(&self.table, step);
            written += step.write(&mut trace[written..]);
            steps += 1;
        }
        Done { end: self.reduction.end(), steps, written }
    }

    /// Picks a plan: the run, the first plan of what is left, and putting it back.
    pub fn pick(&mut self, sheet: &[u8], trace: &mut [u8], plan: &mut [u8], state: &mut [u8]) -> Answer<Chosen> {
        if state.len() != STATE_LENGTH {
            return Err(Fault::RunStateLength);
        }
        self.table.fill(sheet)?;
        if trace.len() < self.table.trace_length() {
            return Err(Refusal::TraceBuffer.into());
        }
        if plan.len() != self.table.count {
            return Err(Refusal::ResultLength.into());
        }
        let mut steps = Vec::new();
        let run = self.reduce(trace, |before, step| {
            if step.takes_out() {
                steps.push((before.clone(), step));
            }
        });
        state.copy_from_slice(&self.reduction.state.to_bytes());
        let left = &self.reduction.state;
        let first = if self.reduction.emptied { None } else { self.search.first_plan(&self.table, left) };
        if let Some(sets) = first {
            let value = |i: usize| if has(left.items, i) { sets[i].trailing_zeros() as u8 } else { OUT };
            plan.iter_mut().enumerate().for_each(|(i, byte)| *byte = value(i));
            steps.iter().rev().for_each(|(before, step)| self.table.undo(before, *step, plan));
        }
        Ok(Chosen { run, has_plan: first.is_some() })
    }

    /// Starts taking out by hand.
    pub fn start(&mut self, sheet: &[u8], state: &mut [u8]) -> Answer<()> {
        if state.len() != HAND_STATE_LENGTH {
            return Err(Fault::HandStateLength);
        }
        self.table.fill(sheet)?;
        state.copy_from_slice(&self.table.started().to_bytes());
        Ok(())
    }

    /// Takes one item out by hand.
    pub fn hand_call(&mut self, sheet: &[u8], state: &mut [u8], item: u64) -> Answer<Taken> {
        let bytes = <&[u8; HAND_STATE_LENGTH]>::try_from(&*state).map_err(|_| Fault::HandStateLength)?;
        let mut left = State::from_bytes(bytes);
        self.table.fill(sheet)?;
        if !self.fits(&left) {
            return Err(Refusal::StateMisfit.into());
        }
        let i = members(left.items).find(|&i| i as u64 == item).ok_or(Refusal::ItemNotIn)?;
        if left.is_emptied() {
            return Err(Refusal::ItemEmpty.into());
        }
        let live = left.settings[i];
        let v = values(live).find(|&v| self.table.snake_fails(&left, i, v).is_none()).ok_or(Refusal::NoSnake)?;
        self.table.take_out(&mut left, i);
        state.copy_from_slice(&left.to_bytes());
        Ok(Taken { setting: v as u8 })
    }

    fn fits(&self, state: &State) -> bool {
        let full = self.table.full_state();
        let fits = |i: usize| state.settings[i] & !full.settings[i] == 0 && (has(state.items, i) || state.settings[i] == 0);
        state.items & !full.items == 0 && (0..MAX_ITEMS).all(fits)
    }

    /// Puts a plan for the items left back through a trace.
    pub fn put_back(&mut self, sheet: &[u8], trace: &[u8], plan: &[u8], result: &mut [u8]) -> Answer<()> {
        self.table.fill(sheet)?;
        if plan.len() != self.table.count {
            return Err(Refusal::PlanLength.into());
        }
        if result.len() != self.table.count {
            return Err(Refusal::ResultLength.into());
        }
        let (steps, left) = self.replay(trace)?;
        if !self.table.is_solution(&left, plan) {
            return Err(Refusal::PlanUnfit.into());
        }
        result.copy_from_slice(plan);
        for (before, step) in steps.iter().rev() {
            self.table.undo(before, *step, result);
        }
        Ok(())
    }

    /// The steps of a trace that take an item out, each with the state before it, since the others change nothing when undone; and the state
    /// that is left.
    fn replay(&self, trace: &[u8]) -> Answer<(Vec<(State, Step)>, State)> {
        if trace.first() != Some(&1) {
            return Err(Refusal::TraceFront.into());
        }
        let mut state = self.table.full_state();
        let mut emptied = false;
        let mut steps = Vec::new();
        let mut place = 1;
        while place < trace.len() {
            let (step, length) = Step::read(&trace[place..])?;
            if emptied || !self.table.lawful(&state, step) {
                let (item, setting) = if emptied { (NOT_NAMED, NOT_NAMED) } else { self.table.named(&state, step) };
                return Err(Unlawful { record: records_before(trace, place), item, setting }.into());
            }
            if step.takes_out() {
                steps.push((state.clone(), step));
            }
            self.table.perform(&mut state, step);
            emptied = state.is_emptied();
            place += length;
        }
        Ok((steps, state))
    }
}

/// How many records of a trace stand before this place. Counted where one is refused, so that a lawful trace is not slower for it.
#[cold]
fn records_before(trace: &[u8], place: usize) -> u16 {
    let next = |&at: &usize| Some(at + 1 + usize::from(trace[at])).filter(|&next| next <= place);
    (std::iter::successors(Some(1), next).count() - 1) as u16
}

// ---- Moving -------------------------------------------------------------------------------------------------------------------------

/// The bytes of the longest rows of a block, and how many words these are.
const ROWS: usize = 2 * MAX_SETTINGS;
const WORDS: usize = ROWS / 8;

/// The words in which the first bytes, so many, have all their bits.
const FIRST: [[u64; WORDS]; ROWS + 1] = {
    let mut words = [[0; WORDS]; ROWS + 1];
    let mut place = 0;
    while place < ROWS * (ROWS + 1) {
        let (count, byte) = (place / ROWS, place % ROWS);
        words[count][byte / 8] |= if byte < count { 0xff << (byte % 8 * 8) } else { 0 };
        place += 1;
    }
    words
};

impl Workspace {
    /// Writes the other version of a sheet. Each block is judged and moved in one go, to memory of our own: a fault may follow.
    pub fn move_sheet(&mut self, sheet: &[u8], target: &mut [u8]) -> Answer<Written> {
        let (table, moved) = (&mut *self.table, &mut *self.moved);
        table.read_front(sheet)?;
        table.read_sizes(&sheet[8..])?;
        let (front, blocks) = sheet.split_at(8 + table.count);
        let mut length = front.len();
        each_block(blocks, table.count, table.blocks, |bytes, (i, j)| {
            // As many bytes as a block has at most: what is too much is written over by the next, or is not copied.
            let (items, rows) = moved[length..length + 2 + ROWS].split_at_mut(2);
            items.copy_from_slice(&[i as u8, j as u8]);
            let (written, rest) = table.move_rows(bytes, (i, j), rows.try_into().expect("as many as asked for"))?;
            length += 2 + written;
            Ok(rest)
        })?;
        moved[..front.len()].copy_from_slice(front);
        moved[0] = other_version(table.version);
        moved[1..5].copy_from_slice(&(length as u32).to_be_bytes());
        target.get_mut(..length).ok_or(Refusal::TargetBuffer)?.copy_from_slice(&moved[..length]);
        Ok(Written { bytes: length })
    }
}

fn other_version(version: u8) -> u8 {
    3 - version
}

impl Table {
    /// Judges the rows at the front and writes them as the other version has them: how many bytes these have, and what follows the rows.
    #[inline(always)]
    fn move_rows<'a>(&self, bytes: &'a [u8], (i, j): (usize, usize), place: &mut [u8; ROWS]) -> Result<(usize, &'a [u8]), Refusal> {
        let [width, other_width] = [self.version, other_version(self.version)].map(|version| row_bytes(version, self.sizes[j]));
        let length = width * self.sizes[i];
        if bytes.len() < length {
            return Err(Refusal::BlockBytes);
        }
        let rows = first_rows(bytes);
        let (beyond, barred) = judged(&rows, length, width, below(self.sizes[j]));
        if beyond {
            return Err(Refusal::RowBeyond);
        }
        if !barred {
            return Err(Refusal::BarsNothing);
        }
        match (width, other_width) {
            (2, 1) => place.iter_mut().zip(rows.chunks_exact(2)).for_each(|(byte, row)| *byte = row[1]),
            (1, 2) => place.chunks_exact_mut(2).zip(rows).for_each(|(row, byte)| row.copy_from_slice(&[0, byte])),
            _ => *place = rows,
        }
        Ok((other_width * self.sizes[i], &bytes[length..]))
    }
}

/// As many bytes as rows have at most, zeros after the sheet's end.
fn first_rows(bytes: &[u8]) -> [u8; ROWS] {
    let mut rows = [0; ROWS];
    match bytes.get(..ROWS) {
        Some(whole) => rows.copy_from_slice(whole),
        None => rows[..bytes.len()].copy_from_slice(bytes),
    }
    rows
}

/// Whether the first bytes, so many, of these rows have a bit that is not of `all`, and whether they lack one: eight bytes at a time.
fn judged(rows: &[u8; ROWS], length: usize, width: usize, all: u16) -> (bool, bool) {
    // A row of two bytes, its first one lowest; or two rows of one.
    let pair = if width == 2 { all.swap_bytes() } else { all << 8 | all };
    let all = u64::from(pair) * 0x0001_0001_0001_0001;
    let (mut beyond, mut barred) = (0, 0);
    for (bytes, counted) in rows.chunks_exact(8).zip(FIRST[length]) {
        let word = u64::from_le_bytes(bytes.try_into().expect("eight bytes"));
        beyond |= word & !all & counted;
        barred |= !word & all & counted;
    }
    (beyond != 0, barred != 0)
}

// ---- The colouring file -------------------------------------------------------------------------------------------------------------

/// The edges of a colouring file, as its bytes are gone through once.
struct Edges {
    /// What the `p` line states, once it was met; without it no vertex is inside.
    stated: Option<u32>,
    vertices: u32,
    lines: u32,
    looped: bool,
    /// Bit j of `higher[i]` for an edge of items i < j. Without meaning where there are more than 32 vertices.
    higher: [u32; MAX_ITEMS],
}

impl Edges {
    /// One `e` line. Without a `p` line before it every vertex is outside.
    fn add(&mut self, a: u32, b: u32) -> Option<()> {
        let (low, high) = (a.min(b).wrapping_sub(1), a.max(b).wrapping_sub(1));
        // 0 wraps to the greatest number.
        if low >= self.vertices || high >= self.vertices {
            return None;
        }
        self.lines += 1;
        self.looped |= low == high;
        self.higher[low as usize % MAX_ITEMS] |= 1 << (high % 32);
        Some(())
    }

    /// Goes through all lines; nothing where one is wrong.
    fn read(&mut self, file: &[u8]) -> Option<()> {
        let mut rest = file;
        while let Some(&first) = rest.first() {
            rest = match first {
                b'e' => {
                    let (a, b, after) = short_edge(rest).or_else(|| any_edge(rest))?;
                    self.add(a, b)?;
                    after
                }
                b'c' => after_newline(rest),
                _ if self.stated.is_some() => return None,
                _ => {
                    let (vertices, middle) = digits(rest.strip_prefix(b"p edge ")?)?;
                    let (stated, end) = digits(middle.strip_prefix(b" ")?)?;
                    (self.vertices, self.stated) = (vertices, Some(stated));
                    line_end(end)?
                }
            };
        }
        Some(())
    }
}

/// A word with this byte at every place.
const fn everywhere(byte: u8) -> u64 {
    u64::from_ne_bytes([byte; 8])
}

/// Whether a byte of the word is 0.
fn has_zero(word: u64) -> bool {
    word.wrapping_sub(everywhere(1)) & !word & everywhere(0x80) != 0
}

/// What follows the first newline, or nothing: eight bytes at a time are looked at.
fn after_newline(bytes: &[u8]) -> &[u8] {
    let mut words = bytes.chunks_exact(8);
    let clear = words.position(|word| has_zero(u64::from_le_bytes(word.try_into().expect("eight bytes")) ^ everywhere(b'\n')));
    let from = 8 * clear.unwrap_or(bytes.len() / 8);
    let newline = bytes[from..].iter().position(|&byte| byte == b'\n');
    newline.map_or(&[], |place| &bytes[from + place + 1..])
}

/// An `e` line with vertices of one or two digits, without a branch on its shape: its two vertices, and what follows. Such a line has at
/// most eight bytes with its newline. Any other line, and one of the last seven bytes, is left to `any_edge`.
fn short_edge(bytes: &[u8]) -> Option<(u32, u32, &[u8])> {
    let line = <&[u8; 8]>::try_from(bytes.get(..8)?).expect("eight bytes");
    let byte = |place: usize| line[place % 8];
    let digit = |place: usize| u32::from(byte(place).wrapping_sub(b'0'));
    // The number at this place, the place after it, and whether it is one.
    let number = |place: usize| {
        let (first, second) = (digit(place), digit(place + 1));
        let two = second < 10;
        (if two { 10 * first + second } else { first }, place + 1 + usize::from(two), first < 10)
    };
    let (a, space, is_first) = number(2);
    let (b, newline, is_second) = number(space + 1);
    // The newline's place by itself, so that the next line need not wait for the numbers of this one.
    let length = 8 - usize::from(line[6] == b'\n') - 2 * usize::from(line[5] == b'\n');
    let marks = line[0] == b'e' && line[1] == b' ' && byte(space) == b' ' && byte(newline) == b'\n';
    (marks && is_first && is_second && newline + 1 == length).then(|| (a, b, &bytes[length..]))
}

/// Any `e` line: its two vertices, and what follows.
fn any_edge(bytes: &[u8]) -> Option<(u32, u32, &[u8])> {
    let (a, middle) = digits(bytes.strip_prefix(b"e ")?)?;
    let (b, end) = digits(middle.strip_prefix(b" ")?)?;
    Some((a, b, line_end(end)?))
}

/// A number of one to nine digits at the front, and what follows.
fn digits(bytes: &[u8]) -> Option<(u32, &[u8])> {
    let digit = |byte: &u8| byte.wrapping_sub(b'0') < 10;
    let length = bytes.iter().take(10).take_while(|&byte| digit(byte)).count();
    let (number, rest) = bytes.split_at(length);
    (1..=9).contains(&length).then(|| (number.iter().fold(0, |value, byte| 10 * value + u32::from(byte - b'0')), rest))
}

/// What follows a line that ends here.
fn line_end(bytes: &[u8]) -> Option<&[u8]> {
    match bytes {
        [] => Some(bytes),
        [b'\n', rest @ ..] => Some(rest),
        _ => None,
    }
}

/// Writes the sheet of a colouring file. It needs no workspace.
pub fn colour(file: &[u8], channels: u64, sheet: &mut [u8]) -> Answer<Written> {
    let mut edges = Edges { stated: None, vertices: 0, lines: 0, looped: false, higher: [0; MAX_ITEMS] };
    if file.len() > MAX_FILE || edges.read(file).is_none() {
        return Err(Refusal::GraphFile.into());
    }
    let stated = edges.stated.ok_or(Refusal::GraphFile)?;
    if edges.looped {
        return Err(Refusal::GraphLoop.into());
    }
    if edges.lines != stated {
        return Err(Refusal::EdgeCount.into());
    }
    let n = edges.vertices as usize;
    if !(1..=MAX_ITEMS).contains(&n) || !(1..=MAX_SETTINGS as u64).contains(&channels) {
        return Err(Refusal::ColourRange.into());
    }
    let size = channels as usize;
    let blocks = edges.higher.iter().map(|set| set.count_ones() as usize).sum::<usize>();
    let length = 8 + n + blocks * (2 + 2 * size);
    let sheet = sheet.get_mut(..length).ok_or(Refusal::SheetBuffer)?;
    let (front, rest) = sheet.split_at_mut(8 + n);
    front[0] = 1;
    front[1..5].copy_from_slice(&(length as u32).to_be_bytes());
    front[5] = n as u8;
    front[6..8].copy_from_slice(&(blocks as u16).to_be_bytes());
    front[8..].fill(size as u8);
    write_blocks(&edges.higher, size, rest);
    Ok(Written { bytes: length })
}

/// All blocks have the same rows, which are made once.
fn write_blocks(higher: &[u32; MAX_ITEMS], size: usize, bytes: &mut [u8]) {
    let mut block = [0; 2 + 2 * MAX_SETTINGS];
    for (a, row) in block[2..2 + 2 * size].chunks_exact_mut(2).enumerate() {
        row.copy_from_slice(&(below(size) & !(1 << a)).to_be_bytes());
    }
    let pairs = higher.iter().enumerate().flat_map(|(i, &set)| members(set).map(move |j| [i as u8, j as u8]));
    for (place, pair) in bytes.chunks_exact_mut(2 + 2 * size).zip(pairs) {
        block[..2].copy_from_slice(&pair);
        place.copy_from_slice(&block[..2 + 2 * size]);
    }
}
