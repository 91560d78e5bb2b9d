//! The fixed peer: run, start, hand call and putting back as the fast implementation (fast.rs) had them before it asked sixteen values at
//! once, and reading, kept as it is: instructions and times of one day can be held against those of another. It has no other job, and
//! shares nothing with fast.rs, so that it stays where that changes. From docs/FORMAT.md: sets as bit masks, and the rows of every pair both
//! ways in one dense table. The answers' types and the limits are those of the library; all else is written here. No part of the library:
//! tests/support has it.
//!
//! Two facts save most of the work, and neither changes the trace. A state only ever shrinks, so a value that covers another at an item
//! covers it there for good: for each two values one mark, the lowest item at which the one may fail to cover the other, only moves up
//! (`Reduction::gap`). And a rule that failed rests on a few items only: it is not tested again before one of them changes (`Failed`).
//! Slides are looked for last, and all those of one item together, as words (`Reduction::slides_from`): a run that comes to rest has to
//! test every one.

use zomuwedli::{Accepted, End, Refusal, Taken, Unlawful};
use zomuwedli::{HAND_STATE_LENGTH, MAX_ITEMS, MAX_SETTINGS, NOT_NAMED, OUT, STATE_LENGTH};

use super::{Answer, Done, Fault};

/// What a mark says when no item is left at which a value fails to cover another.
const NONE: usize = MAX_ITEMS;

type Rows = [[[u16; MAX_ITEMS]; MAX_SETTINGS]; MAX_ITEMS];
type Marks = [[[u8; MAX_SETTINGS]; MAX_SETTINGS]; MAX_ITEMS];

/// The set of each value alone.
const BITS: [u16; MAX_SETTINGS] = [1, 2, 4, 8, 16, 32, 64, 128, 256, 512, 1024, 2048, 4096, 8192, 16384, 32768];

/// The members of a set, rising.
fn members(set: u32) -> impl Iterator<Item = usize> {
    let mut rest = set;
    std::iter::from_fn(move || {
        let lowest = rest.trailing_zeros() as usize;
        rest &= rest.wrapping_sub(1);
        (lowest < 32).then_some(lowest)
    })
}

fn values(set: u16) -> impl Iterator<Item = usize> {
    members(u32::from(set))
}

/// The set of all values below a size of 1 to 16.
fn below(size: usize) -> u16 {
    u16::MAX >> (MAX_SETTINGS - size)
}

fn has(set: u32, member: usize) -> bool {
    member < 32 && set >> member & 1 == 1
}

/// A state: bit i of `items` for an item in, bit c of `settings[i]` for a setting on at it.
#[derive(Clone)]
pub struct State {
    pub items: u32,
    pub settings: [u16; MAX_ITEMS],
}

impl State {
    /// The state that these bytes hold.
    pub fn from_bytes(bytes: &[u8; STATE_LENGTH]) -> State {
        let items = u32::from_be_bytes([bytes[0], bytes[1], bytes[2], bytes[3]]);
        let settings = std::array::from_fn(|i| u16::from_be_bytes([bytes[4 + 2 * i], bytes[5 + 2 * i]]));
        State { items, settings }
    }

    /// The bytes that hold this state.
    pub fn to_bytes(&self) -> [u8; STATE_LENGTH] {
        let mut bytes = [0; STATE_LENGTH];
        bytes[..4].copy_from_slice(&self.items.to_be_bytes());
        for (place, settings) in bytes[4..].chunks_exact_mut(2).zip(&self.settings) {
            place.copy_from_slice(&settings.to_be_bytes());
        }
        bytes
    }
}

// ---- The sheet ----------------------------------------------------------------------------------------------------------------------

/// A sheet's table: `rows[i][a][j]` is the set of values of j allowed with value a of i. Where a pair has no block, and for j = i, all
/// 16 bits are set: every use meets the row with values that are live.
struct Table {
    version: u8,
    sizes: [usize; MAX_ITEMS],
    count: usize,
    blocks: usize,
    rows: Rows,
    /// The values that some row gives nothing: they have no support before the first step.
    unsupported: [u16; MAX_ITEMS],
    /// The items that have a block with i.
    neighbours: [u32; MAX_ITEMS],
}

impl Table {
    fn new() -> Table {
        Table {
            version: 1,
            sizes: [0; MAX_ITEMS],
            count: 0,
            blocks: 0,
            rows: [[[0; MAX_ITEMS]; MAX_SETTINGS]; MAX_ITEMS],
            unsupported: [0; MAX_ITEMS],
            neighbours: [0; MAX_ITEMS],
        }
    }

    /// Reads a sheet into the table; a refused one leaves the table without meaning.
    fn fill(&mut self, sheet: &[u8]) -> Result<(), Refusal> {
        self.read_front(sheet)?;
        self.read_sizes(&sheet[8..])?;
        self.rows[..self.count].fill([[u16::MAX; MAX_ITEMS]; MAX_SETTINGS]);
        self.unsupported = [0; MAX_ITEMS];
        self.neighbours = [0; MAX_ITEMS];
        let (count, blocks) = (self.count, self.blocks);
        each_block(&sheet[8 + count..], count, blocks, |bytes, pair| self.read_block(bytes, pair))
    }

    fn read_front(&mut self, sheet: &[u8]) -> Result<(), Refusal> {
        if sheet.len() < 8 {
            return Err(Refusal::SheetFront);
        }
        self.version = sheet[0];
        if !(1..=2).contains(&self.version) {
            return Err(Refusal::SheetVersion);
        }
        if u32::from_be_bytes([sheet[1], sheet[2], sheet[3], sheet[4]]) as usize != sheet.len() {
            return Err(Refusal::SheetLength);
        }
        self.count = usize::from(sheet[5]);
        self.blocks = usize::from(u16::from_be_bytes([sheet[6], sheet[7]]));
        if (1..=MAX_ITEMS).contains(&self.count) {
            Ok(())
        } else {
            Err(Refusal::ItemCount)
        }
    }

    fn read_sizes(&mut self, bytes: &[u8]) -> Result<(), Refusal> {
        let sizes = bytes.get(..self.count).ok_or(Refusal::ItemSize)?;
        for (size, byte) in self.sizes.iter_mut().zip(sizes) {
            *size = usize::from(*byte);
            if !(1..=MAX_SETTINGS).contains(size) {
                return Err(Refusal::ItemSize);
            }
        }
        Ok(())
    }

    /// Enters one block both ways, and answers what follows it.
    fn read_block<'a>(&mut self, bytes: &'a [u8], (i, j): (usize, usize)) -> Result<&'a [u8], Refusal> {
        let size = self.sizes[i];
        let width = row_bytes(self.version, self.sizes[j]);
        if bytes.len() < width * size {
            return Err(Refusal::BlockBytes);
        }
        let (lines, rest) = bytes.split_at(width * size);
        let all = below(self.sizes[j]);
        let mut block = [0; MAX_SETTINGS];
        if width == 2 {
            for (row, line) in block.iter_mut().zip(lines.chunks_exact(2)) {
                *row = u16::from_be_bytes([line[0], line[1]]);
            }
        } else {
            block.iter_mut().zip(lines).for_each(|(row, &line)| *row = line.into());
        }
        if block.iter().any(|row| row & !all != 0) {
            return Err(Refusal::RowBeyond);
        }
        if block[..size].iter().all(|&row| row == all) {
            return Err(Refusal::BarsNothing);
        }
        self.enter(i, j, &block);
        self.enter(j, i, &transposed(block));
        Ok(rest)
    }

    fn enter(&mut self, i: usize, j: usize, block: &[u16; MAX_SETTINGS]) {
        self.neighbours[i] |= 1 << j;
        for (a, &row) in block[..self.sizes[i]].iter().enumerate() {
            self.rows[i][a][j] = row;
            self.unsupported[i] |= u16::from(row == 0) << a;
        }
    }

    fn full_state(&self) -> State {
        let settings = std::array::from_fn(|i| if i < self.count { below(self.sizes[i]) } else { 0 });
        State { items: u32::MAX >> (MAX_ITEMS - self.count), settings }
    }

    fn trace_length(&self) -> usize {
        1 + 5 * self.sizes[..self.count].iter().sum::<usize>()
    }
}

/// How many bytes a row has, by the size of j.
fn row_bytes(version: u8, size: usize) -> usize {
    1 + usize::from(version == 1 || size > 8)
}

/// Goes through the blocks, so many, of a sheet with so many items: `take` is given what follows a block's two items, and answers what
/// follows the block.
#[inline(always)]
fn each_block<'a>(
    bytes: &'a [u8],
    count: usize,
    blocks: usize,
    mut take: impl FnMut(&'a [u8], (usize, usize)) -> Result<&'a [u8], Refusal>,
) -> Result<(), Refusal> {
    let mut rest = bytes;
    let mut before = None;
    for _ in 0..blocks {
        let [i, j, rows @ ..] = rest else { return Err(Refusal::BlockBytes) };
        let pair = (usize::from(*i), usize::from(*j));
        if pair.0 >= pair.1 || pair.1 >= count || before >= Some(pair) {
            return Err(Refusal::BlockOrder);
        }
        rest = take(rows, pair)?;
        before = Some(pair);
    }
    if rest.is_empty() {
        Ok(())
    } else {
        Err(Refusal::BlockBytes)
    }
}

/// Bit a of row c for bit c of row a: squares off the diagonal are exchanged, 8 wide, then 4, 2 and 1.
fn transposed(mut block: [u16; MAX_SETTINGS]) -> [u16; MAX_SETTINGS] {
    for (width, low) in [(8, 0x00ff), (4, 0x0f0f), (2, 0x3333), (1, 0x5555)] {
        for a in (0..MAX_SETTINGS).filter(|a| a & width == 0) {
            let swap = ((block[a] >> width) ^ block[a + width]) & low;
            block[a] ^= swap << width;
            block[a + width] ^= swap;
        }
    }
    block
}

// ---- The rules ----------------------------------------------------------------------------------------------------------------------

impl Table {
    /// The values of j allowed with value a of i that are live.
    fn supports(&self, state: &State, i: usize, a: usize, j: usize) -> u16 {
        self.rows[i][a][j] & state.settings[j]
    }

    /// The values live at l that spoil a cover of b, a value of j, by a, a value of i: they are allowed with b and barred with a.
    fn spoilers(&self, state: &State, (i, a): (usize, usize), (j, b): (usize, usize), l: usize) -> u16 {
        self.rows[j][b][l] & !self.rows[i][a][l] & state.settings[l]
    }

    /// The lowest variable from `from` on, `apart` left out, at which a fails to cover b. A variable out has no value live, and the two
    /// rows at i itself are full, so neither is ever one where it fails.
    fn next_gap(&self, state: &State, i: usize, b: usize, a: usize, from: usize, apart: usize) -> usize {
        let (rows_b, rows_a) = (&self.rows[i][b], &self.rows[i][a]);
        (from..self.count).find(|&l| rows_b[l] & !rows_a[l] & state.settings[l] != 0 && l != apart).unwrap_or(NONE)
    }

    /// The lowest variable, i and j left out, at which u, a value of i, fails to cover v, a value of j.
    fn fold_gap(&self, state: &State, (i, u): (usize, usize), (j, v): (usize, usize)) -> usize {
        (0..self.count).find(|&l| self.spoilers(state, (i, u), (j, v), l) != 0 && l != i && l != j).unwrap_or(NONE)
    }

    /// The values at j that lose their last support when i goes out.
    fn lost(&self, state: &State, i: usize, j: usize) -> u16 {
        values(state.settings[j]).filter(|&c| self.supports(state, j, c, i) == 0).fold(0, |lost, c| lost | 1 << c)
    }

    /// The lowest w' that the snake rule allows for w at j.
    fn replacement(&self, state: &State, (i, v): (usize, usize), (j, w): (usize, usize)) -> Option<usize> {
        values(self.supports(state, i, v, j)).find(|&new| self.next_gap(state, j, w, new, 0, i) == NONE)
    }

    /// The lowest u that the fold rule allows for v at j.
    fn stand_in(&self, state: &State, i: usize, (j, v): (usize, usize)) -> Option<usize> {
        values(self.supports(state, j, v, i)).find(|&u| self.fold_gap(state, (i, u), (j, v)) == NONE)
    }

    fn undo(&self, before: &State, step: Step, plan: &mut [u8]) {
        match step {
            Step::Snake { i, v } => {
                plan[i] = v as u8;
                for j in members(before.items & !(1 << i)) {
                    let w = usize::from(plan[j]);
                    if self.rows[i][v][j] >> w & 1 == 0 {
                        plan[j] = self.replacement(before, (i, v), (j, w)).expect("the step was lawful") as u8;
                    }
                }
            }
            Step::Triangle { i, j } => {
                plan[i] = self.stand_in(before, i, (j, usize::from(plan[j]))).expect("the step was lawful") as u8;
            }
            _ => {}
        }
    }

    fn is_solution(&self, state: &State, plan: &[u8]) -> bool {
        let live = |i: usize| has(u32::from(state.settings[i]), usize::from(plan[i]));
        let placed = |i: usize| if has(state.items, i) { live(i) } else { plan[i] == OUT };
        let agrees = |i: usize, j: usize| has(u32::from(self.rows[i][usize::from(plan[i])][j]), usize::from(plan[j]));
        (0..self.count).all(placed) && members(state.items).all(|i| members(state.items).all(|j| agrees(i, j)))
    }
}

#[derive(Clone, Copy)]
enum Step {
    Unsupported { i: usize, b: usize, k: usize },
    Snake { i: usize, v: usize },
    Triangle { i: usize, j: usize },
    Neighbourhood { i: usize, b: usize, a: usize },
    SnakeSubstitution { i: usize, b: usize, a: usize },
}

impl Step {
    /// Whether undoing it changes a plan.
    fn takes_out(self) -> bool {
        matches!(self, Step::Snake { .. } | Step::Triangle { .. })
    }

    /// Writes the record at the front of the buffer, and answers its length.
    fn write(self, buffer: &mut [u8]) -> usize {
        let (fields, length) = match self {
            Step::Unsupported { i, b, k } => ([4, 1, i, b, k], 5),
            Step::Snake { i, v } => ([3, 2, i, v, 0], 4),
            Step::Triangle { i, j } => ([3, 3, i, j, 0], 4),
            Step::Neighbourhood { i, b, a } => ([4, 4, i, b, a], 5),
            Step::SnakeSubstitution { i, b, a } => ([4, 5, i, b, a], 5),
        };
        for (byte, field) in buffer[..length].iter_mut().zip(fields) {
            *byte = field as u8;
        }
        length
    }

    /// The step of the record at the front, and its length.
    fn read(bytes: &[u8]) -> Result<(Step, usize), Refusal> {
        let field = |place: usize| usize::from(bytes[place]);
        let (length, kind) = (*bytes.first().unwrap_or(&0), *bytes.get(1).unwrap_or(&0));
        if bytes.len() <= usize::from(length) {
            return Err(Refusal::RecordShape);
        }
        match (length, kind) {
            (4, 1) => Ok((Step::Unsupported { i: field(2), b: field(3), k: field(4) }, 5)),
            (3, 2) => Ok((Step::Snake { i: field(2), v: field(3) }, 4)),
            (3, 3) => Ok((Step::Triangle { i: field(2), j: field(3) }, 4)),
            (4, 4) => Ok((Step::Neighbourhood { i: field(2), b: field(3), a: field(4) }, 5)),
            (4, 5) => Ok((Step::SnakeSubstitution { i: field(2), b: field(3), a: field(4) }, 5)),
            _ => Err(Refusal::RecordShape),
        }
    }
}

// ---- The reduction ------------------------------------------------------------------------------------------------------------------

/// Tests of one kind, by variable and third field. A test that failed waits until one of the items that its failure rests on changes.
struct Failed<const WIDTH: usize> {
    rests_on: [[u32; WIDTH]; MAX_ITEMS],
    waits: [u32; MAX_ITEMS],
    changed: u32,
}

impl<const WIDTH: usize> Failed<WIDTH> {
    fn new() -> Self {
        Failed { rests_on: [[0; WIDTH]; MAX_ITEMS], waits: [0; MAX_ITEMS], changed: 0 }
    }

    fn clear(&mut self) {
        self.waits = [0; MAX_ITEMS];
        self.changed = 0;
    }

    fn note(&mut self, i: usize, third: usize, rests_on: u32) {
        self.rests_on[i][third] = rests_on;
        self.waits[i] |= 1 << third;
    }

    /// Lets every test go that rests on an item changed since the last call.
    fn wake(&mut self, active: u32) {
        let changed = std::mem::take(&mut self.changed);
        if changed == 0 {
            return;
        }
        for i in members(active) {
            let woken = self.rests_on[i].iter().enumerate().fold(0, |set, (third, on)| set | u32::from(on & changed != 0) << third);
            self.waits[i] &= !woken;
        }
    }
}

/// The items at which these values fail, one for each; nothing where a value fails nowhere.
fn all_gaps(set: u16, mut gap: impl FnMut(usize) -> usize) -> Option<u32> {
    values(set).try_fold(0, |gaps, value| match gap(value) {
        NONE => None,
        item => Some(gaps | 1 << item),
    })
}

/// The marks of one item before anything is known of it: a value covers itself at every item.
const UNKNOWN: [[u8; MAX_SETTINGS]; MAX_SETTINGS] = {
    let mut marks = [[0; MAX_SETTINGS]; MAX_SETTINGS];
    let mut value = 0;
    while value < MAX_SETTINGS {
        marks[value][value] = NONE as u8;
        value += 1;
    }
    marks
};

/// A state on its way down, with what is known of it.
struct Reduction {
    state: State,
    emptied: bool,
    /// Values found without support at some other item; those still live are switched off next.
    unsupported: [u16; MAX_ITEMS],
    /// `marks[i][b][a]`: below this item a covers b.
    marks: Marks,
    snakes: Failed<MAX_SETTINGS>,
    triangles: Failed<MAX_ITEMS>,
    neighbourhoods: Failed<MAX_SETTINGS>,
    /// By variable alone: all slides of an item fail together.
    slides: Failed<1>,
}

impl Reduction {
    fn new() -> Reduction {
        Reduction {
            state: State { items: 0, settings: [0; MAX_ITEMS] },
            emptied: false,
            unsupported: [0; MAX_ITEMS],
            marks: [UNKNOWN; MAX_ITEMS],
            snakes: Failed::new(),
            triangles: Failed::new(),
            neighbourhoods: Failed::new(),
            slides: Failed::new(),
        }
    }

    fn begin(&mut self, table: &Table, state: State) {
        self.emptied = members(state.items).any(|i| state.settings[i] == 0);
        self.state = state;
        self.unsupported = table.unsupported;
        self.marks[..table.count].fill(UNKNOWN);
        self.snakes.clear();
        self.triangles.clear();
        self.neighbourhoods.clear();
        self.slides.clear();
    }

    fn note_changed(&mut self, i: usize) {
        self.snakes.changed |= 1 << i;
        self.triangles.changed |= 1 << i;
        self.neighbourhoods.changed |= 1 << i;
        self.slides.changed |= 1 << i;
    }

    fn others(&self, i: usize) -> u32 {
        self.state.items & !(1 << i)
    }

    fn is_live(&self, i: usize, a: usize) -> bool {
        has(self.state.items, i) && has(u32::from(self.state.settings[i]), a)
    }

    /// Switches b off at i, and notes the values elsewhere that had no other support there.
    fn switch_off(&mut self, table: &Table, i: usize, b: usize) {
        self.state.settings[i] &= !(1 << b);
        self.emptied |= self.state.settings[i] == 0;
        self.note_changed(i);
        for j in members(self.others(i)) {
            let touched = table.supports(&self.state, i, b, j) & !self.unsupported[j];
            for c in values(touched).filter(|&c| table.supports(&self.state, j, c, i) == 0) {
                self.unsupported[j] |= 1 << c;
            }
        }
    }

    fn take_out(&mut self, table: &Table, i: usize) {
        let lost: [u16; MAX_ITEMS] = std::array::from_fn(|j| if j == i { 0 } else { table.lost(&self.state, i, j) });
        self.state.items &= !(1 << i);
        self.state.settings[i] = 0;
        self.note_changed(i);
        for j in members(self.state.items) {
            values(lost[j]).for_each(|c| self.switch_off(table, j, c));
        }
    }

    fn perform(&mut self, table: &Table, step: Step) {
        match step {
            Step::Unsupported { i, b, .. } | Step::Neighbourhood { i, b, .. } | Step::SnakeSubstitution { i, b, .. } => {
                self.switch_off(table, i, b)
            }
            Step::Snake { i, .. } | Step::Triangle { i, .. } => self.take_out(table, i),
        }
    }

    /// The lowest item at which a fails to cover b.
    fn gap(&mut self, table: &Table, i: usize, b: usize, a: usize) -> usize {
        let mark = &mut self.marks[i][b][a];
        let gap = table.next_gap(&self.state, i, b, a, usize::from(*mark), NONE);
        *mark = gap as u8;
        gap
    }

    /// The lowest item other than `apart` at which a fails to cover b.
    fn gap_apart(&mut self, table: &Table, i: usize, b: usize, a: usize, apart: usize) -> usize {
        let gap = self.gap(table, i, b, a);
        if gap == apart {
            table.next_gap(&self.state, i, b, a, apart + 1, NONE)
        } else {
            gap
        }
    }

    /// Nothing where the snake rule holds for a live v; else the items that its failure rests on.
    fn snake_fails(&mut self, table: &Table, i: usize, v: usize) -> Option<u32> {
        for j in members(self.others(i)) {
            for w in values(self.state.settings[j] & !table.rows[i][v][j]) {
                let replacements = table.supports(&self.state, i, v, j);
                if let Some(gaps) = all_gaps(replacements, |new| self.gap_apart(table, j, w, new, i)) {
                    return Some(gaps | 1 << j);
                }
            }
        }
        None
    }

    /// Nothing where the fold rule holds for two active items; else the items that its failure rests on.
    fn triangle_fails(&self, table: &Table, i: usize, j: usize) -> Option<u32> {
        for v in values(self.state.settings[j]) {
            let stand_ins = table.supports(&self.state, j, v, i);
            if let Some(gaps) = all_gaps(stand_ins, |u| table.fold_gap(&self.state, (i, u), (j, v))) {
                return Some(gaps | 1 << j);
            }
        }
        None
    }

    fn next_unsupported(&self, table: &Table) -> Option<Step> {
        let i = members(self.state.items).find(|&i| self.unsupported[i] & self.state.settings[i] != 0)?;
        let b = values(self.unsupported[i] & self.state.settings[i]).next()?;
        let k = members(self.others(i)).find(|&k| table.supports(&self.state, i, b, k) == 0)?;
        Some(Step::Unsupported { i, b, k })
    }

    fn next_snake(&mut self, table: &Table) -> Option<Step> {
        self.snakes.wake(self.state.items);
        for i in members(self.state.items) {
            for v in values(self.state.settings[i] & !self.snakes.waits[i] as u16) {
                match self.snake_fails(table, i, v) {
                    None => return Some(Step::Snake { i, v }),
                    Some(rests_on) => self.snakes.note(i, v, rests_on),
                }
            }
        }
        None
    }

    fn next_triangle(&mut self, table: &Table) -> Option<Step> {
        self.triangles.wake(self.state.items);
        for i in members(self.state.items) {
            for j in members(self.others(i) & !self.triangles.waits[i]) {
                match self.triangle_fails(table, i, j) {
                    None => return Some(Step::Triangle { i, j }),
                    Some(rests_on) => self.triangles.note(i, j, rests_on),
                }
            }
        }
        None
    }

    fn next_neighbourhood(&mut self, table: &Table) -> Option<Step> {
        self.neighbourhoods.wake(self.state.items);
        for i in members(self.state.items) {
            for b in values(self.state.settings[i] & !self.neighbourhoods.waits[i] as u16) {
                let mut rests_on = 0;
                for a in values(self.state.settings[i] & !(1 << b)) {
                    match self.gap(table, i, b, a) {
                        NONE => return Some(Step::Neighbourhood { i, b, a }),
                        gap => rests_on |= 1 << gap,
                    }
                }
                self.neighbourhoods.note(i, b, rests_on);
            }
        }
        None
    }

    /// Asked only where `next_neighbourhood` has just found nothing, which `slides_from` relies on. Not inlined, so that the search for the
    /// other kinds is compiled as without it.
    #[inline(never)]
    fn next_slide(&mut self, table: &Table) -> Option<Step> {
        self.slides.wake(self.state.items);
        for i in members(self.state.items) {
            if self.slides.waits[i] != 0 {
                continue;
            }
            let (slides, rests_on) = self.slides_from(table, i);
            if let Some(b) = values(self.state.settings[i]).find(|&b| slides[b] != 0) {
                return Some(Step::SnakeSubstitution { i, b, a: slides[b].trailing_zeros() as usize });
            }
            self.slides.note(i, 0, rests_on);
        }
        None
    }

    /// For each value b of i the values a that it can slide to, and the items that it rests on that there are no more. Each value d of
    /// another item is looked at once, for all b and a.
    ///
    /// No cover holds, so each mark is the lowest item at which the one value fails to cover the other, and what it rests on that none covers
    /// d has been noted. An e that covers d at every item but i and k fails at i alone: its mark is i. Most d have no such e.
    fn slides_from(&self, table: &Table, i: usize) -> ([u16; MAX_SETTINGS], u32) {
        let live = self.state.settings[i];
        let mut slides = BITS.map(|b| if live & b == 0 { 0 } else { live & !b });
        let mut rests_on = 0;
        for k in members(self.state.items & table.neighbours[i]) {
            for d in values(self.state.settings[k]) {
                let with_d = table.rows[k][d][i];
                // What d asks of a slide of b: nothing where d is barred with b, else one of these goals. Where a is allowed with d, d serves.
                let asks = |goals: u16| BITS.map(|b| if with_d & b == 0 { u16::MAX } else { goals });
                let served = asks(with_d);
                if slides.iter().zip(served).fold(0, |lost, (set, served)| lost | set & !served) == 0 {
                    continue;
                }
                let may_move = self.marks[k][d].iter().fold(false, |any, &mark| any | (usize::from(mark) == i));
                let (goals, fails_at) =
                    if may_move { self.slide_goals(table, i, k, d) } else { (with_d, self.neighbourhoods.rests_on[k][d] | 1 << k) };
                slides.iter_mut().zip(asks(goals)).for_each(|(set, served)| *set &= served);
                rests_on |= fails_at;
            }
            if slides == [0; MAX_SETTINGS] {
                break;
            }
        }
        (slides, rests_on)
    }

    /// The values of i that are allowed with d, or with a value e of k that covers d at every item other than i and k; and the items that
    /// it rests on that there are no more. All e are looked at together: those that cover d at l are allowed with each value there that d is
    /// allowed with.
    fn slide_goals(&self, table: &Table, i: usize, k: usize, d: usize) -> (u16, u32) {
        let mut serving = self.state.settings[k];
        let mut rests_on = 1 << k;
        for l in members(self.state.items & table.neighbours[k] & !(1 << i)) {
            let before = serving;
            for x in values(table.supports(&self.state, k, d, l)) {
                serving &= table.rows[l][x][k];
            }
            rests_on |= u32::from(serving != before) << l;
            if serving == 1 << d {
                break;
            }
        }
        (values(serving).fold(0, |goals, e| goals | table.rows[k][e][i]), rests_on)
    }

    /// The next step of the run: a slide only where no other rule holds. A slide can leave values elsewhere without support, so these are
    /// looked for before every step.
    fn next_step(&mut self, table: &Table) -> Option<Step> {
        if self.emptied {
            return None;
        }
        if let Some(step) = self.next_unsupported(table) {
            return Some(step);
        }
        if let Some(step) = self.next_snake(table) {
            return Some(step);
        }
        self.next_triangle(table).or_else(|| self.next_neighbourhood(table)).or_else(|| self.next_slide(table))
    }

    /// Whether the slide rule holds for two live values of i.
    fn slides(&self, table: &Table, i: usize, b: usize, a: usize) -> bool {
        members(self.state.items & table.neighbours[i]).all(|k| {
            let moved = table.spoilers(&self.state, (i, a), (i, b), k);
            values(moved).all(|d| has(u32::from(self.slide_goals(table, i, k, d).0), a))
        })
    }

    fn lawful(&mut self, table: &Table, step: Step) -> bool {
        match step {
            Step::Unsupported { i, b, k } => {
                self.is_live(i, b) && has(self.state.items, k) && i != k && table.supports(&self.state, i, b, k) == 0
            }
            Step::Snake { i, v } => self.is_live(i, v) && self.snake_fails(table, i, v).is_none(),
            Step::Triangle { i, j } => {
                has(self.state.items, i) && has(self.state.items, j) && i != j && self.triangle_fails(table, i, j).is_none()
            }
            Step::Neighbourhood { i, b, a } => self.two_live(i, b, a) && self.gap(table, i, b, a) == NONE,
            Step::SnakeSubstitution { i, b, a } => self.two_live(i, b, a) && self.slides(table, i, b, a),
        }
    }

    fn two_live(&self, i: usize, b: usize, a: usize) -> bool {
        self.is_live(i, a) && self.is_live(i, b) && a != b
    }

    /// What 17 of an unlawful step names: the lowest item where a cover breaks, and the lowest bit of the word of what spoils it there.
    #[cold]
    fn named(&self, table: &Table, step: Step) -> (u8, u8) {
        match step {
            Step::Neighbourhood { i, b, a } if self.two_live(i, b, a) && !self.emptied => {
                let item = table.next_gap(&self.state, i, b, a, 0, NONE);
                let spoilers = table.spoilers(&self.state, (i, a), (i, b), item);
                (item as u8, spoilers.trailing_zeros() as u8)
            }
            _ => (NOT_NAMED, NOT_NAMED),
        }
    }

    fn end(&self) -> End {
        match (self.emptied, self.state.items) {
            (true, _) => End::Impossible,
            (false, 0) => End::Solved,
            _ => End::Rest,
        }
    }
}

// ---- The jobs -----------------------------------------------------------------------------------------------------------------------

/// The memory that the jobs work in, to be used again from call to call.
pub struct Workspace {
    table: Box<Table>,
    reduction: Box<Reduction>,
}

impl Default for Workspace {
    fn default() -> Self {
        Workspace::new()
    }
}

impl Workspace {
    pub fn new() -> Workspace {
        Workspace { table: Box::new(Table::new()), reduction: Box::new(Reduction::new()) }
    }

    /// Reads a sheet.
    pub fn read(&mut self, sheet: &[u8]) -> Answer<Accepted> {
        self.table.fill(sheet)?;
        Ok(Accepted { items: self.table.count, blocks: self.table.blocks })
    }

    /// Runs a sheet to its end.
    pub fn run(&mut self, sheet: &[u8], trace: &mut [u8], state: &mut [u8]) -> Answer<Done> {
        if state.len() != STATE_LENGTH {
            return Err(Fault::RunStateLength);
        }
        self.table.fill(sheet)?;
        if trace.len() < self.table.trace_length() {
            return Err(Refusal::TraceBuffer.into());
        }
        self.reduction.begin(&self.table, self.table.full_state());
        let mut steps = 0;
        let mut written = 1;
        trace[0] = 1;
        while let Some(step) = self.reduction.next_step(&self.table) {
            self.reduction.perform(&self.table, step);
            written += step.write(&mut trace[written..]);
            steps += 1;
        }
        state.copy_from_slice(&self.reduction.state.to_bytes());
        Ok(Done { end: self.reduction.end(), steps, written })
    }

    /// Starts taking out by hand.
    pub fn start(&mut self, sheet: &[u8], state: &mut [u8]) -> Answer<()> {
        if state.len() != HAND_STATE_LENGTH {
            return Err(Fault::HandStateLength);
        }
        self.table.fill(sheet)?;
        self.reduction.begin(&self.table, self.table.full_state());
        while let Some(Step::Unsupported { i, b, .. }) = self.reduction.next_unsupported(&self.table) {
            self.reduction.switch_off(&self.table, i, b);
        }
        state.copy_from_slice(&self.reduction.state.to_bytes());
        Ok(())
    }

    /// Takes one item out by hand.
    pub fn hand_call(&mut self, sheet: &[u8], state: &mut [u8], item: u64) -> Answer<Taken> {
        let bytes = <&[u8; HAND_STATE_LENGTH]>::try_from(&*state).map_err(|_| Fault::HandStateLength)?;
        let before = State::from_bytes(bytes);
        self.table.fill(sheet)?;
        if !self.fits(&before) {
            return Err(Refusal::StateMisfit.into());
        }
        let i = members(before.items).find(|&i| i as u64 == item).ok_or(Refusal::ItemNotIn)?;
        self.reduction.begin(&self.table, before);
        if self.reduction.emptied {
            return Err(Refusal::ItemEmpty.into());
        }
        let live = self.reduction.state.settings[i];
        let v = values(live).find(|&v| self.reduction.snake_fails(&self.table, i, v).is_none()).ok_or(Refusal::NoSnake)?;
        self.reduction.take_out(&self.table, i);
        state.copy_from_slice(&self.reduction.state.to_bytes());
        Ok(Taken { setting: v as u8 })
    }

    fn fits(&self, state: &State) -> bool {
        let full = self.table.full_state();
        let fits = |i: usize| state.settings[i] & !full.settings[i] == 0 && (has(state.items, i) || state.settings[i] == 0);
        state.items & !full.items == 0 && (0..MAX_ITEMS).all(fits)
    }

    /// Puts a plan for the items left back through a trace.
    pub fn put_back(&mut self, sheet: &[u8], trace: &[u8], plan: &[u8], result: &mut [u8]) -> Answer<()> {
        self.table.fill(sheet)?;
        if plan.len() != self.table.count {
            return Err(Refusal::PlanLength.into());
        }
        if result.len() != self.table.count {
            return Err(Refusal::ResultLength.into());
        }
        let steps = self.replay(trace)?;
        if !self.table.is_solution(&self.reduction.state, plan) {
            return Err(Refusal::PlanUnfit.into());
        }
        result.copy_from_slice(plan);
        for (before, step) in steps.iter().rev() {
            self.table.undo(before, *step, result);
        }
        Ok(())
    }

    /// The steps of a trace that take an item out, each with the state before it: the others change nothing when undone.
    fn replay(&mut self, trace: &[u8]) -> Answer<Vec<(State, Step)>> {
        if trace.first() != Some(&1) {
            return Err(Refusal::TraceFront.into());
        }
        self.reduction.begin(&self.table, self.table.full_state());
        let mut steps = Vec::new();
        let mut place = 1;
        while place < trace.len() {
            let (step, length) = Step::read(&trace[place..])?;
            if self.reduction.emptied || !self.reduction.lawful(&self.table, step) {
                let (item, setting) = self.reduction.named(&self.table, step);
                return Err(Unlawful { record: records_before(trace, place), item, setting }.into());
            }
            if step.takes_out() {
                steps.push((self.reduction.state.clone(), step));
            }
            self.reduction.perform(&self.table, step);
            place += length;
        }
        Ok(steps)
    }
}

/// How many records of a trace stand before this place. Counted where one is refused, so that a lawful trace is not slower for it.
#[cold]
fn records_before(trace: &[u8], place: usize) -> u16 {
    let next = |&at: &usize| Some(at + 1 + usize::from(trace[at])).filter(|&next| next <= place);
    (std::iter::successors(Some(1), next).count() - 1) as u16
}
