//! Sheets, states, traces, plans and colouring files for the comparisons, from a seed: lawful ones, and ones with a fault or several. No
//! part of the library: tests/support has it.

use zomuwedli::{MAX_FILE, MAX_ITEMS, MAX_SETTINGS, OUT, STATE_LENGTH};

use super::fast::State as Masks;
use super::reference::{self, Problem, State, Step};

/// A number that the environment gives, as a seed or a part of the sizes.
pub fn from_environment(name: &str, default: u64) -> u64 {
    std::env::var(name).map_or(default, |text| text.parse().unwrap_or_else(|_| panic!("{name} is not a number")))
}

/// A splitmix generator: the same seed gives the same numbers on every machine.
#[derive(Clone)]
pub struct Random(u64);

impl Random {
    pub fn new(seed: u64) -> Random {
        Random(seed)
    }

    /// The generator of one case of one part of a comparison, so that a case can be repeated alone.
    pub fn of_case(seed: u64, part: u64, case: u64) -> Random {
        let mut mixed = Random(seed ^ part.wrapping_mul(0xd1b5_4a32_d192_ed03));
        Random(mixed.word() ^ case.wrapping_mul(0xaef1_7502_108e_f2d9))
    }

    pub fn word(&mut self) -> u64 {
        self.0 = self.0.wrapping_add(0x9e37_79b9_7f4a_7c15);
        let mixed = (self.0 ^ self.0 >> 30).wrapping_mul(0xbf58_476d_1ce4_e5b9);
        let mixed = (mixed ^ mixed >> 27).wrapping_mul(0x94d0_49bb_1331_11eb);
        mixed ^ mixed >> 31
    }

    /// A number below the bound, which is not 0.
    pub fn below(&mut self, bound: usize) -> usize {
        (self.word() >> 11) as usize % bound
    }

    /// A number from the first to the last.
    pub fn between(&mut self, first: usize, last: usize) -> usize {
        first + self.below(last - first + 1)
    }

    pub fn chance(&mut self, percent: usize) -> bool {
        self.below(100) < percent
    }

    pub fn pick<T: Copy>(&mut self, choices: &[T]) -> T {
        choices[self.below(choices.len())]
    }

    pub fn byte(&mut self) -> u8 {
        self.word() as u8
    }

    pub fn bytes(&mut self, length: usize) -> Vec<u8> {
        (0..length).map(|_| self.byte()).collect()
    }
}

// ---- Sheets -------------------------------------------------------------------------------------------------------------------------

/// More bytes than a 16-bit number counts.
const MANY: usize = 66_000;

/// One block: its two items, and a row for each setting of the first.
#[derive(Clone)]
pub struct Block {
    pub i: u8,
    pub j: u8,
    pub rows: Vec<u16>,
}

/// A sheet before it is written down. The fields that may disagree with the rest are given only where they do.
#[derive(Clone)]
pub struct Draft {
    /// By which version the rows are written.
    pub version: u8,
    /// What byte 0 says.
    pub stated_version: Option<u8>,
    pub length: Option<u32>,
    pub items: Option<u8>,
    pub block_count: Option<u16>,
    pub sizes: Vec<u8>,
    pub blocks: Vec<Block>,
    pub left_over: Vec<u8>,
    pub cut: usize,
}

impl Draft {
    /// A sheet of version 1 with a block for each two items that the relation does not allow everything.
    pub fn new(sizes: Vec<u8>, mut allowed: impl FnMut(usize, usize, usize, usize) -> bool) -> Draft {
        let mut blocks = Vec::new();
        for i in 0..sizes.len() {
            for j in i + 1..sizes.len() {
                let size = usize::from(sizes[j]);
                let rows: Vec<u16> = (0..usize::from(sizes[i])).map(|a| row(size, |&b| allowed(i, a, j, b))).collect();
                if rows.iter().any(|&allows| allows != row(size, |_| true)) {
                    blocks.push(Block { i: i as u8, j: j as u8, rows });
                }
            }
        }
        Draft {
            version: 1,
            stated_version: None,
            length: None,
            items: None,
            block_count: None,
            sizes,
            blocks,
            left_over: Vec::new(),
            cut: 0,
        }
    }

    /// The same in this version.
    pub fn in_version(self, version: u8) -> Draft {
        Draft { version, ..self }
    }

    /// The same in either version.
    pub fn in_any_version(self, random: &mut Random) -> Draft {
        self.in_version(random.pick(&[1, 2]))
    }

    /// Whether the rows of a block with this j have one byte.
    fn is_narrow(&self, j: u8) -> bool {
        self.version == 2 && self.sizes.get(usize::from(j)).is_some_and(|&size| size <= 8)
    }

    pub fn bytes(&self) -> Vec<u8> {
        let version = self.stated_version.unwrap_or(self.version);
        let mut bytes = vec![version, 0, 0, 0, 0, self.items.unwrap_or(self.sizes.len() as u8)];
        bytes.extend(self.block_count.unwrap_or(self.blocks.len() as u16).to_be_bytes());
        bytes.extend(&self.sizes);
        for block in &self.blocks {
            bytes.extend([block.i, block.j]);
            let left_out = usize::from(self.is_narrow(block.j));
            block.rows.iter().for_each(|row| bytes.extend(&row.to_be_bytes()[left_out..]));
        }
        bytes.extend(&self.left_over);
        bytes.truncate(bytes.len().saturating_sub(self.cut));
        let length = self.length.unwrap_or(bytes.len() as u32).to_be_bytes();
        bytes.iter_mut().skip(1).zip(length).for_each(|(byte, stated)| *byte = stated);
        bytes
    }
}

fn row(size: usize, allowed: impl FnMut(&usize) -> bool) -> u16 {
    (0..size).filter(allowed).fold(0, |row, b| row | 1 << b)
}

/// A relation between two values.
type Relation = fn(usize, usize) -> bool;

const RELATIONS: [Relation; 8] = [
    |a, b| a == b,
    |a, b| a != b,
    |a, b| a < b,
    |a, b| a <= b,
    |a, b| a > b,
    |a, b| (a + b) % 2 == 1,
    |a, b| a.abs_diff(b) >= 2,
    |a, b| a.abs_diff(b) <= 1,
];

/// Which pairs of items have a block.
#[derive(Clone, Copy)]
enum Network {
    Sparse(usize),
    Clique,
    Cycle,
    Tree,
    Star,
    Groups(usize),
}

impl Network {
    fn random(random: &mut Random) -> Network {
        match random.below(10) {
            0..=2 => Network::Clique,
            3 => Network::Cycle,
            4 => Network::Tree,
            5 => Network::Star,
            6 => Network::Groups(random.between(2, 4)),
            _ => Network::Sparse(random.pick(&[15, 30, 50, 70, 90])),
        }
    }

    /// Whether i and j, the lower first, of n items are linked.
    fn links(self, random: &mut Random, n: usize, i: usize, j: usize) -> bool {
        match self {
            Network::Sparse(percent) => random.chance(percent),
            Network::Clique => true,
            Network::Cycle => j == i + 1 || (i == 0 && j == n - 1),
            Network::Tree => i == j / 2,
            Network::Star => i == 0,
            Network::Groups(size) => i / size == j / size,
        }
    }
}

/// How many items and how large: mostly small, many middling, some large, and some about the size where a row gets its second byte.
fn random_sizes(random: &mut Random) -> Vec<u8> {
    if random.chance(9) {
        return about_eight(random);
    }
    let (n, most) = match random.below(1000) {
        0..=649 => (random.pick(&[1, 2, 3, 3, 4, 4, 5, 5, 6]), random.pick(&[2, 3, 3, 4])),
        650..=849 => (random.between(2, 6), random.pick(&[3, 5, 6])),
        850..=949 => (random.between(5, 9), random.pick(&[2, 3, 5, 8])),
        950..=969 => (random.between(1, 6), MAX_SETTINGS),
        970..=994 => (random.between(10, 20), random.pick(&[2, 3, 6])),
        _ => (random.between(15, MAX_ITEMS), random.pick(&[1, 2, 4, MAX_SETTINGS])),
    };
    let alike = random.chance(40);
    let size = |random: &mut Random| if alike { most } else { random.between(1, most) };
    (0..n).map(|_| size(random) as u8).collect()
}

/// A sheet of two or three items of about 8 settings.
pub fn wider_draft(random: &mut Random) -> Draft {
    let sizes = about_eight(random);
    let network = Network::random(random);
    fill(random, sizes, network)
}

/// Two or three sizes about 8: in version 2 rows of both widths stand in one sheet.
fn about_eight(random: &mut Random) -> Vec<u8> {
    (0..random.between(2, 3)).map(|_| random.pick(&[2, 7, 8, 8, 8, 9, 9, 9, 16])).collect()
}

/// A relation for each pair of linked items: one known relation for all, one for each, or pairs barred at random. The values may be
/// taken together in classes, so that some are alike: this is what the cover, the fold and the slide live on. In either version.
fn fill(random: &mut Random, sizes: Vec<u8>, network: Network) -> Draft {
    let style = random.below(3);
    let for_all = random.pick(&RELATIONS);
    let barred = random.pick(&[5, 20, 35, 45, 55, 70]);
    let classes = random.pick(&[2, 3, MAX_SETTINGS, MAX_SETTINGS]);
    let n = sizes.len();
    let relations: Vec<Vec<bool>> = (0..n * n)
        .map(|pair| {
            let (i, j) = (pair / n, pair % n);
            let linked = i < j && network.links(random, n, i, j);
            let for_pair = random.pick(&RELATIONS);
            let mut entry = |a: usize, b: usize| match style {
                0 => for_all(a, b),
                1 => for_pair(a, b),
                _ => !random.chance(barred),
            };
            (0..MAX_SETTINGS * MAX_SETTINGS).map(|entry_of| !linked || entry(entry_of / MAX_SETTINGS, entry_of % MAX_SETTINGS)).collect()
        })
        .collect();
    Draft::new(sizes, |i, a, j, b| relations[i * n + j][a % classes * MAX_SETTINGS + b % classes]).in_any_version(random)
}

/// A sheet that keeps the layout.
pub fn random_draft(random: &mut Random) -> Draft {
    let sizes = random_sizes(random);
    let network = Network::random(random);
    fill(random, sizes, network)
}

/// A sheet of 32 items of 16 settings with a block for each of the 496 pairs, or for some.
pub fn large_draft(random: &mut Random) -> Draft {
    let network = if random.chance(60) { Network::Clique } else { Network::random(random) };
    fill(random, vec![MAX_SETTINGS as u8; MAX_ITEMS], network)
}

/// A sheet of 32 items of which some have 8 settings or fewer and some more, with a block for each two items.
pub fn large_mixed_draft(random: &mut Random) -> Draft {
    let sizes = (0..MAX_ITEMS).map(|_| random.pick(&[1, 8, 8, 9, 9, 16])).collect();
    fill(random, sizes, Network::Clique)
}

/// A small sheet of a few items, with a plan more often than not.
pub fn small_draft(random: &mut Random) -> Draft {
    let n = random.between(2, 5);
    let least = random.pick(&[1, 2]);
    let sizes = (0..n).map(|_| random.between(least, 3) as u8).collect();
    let network = Network::random(random);
    fill(random, sizes, network)
}

/// A sheet whose run often takes a slide: 4 to 6 items of 4 settings, every two items linked, and 20 to 40 of 100 pairs of settings barred.
pub fn sliding_draft(random: &mut Random) -> Draft {
    let (n, barred) = (random.between(4, 6), random.between(20, 40));
    linked_draft(random, n, 4, barred).in_any_version(random)
}

/// A sheet whose run often comes to rest, with a plan and without: 5 to 9 items of 3 to 5 settings, all pairs linked or most of them, and
/// about as many pairs of settings barred as leave one plan.
pub fn resting_draft(random: &mut Random) -> Draft {
    let (n, percent) = (random.between(5, 9), random.pick(&[60, 80, 100]));
    let size = random.between(3, 5);
    let linked: Vec<bool> = (0..n * n).map(|_| random.chance(percent)).collect();
    let degree = percent as f64 / 100.0 * (n - 1) as f64;
    let critical = 1.0 - (size as f64).powf(-2.0 / degree);
    let barred = (critical * random.between(80, 110) as f64) as usize;
    Draft::new(vec![size as u8; n], |i, _, j, _| !linked[i * n + j] || !random.chance(barred)).in_any_version(random)
}

/// A larger sheet whose run often takes slides, mostly several: 3 items of 6 to 16 settings; 9 to 16 items of 5 to 8, a few of the pairs
/// linked; or 2 to 8 groups of 4 items of 4.
pub fn large_sliding_draft(random: &mut Random) -> Draft {
    let draft = match random.below(10) {
        0..=3 => {
            let (size, barred) = (random.between(6, MAX_SETTINGS) as u8, random.between(30, 80));
            linked_draft(random, 3, size, barred)
        }
        4..=8 => {
            let (n, size) = (random.between(9, 16), random.between(5, 8) as u8);
            let (percent, barred) = (random.between(20, 35), random.between(20, 45));
            let linked: Vec<bool> = (0..n * n).map(|_| random.chance(percent)).collect();
            Draft::new(vec![size; n], |i, _, j, _| !linked[i * n + j] || !random.chance(barred))
        }
        _ => {
            let n = 4 * random.between(2, 8);
            Draft::new(vec![4; n], |i, _, j, _| i / 4 != j / 4 || !random.chance(35))
        }
    };
    draft.in_any_version(random)
}

/// A sheet of version 1 of n items of one size, every two of them linked, and so many of 100 pairs of settings barred.
pub fn linked_draft(random: &mut Random, n: usize, size: u8, barred: usize) -> Draft {
    Draft::new(vec![size; n], |_, _, _, _| !random.chance(barred))
}

/// Bytes that may not be a sheet at all, or are a sheet with faults.
pub fn damaged_sheet(random: &mut Random) -> Vec<u8> {
    match random.below(20) {
        0 => {
            let length = random.below(40);
            random.bytes(length)
        }
        1 => Vec::new(),
        _ => {
            let draft = random_draft(random);
            damaged(random, draft)
        }
    }
}

/// Bytes of a sheet with one fault or several, or with none: whether a fault shows is for the reader to say.
pub fn damaged(random: &mut Random, mut draft: Draft) -> Vec<u8> {
    for _ in 0..random.pick(&[1, 1, 1, 2, 2, 3]) {
        damage_draft(random, &mut draft);
    }
    let mut bytes = draft.bytes();
    if random.chance(25) {
        damage_bytes(random, &mut bytes);
    }
    bytes
}

/// One fault in a field or a block.
fn damage_draft(random: &mut Random, draft: &mut Draft) {
    match random.below(15) {
        0 => {
            let any = random.byte();
            // The other version is none to be refused, but the rows are not its own.
            draft.stated_version = Some(random.pick(&[0, 0, 3, 3, 255, any, 3 - draft.version]));
        }
        1 => draft.length = Some(random.pick(&[0, 8, 16_904, 16_905, u32::MAX])),
        2 => draft.length = Some((draft.bytes().len() as u32).wrapping_add(random.pick(&[1, 2, u32::MAX, 1 << 16, 1 << 24]))),
        3 => draft.items = Some(random.pick(&[0, 33, 255, 32, 1, 2])),
        4 => {
            let item = random.below(draft.sizes.len());
            draft.sizes[item] = random.pick(&[0, 17, 255, 16, 1]);
        }
        5 => draft.cut = random.between(1, 12),
        6 => {
            let length = if random.chance(5) { MANY } else { random.between(1, 3) };
            draft.left_over = random.bytes(length);
        }
        7 => draft.block_count = Some((draft.blocks.len() as u16).wrapping_add(random.pick(&[1, 2, u16::MAX]))),
        8 => draft.block_count = Some(random.pick(&[0, 1, 255, 256, u16::MAX])),
        _ => damage_block(random, draft),
    }
}

/// One fault in a block, where there is one.
fn damage_block(random: &mut Random, draft: &mut Draft) {
    if draft.blocks.is_empty() {
        return;
    }
    let place = random.below(draft.blocks.len());
    let other = random.below(draft.blocks.len());
    let n = draft.sizes.len() as u8;
    // The highest bit that a row has.
    let highest = if draft.is_narrow(draft.blocks[place].j) { 7 } else { MAX_SETTINGS - 1 };
    let block = &mut draft.blocks[place];
    let size = usize::from(*draft.sizes.get(usize::from(block.j)).unwrap_or(&1)).clamp(1, MAX_SETTINGS);
    match random.below(9) {
        0 => std::mem::swap(&mut block.i, &mut block.j),
        1 => block.i = block.j,
        2 => block.j = n.wrapping_add(random.pick(&[0, 1, 30])),
        3 => block.rows.iter_mut().for_each(|row| *row = u16::MAX >> (MAX_SETTINGS - size)),
        4 | 5 if !block.rows.is_empty() => {
            let line = random.below(block.rows.len());
            block.rows[line] |= 1 << random.between(size.min(highest), highest);
        }
        6 => {
            let repeated = block.clone();
            draft.blocks.insert(place, repeated);
        }
        7 => draft.blocks.swap(place, other),
        _ => {
            block.rows.pop();
        }
    }
}

/// A byte changed, or bytes cut off or put at the end, whatever the sheet states.
fn damage_bytes(random: &mut Random, bytes: &mut Vec<u8>) {
    match random.below(4) {
        0 => bytes.truncate(random.below(bytes.len() + 1)),
        1 => bytes.push(random.byte()),
        _ if bytes.is_empty() => {}
        2 => {
            let place = random.below(bytes.len());
            bytes[place] = random.byte();
        }
        _ => {
            let place = random.below(bytes.len());
            bytes[place] ^= 1 << random.below(8);
        }
    }
}

/// The eighth of the families: a sheet of 32 items of 4 settings.
pub const SLIDING_FAMILY: &str = "eight groups of four whose runs slide";

/// The ten families of sheets of 32 items that the program is timed on: nine of 16 settings, and one of 4. The last two have runs of
/// hundreds of steps, of all five kinds.
pub fn families() -> Vec<(&'static str, Vec<u8>)> {
    let mut random = Random::new(1);
    let linked: Vec<bool> = (0..MAX_ITEMS * MAX_ITEMS).map(|_| random.chance(15)).collect();
    let sheet =
        |allowed: &mut dyn FnMut(usize, usize, usize, usize) -> bool| Draft::new(vec![MAX_SETTINGS as u8; MAX_ITEMS], allowed).bytes();
    vec![
        ("no block", sheet(&mut |_, _, _, _| true)),
        ("every pair unequal", sheet(&mut |_, a, _, b| a != b)),
        ("every pair a < b", sheet(&mut |_, a, _, b| a < b)),
        ("every pair of unlike parity", sheet(&mut |_, a, _, b| unlike_parity(a, b))),
        ("|a - b| >= 3 for every pair", sheet(&mut |_, a, _, b| a.abs_diff(b) >= 3)),
        ("eight groups of four, pairwise unequal", sheet(&mut |i, a, j, b| i / 4 != j / 4 || a != b)),
        ("random, 15% of pairs, 30% barred", sheet(&mut |i, _, j, _| !linked[i * MAX_ITEMS + j] || !random.chance(30))),
        (SLIDING_FAMILY, sliding_family()),
        (
            "near each other, on a grid of four by eight",
            near_draft(&mut Random::new(28), MAX_ITEMS, 16, 18, 4, |_, i, j| on_grid(8, i, j)).bytes(),
        ),
        ("near each other, 8% of pairs", near_draft(&mut Random::new(138), MAX_ITEMS, 16, 20, 4, |random, _, _| random.chance(8)).bytes()),
    ]
}

fn unlike_parity(a: usize, b: usize) -> bool {
    (a + b) % 2 == 1
}

/// Whether two items, i < j, stand side by side or one below the other, in lines of this width.
fn on_grid(width: usize, i: usize, j: usize) -> bool {
    j == i + width || (j == i + 1 && j % width != 0)
}

/// A sheet of version 1 whose run takes hundreds of steps, of all kinds, and in which much that failed holds later: each setting has a place
/// on a line of so many, and linked items must have theirs near each other, as near as 1 to `most` from pair to pair.
fn near_draft(
    random: &mut Random,
    n: usize,
    size: u8,
    line: usize,
    most: usize,
    mut links: impl FnMut(&mut Random, usize, usize) -> bool,
) -> Draft {
    let places: Vec<usize> = (0..n * MAX_SETTINGS).map(|_| random.below(line)).collect();
    let linked: Vec<bool> = (0..n * n).map(|pair| links(random, pair / n, pair % n)).collect();
    let reach: Vec<usize> = (0..n * n).map(|_| random.between(1, most)).collect();
    let place = |i: usize, a: usize| places[i * MAX_SETTINGS + a];
    Draft::new(vec![size; n], |i, a, j, b| !linked[i * n + j] || place(i, a).abs_diff(place(j, b)) <= reach[i * n + j])
}

/// Such a sheet of 27 to 32 items of 14 to 16 settings, or of fewer: on a grid, in a chain with some further pairs, or any pairs.
pub fn long_draft(random: &mut Random, smaller: bool) -> Draft {
    let (least, most) = if smaller { ((23, 14), (25, 15)) } else { ((27, 14), (MAX_ITEMS, MAX_SETTINGS)) };
    let (n, size) = (random.between(least.0, most.0), random.between(least.1, most.1) as u8);
    let (line, most) = (random.between(17, 20), random.between(3, 5));
    let (shape, width, percent) = (random.below(3), random.between(4, 8), random.between(2, 6));
    let links = |random: &mut Random, i: usize, j: usize| match shape {
        0 => on_grid(width, i, j),
        1 => j == i + 1 || random.chance(percent),
        _ => random.chance(2 * percent + 4),
    };
    near_draft(random, n, size, line, most, links).in_any_version(random)
}

/// A sheet whose run takes 512 steps, and no sheet's takes more: each uses up one setting. The settings may only rise from item to item, and
/// that of the last must be below that of the first, or both the highest: one after the other has no partner but the highest, which then are
/// all that is left, and each item goes out.
pub fn longest_run() -> Vec<u8> {
    let (last, highest) = (MAX_ITEMS - 1, MAX_SETTINGS - 1);
    let closes = |a: usize, b: usize| b < a || (a, b) == (highest, highest);
    let allowed = |i: usize, a: usize, j: usize, b: usize| if (i, j) == (0, last) { closes(a, b) } else { j != i + 1 || a <= b };
    Draft::new(vec![MAX_SETTINGS as u8; MAX_ITEMS], allowed).bytes()
}

/// Sheets that show how the cost of a run grows with the items and the settings: every pair of unlike parity, and random ones with 15% of
/// the pairs linked and 30% barred.
pub fn growing_sheets() -> Vec<(String, Vec<u8>)> {
    let mut random = Random::new(1);
    let mut sheets = Vec::new();
    for n in [8, 16, 32] {
        for size in [4, 8, 16] {
            let parity = Draft::new(vec![size; n], |_, a, _, b| unlike_parity(a, b)).bytes();
            sheets.push((format!("unlike parity, {n} items of {size}"), parity));
        }
    }
    for n in [8, 16, 32] {
        for size in [4, 8, 16] {
            let linked: Vec<bool> = (0..n * n).map(|_| random.chance(15)).collect();
            let draft = Draft::new(vec![size; n], |i, _, j, _| !linked[i * n + j] || !random.chance(30));
            sheets.push((format!("random, {n} items of {size}"), draft.bytes()));
        }
    }
    sheets
}

/// Eight groups of four items of 4 settings, linked within their group only, so that each is worked as if it were alone: its run takes a
/// slide.
fn sliding_family() -> Vec<u8> {
    let mut random = Random::new(1);
    let problem = |draft: Draft| reference::read_sheet(&draft.bytes()).expect("the sheet keeps the layout").0;
    let slides = |problem: &Problem| problem.reduce().0.iter().any(|step| step.kind() == 5);
    let mut group = || std::iter::repeat_with(|| problem(linked_draft(&mut random, 4, 4, 35))).find(slides).expect("some are");
    let groups: [Problem; 8] = std::array::from_fn(|_| group());
    Draft::new(vec![4; MAX_ITEMS], |i, a, j, b| i / 4 != j / 4 || groups[i / 4].allowed(i % 4, a, j % 4, b)).bytes()
}

/// The sheets whose moves are timed, with a block for each two of 32 items: each of version 1, to be moved to version 2 and back.
pub fn timed_moves() -> Vec<(&'static str, Vec<u8>)> {
    let unequal = |sizes: Vec<u8>| Draft::new(sizes, |_, a, _, b| a != b).bytes();
    let mixed = (0..MAX_ITEMS).map(|i| 8 + i as u8 % 2).collect();
    vec![
        ("32 items of 16", unequal(vec![16; MAX_ITEMS])),
        ("32 items of 8", unequal(vec![8; MAX_ITEMS])),
        ("32 items of 8 and 9", unequal(mixed)),
    ]
}

/// Sheets of version 1 as mills would have them, one for each day of a year: 8 to 32 items, each a gate, a wheel, a pump or a logger, with
/// as many settings as such a one has; 5 to 35 of 100 pairs are linked.
pub fn year_of_sheets() -> Vec<Vec<u8>> {
    const SETTINGS: [(usize, usize); 4] = [(2, 8), (2, 5), (2, 3), (3, 8)];
    let mut random = Random::new(365);
    let mut day = || {
        let n = random.between(8, MAX_ITEMS);
        let sizes = (0..n).map(|_| random.pick(&SETTINGS)).collect::<Vec<_>>();
        let sizes = sizes.into_iter().map(|(least, most)| random.between(least, most) as u8).collect();
        let network = Network::Sparse(random.between(5, 35));
        fill(&mut random, sizes, network).in_version(1).bytes()
    };
    (0..365).map(|_| day()).collect()
}

// ---- States -------------------------------------------------------------------------------------------------------------------------

/// A state that fits the sheet: some items in, some settings on at each; now and then none.
pub fn fitting_state(random: &mut Random, problem: &Problem) -> Masks {
    let (stay, keep) = (random.pick(&[50, 80, 100]), random.pick(&[30, 60, 90, 100]));
    let may_be_empty = random.chance(30);
    let mut state = Masks { items: 0, settings: [0; MAX_ITEMS] };
    for (i, &size) in problem.sizes().iter().enumerate() {
        if random.chance(stay) {
            state.items |= 1 << i;
            state.settings[i] = row(size, |_| random.chance(keep));
        }
        if state.items >> i & 1 == 1 && state.settings[i] == 0 && !may_be_empty {
            state.settings[i] = 1 << random.below(size);
        }
    }
    state
}

/// A state with one thing that may speak against it: an item beyond the sheet, a setting at an item out, a setting beyond the size.
pub fn misfitting_state(random: &mut Random, problem: &Problem) -> [u8; STATE_LENGTH] {
    let mut state = fitting_state(random, problem);
    let i = random.below(MAX_ITEMS);
    match random.below(5) {
        0 => state.items |= 1 << i,
        1 => state.settings[i] |= 1 << random.below(MAX_SETTINGS),
        2 => state.items &= !(1 << random.below(problem.sizes().len())),
        3 => {
            let item = random.below(problem.sizes().len());
            let beyond = problem.sizes()[item].min(MAX_SETTINGS - 1);
            state.settings[item] |= 1 << random.between(beyond, MAX_SETTINGS - 1);
        }
        _ => {
            let bytes = random.bytes(STATE_LENGTH);
            return bytes.try_into().expect("as many bytes as asked for");
        }
    }
    state.to_bytes()
}

/// An item to name in a hand call: mostly one of the sheet, and now and then a number far off it.
pub fn named_item(random: &mut Random, problem: &Problem) -> u64 {
    let n = problem.sizes().len() as u64;
    match random.below(12) {
        0 => random.pick(&[n, n + 1, 31, 32, 33, 64, 255, 256, 1 << 32, (1 << 32) + 1, 1 << 63, u64::MAX]),
        1 => (random.below(n as usize) as u64).wrapping_add(random.pick(&[32, 64, 256, 1 << 16, 1 << 32])),
        _ => random.below(n as usize) as u64,
    }
}

// ---- Traces -------------------------------------------------------------------------------------------------------------------------

/// A lawful trace of random steps of every kind, in no order of kinds, and the state it ends in.
pub fn lawful_steps(random: &mut Random, problem: &Problem) -> (Vec<Step>, State) {
    let most = random.pick(&[1, 1, 2, 2, 3, 4, 8, 600]);
    let liked = random.pick(&[1, 2, 2, 3, 4, 5]);
    let mut state = State::full(problem);
    let mut steps = Vec::new();
    while steps.len() < most && !state.emptied() {
        let kinds = [liked, random.between(1, 5), random.between(1, 5), 1, 2, 3, 4, 5];
        let Some(step) = kinds.into_iter().find_map(|kind| lawful_step(random, problem, &state, kind)) else {
            break;
        };
        state = problem.perform(&state, step);
        steps.push(step);
    }
    (steps, state)
}

/// A lawful step of one kind, sought from a random place on among the candidates.
fn lawful_step(random: &mut Random, problem: &Problem, state: &State, kind: usize) -> Option<Step> {
    let candidates: Vec<Step> = problem.candidates(state, kind).collect();
    let from = random.below(candidates.len().max(1));
    candidates[from..].iter().chain(&candidates[..from]).copied().take(60).find(|&step| problem.lawful(state, step))
}

/// A sheet with a block that bars everything, and the bare steps that leave one of its items without a setting; nothing where the sheet has
/// no block.
pub fn emptied(random: &mut Random, mut draft: Draft) -> Option<(Draft, Vec<Step>)> {
    let place = random.below(draft.blocks.len().max(1));
    let block = draft.blocks.get_mut(place)?;
    block.rows.fill(0);
    let (i, j) = (usize::from(block.i), usize::from(block.j));
    let (i, k) = if random.chance(50) { (i, j) } else { (j, i) };
    let steps = (0..usize::from(draft.sizes[i])).map(|b| Step::Unsupported { i, b, k }).collect();
    Some((draft, steps))
}

/// A sheet of 32 items of 16 settings whose first items are free, and a lawful trace of covers at these, in no order: 254 of them, or more.
pub fn long_trace(random: &mut Random) -> (Draft, Vec<Step>) {
    let free = random.between(20, 29);
    let mut draft = large_draft(random);
    draft.blocks.retain(|block| usize::from(block.i) >= free);
    let mut steps = Vec::new();
    for i in 0..free {
        let a = random.below(MAX_SETTINGS);
        steps.extend((0..MAX_SETTINGS).filter(|&b| b != a).map(|b| Step::Neighbourhood { i, b, a }));
    }
    shuffle(random, &mut steps);
    steps.truncate(random.between(254, steps.len()));
    (draft, steps)
}

/// A step that is mostly unlawful in this state: a cover of a setting on by another one, which often breaks, the same with one thing more
/// that speaks against it, and a step of another kind.
pub fn doubtful_step(random: &mut Random, problem: &Problem, state: &State) -> Step {
    let n = problem.sizes().len();
    let with_two: Vec<usize> = state.active().iter().copied().filter(|&i| state.live(i).len() > 1).collect();
    // Higher ones more often: the first items of `long_trace` are free, and no cover breaks at them.
    let i = if with_two.is_empty() { random.below(n) } else { random.pick(&with_two).max(random.pick(&with_two)) };
    let live = |random: &mut Random| match state.live(i) {
        [] => random.below(4),
        live => random.pick(live),
    };
    let (b, mut a) = (live(random), live(random));
    // Two different ones, where the item has them.
    for _ in 0..8 {
        a = if a == b { live(random) } else { a };
    }
    // The first ones more often: those that the sheet lists.
    let early = |random: &mut Random, list: Vec<usize>| list[random.below(list.len()).min(random.below(list.len()))];
    match random.below(12) {
        0..=4 => Step::Neighbourhood { i, b, a },
        5 => Step::Neighbourhood { i, b, a: b },
        6 => {
            let out = (0..n).filter(|&i| !state.is_active(i)).chain([n, 31, 32, 33, 64 + i, 128 + i, 255]).collect();
            Step::Neighbourhood { i: early(random, out), b, a }
        }
        7 => {
            let off = (0..=MAX_SETTINGS).filter(|&c| !state.is_live(i, c)).chain([32 + b, 64 + a, 255]).collect();
            let off = early(random, off);
            let (b, a) = if random.chance(50) { (off, a) } else { (b, off) };
            Step::Neighbourhood { i, b, a }
        }
        8 => Step::Unsupported { i, b, k: random.below(n) },
        9 => Step::Snake { i, v: a },
        10 => Step::Triangle { i, j: random.below(n) },
        _ => Step::SnakeSubstitution { i, b, a },
    }
}

/// A trace with a fault in its records or its bytes, or in both: whether it shows is for the reader to say.
pub fn damaged_trace(random: &mut Random, steps: &[Step]) -> Vec<u8> {
    let mut records: Vec<Vec<u8>> = steps.iter().map(|step| step.record()).collect();
    if !records.is_empty() {
        damage_records(random, &mut records);
    }
    let mut trace: Vec<u8> = std::iter::once(1).chain(records.into_iter().flatten()).collect();
    if random.chance(40) {
        damage_trace_bytes(random, &mut trace);
    }
    trace
}

fn damage_records(random: &mut Random, records: &mut Vec<Vec<u8>>) {
    let (place, other) = (random.below(records.len()), random.below(records.len()));
    match random.below(9) {
        0 => records.swap(place, other),
        1 => records.reverse(),
        2 => {
            records.remove(place);
        }
        3 => records.insert(other, records[place].clone()),
        4 => records[place][1] = random.pick(&[0, 1, 2, 3, 4, 5, 6, 255]),
        5 => records[place][0] = random.pick(&[0, 1, 2, 3, 4, 5, 255]),
        6 => {
            let field = random.between(2, records[place].len() - 1);
            records[place][field] = random.pick(&[0, 1, 2, 3, 15, 16, 31, 32, 33, 255]);
        }
        7 => {
            let (i, third, fourth) = (random.below(4) as u8, random.below(4) as u8, random.below(4) as u8);
            let kind = random.between(1, 5) as u8;
            let record = if kind == 2 || kind == 3 { vec![3, kind, i, third] } else { vec![4, kind, i, third, fourth] };
            records.insert(place, record);
        }
        _ => {}
    }
}

fn damage_trace_bytes(random: &mut Random, trace: &mut Vec<u8>) {
    let place = random.below(trace.len());
    match random.below(6) {
        0 => trace[place] ^= 1 << random.below(8),
        1 => trace.truncate(place),
        2 => trace.push(random.pick(&[0, 3, 4, 255])),
        3 => trace[0] = random.pick(&[0, 2, 255]),
        4 => trace.extend([3, 2, 0, 0]),
        _ if random.chance(5) => trace.extend(random.bytes(MANY)),
        _ => {
            trace.remove(place);
        }
    }
}

// ---- Plans --------------------------------------------------------------------------------------------------------------------------

/// A plan for the items left, sought in a random order of the settings; none where there is none, or where the search takes too long.
pub fn find_plan(random: &mut Random, problem: &Problem, state: &State) -> Option<Vec<u8>> {
    let mut plan = vec![OUT; problem.sizes().len()];
    let mut tries = 3000;
    place(random, problem, state, 0, &mut plan, &mut tries).then_some(plan)
}

fn place(random: &mut Random, problem: &Problem, state: &State, at: usize, plan: &mut [u8], tries: &mut usize) -> bool {
    let Some(&i) = state.active().get(at) else {
        return true;
    };
    let live = state.live(i);
    let from = random.below(live.len().max(1));
    for &a in live[from..].iter().chain(&live[..from]) {
        *tries = tries.saturating_sub(1);
        plan[i] = a as u8;
        let agrees = state.active()[..at].iter().all(|&j| problem.allowed(i, a, j, usize::from(plan[j])));
        if *tries > 0 && agrees && place(random, problem, state, at + 1, plan, tries) {
            return true;
        }
    }
    plan[i] = OUT;
    false
}

/// A setting on for each item in, whether or not they may stand together.
pub fn any_plan(random: &mut Random, problem: &Problem, state: &State) -> Vec<u8> {
    let value = |i: usize, random: &mut Random| match state.live(i) {
        [] => OUT,
        live => random.pick(live) as u8,
    };
    (0..problem.sizes().len()).map(|i| value(i, random)).collect()
}

/// A plan with one thing that may speak against it.
pub fn damaged_plan(random: &mut Random, plan: &[u8]) -> Vec<u8> {
    let mut plan = plan.to_vec();
    let place = random.below(plan.len());
    match random.below(5) {
        0 => plan[place] = OUT,
        1 => plan[place] = random.below(4) as u8,
        2 => plan[place] = random.pick(&[0, 15, 16, 17, 32, 254, 255]),
        3 => plan.push(0),
        _ => {
            plan.pop();
        }
    }
    plan
}

// ---- Graphs -------------------------------------------------------------------------------------------------------------------------

/// A graph before it is written down as a colouring file: vertices count from 1, and each edge is an `e` line.
#[derive(Clone)]
pub struct Graph {
    pub vertices: usize,
    pub edges: Vec<(usize, usize)>,
    /// How many edges the `p` line states, where that is not their number.
    pub stated: Option<usize>,
}

impl Graph {
    pub fn new(vertices: usize, edges: Vec<(usize, usize)>) -> Graph {
        Graph { vertices, edges, stated: None }
    }

    /// The graph with an edge for each two vertices, the lower first, that are linked.
    pub fn of_pairs(vertices: usize, mut linked: impl FnMut(usize, usize) -> bool) -> Graph {
        let pairs = (1..=vertices).flat_map(|a| (a + 1..=vertices).map(move |b| (a, b)));
        Graph::new(vertices, pairs.filter(|&(a, b)| linked(a, b)).collect())
    }

    /// Each edge twice, once either way round, as some of the published files have them.
    pub fn both_ways(mut self) -> Graph {
        self.edges = self.edges.iter().flat_map(|&(a, b)| [(a, b), (b, a)]).collect();
        self
    }

    /// The lines without their newlines, and without comments.
    fn lines(&self) -> Vec<Vec<u8>> {
        let size = format!("p edge {} {}", self.vertices, self.stated.unwrap_or(self.edges.len()));
        let edges = self.edges.iter().map(|(a, b)| format!("e {a} {b}"));
        std::iter::once(size).chain(edges).map(String::into_bytes).collect()
    }

    /// The plainest colouring file that says this.
    pub fn file(&self) -> Vec<u8> {
        joined(&self.lines(), true)
    }
}

/// The squares of a board, linked where a queen goes from one to the other.
pub fn queens(side: usize) -> Graph {
    let place = |vertex: usize| ((vertex - 1) / side, (vertex - 1) % side);
    Graph::of_pairs(side * side, |a, b| {
        let ((row, column), (other_row, other_column)) = (place(a), place(b));
        let (up, across) = (row.abs_diff(other_row), column.abs_diff(other_column));
        up == 0 || across == 0 || up == across
    })
}

/// Mycielski's rule: a copy of each vertex, linked as the vertex is, and one vertex more, linked to every copy. It needs one colour more
/// and has no triangle where the graph had none.
pub fn mycielski(graph: &Graph) -> Graph {
    let n = graph.vertices;
    let copies = graph.edges.iter().flat_map(|&(a, b)| [(a, b), (a, n + b), (b, n + a)]);
    Graph::new(2 * n + 1, copies.chain((1..=n).map(|vertex| (n + vertex, 2 * n + 1))).collect())
}

/// Mycielski's graphs as they are published by number: the second is the cycle of five, the third has 11 vertices.
pub fn mycielski_number(number: usize) -> Graph {
    (1..number).fold(Graph::new(2, vec![(1, 2)]), |graph, _| mycielski(&graph))
}

/// A cycle of five, a star of five, and a link from each vertex of the one to one of the other.
pub fn petersen() -> Graph {
    let outer = (0..5).map(|k| (1 + k, 1 + (k + 1) % 5));
    let spokes = (0..5).map(|k| (1 + k, 6 + k));
    let inner = (0..5).map(|k| (6 + k, 6 + (k + 2) % 5));
    Graph::new(10, outer.chain(spokes).chain(inner).collect())
}

/// A graph of 1 to 32 vertices, its edges either way round; some are given again, or all, or all both ways.
pub fn random_graph(random: &mut Random) -> Graph {
    let vertices = match random.below(20) {
        0..=12 => random.between(1, 8),
        13..=18 => random.between(5, 20),
        _ => random.between(20, MAX_ITEMS),
    };
    let network = Network::random(random);
    let mut graph = Graph::of_pairs(vertices, |a, b| network.links(random, vertices, a - 1, b - 1));
    match random.below(6) {
        0 => graph = graph.both_ways(),
        1 | 2 if !graph.edges.is_empty() => {
            let again: Vec<(usize, usize)> = (0..random.between(1, 8)).map(|_| random.pick(&graph.edges)).collect();
            graph.edges.extend(again);
        }
        _ => {}
    }
    for place in 0..graph.edges.len() {
        if random.chance(50) {
            let (a, b) = graph.edges[place];
            graph.edges[place] = (b, a);
        }
    }
    if random.chance(60) {
        shuffle(random, &mut graph.edges);
    }
    graph
}

fn shuffle<T>(random: &mut Random, list: &mut [T]) {
    for place in (1..list.len()).rev() {
        list.swap(place, random.below(place + 1));
    }
}

/// A channel count of 1 to 16.
pub fn channels(random: &mut Random) -> u64 {
    if random.chance(20) {
        random.pick(&[1, 16])
    } else {
        random.between(1, MAX_SETTINGS) as u64
    }
}

// ---- Colouring files ----------------------------------------------------------------------------------------------------------------

/// Lines with a newline after each, or after each but the last.
pub fn joined(lines: &[Vec<u8>], ended: bool) -> Vec<u8> {
    let mut file = lines.join(&b'\n');
    if ended && !lines.is_empty() {
        file.push(b'\n');
    }
    file
}

/// The lines of a graph in any dress that says the same: leading zeros, and comments before, between and after.
pub fn dressed(random: &mut Random, graph: &Graph) -> Vec<Vec<u8>> {
    let (zeros, comments) = (random.pick(&[0, 0, 10, 60]), random.pick(&[0, 0, 10, 40]));
    let mut lines = Vec::new();
    for line in graph.lines() {
        while random.chance(comments) {
            lines.push(comment(random));
        }
        lines.push(with_zeros(random, zeros, &line));
    }
    while random.chance(comments) {
        lines.push(comment(random));
    }
    lines
}

/// A line that begins with `c`: nothing else is asked of it.
fn comment(random: &mut Random) -> Vec<u8> {
    const PLAIN: [&[u8]; 9] =
        [b"c", b"cat", b"c ", b"c FILE: loggers.col", b"c\r", b"c e 1 1", b"cp edge 0 0", b"c\0\0", b"c\xff\x80 \t\x0b"];
    if random.chance(70) {
        return random.pick(&PLAIN).to_vec();
    }
    let length = random.below(24);
    let rest = random.bytes(length).into_iter().filter(|&byte| byte != b'\n');
    std::iter::once(b'c').chain(rest).collect()
}

/// A line with zeros before some of its numbers, up to nine digits.
fn with_zeros(random: &mut Random, percent: usize, line: &[u8]) -> Vec<u8> {
    let mut field = |field: &[u8]| {
        let widen = field[0].is_ascii_digit() && random.chance(percent);
        let zeros = if widen { random.below(10 - field.len()) } else { 0 };
        [&b"00000000"[..zeros], field].concat()
    };
    line.split(|&byte| byte == b' ').map(&mut field).collect::<Vec<_>>().join(&b' ')
}

/// A colouring file without a fault.
pub fn colouring_file(random: &mut Random, graph: &Graph) -> Vec<u8> {
    let lines = dressed(random, graph);
    joined(&lines, random.chance(70))
}

/// A colouring file without a fault but for its length, where that is over 64 KiB: the graph's edges again and again in any order and
/// either way round, some comments, and one at the end that makes it so many bytes long.
pub fn long_file(random: &mut Random, graph: &Graph, length: usize) -> Vec<u8> {
    const LONGEST_LINE: usize = 40;
    let (mut lines, mut edges, mut used) = (Vec::new(), 0, 2 * LONGEST_LINE);
    while used < length {
        if graph.edges.is_empty() || random.chance(3) {
            lines.push(comment(random));
        } else {
            let (a, b) = random.pick(&graph.edges);
            let (a, b) = if random.chance(50) { (a, b) } else { (b, a) };
            lines.push(format!("e {a} {b}").into_bytes());
            edges += 1;
        }
        used += lines[lines.len() - 1].len() + 1;
    }
    let first_edge = lines.iter().position(|line| line[0] == b'e').unwrap_or(lines.len());
    lines.insert(random.below(first_edge + 1), format!("p edge {} {edges}", graph.vertices).into_bytes());
    let mut file = joined(&lines, true);
    file.push(b'c');
    file.resize(length, b'.');
    if random.chance(50) {
        file[length - 1] = b'\n';
    }
    file
}

/// Some of 21 to 24, so that each of them is the first now and then.
pub fn colouring_faults(random: &mut Random) -> Vec<u8> {
    let first = random.between(21, 24) as u8;
    std::iter::once(first).chain((first + 1..=24).filter(|_| random.chance(40))).collect()
}

/// A colouring file and a channel count with these faults among 21 to 24 and no other. Where they stand in the file is left to chance, so
/// that a later one is often met first.
pub fn faulty_colouring(random: &mut Random, faults: &[u8]) -> (Vec<u8>, u64) {
    let (mut graph, mut channels) = (random_graph(random), channels(random));
    if faults.contains(&24) {
        spoil_range(random, &mut graph, &mut channels, faults.contains(&22));
    }
    if faults.contains(&22) {
        let vertex = random.between(1, graph.vertices);
        graph.edges.insert(random.below(graph.edges.len() + 1), (vertex, vertex));
    }
    if faults.contains(&23) {
        let right = graph.edges.len();
        graph.stated = Some(random.pick(&[right + 1, right + 1, right.wrapping_sub(1).min(999_999_999), right + 256, 999_999_999]));
    }
    let mut lines = dressed(random, &graph);
    let ended = random.chance(70);
    if faults.contains(&21) {
        spoil_lines(random, &mut lines, graph.vertices);
        if random.chance(1) {
            let length = MAX_FILE + random.between(1, 9);
            return (long_file(random, &graph, length), channels);
        }
    }
    (joined(&lines, ended), channels)
}

/// 24 by the vertices, by the channels, or by both. A graph of no vertex has no edge.
fn spoil_range(random: &mut Random, graph: &mut Graph, channels: &mut u64, looped: bool) {
    let which = random.between(1, 3);
    if which != 1 {
        *channels = random.pick(&[0, 17, 255, 256, 1 << 8 | 3, 1 << 16 | 3, 1 << 32 | 3, 1 << 40, u64::MAX]);
    }
    if which == 2 {
        return;
    }
    if random.chance(20) && !looped {
        *graph = Graph::new(0, Vec::new());
        return;
    }
    graph.vertices = random.pick(&[33, 33, 34, 64, 100, 256 + 5, 65_536 + 5, 999_999_999]);
    for _ in 0..random.below(4) {
        let vertex = random.between(1, graph.vertices - 1);
        graph.edges.push((vertex, random.pick(&[graph.vertices, vertex + 1])));
    }
}

/// 21 by one thing, whatever else the lines say: a line too many, one changed, the `p` line, or a vertex.
fn spoil_lines(random: &mut Random, lines: &mut Vec<Vec<u8>>, vertices: usize) {
    const BAD: &[u8] = b"|| |\r|x|E 1 2|e|e |e 1|e 1 |e1 2|p|p edge|p col 1 0|P edge 1 0| c|\tc|1 2|n 1 2|\0|\xffc|edge 1 2";
    let bad: Vec<&[u8]> = BAD.split(|&byte| byte == b'|').collect();
    let size = lines.iter().position(|line| line[0] == b'p').expect("a p line");
    match random.below(6) {
        0 => lines.insert(random.below(lines.len() + 1), random.pick(&bad).to_vec()),
        1 => {
            let outside = random.pick(&[0, vertices + 1, vertices + 32, vertices + 256, 999_999_999]);
            let outside = if (1..=vertices).contains(&outside) { 0 } else { outside };
            let inside = random.below(vertices + 1);
            let edge = if random.chance(50) { format!("e {outside} {inside}") } else { format!("e {inside} {outside}") };
            lines.insert(random.between(size + 1, lines.len()), edge.into_bytes());
        }
        2 => {
            let line = lines.remove(size);
            match lines.iter().rposition(|line| line[0] == b'e') {
                Some(edge) if random.chance(50) => lines.insert(random.between(edge + 1, lines.len()), line),
                _ => {}
            }
        }
        3 => {
            let again = if random.chance(50) { lines[size].clone() } else { b"p edge 3 2".to_vec() };
            lines.insert(random.below(lines.len() + 1), again);
        }
        _ => {
            let told: Vec<usize> = (0..lines.len()).filter(|&place| lines[place][0] != b'c').collect();
            let place = random.pick(&told);
            lines[place] = spoilt_line(random, &lines[place]);
        }
    }
    // A blank line at the end is one only where a newline follows; and another fault may have made a blank line the last.
    if lines.last().is_some_and(|last| last.is_empty()) {
        lines.push(b"c".to_vec());
    }
}

/// A `p` or `e` line that has no known form any more.
fn spoilt_line(random: &mut Random, line: &[u8]) -> Vec<u8> {
    let mut fields: Vec<Vec<u8>> = line.split(|&byte| byte == b' ').map(<[u8]>::to_vec).collect();
    let last = fields.len() - 1;
    let number = random.between(last - 1, last);
    match random.below(10) {
        0 => fields[last].push(b'\r'),
        1 => fields.push(Vec::new()),
        2 => fields.insert(random.below(last + 1), Vec::new()),
        3 => fields[number].insert(0, random.pick(b"+-")),
        4 => {
            let zeros = 10 - fields[number].len() + random.pick(&[0, 0, 3, 20]);
            fields[number].splice(0..0, vec![b'0'; zeros]);
        }
        5 => {
            fields.pop();
        }
        6 => fields.push(b"1".to_vec()),
        7 => fields[number] = random.pick(&[&b"x"[..], b"1.0", b"0x1", b"1e1", b"", b"4294967297", b"18446744073709551617"]).to_vec(),
        8 if fields[0] == b"p" => fields[1] = random.pick(&[&b"col"[..], b"edges", b"edg", b"Edge", b""]).to_vec(),
        _ => {
            let separator = random.pick(b"\t,\r\0\x0b");
            let place = line.iter().rposition(|&byte| byte == b' ').expect("two fields at least");
            let mut line = line.to_vec();
            line[place] = separator;
            return line;
        }
    }
    fields.join(&b' ')
}

/// Bytes that may be no colouring file at all, or are one with its bytes damaged: whether a fault shows is for the reader to say.
pub fn damaged_file(random: &mut Random) -> Vec<u8> {
    if random.chance(10) {
        let length = random.below(30);
        return (0..length).map(|_| random.pick(b"pe c  edge\n\n0123\t\r-")).collect();
    }
    let graph = random_graph(random);
    let mut file = colouring_file(random, &graph);
    for _ in 0..random.between(1, 3) {
        damage_file(random, &mut file);
    }
    file
}

fn damage_file(random: &mut Random, file: &mut Vec<u8>) {
    let place = random.below(file.len() + 1);
    match random.below(5) {
        0 => file.truncate(place),
        1 => file.insert(place, random.pick(b"\n\n c1e0p\r")),
        2 => file.extend(random.pick(&[&b"\n"[..], b"c", b"e 1 2", b" ", b"\0"])),
        _ if place == file.len() => {}
        3 => file[place] = random.pick(b"\n c1e0p92"),
        _ => {
            file.remove(place);
        }
    }
}

/// The colouring files that the program is timed on, each with its channel count.
pub fn timed_files() -> Vec<(&'static str, Vec<u8>, u64)> {
    let mut random = Random::new(1);
    let complete = Graph::of_pairs(MAX_ITEMS, |_, _| true);
    let long = long_file(&mut random, &complete, MAX_FILE);
    let comments = long_file(&mut random, &Graph::new(MAX_ITEMS, Vec::new()), MAX_FILE);
    vec![
        ("64 KiB: 32 vertices, 16 channels", long, MAX_SETTINGS as u64),
        ("64 KiB of comments, 16 channels", comments, MAX_SETTINGS as u64),
        ("32 vertices, each edge once, 16 channels", complete.file(), MAX_SETTINGS as u64),
        ("Petersen's graph, 3 channels", petersen().file(), 3),
    ]
}
