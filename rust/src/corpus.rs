//! The corpus of 200 sheets that picking a plan is timed on: random binary problems at the phase transition, queens, Latin squares,
//! pigeonholes, and colourings of graphs whose chromatic number is known. The same sheets on every machine. No part of the library:
//! tests/support has it.

use zomuwedli::MAX_ITEMS;

use super::generate::{self, Draft, Graph, Random};

/// How many sheets there are.
pub const CORPUS: usize = 200;

/// One sheet of the corpus.
#[derive(Clone)]
pub struct Entry {
    pub name: String,
    pub family: &'static str,
    pub sheet: Vec<u8>,
    /// Held to the bar; the others are measured with a limit of time, and reported.
    pub held: bool,
    /// Whether there is a plan, where that is known from how the sheet is made.
    pub solvable: Option<bool>,
}

/// All of them, in the order of the families.
pub fn corpus() -> Vec<Entry> {
    let entries: Vec<Entry> =
        random_problems().into_iter().chain(queens()).chain(latin_squares()).chain(pigeonholes()).chain(colourings()).collect();
    assert_eq!(entries.len(), CORPUS);
    entries
}

// ---- Random problems ----------------------------------------------------------------------------------------------------------------

/// Model B at the phase transition, 32 items: by family its settings, its densities in hundredths, how many seeds each has, and whether
/// these are held to the bar.
type ModelB = (&'static str, usize, &'static [usize], u64, bool);

const TENTHS: [usize; 10] = [10, 20, 30, 40, 50, 60, 70, 80, 90, 100];
const MODEL_B: [ModelB; 4] = [
    ("random, 4 settings", 4, &TENTHS, 4, true),
    ("random, 8 settings", 8, &TENTHS, 4, true),
    ("random, 16 settings, sparse", 16, &[10, 15, 20], 6, true),
    ("random, 16 settings, dense", 16, &[30, 50, 100], 4, false),
];

fn random_problems() -> Vec<Entry> {
    let mut entries = Vec::new();
    for (family, size, densities, seeds, held) in MODEL_B {
        for &density in densities {
            for seed in 1..=seeds {
                let sheet = model_b(seed, size, density).bytes();
                entries.push(Entry { name: format!("random-{size}-{density:03}-{seed}"), family, sheet, held, solvable: None });
            }
        }
    }
    entries
}

/// What seeds of even number have of the critical share: most of these have a plan, and most of the others none.
const LOOSER: f64 = 0.92;

/// So many of 100 pairs of the 32 items are linked, and of each linked pair as many pairs of settings barred as the phase transition has:
/// the share 1 - d^(-2 / (p1 (n - 1))), at which one plan is to be expected.
fn model_b(seed: u64, size: usize, density: usize) -> Draft {
    let mut random = Random::of_case(seed, size as u64, density as u64);
    let degree = density as f64 / 100.0 * (MAX_ITEMS - 1) as f64;
    let critical = 1.0 - (size as f64).powf(-2.0 / degree);
    let share = if seed % 2 == 1 { critical } else { LOOSER * critical };
    let barred = (share * (size * size) as f64).round() as usize;
    let all: Vec<(usize, usize)> = (0..MAX_ITEMS).flat_map(|i| (i + 1..MAX_ITEMS).map(move |j| (i, j))).collect();
    let linked = sample(&mut random, &all, (density * all.len() + 50) / 100);
    let settings: Vec<usize> = (0..size * size).collect();
    let mut bars = vec![false; MAX_ITEMS * MAX_ITEMS * size * size];
    let place = |i: usize, j: usize, entry: usize| (i * MAX_ITEMS + j) * size * size + entry;
    for (i, j) in linked {
        sample(&mut random, &settings, barred).into_iter().for_each(|entry| bars[place(i, j, entry)] = true);
    }
    Draft::new(vec![size as u8; MAX_ITEMS], |i, a, j, b| !bars[place(i, j, a * size + b)])
}

/// So many of these, each at most once, in no order.
fn sample<T: Copy>(random: &mut Random, all: &[T], count: usize) -> Vec<T> {
    let mut rest = all.to_vec();
    (0..count).map(|_| rest.swap_remove(random.below(rest.len()))).collect()
}

// ---- Queens -------------------------------------------------------------------------------------------------------------------------

/// A queen in each row of a board of 2 to 16: an item is a row and a setting a column.
fn queens() -> Vec<Entry> {
    let safe = |i: usize, a: usize, j: usize, b: usize| a != b && a.abs_diff(b) != i.abs_diff(j);
    let board = |side: usize| Entry {
        name: format!("queens-{side:02}"),
        family: "queens",
        sheet: Draft::new(vec![side as u8; side], safe).bytes(),
        held: true,
        solvable: Some(side > 3),
    };
    (2..=16).map(board).collect()
}

// ---- Latin squares ------------------------------------------------------------------------------------------------------------------

/// Latin squares and rectangles, as colourings of the rook's graph: empty ones, and ones with some cells filled so that no two filled ones
/// of a line are alike. By rows, columns, which are as many as the symbols, how many cells are filled, and how many seeds each has.
const LATIN: [(usize, usize, usize, u64); 12] = [
    (3, 3, 0, 1),
    (4, 4, 0, 1),
    (5, 5, 0, 1),
    (5, 5, 5, 3),
    (5, 5, 8, 3),
    (5, 5, 10, 3),
    (5, 5, 12, 3),
    (2, 16, 0, 1),
    (3, 10, 0, 1),
    (4, 8, 0, 1),
    (4, 8, 12, 3),
    (4, 8, 16, 3),
];

fn latin_squares() -> Vec<Entry> {
    let mut entries = Vec::new();
    for (rows, columns, filled, seeds) in LATIN {
        for seed in 1..=seeds {
            let mut random = Random::of_case(seed, (rows * columns) as u64, filled as u64);
            let name = if filled == 0 { format!("latin-{rows}x{columns}") } else { format!("latin-{rows}x{columns}-{filled}-{seed}") };
            let solvable = (filled == 0).then_some(true);
            let sheet = latin(&mut random, rows, columns, filled).bytes();
            entries.push(Entry { name, family: "Latin squares", sheet, held: true, solvable });
        }
    }
    entries
}

/// An item is a cell and a setting one of its symbols: of a filled cell the one, of another all of them.
fn latin(random: &mut Random, rows: usize, columns: usize, filled: usize) -> Draft {
    let in_line = |i: usize, j: usize| i / columns == j / columns || i % columns == j % columns;
    let mut symbols: Vec<Vec<usize>> = vec![(0..columns).collect(); rows * columns];
    let mut open: Vec<usize> = (0..rows * columns).collect();
    for _ in 0..filled {
        let cell = open.swap_remove(random.below(open.len()));
        let taken = |symbol: &usize| (0..symbols.len()).any(|other| in_line(cell, other) && symbols[other] == [*symbol]);
        let fitting: Vec<usize> = (0..columns).filter(|symbol| !taken(symbol)).collect();
        // A cell that no symbol fits stays open.
        if !fitting.is_empty() {
            symbols[cell] = vec![random.pick(&fitting)];
        }
    }
    let sizes = symbols.iter().map(|symbols| symbols.len() as u8).collect();
    Draft::new(sizes, |i, a, j, b| !in_line(i, j) || symbols[i][a] != symbols[j][b])
}

// ---- Pigeonholes --------------------------------------------------------------------------------------------------------------------

/// Pigeons and holes.
const PIGEONS: [(usize, usize); 13] =
    [(3, 2), (4, 3), (5, 4), (6, 5), (7, 6), (8, 7), (9, 8), (10, 9), (11, 10), (12, 11), (8, 8), (12, 12), (16, 16)];

fn pigeonholes() -> Vec<Entry> {
    let holes = |(pigeons, holes): (usize, usize)| Entry {
        name: format!("pigeons-{pigeons:02}-{holes:02}"),
        family: "pigeonholes",
        sheet: Draft::new(vec![holes as u8; pigeons], |_, a, _, b| a != b).bytes(),
        held: true,
        solvable: Some(pigeons <= holes),
    };
    PIGEONS.into_iter().map(holes).collect()
}

// ---- Colourings ---------------------------------------------------------------------------------------------------------------------

/// Each graph with as many channels as it needs, and with one fewer.
fn colourings() -> Vec<Entry> {
    let entry = |name: &str, graph: &Graph, number: usize, channels: usize| Entry {
        name: format!("{name}-{channels}"),
        family: "colourings",
        sheet: colouring(graph, channels),
        held: true,
        solvable: Some(channels >= number),
    };
    graphs().iter().flat_map(|(name, graph, number)| [*number, number - 1].map(|channels| entry(name, graph, *number, channels))).collect()
}

fn colouring(graph: &Graph, channels: usize) -> Vec<u8> {
    let linked = |i: usize, j: usize| graph.edges.iter().any(|&edge| edge == (i + 1, j + 1) || edge == (j + 1, i + 1));
    Draft::new(vec![channels as u8; graph.vertices], |i, a, j, b| a != b || !linked(i, j)).bytes()
}

/// Graphs with their chromatic numbers.
fn graphs() -> Vec<(&'static str, Graph, usize)> {
    vec![
        ("petersen", generate::petersen(), 3),
        ("mycielski-3", generate::mycielski_number(3), 4),
        ("mycielski-4", generate::mycielski_number(4), 5),
        ("kneser-6-2", kneser(6), 4),
        ("kneser-7-2", kneser(7), 5),
        ("kneser-8-2", kneser(8), 6),
        ("parts-5x5", circulant(25, |apart| apart % 5 != 0), 5),
        ("parts-8x4", circulant(32, |apart| apart % 8 != 0), 8),
        ("parts-4x8", circulant(32, |apart| apart % 4 != 0), 4),
        ("cycle-31", circulant(31, |apart| apart == 1 || apart == 30), 3),
        ("wheel-31", Graph::of_pairs(32, |a, b| b == 32 || b - a == 1 || b - a == 30), 4),
        ("queen-5x5", generate::queens(5), 5),
        ("rook-4x8", Graph::of_pairs(32, |a, b| (a - 1) / 8 == (b - 1) / 8 || a % 8 == b % 8), 8),
        // The folded cube of dimension 5: words of 4 bits that differ in one bit, or in all.
        ("clebsch", Graph::of_pairs(16, |a, b| [1, 2, 4, 8, 15].contains(&((a - 1) ^ (b - 1)))), 4),
        ("shrikhande", shrikhande(), 4),
        // Linked by the squares modulo 13, and modulo 17.
        ("paley-13", circulant(13, |apart| [1, 3, 4, 9, 10, 12].contains(&apart)), 5),
        ("paley-17", circulant(17, |apart| [1, 2, 4, 8, 9, 13, 15, 16].contains(&apart)), 6),
        // Powers of a cycle: with n = q (k + 1) + r the number is k + 1 + r / q, rounded up.
        ("cycle-31-power-3", circulant(31, |apart| apart <= 3 || apart >= 28), 5),
        ("cycle-29-power-4", circulant(29, |apart| apart <= 4 || apart >= 25), 6),
    ]
}

/// Two vertices are linked by how far they are apart round a circle.
fn circulant(vertices: usize, linked: impl Fn(usize) -> bool) -> Graph {
    Graph::of_pairs(vertices, |a, b| linked(b - a))
}

/// Kneser's graph of the pairs out of so many, linked where they have nothing in common: it needs two colours fewer than there are.
fn kneser(of: usize) -> Graph {
    let pairs: Vec<(usize, usize)> = (0..of).flat_map(|a| (a + 1..of).map(move |b| (a, b))).collect();
    let apart = |(a, b): (usize, usize), (c, d): (usize, usize)| a != c && a != d && b != c && b != d;
    Graph::of_pairs(pairs.len(), |a, b| apart(pairs[a - 1], pairs[b - 1]))
}

/// The squares of a board of 4 by 4 that goes on round its edges, linked along rows, columns and one of the diagonals.
fn shrikhande() -> Graph {
    let steps = [(0, 1), (0, 3), (1, 0), (3, 0), (1, 1), (3, 3)];
    Graph::of_pairs(16, |a, b| steps.contains(&(((b - 1) / 4 + 4 - (a - 1) / 4) % 4, (b + 4 - a % 4) % 4)))
}
