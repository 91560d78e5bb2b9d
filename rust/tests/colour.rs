//! The sheet of a colouring file: that its plans are the proper colourings, by brute force on all small graphs; how many channels graphs of
//! the field need; the first of several faults; and each trap of the file's form, with its answer written out.
//!
//! The proved library is called by both its layers (support/proved.rs), and the reference and the fast implementation beside it.
//!
//! ZOMUWEDLI_PART: one small graph and one faulty file in so many is checked.

mod support;

#[allow(dead_code)]
#[path = "../examples/plan.rs"]
mod plan;

use support::generate::{self, Graph, Random};
use support::reference::{self, Problem};
use support::{fast, proved, Answer, Fault};
use zomuwedli::{Accepted, End, Refusal, Written, MAX_FILE, MAX_SHEET, MAX_TRACE};

const SEED: u64 = 32_016;

fn part() -> usize {
    generate::from_environment("ZOMUWEDLI_PART", 1).max(1) as usize
}

// ---- One call -----------------------------------------------------------------------------------------------------------------------

type Call = fn(&[u8], u64, &mut [u8]) -> Answer<Written>;

const ALL: [(&str, Call); 3] = [("proved", proved::colour), ("reference", reference::colour), ("fast", fast::colour)];

/// What all three answer with a buffer of this length, and the buffer afterwards: all alike, old bytes after the sheet, and none changed
/// where the call is refused.
fn colour(file: &[u8], channels: u64, length: usize) -> (Answer<Written>, Vec<u8>) {
    // On the heap, in a box of exactly their number: memcheck sees every access beyond.
    let file: Box<[u8]> = Box::from(file);
    let old: Vec<u8> = (0..length).map(|place| (place * 31 + 7) as u8).collect();
    let results = ALL.map(|(name, call)| {
        let mut sheet = old.clone();
        let answer = call(&file, channels, &mut sheet);
        let written = answer.map_or(0, |written| written.bytes);
        assert_eq!(sheet[written..], old[written..], "{name} writes beyond the sheet: {answer:?}");
        (answer, sheet)
    });
    let [proved, reference, fast] = results;
    assert!(proved == reference, "proved {:?}, reference {:?}: {:?}", proved.0, reference.0, String::from_utf8_lossy(&file));
    assert!(proved == fast, "proved {:?}, fast {:?}: {:?}", proved.0, fast.0, String::from_utf8_lossy(&file));
    proved
}

/// The sheet of a file that has no fault.
fn sheet_of(file: &[u8], channels: u64) -> Vec<u8> {
    let (answer, mut sheet) = colour(file, channels, MAX_SHEET);
    sheet.truncate(answer.unwrap_or_else(|fault| panic!("refused {}: {:?}", fault.number(), String::from_utf8_lossy(file))).bytes);
    sheet
}

// ---- The plans are the proper colourings --------------------------------------------------------------------------------------------

/// All ways to give each of so many vertices one of so many channels.
fn assignments(vertices: usize, channels: usize) -> Vec<Vec<usize>> {
    let one_more = |all: Vec<Vec<usize>>, _| {
        let extended = |some: &Vec<usize>| {
            let some = some.clone();
            (0..channels).map(move |channel| [&some[..], &[channel]].concat())
        };
        all.iter().flat_map(extended).collect()
    };
    (0..vertices).fold(vec![Vec::new()], one_more)
}

/// The ends of every edge differ.
fn is_proper(graph: &Graph, colouring: &[usize]) -> bool {
    graph.edges.iter().all(|&(a, b)| colouring[a - 1] != colouring[b - 1])
}

/// Each two items have an allowed pair.
fn is_plan(problem: &Problem, plan: &[usize]) -> bool {
    let items = 0..plan.len();
    items.clone().all(|i| items.clone().all(|j| i == j || problem.allowed(i, plan[i], j, plan[j])))
}

/// All graphs of 1 to 5 vertices, with 1 to 4 channels, each file in another dress.
#[test]
fn the_plans_of_the_sheet_are_the_proper_colourings() {
    let mut random = Random::new(SEED);
    let (mut graphs, mut colourings) = (0, 0);
    for vertices in 1..=5 {
        let pairs: Vec<(usize, usize)> = Graph::of_pairs(vertices, |_, _| true).edges;
        let chosen = |set: usize| (0..pairs.len()).filter(move |place| set >> place & 1 == 1).map(|place| pairs[place]);
        for set in (0..1 << pairs.len()).step_by(part()) {
            let graph = Graph::new(vertices, chosen(set).collect());
            for channels in 1..=4 {
                colourings += check_plans(&mut random, &graph, channels);
            }
            graphs += 1;
        }
    }
    if part() == 1 {
        assert_eq!(graphs, 1 + 2 + 8 + 64 + 1024);
        assert_eq!(colourings, colourings_of_all_graphs());
    }
}

/// Counted the other way round: an assignment is proper in a graph that links no two vertices with one channel, so that each two vertices
/// with different channels double the number of graphs.
fn colourings_of_all_graphs() -> usize {
    let graphs = |assignment: Vec<usize>| {
        let unlike = |a: usize| assignment[..a].iter().filter(|&&channel| channel != assignment[a]).count();
        1 << (0..assignment.len()).map(unlike).sum::<usize>()
    };
    let of_size = |vertices: usize| (1..=4).flat_map(move |channels| assignments(vertices, channels)).map(graphs).sum::<usize>();
    (1..=5).map(of_size).sum()
}

/// The number of proper colourings, which are the plans of the sheet and no other; and what the other jobs say of the sheet.
fn check_plans(random: &mut Random, graph: &Graph, channels: usize) -> usize {
    let written = either_way(random, graph);
    let file = generate::colouring_file(random, &written);
    let sheet = sheet_of(&file, channels as u64);
    let (problem, blocks) = reference::read_sheet(&sheet).expect("a written sheet keeps the layout");
    assert_eq!(proved::read(&sheet), Ok(Accepted { items: graph.vertices, blocks: graph.edges.len() }));
    assert_eq!((problem.sizes(), blocks), (&vec![channels; graph.vertices][..], graph.edges.len()));
    let mut proper = 0;
    for assignment in assignments(graph.vertices, channels) {
        assert_eq!(is_plan(&problem, &assignment), is_proper(graph, &assignment), "{assignment:?}: {:?}", graph.edges);
        // A trace of no record puts back every plan of the full sheet and nothing else. Five vertices would take seconds.
        if graph.vertices < 5 {
            let plan: Vec<u8> = assignment.iter().map(|&channel| channel as u8).collect();
            let answer = proved::put_back(&sheet, &[1], &plan, &mut vec![0; plan.len()]);
            assert_eq!(answer.is_ok(), is_proper(graph, &assignment), "{assignment:?}: {:?}", graph.edges);
        }
        proper += usize::from(is_proper(graph, &assignment));
    }
    let end = zomuwedli::run(&sheet, &mut [0; MAX_TRACE]).expect("a written sheet is run").end;
    assert!(end == End::Rest || (end == End::Solved) == (proper > 0), "{end}, and {proper} colourings: {:?}", graph.edges);
    assert_eq!(planned(graph, &sheet), proper > 0);
    proper
}

/// The graph with its edges turned round and given again at random.
fn either_way(random: &mut Random, graph: &Graph) -> Graph {
    let mut edges: Vec<(usize, usize)> = graph.edges.iter().map(|&(a, b)| if random.chance(50) { (a, b) } else { (b, a) }).collect();
    for &(a, b) in &graph.edges {
        if random.chance(20) {
            edges.insert(random.below(edges.len() + 1), random.pick(&[(a, b), (b, a)]));
        }
    }
    Graph::new(graph.vertices, edges)
}

/// Whether the library picks a plan, which then is a proper colouring.
fn planned(graph: &Graph, sheet: &[u8]) -> bool {
    let Some(plan) = plan::plan_of(sheet).expect("a written sheet is run") else { return false };
    let colouring: Vec<usize> = plan.into_iter().map(usize::from).collect();
    assert!(is_proper(graph, &colouring), "{colouring:?}: {:?}", graph.edges);
    true
}

// ---- Graphs of the field ------------------------------------------------------------------------------------------------------------

/// Whether the graph has a proper colouring that goes on from these channels, vertex by vertex. A channel above all before it is like any
/// other such, so that one of them is tried.
fn is_colourable(graph: &Graph, channels: usize, colouring: &mut Vec<usize>) -> bool {
    if colouring.len() == graph.vertices {
        return true;
    }
    let vertex = colouring.len() + 1;
    let unused = colouring.iter().map(|channel| channel + 1).max().unwrap_or(0);
    for channel in 0..channels.min(unused + 1) {
        let has_it = |other: usize| other < vertex && colouring[other - 1] == channel;
        let clashes = |&(a, b): &(usize, usize)| (a == vertex && has_it(b)) || (b == vertex && has_it(a));
        if !graph.edges.iter().any(clashes) {
            colouring.push(channel);
            if is_colourable(graph, channels, colouring) {
                return true;
            }
            colouring.pop();
        }
    }
    false
}

/// The least number of channels with a plan, or with a proper colouring, is the one that is known; with one fewer there is none.
fn needs(name: &str, graph: &Graph, size: (usize, usize), channels: usize) {
    assert_eq!((graph.vertices, graph.edges.len()), size, "{name}");
    let least_plan = (1..=16).find(|&channels| planned(graph, &sheet_of(&graph.file(), channels)));
    assert_eq!(least_plan, Some(channels as u64), "{name}");
    let least_colouring = (1..=16).find(|&channels| is_colourable(graph, channels, &mut Vec::new()));
    assert_eq!(least_colouring, Some(channels), "{name}");
}

#[test]
fn small_graphs_of_the_field_need_their_channels() {
    needs("Petersen", &generate::petersen(), (10, 15), 3);
    needs("myciel3", &generate::mycielski_number(3), (11, 20), 4);
}

/// Under memcheck these searches take minutes.
#[test]
fn graphs_of_the_field_need_their_channels() {
    if part() == 1 {
        needs("myciel4", &generate::mycielski_number(4), (23, 71), 5);
        // The published file has each edge both ways.
        needs("queen5_5", &generate::queens(5).both_ways(), (25, 320), 5);
    }
}

// ---- The first fault ----------------------------------------------------------------------------------------------------------------

/// Files with every set of faults among 21 to 24, in any places of the file, with a buffer that is long enough and with one that is not.
#[test]
fn the_first_fault_is_told() {
    let mut random = Random::new(SEED);
    for set in 0..16 {
        let faults: Vec<u8> = (21..=24).filter(|number| set >> (number - 21) & 1 == 1).collect();
        for _ in 0..(2_000 / part()).max(1) {
            let (file, channels) = generate::faulty_colouring(&mut random, &faults);
            let told = |answer: Answer<Written>| answer.err().map(Fault::number);
            let expected = faults.first().copied();
            let shown = String::from_utf8_lossy(&file);
            assert_eq!(told(colour(&file, channels, MAX_SHEET).0), expected, "{faults:?}, {channels} channels: {shown:?}");
            assert_eq!(told(colour(&file, channels, 8).0), expected.or(Some(25)), "{faults:?}, {channels} channels: {shown:?}");
        }
    }
}

// ---- The traps ----------------------------------------------------------------------------------------------------------------------

/// The file has this answer: the bytes written, or the refusal. Written sheets have their exact length as a buffer too, and one byte less.
fn answers(file: &[u8], channels: u64, expected: Result<usize, Refusal>) {
    let shown = String::from_utf8_lossy(&file[..file.len().min(200)]);
    let expected = expected.map(|bytes| Written { bytes }).map_err(Fault::Refused);
    assert_eq!(colour(file, channels, MAX_SHEET).0, expected, "{channels} channels: {shown:?}");
    if let Ok(Written { bytes }) = expected {
        assert_eq!(colour(file, channels, bytes).0, expected, "{channels} channels: {shown:?}");
        assert_eq!(colour(file, channels, bytes - 1).0, Err(Refusal::SheetBuffer.into()), "{channels} channels: {shown:?}");
    }
}

/// A block of three channels has 2 + 6 bytes, a sheet of n vertices and no block 8 + n.
#[test]
fn each_trap_has_its_answer() {
    use Refusal::{ColourRange, EdgeCount, GraphFile, GraphLoop};
    let traps: &[(&[u8], Result<usize, Refusal>)] = &[
        // The order, over the whole file.
        (b"p edge 3 2\ne 2 2\ne 1 4\n", Err(GraphFile)),
        (b"p edge 3 2\ne 2 2\ne 1 2 ", Err(GraphFile)),
        (b"p edge 3 2\ne 2 2\n\n", Err(GraphFile)),
        (b"p edge 3 9\ne 2 2\ne 1 2\n", Err(GraphLoop)),
        (b"p edge 99 9\ne 2 2\ne 1 2\n", Err(GraphLoop)),
        (b"p edge 99 9\ne 1 2\n", Err(EdgeCount)),
        (b"p edge 0 1\n", Err(EdgeCount)),
        // The stated range is the p line's, also above 32 and of nothing.
        (b"p edge 100 1\ne 99 100\n", Err(ColourRange)),
        (b"p edge 100 1\ne 99 101\n", Err(GraphFile)),
        (b"p edge 33 1\ne 1 33\n", Err(ColourRange)),
        (b"p edge 999999999 1\ne 1 999999999\n", Err(ColourRange)),
        (b"p edge 32 1\ne 1 33\n", Err(GraphFile)),
        (b"p edge 32 1\ne 1 32\n", Ok(40 + 8)),
        (b"p edge 3 1\ne 0 1\n", Err(GraphFile)),
        (b"p edge 3 1\ne 1 0\n", Err(GraphFile)),
        (b"p edge 3 1\ne 0 0\n", Err(GraphFile)),
        (b"p edge 3 1\ne 4 4\n", Err(GraphFile)),
        (b"p edge 0 0\n", Err(ColourRange)),
        (b"p edge 0 1\ne 1 1\n", Err(GraphFile)),
        (b"p edge 1 0\n", Ok(9)),
        // Comments, everywhere and of any bytes.
        (b"c\ncat\np edge 2 1\nc\r\ne 1 2\nc\0\xff\x80\nc", Ok(10 + 8)),
        (b"ce 1 1\np edge 2 1\ncp edge 2 1\ne 1 2\ncc\n", Ok(10 + 8)),
        (b" c\np edge 2 1\ne 1 2\n", Err(GraphFile)),
        (b"C\np edge 2 1\ne 1 2\n", Err(GraphFile)),
        // The ends of lines.
        (b"p edge 2 1\ne 1 2", Ok(10 + 8)),
        (b"p edge 2 1\r\ne 1 2\n", Err(GraphFile)),
        (b"p edge 2 1\ne 1 2\r\n", Err(GraphFile)),
        (b"p edge 2 1\ne 1 2\r", Err(GraphFile)),
        (b"p edge 2 1\n\ne 1 2\n", Err(GraphFile)),
        (b"\np edge 2 1\ne 1 2\n", Err(GraphFile)),
        (b"p edge 2 1\ne 1 2\n\n", Err(GraphFile)),
        (b"p edge 2 1\ne 1 2\n\0", Err(GraphFile)),
        (b"", Err(GraphFile)),
        (b"\n", Err(GraphFile)),
        (b"c\n", Err(GraphFile)),
        (b"c only\nc comments\n", Err(GraphFile)),
        // Fields one space apart.
        (b"p edge 2 1\ne\t1 2\n", Err(GraphFile)),
        (b"p edge 2 1\ne 1\t2\n", Err(GraphFile)),
        (b"p\tedge 2 1\ne 1 2\n", Err(GraphFile)),
        (b"p edge 2 1\ne  1 2\n", Err(GraphFile)),
        (b"p edge 2 1\ne 1  2\n", Err(GraphFile)),
        (b"p  edge 2 1\ne 1 2\n", Err(GraphFile)),
        (b"p edge  2 1\ne 1 2\n", Err(GraphFile)),
        (b"p edge 2 1\ne 1 2 \n", Err(GraphFile)),
        (b"p edge 2 1 \ne 1 2\n", Err(GraphFile)),
        (b" p edge 2 1\ne 1 2\n", Err(GraphFile)),
        (b"p edge 2 1\n e 1 2\n", Err(GraphFile)),
        (b"p edge 2 1\ne 1 2 1\n", Err(GraphFile)),
        (b"p edge 2 1\ne 1\n", Err(GraphFile)),
        (b"p edge 2 1\ne 1 \n", Err(GraphFile)),
        (b"p edge 2 1\ne\n", Err(GraphFile)),
        (b"p edge 2\ne 1 2\n", Err(GraphFile)),
        (b"p\n", Err(GraphFile)),
        (b"p edge", Err(GraphFile)),
        // One to nine digits.
        (b"p edge 000000002 000000001\ne 000000001 000000002\n", Ok(10 + 8)),
        (b"p edge 0000000002 1\ne 1 2\n", Err(GraphFile)),
        (b"p edge 2 0000000001\ne 1 2\n", Err(GraphFile)),
        (b"p edge 2 1\ne 0000000001 2\n", Err(GraphFile)),
        (b"p edge 2 1\ne 1 0000000002\n", Err(GraphFile)),
        (b"p edge 2 1\ne 1 4294967298\n", Err(GraphFile)),
        (b"p edge 2 1\ne 1 18446744073709551618\n", Err(GraphFile)),
        (b"p edge 9 1\ne 7 007\n", Err(GraphLoop)),
        (b"p edge 2 1\ne +1 2\n", Err(GraphFile)),
        (b"p edge 2 1\ne 1 -2\n", Err(GraphFile)),
        (b"p edge -2 1\n", Err(GraphFile)),
        (b"p edge 2 1\ne a 2\n", Err(GraphFile)),
        (b"p edge 2 1\ne 1 :\n", Err(GraphFile)),
        (b"p edge 2 1\ne / 1\n", Err(GraphFile)),
        // The p line.
        (b"p col 2 1\ne 1 2\n", Err(GraphFile)),
        (b"p edges 2 1\ne 1 2\n", Err(GraphFile)),
        (b"P edge 2 1\ne 1 2\n", Err(GraphFile)),
        (b"p edge 2 1\ne 1 2\np edge 2 1\n", Err(GraphFile)),
        (b"p edge 2 1\np edge 2 1\ne 1 2\n", Err(GraphFile)),
        (b"e 1 2\np edge 2 1\n", Err(GraphFile)),
        (b"e 1 2\n", Err(GraphFile)),
        (b"p edge 2 1\nn 1 2\n", Err(GraphFile)),
        // The count is of lines; an edge given again makes one block.
        (b"p edge 2 2\ne 1 2\n", Err(EdgeCount)),
        (b"p edge 2 0\ne 1 2\n", Err(EdgeCount)),
        (b"p edge 2 1\ne 1 2\ne 2 1\n", Err(EdgeCount)),
        (b"p edge 2 3\ne 1 2\ne 2 1\ne 1 2\n", Ok(10 + 8)),
        (b"p edge 3 3\ne 3 1\ne 2 1\ne 1 2\n", Ok(11 + 16)),
    ];
    traps.iter().for_each(|&(file, expected)| answers(file, 3, expected));
    assert!(traps.len() >= 75, "only {}", traps.len());
}

#[test]
fn channels_are_1_to_16() {
    let edge = b"p edge 2 1\ne 1 2\n";
    for channels in 1..=16 {
        answers(edge, channels, Ok(10 + 2 + 2 * channels as usize));
    }
    for channels in [0, 17, 255, 256, 257, 1 << 16 | 1, 1 << 32 | 3, 1 << 40, u64::MAX] {
        answers(edge, channels, Err(Refusal::ColourRange));
    }
    // One channel and an edge: a block that bars everything is written.
    assert_eq!(sheet_of(edge, 1), [1, 0, 0, 0, 14, 2, 0, 1, 1, 1, 0, 1, 0, 0]);
    // Two channels: sheet B.
    assert_eq!(sheet_of(edge, 2), [1, 0, 0, 0, 16, 2, 0, 1, 2, 2, 0, 1, 0, 2, 0, 1]);
}

/// 65,536 bytes are taken, and one more is too many, whatever it is; what a file of 65,537 bytes has wrong besides does not show.
#[test]
fn a_file_has_at_most_64_kib() {
    let mut random = Random::new(SEED);
    let graph = Graph::of_pairs(32, |_, _| true);
    for _ in 0..(20 / part()).max(1) {
        let mut file = generate::long_file(&mut random, &graph, MAX_FILE);
        answers(&file, 16, Ok(MAX_SHEET));
        file.push(b'\n');
        answers(&file, 16, Err(Refusal::GraphFile));
    }
    let mut blank = b"p edge 2 1\ne 1 1\n".to_vec();
    blank.resize(MAX_FILE + 1, b'\n');
    answers(&blank, 0, Err(Refusal::GraphFile));
}

/// 32 vertices, an edge for each two of them, and 16 channels: the longest sheet, which has a buffer of its length and no shorter one.
#[test]
fn the_longest_sheet_is_written() {
    let file = Graph::of_pairs(32, |_, _| true).file();
    answers(&file, 16, Ok(16_904));
    let unequal = generate::families().into_iter().find(|(name, _)| *name == "every pair unequal").expect("a family of this name").1;
    assert!(sheet_of(&file, 16) == unequal);
}
