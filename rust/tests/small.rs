//! Demands 2 and 3 by brute force on very small sheets: all plans of what a trace leaves, and all lists of hand calls from a few states;
//! and what 17 carries, for every cover of two settings after a few traces. Demand 2 also on small sheets whose runs often take a slide.
//! And the plan that is picked: among all plans of what is left it is the first, put back; and there is none exactly where no choice of
//! settings at all is a plan of the full sheet. And the sheet in the other version: it keeps the layout, by its bytes it has the same plans
//! among all choices of settings, and it comes back byte for byte.
//!
//! The proved library does the jobs, by both its layers (support/proved.rs); the reference says which rule holds; the plans are counted out here.
//!
//! ZOMUWEDLI_PART: one sheet in so many is checked, and the least counts are divided by it.

mod support;

use std::collections::btree_map::{BTreeMap, Entry};

use support::generate::{self, Draft, Random};
use support::reference::{self, Problem, State, Step};
use support::{proved, Chosen, Done, Fault};
use zomuwedli::{End, Refusal, Unlawful, HAND_STATE_LENGTH, MAX_ITEMS, MAX_SETTINGS, NOT_NAMED, OUT, STATE_LENGTH};

const SEED: u64 = 4_711;
const RANDOM_SHEETS: usize = 1_500;
/// Among how many sheets of 4 items of 4 settings those are taken whose runs slide, and among how many of 5 with more barred, so that some
/// have no plan. Of these the run alone is checked.
const SLIDING_SHEETS: usize = 2_500;
const TIGHT_SHEETS: usize = 5_000;
const LAWFUL_TRACES: usize = 4;
/// How many sheets of 5 items of 3 or 4 settings are made whose runs often come to rest. Of these the pick alone is checked.
const RESTING_SHEETS: usize = 8_000;
/// How many sheets of two or three items of about 8 settings are made. Of these the move alone is checked.
const WIDER_SHEETS: usize = 400;

/// How many sheets there are, of two items of 1 to 3 settings, of two items of 1 or 2, and of three items of 2; and how many are checked.
const PAIR_SHEETS: usize = 2 + 4 + 8 + 4 + 16 + 64 + 8 + 64 + 512;
const SMALLEST_SHEETS: usize = 2 + 4 + 4 + 16;
const TRIPLE_SHEETS: usize = 1 << 12;
const SHEETS: u64 = (PAIR_SHEETS + TRIPLE_SHEETS + RANDOM_SHEETS) as u64;

fn main() {
    let mut counts = Counts::default();
    let (mut random, mut other_random) = (Random::new(SEED), Random::new(SEED + 1));
    let (pairs, triples) = (pair_sheets(), triple_sheets());
    let others: Vec<Vec<u8>> = (0..RANDOM_SHEETS).map(|_| generate::small_draft(&mut random).bytes()).collect();
    let smallest: Vec<&Vec<u8>> = pairs.iter().filter(|sheet| sheet[8] <= 2 && sheet[9] <= 2).collect();
    assert_eq!((pairs.len(), smallest.len(), triples.len()), (PAIR_SHEETS, SMALLEST_SHEETS, TRIPLE_SHEETS));
    let part = generate::from_environment("ZOMUWEDLI_PART", 1).max(1);
    let share = if part == 1 { String::new() } else { format!("1/{part} of ") };
    let all = if part == 1 { "all " } else { &share };
    println!(
        "sheets: {all}{PAIR_SHEETS} of two items up to 3 settings, {all}{TRIPLE_SHEETS} of three of 2, {share}{RANDOM_SHEETS} random, \
         {share}those whose runs slide of {SLIDING_SHEETS} and {TIGHT_SHEETS} of four and five of 4, {share}{RESTING_SHEETS} for picking, \
         {share}{WIDER_SHEETS} of two and three of about 8 for moving; half of them of version 2"
    );
    for sheet in pairs.iter().chain(&triples).chain(&others).step_by(part as usize) {
        Case::new(sheet).demand_two(&mut random, &mut counts);
        Case::new(sheet).demand_three(&mut random, &mut counts);
        Case::new(sheet).unlawful_records(&mut other_random, &mut counts);
    }
    for sheet in sliding_sheets().iter().step_by(part as usize) {
        Case::new(sheet).run(&mut counts);
    }
    for sheet in pairs.iter().chain(&triples).chain(&others).chain(&resting_sheets()).step_by(part as usize) {
        Case::new(sheet).pick(&mut counts);
    }
    for sheet in pairs.iter().chain(&triples).chain(&others).chain(&wider_sheets()).step_by(part as usize) {
        moved(sheet, &mut counts);
    }
    // From the last one, which bars nothing and has hundreds of traces: the first has three.
    for sheet in smallest.iter().rev().step_by(part as usize) {
        Case::new(sheet).every_trace(&mut counts);
    }
    counts.print();
    let missing = counts.missing(part);
    missing.iter().for_each(|line| println!("too few: {line}"));
    if !missing.is_empty() {
        std::process::exit(1);
    }
    println!("small: all as demanded");
}

/// Each in either version, as it falls: every other one would leave one version out where one sheet in so many is taken.
fn in_any_version(drafts: impl Iterator<Item = Draft>) -> Vec<Vec<u8>> {
    let mut random = Random::new(SEED + 6);
    drafts.map(|draft| draft.in_any_version(&mut random).bytes()).collect()
}

/// All sheets of two items of 1 to 3 settings.
fn pair_sheets() -> Vec<Vec<u8>> {
    let sizes = (1..=3).flat_map(|first| (1..=3).map(move |second| (first, second)));
    let relations = sizes.flat_map(|(first, second)| (0..1u32 << (first * second)).map(move |relation| (first, second, relation)));
    let draft = |(first, second, relation): (usize, usize, u32)| {
        Draft::new(vec![first as u8, second as u8], |_, a, _, b| relation >> (a * second + b) & 1 == 1)
    };
    in_any_version(relations.map(draft))
}

/// All sheets of three items of 2 settings: 4 bits for each of the pairs 0 1, 0 2 and 1 2.
fn triple_sheets() -> Vec<Vec<u8>> {
    let draft = |relation: u32| Draft::new(vec![2; 3], |i, a, j, b| relation >> (4 * (i + j - 1) + 2 * a + b) & 1 == 1);
    in_any_version((0..1 << 12).map(draft))
}

/// Sheets of four and five items whose runs take a slide.
fn sliding_sheets() -> Vec<Vec<u8>> {
    let (mut random, mut tight_random) = (Random::new(SEED + 2), Random::new(SEED + 3));
    let sliding = std::iter::repeat_with(|| generate::sliding_draft(&mut random)).filter(|draft| draft.sizes.len() == 4);
    let tight = std::iter::repeat_with(|| generate::linked_draft(&mut tight_random, 5, 4, 45).in_any_version(&mut tight_random));
    let slides = |sheet: &Vec<u8>| {
        reference::read_sheet(sheet).expect("the sheet keeps the layout").0.reduce().0.iter().any(|step| step.kind() == 5)
    };
    sliding.take(SLIDING_SHEETS).chain(tight.take(TIGHT_SHEETS)).map(|draft| draft.bytes()).filter(slides).collect()
}

fn resting_sheets() -> Vec<Vec<u8>> {
    let mut random = Random::new(SEED + 7);
    let resting =
        std::iter::repeat_with(|| generate::resting_draft(&mut random)).filter(|draft| draft.sizes.len() == 5 && draft.sizes[0] <= 4);
    resting.take(RESTING_SHEETS).map(|draft| draft.bytes()).collect()
}

fn wider_sheets() -> Vec<Vec<u8>> {
    let mut random = Random::new(SEED + 5);
    (0..WIDER_SHEETS).map(|_| generate::wider_draft(&mut random).bytes()).collect()
}

#[derive(Default)]
struct Counts {
    runs: u64,
    steps: u64,
    /// Runs with a slide, the slides in them, and runs in which a bare step follows one; what such runs leave: sheets with a plan and
    /// without, and plans.
    sliding_runs: u64,
    slides: u64,
    bare_after_slide: u64,
    sliding_solvable: u64,
    sliding_unsolvable: u64,
    sliding_plans: u64,
    /// Slides that are lawful in some state of a run, and by the rule of before.
    lawful_slides: u64,
    lawful_slides_before: u64,
    lent_traces: u64,
    searched_sheets: u64,
    all_traces: u64,
    solvable: u64,
    unsolvable: u64,
    plans_put_back: u64,
    plans_refused: u64,
    start_states: u64,
    consistent_states: u64,
    fitting_states: u64,
    reached_states: u64,
    finished_states: u64,
    hand_calls: u64,
    orders: u64,
    covers_named: u64,
    covers_not_named: u64,
    covers_taken: u64,
    others_refused: u64,
    /// Plans picked with no item left, and among items left; the latter that are not the only plan of what is left, and all that are not the
    /// first plan of the full sheet. Sheets without a plan, by the run's end.
    picked_solved: u64,
    picked_at_rest: u64,
    picked_of_several: u64,
    picked_not_first_of_all: u64,
    none_impossible: u64,
    none_at_rest: u64,
    /// Sheets moved, by the version that they are moved to; those whose length changes; and choices that are plans by the bytes of both, and
    /// by neither's.
    moved_to: [u64; 2],
    moved_shorter: u64,
    plans_of_both: u64,
    plans_of_neither: u64,
}

impl Counts {
    fn print(&self) {
        println!("runs: {}, steps in them: {}, all lawful", self.runs, self.steps);
        println!(
            "runs with a slide: {}, {} slides in them; in which a bare step follows one: {}",
            self.sliding_runs, self.slides, self.bare_after_slide
        );
        println!(
            "sheets left by these: {} with a plan, {} without; plans put back: {}",
            self.sliding_solvable, self.sliding_unsolvable, self.sliding_plans
        );
        println!(
            "slides that are lawful in a state of some run: {}, {} of them by the rule of before, and then a cover is lawful too",
            self.lawful_slides, self.lawful_slides_before
        );
        println!(
            "other lawful traces: {} random, and {} that are all there are of {} sheets of two items up to 2 settings",
            self.lent_traces, self.all_traces, self.searched_sheets
        );
        println!("sheets left: {} with a plan, {} without, each as its full sheet", self.solvable, self.unsolvable);
        println!(
            "plans: {} of what is left, put back into a plan of the full sheet; {} that are none, refused",
            self.plans_put_back, self.plans_refused
        );
        println!(
            "hand calls: {} from {} starts, {} other consistent states and {} that only fit",
            self.hand_calls, self.start_states, self.consistent_states, self.fitting_states
        );
        println!(
            "states reached by lists: {}, finished: {}; orders of calling: {}",
            self.reached_states, self.finished_states, self.orders
        );
        println!(
            "covers after a lawful trace: {} refused with 17 and a setting, {} with none, {} taken; other records refused with 17: {}",
            self.covers_named, self.covers_not_named, self.covers_taken, self.others_refused
        );
        println!(
            "plans picked: {} with no item left, {} among items left, {} of these out of several; not the first of the full sheet: {}",
            self.picked_solved, self.picked_at_rest, self.picked_of_several, self.picked_not_first_of_all
        );
        println!("sheets without a plan: {} that end impossible, {} at rest", self.none_impossible, self.none_at_rest);
        println!(
            "sheets moved and moved back: {} to version 1, {} to version 2, {} of another length; choices: {} plans of both, {} of neither",
            self.moved_to[0], self.moved_to[1], self.moved_shorter, self.plans_of_both, self.plans_of_neither
        );
    }

    /// What falls short of its least count: what each sheet has one or four of, exactly; of the rest, half of what the seed gives.
    fn missing(&self, part: u64) -> Vec<String> {
        let least = [
            ("runs", self.runs, SHEETS),
            ("steps of runs", self.steps, 14_000),
            ("runs with a slide", self.sliding_runs, 400),
            ("slides in runs", self.slides, 500),
            ("runs in which a bare step follows a slide", self.bare_after_slide, 50),
            ("sheets left after a slide with a plan", self.sliding_solvable, 390),
            ("sheets left after a slide without", self.sliding_unsolvable, 15),
            ("plans put back after a slide", self.sliding_plans, 1_000),
            ("lawful slides", self.lawful_slides, 46_000),
            ("lawful slides by the rule of before", self.lawful_slides_before, 37_000),
            ("random traces", self.lent_traces, SHEETS * LAWFUL_TRACES as u64),
            ("sheets of which all traces were gone through", self.searched_sheets, SMALLEST_SHEETS as u64),
            ("all traces of a sheet", self.all_traces, 2_500),
            ("sheets left with a plan", self.solvable, 12_000),
            ("sheets left without", self.unsolvable, 5_500),
            ("plans put back", self.plans_put_back, 18_000),
            ("plans refused", self.plans_refused, 25_000),
            ("starts", self.start_states, SHEETS),
            ("consistent states", self.consistent_states, SHEETS),
            ("states that fit", self.fitting_states, SHEETS),
            ("states reached", self.reached_states, 39_000),
            ("finished states", self.finished_states, 9_000),
            ("hand calls", self.hand_calls, 170_000),
            ("orders", self.orders, 125_000),
            ("covers that name a setting", self.covers_named, 20_000),
            ("covers that name none", self.covers_not_named, 39_000),
            ("covers that are taken", self.covers_taken, 14_000),
            ("other records refused with 17", self.others_refused, 23_000),
            ("plans picked with no item left", self.picked_solved, 3_500),
            ("plans picked among items left", self.picked_at_rest, 550),
            ("plans picked out of several", self.picked_of_several, 400),
            ("plans picked that are not the first of all", self.picked_not_first_of_all, 540),
            ("impossible sheets without a plan", self.none_impossible, 2_800),
            ("sheets at rest without a plan", self.none_at_rest, 140),
            ("sheets moved", self.moved_to.iter().sum(), SHEETS + WIDER_SHEETS as u64),
            ("sheets moved to version 1", self.moved_to[0], SHEETS / 3),
            ("sheets moved to version 2", self.moved_to[1], SHEETS / 3),
            ("sheets moved to another length", self.moved_shorter, SHEETS / 2),
            ("plans of both versions", self.plans_of_both, 20_000),
            ("plans of neither", self.plans_of_neither, 50_000),
        ];
        let scaled = least.map(|(name, count, least)| (name, count, least / part));
        let short = scaled.iter().filter(|(_, count, least)| count < least);
        short.map(|(name, count, least)| format!("{name}: {count}, least {least}")).collect()
    }
}

/// One sheet, and what is known of it.
struct Case<'a> {
    sheet: &'a [u8],
    problem: Problem,
    /// The same by the slide rule of before.
    before: Problem,
    plans: Vec<Vec<u8>>,
}

/// The states that lists of calls lead to, each with the state that the call for each item of the sheet answers.
type Reached = BTreeMap<Vec<u8>, Vec<Vec<u8>>>;

/// All ways to give each item in one of its settings on.
fn assignments(problem: &Problem, state: &State) -> Vec<Vec<u8>> {
    let mut all = vec![vec![OUT; problem.sizes().len()]];
    for &i in state.active() {
        all = all.iter().flat_map(|plan| state.live(i).iter().map(move |&a| with(plan, i, a as u8))).collect();
    }
    all
}

fn with(plan: &[u8], i: usize, value: u8) -> Vec<u8> {
    let mut plan = plan.to_vec();
    plan[i] = value;
    plan
}

/// Each two items that have a setting have an allowed pair.
fn allowed(problem: &Problem, plan: &[u8]) -> bool {
    let placed: Vec<(usize, usize)> = plan.iter().enumerate().filter(|(_, &a)| a != OUT).map(|(i, &a)| (i, usize::from(a))).collect();
    placed.iter().all(|&(i, a)| placed.iter().all(|&(j, b)| i == j || problem.allowed(i, a, j, b)))
}

impl Case<'_> {
    fn new(sheet: &[u8]) -> Case<'_> {
        let (problem, _) = reference::read_sheet(sheet).expect("the sheet keeps the layout");
        let mut plans = assignments(&problem, &State::full(&problem));
        plans.retain(|plan| allowed(&problem, plan));
        Case { sheet, before: problem.of_before(), problem, plans }
    }

    fn fault(&self, what: &str, trace: &[u8]) -> ! {
        panic!("{what}: sheet {:02x?}, trace or state {trace:02x?}", self.sheet)
    }

    fn demand(&self, holds: bool, what: &str, trace: &[u8]) {
        if !holds {
            self.fault(what, trace)
        }
    }

    // ---- Demand 2 -------------------------------------------------------------------------------------------------------------------

    fn demand_two(&self, random: &mut Random, counts: &mut Counts) {
        self.run(counts);
        for _ in 0..LAWFUL_TRACES {
            let (steps, last) = generate::lawful_steps(random, &self.problem);
            counts.lent_traces += 1;
            self.undone(&reference::trace_of(&steps), &last, counts);
        }
    }

    /// Each step of the run is lawful, and at the end no rule holds or some item has no setting left.
    fn run(&self, counts: &mut Counts) {
        let most = self.problem.sizes().iter().sum::<usize>();
        let mut buffer = vec![0; 1 + 5 * most];
        let mut state = [0; STATE_LENGTH];
        let Ok(Done { end, steps, written }) = proved::run(self.sheet, &mut buffer, &mut state) else {
            self.fault("the run was refused", &[]);
        };
        let trace = &buffer[..written];
        let Ok((replayed, last)) = reference::replay(&self.problem, trace) else {
            self.fault("a step is not lawful", trace);
        };
        self.demand(replayed.len() == steps && steps <= most, "the number of steps is wrong", trace);
        self.demand(last.to_bytes() == state, "the last state is not the one that the steps lead to", trace);
        self.demand(last.emptied() == (end == End::Impossible), "the end impossible is wrong", trace);
        self.demand(last.active().is_empty() == (end == End::Solved), "the end solved is wrong", trace);
        self.demand(last.emptied() || self.no_rule_holds(&last), "a rule still holds", trace);
        let states = replayed.iter().map(|(before, _)| before).chain([&last]);
        states.for_each(|state| self.slides_of_before(state, trace, counts));
        counts.runs += 1;
        counts.steps += steps as u64;
        let left_before = (counts.solvable, counts.unsolvable, counts.plans_put_back);
        self.undone(trace, &last, counts);
        let kinds: Vec<usize> = replayed.iter().map(|(_, step)| step.kind()).collect();
        let slides = kinds.iter().filter(|&&kind| kind == 5).count();
        if slides > 0 {
            counts.sliding_runs += 1;
            counts.slides += slides as u64;
            counts.bare_after_slide += u64::from(kinds.windows(2).any(|two| two == [5, 1]));
            counts.sliding_solvable += counts.solvable - left_before.0;
            counts.sliding_unsolvable += counts.unsolvable - left_before.1;
            counts.sliding_plans += counts.plans_put_back - left_before.2;
        }
    }

    /// Where the slide rule of before holds, that of now holds, and somewhere a cover.
    fn slides_of_before(&self, state: &State, trace: &[u8], counts: &mut Counts) {
        let lawful = |problem: &Problem, kind: usize| problem.candidates(state, kind).filter(|&step| problem.lawful(state, step)).collect();
        let [slides, covers]: [Vec<Step>; 2] = [5, 4].map(|kind| lawful(&self.problem, kind));
        let slides_before: Vec<Step> = lawful(&self.before, 5);
        self.demand(slides_before.iter().all(|slide| slides.contains(slide)), "a slide that was lawful before is not", trace);
        self.demand(slides_before.is_empty() || !covers.is_empty(), "a slide was lawful before and no cover is", trace);
        counts.lawful_slides += slides.len() as u64;
        counts.lawful_slides_before += slides_before.len() as u64;
    }

    fn no_rule_holds(&self, state: &State) -> bool {
        (1..=5).all(|kind| self.problem.candidates(state, kind).all(|step| !self.problem.lawful(state, step)))
    }

    /// The sheet left has a plan exactly when the full sheet has one, and each plan of what is left is put back into one of the full sheet.
    fn undone(&self, trace: &[u8], last: &State, counts: &mut Counts) {
        let (plans, others): (Vec<_>, Vec<_>) = assignments(&self.problem, last).into_iter().partition(|plan| allowed(&self.problem, plan));
        self.demand(plans.is_empty() == self.plans.is_empty(), "one of the sheets has a plan and the other none", trace);
        *if plans.is_empty() { &mut counts.unsolvable } else { &mut counts.solvable } += 1;
        for plan in &plans {
            let mut full = vec![0; plan.len()];
            let answer = proved::put_back(self.sheet, trace, plan, &mut full);
            self.demand(answer == Ok(()), "a plan of what is left was refused", trace);
            self.demand(self.plans.contains(&full), "a plan was put back into no plan", trace);
        }
        for plan in &others {
            let mut untouched = vec![77; plan.len()];
            let answer = proved::put_back(self.sheet, trace, plan, &mut untouched);
            self.demand(answer == Err(Fault::Refused(Refusal::PlanUnfit)), "a barred pair was let through", trace);
            self.demand(untouched == vec![77; plan.len()], "a refused call wrote", trace);
        }
        counts.plans_put_back += plans.len() as u64;
        counts.plans_refused += others.len() as u64;
    }

    /// All lawful traces there are, each with all plans of what it leaves.
    fn every_trace(&self, counts: &mut Counts) {
        counts.searched_sheets += 1;
        self.traces_from(&State::full(&self.problem), &mut Vec::new(), counts);
    }

    fn traces_from(&self, state: &State, steps: &mut Vec<Step>, counts: &mut Counts) {
        counts.all_traces += 1;
        self.undone(&reference::trace_of(steps), state, counts);
        if state.emptied() {
            return;
        }
        for step in (1..=5).flat_map(|kind| self.problem.candidates(state, kind)) {
            if self.problem.lawful(state, step) {
                steps.push(step);
                self.traces_from(&self.problem.perform(state, step), steps, counts);
                steps.pop();
            }
        }
    }

    // ---- Picking --------------------------------------------------------------------------------------------------------------------

    /// Of all plans of what the run leaves the first in order, put back; none exactly where no choice of settings is a plan of the full
    /// sheet, and then no byte of the lent plan changes. Trace, state and answer are the run's.
    fn pick(&self, counts: &mut Counts) {
        let n = self.problem.sizes().len();
        let length = 1 + 5 * self.problem.sizes().iter().sum::<usize>();
        let [mut trace, mut run_trace] = [(); 2].map(|()| vec![77; length + 3]);
        let [mut state, mut run_state] = [[78; STATE_LENGTH]; 2];
        let mut plan = vec![79; n];
        let Ok(Chosen { run, has_plan }) = proved::pick(self.sheet, &mut trace, &mut plan, &mut state) else {
            self.fault("the pick was refused", &[]);
        };
        let ran = proved::run(self.sheet, &mut run_trace, &mut run_state);
        self.demand(ran == Ok(run) && trace == run_trace && state == run_state, "a pick answers otherwise than a run", &trace);
        self.demand(has_plan == !self.plans.is_empty(), "a plan was picked and there is none, or the other way round", &trace);
        let mut left = assignments(&self.problem, &State::from_bytes(&state));
        self.demand(left.windows(2).all(|two| two[0] < two[1]), "the choices do not rise", &trace);
        left.retain(|plan| allowed(&self.problem, plan));
        match left.first() {
            None => self.demand(!has_plan && plan == vec![79; n], "none was said of a sheet with a plan, or it wrote", &trace),
            Some(first) => {
                let mut full = vec![0; n];
                let answer = proved::put_back(self.sheet, &trace[..run.written], first, &mut full);
                self.demand(answer == Ok(()) && plan == full, "what was picked is not the first plan put back", &trace);
                self.demand(self.plans.contains(&plan), "what was picked is no plan", &trace);
                counts.picked_of_several += u64::from(left.len() > 1);
                counts.picked_not_first_of_all += u64::from(plan != self.plans[0]);
            }
        }
        *match (run.end, has_plan) {
            (End::Solved, true) => &mut counts.picked_solved,
            (End::Rest, true) => &mut counts.picked_at_rest,
            (End::Rest, false) => &mut counts.none_at_rest,
            (End::Impossible, false) => &mut counts.none_impossible,
            _ => self.fault("a plan after impossible, or none after solved", &trace),
        } += 1;
    }

    // ---- What 17 carries ------------------------------------------------------------------------------------------------------------

    /// Every cover that can be written of listed settings, after no record and after some lawful ones, a few beyond these, and a record of
    /// each other kind: 17 with the numbers that a search over all items and settings finds.
    fn unlawful_records(&self, random: &mut Random, counts: &mut Counts) {
        let (steps, _) = generate::lawful_steps(random, &self.problem);
        let place = random.between(1.min(steps.len()), steps.len());
        for steps in [&steps[..0], &steps[..place]] {
            let state = steps.iter().fold(State::full(&self.problem), |state, &step| self.problem.perform(&state, step));
            for (i, b, a) in self.covers(random) {
                let named = self.named(&state, i, b, a);
                self.answered(steps, Step::Neighbourhood { i, b, a }, named);
                *match named {
                    None => &mut counts.covers_taken,
                    Some((NOT_NAMED, _)) => &mut counts.covers_not_named,
                    Some(_) => &mut counts.covers_named,
                } += 1;
            }
            let [i, third, fourth] = [0; 3].map(|_| random.below(4));
            let others = [
                Step::Unsupported { i, b: third, k: fourth },
                Step::Snake { i, v: third },
                Step::Triangle { i, j: third },
                Step::SnakeSubstitution { i, b: third, a: fourth },
            ];
            for step in others {
                let lawful = !state.emptied() && self.problem.lawful(&state, step);
                self.answered(steps, step, (!lawful).then_some((NOT_NAMED, NOT_NAMED)));
                counts.others_refused += u64::from(!lawful);
            }
        }
    }

    /// Item, b and a of every cover of two listed settings, and of four others.
    fn covers(&self, random: &mut Random) -> Vec<(usize, usize, usize)> {
        let sizes = self.problem.sizes();
        let pairs = |size: usize| (0..size).flat_map(move |b| (0..size).filter(move |&a| a != b).map(move |a| (b, a)));
        let mut covers: Vec<_> = (0..sizes.len()).flat_map(|i| pairs(sizes[i]).map(move |(b, a)| (i, b, a))).collect();
        let (i, beyond) = (random.below(sizes.len()), random.pick(&[0, 1, 13, 29, 200]));
        covers.extend([(i, 0, 0), (sizes.len() + beyond, 0, 1), (i, sizes[i] + beyond, 0), (i, 0, sizes[i] + beyond)]);
        covers
    }

    /// What 17 of a cover names, by a search over all items and settings that there can be; nothing where the cover is lawful.
    fn named(&self, state: &State, i: usize, b: usize, a: usize) -> Option<(u8, u8)> {
        let everything = || (0..MAX_ITEMS).flat_map(|l| (0..MAX_SETTINGS).map(move |c| (l, c)));
        let emptied = (0..MAX_ITEMS).any(|l| state.is_active(l) && !(0..MAX_SETTINGS).any(|c| state.is_live(l, c)));
        if emptied || a == b || !state.is_live(i, a) || !state.is_live(i, b) {
            return Some((NOT_NAMED, NOT_NAMED));
        }
        let spoils = |l: usize, c: usize| self.problem.allowed(i, b, l, c) && !self.problem.allowed(i, a, l, c);
        let (l, c) = everything().find(|&(l, c)| l != i && state.is_live(l, c) && spoils(l, c))?;
        Some((l as u8, c as u8))
    }

    /// Putting back refuses the record that comes after these with 17 and these two numbers, or does not refuse it with 17.
    fn answered(&self, before: &[Step], step: Step, named: Option<(u8, u8)>) {
        let trace = reference::trace_of(&[before, &[step]].concat());
        let plan = vec![0; self.problem.sizes().len()];
        let expected = named.map(|(item, setting)| Unlawful { record: before.len() as u16, item, setting });
        let unlawful = |answer| match answer {
            Err(Fault::Unlawful(unlawful)) => Some(unlawful),
            _ => None,
        };
        let [proved, reference] =
            [proved::raw::put_back, reference::put_back].map(|put_back| put_back(self.sheet, &trace, &plan, &mut plan.clone()));
        self.demand(unlawful(reference) == expected, "the reference's 17 is another", &trace);
        self.demand(unlawful(proved) == expected, "17 is another", &trace);
    }

    // ---- Demand 3 -------------------------------------------------------------------------------------------------------------------

    fn demand_three(&self, random: &mut Random, counts: &mut Counts) {
        let mut start = [0; HAND_STATE_LENGTH];
        self.demand(proved::start(self.sheet, &mut start) == Ok(()), "the start was refused", &[]);
        counts.start_states += 1;
        self.all_lists(&start, counts);
        let fitting = generate::fitting_state(random, &self.problem).to_bytes();
        let consistent = self.problem.arc_consistent(&State::from_bytes(&fitting)).to_bytes();
        counts.consistent_states += 1;
        self.all_lists(&consistent, counts);
        // More than is demanded: the end is the same from every state that fits.
        counts.fitting_states += 1;
        self.all_lists(&fitting, counts);
    }

    /// Where two lists are finished, they end alike; and no list takes out an item that a finished one leaves.
    fn all_lists(&self, first: &[u8], counts: &mut Counts) {
        let reached = self.reached(first, counts);
        let finished: Vec<State> = reached.keys().map(|state| State::from_bytes(state)).filter(|state| self.finished(state)).collect();
        self.demand(finished.len() <= 1, "two finished lists end otherwise", first);
        for left in &finished {
            let keeps = |state: &Vec<u8>| left.active().iter().all(|&i| State::from_bytes(state).is_active(i));
            self.demand(reached.keys().all(keeps), "a list takes out what a finished one leaves", first);
        }
        let emptied = State::from_bytes(first).emptied();
        self.demand(emptied || finished.len() == 1, "no list is finished", first);
        counts.reached_states += reached.len() as u64;
        counts.finished_states += finished.len() as u64;
        for order in orders(self.problem.sizes().len()) {
            let last = called_in_order(&reached, first, &order);
            self.demand(emptied || finished[0].to_bytes() == last, "an order of calling ends otherwise", first);
            counts.orders += 1;
        }
    }

    /// "Finished when the snake rule then holds for no item in."
    fn finished(&self, state: &State) -> bool {
        self.problem.candidates(state, 2).all(|step| !self.problem.lawful(state, step))
    }

    /// Every state that some list of calls leads to, with what a call for each item makes of it.
    fn reached(&self, first: &[u8], counts: &mut Counts) -> Reached {
        let n = self.problem.sizes().len() as u64;
        for item in [n, 32, 255, 1 << 32, u64::MAX] {
            self.demand(self.called(first, item, counts) == first, "a call for an item off the sheet wrote", first);
        }
        let mut reached = Reached::new();
        let mut open = vec![first.to_vec()];
        while let Some(state) = open.pop() {
            if let Entry::Vacant(new) = reached.entry(state) {
                let next: Vec<Vec<u8>> = (0..n).map(|item| self.called(new.key(), item, counts)).collect();
                open.extend(next.iter().cloned());
                new.insert(next);
            }
        }
        reached
    }

    /// One call: an accepted one takes out the item named and no other; a refused one answers the state it was given.
    fn called(&self, state: &[u8], item: u64, counts: &mut Counts) -> Vec<u8> {
        let mut next = state.to_vec();
        let answer = proved::hand_call(self.sheet, &mut next, item);
        counts.hand_calls += 1;
        let (before, after) = (State::from_bytes(state), State::from_bytes(&next));
        match answer {
            Err(_) => self.demand(next == state, "a refused call wrote", state),
            Ok(_) => {
                let left: Vec<usize> = before.active().iter().copied().filter(|&i| i as u64 != item).collect();
                self.demand(after.active() == left && left.len() < before.active().len(), "not the named item only went out", state);
            }
        }
        next
    }
}

/// The state that calling the items in one order, again and again until none goes out, leads to.
fn called_in_order(reached: &Reached, first: &[u8], order: &[usize]) -> Vec<u8> {
    let last = order.iter().fold(first.to_vec(), |state, &item| reached[&state][item].clone());
    if last == first {
        last
    } else {
        called_in_order(reached, &last, order)
    }
}

/// All orders of n items.
fn orders(n: usize) -> Vec<Vec<usize>> {
    let mut orders = vec![Vec::new()];
    for item in 0..n {
        let place = |order: &Vec<usize>| {
            let order = order.clone();
            (0..=order.len()).map(move |place| [&order[..place], &[item], &order[place..]].concat())
        };
        orders = orders.iter().flat_map(place).collect();
    }
    orders
}

// ---- The other version --------------------------------------------------------------------------------------------------------------

/// Whether each block of these bytes allows the two settings that the choice gives its items.
fn allowed_by_bytes(sheet: &[u8], choice: &[u8]) -> bool {
    let (sizes, mut rest) = sheet[8..].split_at(usize::from(sheet[5]));
    while let [i, j, rows @ ..] = rest {
        let (i, j) = (usize::from(*i), usize::from(*j));
        let row = usize::from(choice[i]);
        let (word, length) = match (sheet[0], sizes[j]) {
            (2, 1..=8) => (u16::from(rows[row]), usize::from(sizes[i])),
            _ => (u16::from_be_bytes([rows[2 * row], rows[2 * row + 1]]), 2 * usize::from(sizes[i])),
        };
        if word >> choice[j] & 1 == 0 {
            return false;
        }
        rest = &rows[length..];
    }
    true
}

/// The moved sheet is of the other version and keeps the layout, is moved back byte for byte, and has the same plans among all choices.
fn moved(sheet: &[u8], counts: &mut Counts) {
    let moved = proved::moved(sheet);
    assert_eq!(proved::read(&moved), proved::read(sheet), "a moved sheet is read otherwise: sheet {sheet:02x?}, moved {moved:02x?}");
    assert_eq!((moved[0], proved::moved(&moved)), (3 - sheet[0], sheet.to_vec()), "moved {moved:02x?}");
    let sizes = &sheet[8..8 + usize::from(sheet[5])];
    let choices = sizes.iter().fold(vec![Vec::new()], |all: Vec<Vec<u8>>, &size| {
        all.iter().flat_map(|choice| (0..size).map(move |setting| [&choice[..], &[setting]].concat())).collect()
    });
    for choice in choices {
        let is_plan = allowed_by_bytes(sheet, &choice);
        assert_eq!(
            allowed_by_bytes(&moved, &choice),
            is_plan,
            "{choice:?} is a plan of one version: sheet {sheet:02x?}, moved {moved:02x?}"
        );
        *if is_plan { &mut counts.plans_of_both } else { &mut counts.plans_of_neither } += 1;
    }
    counts.moved_to[usize::from(moved[0]) - 1] += 1;
    counts.moved_shorter += u64::from(moved.len() != sheet.len());
}
