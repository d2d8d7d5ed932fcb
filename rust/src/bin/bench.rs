//! Times the proved library against the plain Rust version, in one run and on the same input: the medians of many short
//! rounds, which alternate the two. Before a call is timed, both are made once and must give the same answer and the
//! same memory.
//!
//! The memory that a call writes was written before, by the same call, and is not cleared between calls.
//!
//! A number in SEED, in the environment, gives other problems of the same kinds. A name as an argument, or a part of
//! one, leaves only the problems with it.

use mogzift::{reference, word_count, Built, Level, Refusal, Rest};
use std::hint::black_box;
use std::time::{Duration, Instant};

/// The most rounds of which the median is taken, how long one lasts at least, and about how long all rounds of one
/// version may take: where a call takes longer there are fewer rounds, one at least. A round is short, so that a step of
/// the processor's clock meets both versions, and long enough for the memory that the other one used to matter little.
const ROUNDS: usize = 101;
const ROUND: Duration = Duration::from_millis(1);
const ALL_ROUNDS: f64 = 1e9;

/// The problems' seed, if the environment has none.
const SEED: u64 = 2024;

/// The steps of a long run.
const STEPS: usize = 1000;

/// The goals of a page.
const GOALS: usize = 500;

/// The effects of a problem of version 2.
const EFFECTS: usize = 32;

// ---- problems

/// SplitMix64.
struct Random(u64);

impl Random {
    fn word(&mut self) -> u64 {
        self.0 = self.0.wrapping_add(0x9E37_79B9_7F4A_7C15);
        let mut x = self.0;
        x = (x ^ (x >> 30)).wrapping_mul(0xBF58_476D_1CE4_E5B9);
        x = (x ^ (x >> 27)).wrapping_mul(0x94D0_49BB_1331_11EB);
        x ^ (x >> 31)
    }

    fn below(&mut self, n: usize) -> usize {
        (self.word() % n as u64) as usize
    }

    /// So many propositions out of P, drawn one by one.
    fn set(&mut self, props: usize, members: usize) -> u32 {
        (0..members).fold(0, |set, _| set | 1 << self.below(props))
    }
}

fn file(props: usize, actions: &[[u32; 3]], starts: &[u32]) -> Vec<u8> {
    let mut file = vec![b'S', b'A', b'G', 1, 0, props as u8, actions.len() as u8, starts.len() as u8];
    file.extend(actions.iter().flatten().chain(starts).flat_map(|set| set.to_le_bytes()));
    file
}

/// The paper's lamp.
fn lamp() -> Vec<u8> {
    file(3, &[[1, 2, 1], [2, 4, 0]], &[1, 2])
}

/// So many actions, drawn in turn. One that equals an earlier one is drawn again.
fn different(actions: usize, mut draw: impl FnMut(usize) -> [u32; 3]) -> Vec<[u32; 3]> {
    // all of its room at once, so that where other memory lies, and how fast that is, does not depend on it
    let mut drawn = Vec::with_capacity(actions);
    while drawn.len() < actions {
        let action = draw(drawn.len());
        if !drawn.contains(&action) {
            drawn.push(action);
        }
    }
    drawn
}

/// Sparse: an action needs, adds and deletes one or two propositions, and a state has a few.
fn sparse(random: &mut Random, props: usize, actions: usize, states: usize) -> Vec<u8> {
    let mut few = || random.below(2) + 1;
    let sizes: Vec<[usize; 3]> = (0..actions).map(|_| [few(), few(), few()]).collect();
    let actions = different(actions, |a| sizes[a].map(|size| random.set(props, size)));
    let starts: Vec<_> = (0..states).map(|_| random.set(props, 2 + props / 8)).collect();
    file(props, &actions, &starts)
}

/// Dense: of the propositions an action needs up to a quarter, adds up to a half, deletes up to a quarter; a state has
/// about half.
fn dense(random: &mut Random, props: usize, actions: usize, states: usize) -> Vec<u8> {
    let sizes = [props / 4, props / 2, props / 4];
    let actions = different(actions, |_| sizes.map(|size| random.set(props, size)));
    let starts: Vec<_> = (0..states).map(|_| random.set(props, 3 * props / 4)).collect();
    file(props, &actions, &starts)
}

/// An effect for each of these sizes, of an action drawn for it: some actions own several, some none.
fn owned(random: &mut Random, actions: usize, sizes: &[[usize; 3]], props: usize) -> Vec<(usize, [u32; 3])> {
    sizes.iter().map(|sizes| (random.below(actions), sizes.map(|size| random.set(props, size)))).collect()
}

/// A file of version 2: of each action its precondition, of each effect its action, antecedent, add and delete.
fn effects_file(props: usize, pre: &[u32], effects: &[(usize, [u32; 3])], starts: &[u32]) -> Vec<u8> {
    let mut file = vec![b'S', b'A', b'G', 2, 0, props as u8, pre.len() as u8, starts.len() as u8, effects.len() as u8];
    file.extend(pre.iter().flat_map(|set| set.to_le_bytes()));
    for (action, sets) in effects {
        file.push(*action as u8);
        file.extend(sets.iter().flat_map(|set| set.to_le_bytes()));
    }
    file.extend(starts.iter().flat_map(|set| set.to_le_bytes()));
    file
}

/// Sparse, with effects: an action needs one proposition, and an effect up to one more; it adds and deletes what a sparse
/// action does.
fn sparse_effects(random: &mut Random, props: usize, actions: usize, states: usize) -> Vec<u8> {
    let sizes: Vec<[usize; 3]> = (0..EFFECTS).map(|_| [0, 1, 1].map(|least| least + random.below(2))).collect();
    let effects = owned(random, actions, &sizes, props);
    let pre: Vec<_> = (0..actions).map(|_| random.set(props, 1)).collect();
    let starts: Vec<_> = (0..states).map(|_| random.set(props, 2 + props / 8)).collect();
    effects_file(props, &pre, &effects, &starts)
}

/// Dense, with effects: an action needs up to an eighth of the propositions, and an effect up to an eighth more; it adds
/// and deletes what a dense action does.
fn dense_effects(random: &mut Random, props: usize, actions: usize, states: usize) -> Vec<u8> {
    let effects = owned(random, actions, &[[props / 8, props / 2, props / 4]; EFFECTS], props);
    let pre: Vec<_> = (0..actions).map(|_| random.set(props, props / 8)).collect();
    let starts: Vec<_> = (0..states).map(|_| random.set(props, 3 * props / 4)).collect();
    effects_file(props, &pre, &effects, &starts)
}

/// Chain: action i goes from proposition i to the next, round a ring, and a state begins within the first quarter. The
/// graph grows by little at each layer, and comes to rest late.
fn chain(random: &mut Random, props: usize, states: usize) -> Vec<u8> {
    let actions: Vec<_> = (0..props).map(|i| [1 << i, 1 << ((i + 1) % props), 1 << i]).collect();
    let starts: Vec<_> = (0..states).map(|_| 1 << random.below(props / 4)).collect();
    file(props, &actions, &starts)
}

struct Case {
    name: &'static str,
    file: Vec<u8>,
    depth: usize,
    words: Vec<u64>,
}

impl Case {
    fn new(name: &'static str, file: Vec<u8>, depth: usize) -> Case {
        let effects = if has_effects(&file) { file[8] } else { file[6] };
        let mut words = vec![0; word_count(file[5] as usize, effects as usize, depth)];
        reference::build(&file, depth, &mut words).unwrap();
        Case { name, file, depth, words }
    }

    fn states(&self) -> u64 {
        u64::MAX >> (64 - self.file[7])
    }

    /// Possible sets: each start state with an eighth of the propositions more, and one, drawn one by one, or with all.
    fn possible(&self, seed: u64) -> Vec<u32> {
        // numbers of its own, so that what is drawn for other calls does not depend on it
        let mut random = Random(!seed.rotate_left(32));
        let props = self.file[5] as usize;
        let widen = |start: &[u8]| {
            let sure = u32::from_le_bytes(start.try_into().unwrap());
            let members = props.min(sure.count_ones() as usize + 1 + props / 8);
            let mut set = sure;
            while (set.count_ones() as usize) < members {
                set |= random.set(props, 1);
            }
            set
        };
        self.file[self.first_state()..].chunks_exact(4).map(widen).collect()
    }

    /// The problem with these sets in the place of its states.
    fn with_states(&self, states: &[u32]) -> Case {
        let mut file = self.file[..self.first_state()].to_vec();
        file.extend(states.iter().flat_map(|set| set.to_le_bytes()));
        Case::new(self.name, file, self.depth)
    }

    /// The offset behind the actions and effects.
    fn first_state(&self) -> usize {
        self.file.len() - 4 * self.file[7] as usize
    }

    /// The start states by themselves, as files of one state.
    fn alone(&self) -> Vec<Vec<u8>> {
        let (head, starts) = self.file.split_at(self.first_state());
        let one = |start: &[u8]| [&head[..7], &[1], &head[8..], start].concat();
        starts.chunks(4).map(one).collect()
    }

    /// States and up to so many goals that have a level for them, as late as can be: the proposition that comes last of
    /// those that at least half of the states have at all, these states, and further propositions, the latest first.
    fn task(&self, most: u32) -> (u64, u32) {
        let props = self.file[5] as usize;
        let level = |set: u64, goal: u32| match reference::level(&self.file, self.depth, set, goal, &self.words) {
            Ok(Level::At(t)) => Some(t),
            _ => None,
        };
        let last = &self.words[self.words.len() - props * (props + 1) / 2..];
        let common = (0..props).filter(|&p| 2 * last[p].count_ones() >= self.file[7] as u32);
        let (_, set) = common.map(|p| (level(last[p], 1 << p), last[p])).max().unwrap();
        let mut latest: Vec<_> = (0..props).map(|p| (level(set, 1 << p), p)).collect();
        latest.sort_by(|a, b| b.cmp(a));
        let goal = latest.iter().fold(0u32, |goal, &(_, p)| {
            let more = goal | 1 << p;
            if goal.count_ones() < most && level(set, more).is_some() {
                more
            } else {
                goal
            }
        });
        (set, goal)
    }

    /// A weight for each state, none of them 0.
    fn weights(&self, seed: u64) -> Vec<u16> {
        // numbers of its own, so that what is drawn for other calls does not depend on it
        let mut random = Random(!seed.rotate_left(16));
        (0..self.file[7]).map(|_| 1 + random.below(u16::MAX as usize) as u16).collect()
    }

    /// A page of goals, of one to four propositions each.
    fn goals(&self, seed: u64) -> Vec<u32> {
        // numbers of its own, so that what is drawn for other calls does not depend on it
        let mut random = Random(!seed);
        let mut goal = || {
            let members = 1 + random.below(4);
            random.set(self.file[5] as usize, members)
        };
        (0..GOALS).map(|_| goal()).collect()
    }

    /// What a page of goals is for a set of states.
    fn page(&self, set: u64, goals: &[u32]) -> String {
        let mut levels = vec![0; goals.len()];
        reference::page(&self.file, self.depth, set, goals, &self.words, &mut levels).unwrap();
        let met = levels.iter().filter(|&&code| matches!(mogzift::entry(code), Ok(Level::At(_)))).count();
        let states = match set.count_ones() {
            1 => "1 state".to_string(),
            n => format!("{n} states"),
        };
        format!("{states}, {GOALS} goals, {met} with a level")
    }

    /// What the problem's graph is, of which so much was built.
    fn graph(&self, built: Built) -> String {
        let rest = match reference::rest(&self.file, self.depth, &self.words).unwrap() {
            Rest::At(t) => format!("rest {t}"),
            Rest::None => "no rest".to_string(),
        };
        format!("{} words, {rest}, {} looks", built.words, built.looked)
    }

    /// Half of the states, drawn one by one: many short runs where there are many states.
    fn half(&self, random: &mut Random) -> u64 {
        let states = self.file[7] as usize;
        let mut set = 0u64;
        while 2 * (set.count_ones() as usize) < states {
            set |= 1 << random.below(states);
        }
        set
    }

    /// The problem with an action that brings every proposition, the last one, so that long lists work. In version 1 it
    /// equals no other: all others need something.
    fn refilled(&self) -> Vec<u8> {
        let mut file = self.file.clone();
        let last = file[6] as usize - 1;
        let every = (u32::MAX >> (32 - file[5])).to_le_bytes();
        let refill = [[0; 4], every, [0; 4]].concat();
        if !has_effects(&file) {
            file[8 + 12 * last..][..12].copy_from_slice(&refill);
            return file;
        }
        // the last effect becomes its only one
        file[9 + 4 * last..][..4].fill(0);
        let effects = 9 + 4 * (last + 1);
        for effect in file[effects..].chunks_exact_mut(13).take(EFFECTS) {
            effect[0] %= last as u8;
        }
        let effect = &mut file[effects + 13 * (EFFECTS - 1)..][..13];
        effect[0] = last as u8;
        effect[1..].copy_from_slice(&refill);
        file
    }
}

/// Whether a file is of version 2.
fn has_effects(file: &[u8]) -> bool {
    file[3] == 2
}

/// A list of so many steps that works for the states, where there is one.
fn list(random: &mut Random, file: &[u8], set: u64) -> Vec<u8> {
    let mut out = [0; 64];
    let mut list = Vec::new();
    for _ in 0..100 * STEPS {
        list.push(random.below(file[6] as usize) as u8);
        if reference::run(file, set, &list, &mut out).is_err() {
            list.pop();
        }
        if list.len() == STEPS {
            break;
        }
    }
    list
}

// ---- races

/// Nanoseconds a call, over at least one call and at least as long as a round.
fn round(call: &mut dyn FnMut()) -> f64 {
    let began = Instant::now();
    let (mut calls, mut batch) = (0, 1);
    loop {
        for _ in 0..batch {
            call();
        }
        calls += batch;
        batch *= 2;
        let took = began.elapsed();
        if took >= ROUND {
            return took.as_nanos() as f64 / calls as f64;
        }
    }
}

fn median(mut times: Vec<f64>) -> f64 {
    times.sort_by(f64::total_cmp);
    times[times.len() / 2]
}

/// The medians of two things that were timed in turns, and of their ratio in rounds that follow each other.
struct Race {
    first: f64,
    second: f64,
    ratio: f64,
    rounds: usize,
}

impl Race {
    fn run(mut first: impl FnMut(), mut second: impl FnMut()) -> Race {
        let longest = round(&mut first).max(round(&mut second));
        let rounds = ((ALL_ROUNDS / longest) as usize).clamp(1, ROUNDS);
        let times: Vec<(f64, f64)> = (0..rounds).map(|_| (round(&mut first), round(&mut second))).collect();
        let of = |part: fn(&(f64, f64)) -> f64| median(times.iter().map(part).collect());
        Race { first: of(|times| times.0), second: of(|times| times.1), ratio: of(|times| times.0 / times.1), rounds }
    }

    fn print(&self, call: &str, case: &Case, what: String) {
        let Race { first, second, ratio, rounds } = self;
        let name = format!("{call:<12} {}, depth {} ({what})", case.name, case.depth);
        println!("{name:<88} {first:>13.0} {second:>13.0} {ratio:>9.2} {rounds:>7}");
    }
}

/// Makes a call in both versions, compares, races them, and gives the answer with the times. What stands behind `=>` is
/// the memory that the call writes: each version has its own.
macro_rules! race {
    ($call:ident($($given:expr),* $(=> $memory:expr)?)) => {{
        $(let (mut first, mut second) = ($memory.clone(), $memory.clone());)?
        let answer = mogzift::$call($($given),* $(, { let _ = &$memory; &mut first })?);
        assert_eq!(answer, reference::$call($($given),* $(, { let _ = &$memory; &mut second })?));
        $({ let _ = &$memory; assert!(first == second, "the memory differs"); })?
        let times = Race::run(
            || {
                let _ = black_box(mogzift::$call($(black_box($given)),* $(, { let _ = &$memory; black_box(&mut first) })?));
            },
            || {
                let _ = black_box(reference::$call($(black_box($given)),* $(, { let _ = &$memory; black_box(&mut second) })?));
            },
        );
        (answer.unwrap(), times)
    }};
}

fn builds(case: &Case) {
    let Case { file, depth, words, .. } = case;
    let (built, times) = race!(build(file, *depth => vec![0; words.len()]));
    times.print("build", case, case.graph(built));
}

/// A build for possible sets, and levels between them and the sure sets: of a goal that has one in both graphs, as late as
/// can be in that of the sure sets, of one that does so in the graph of the possible sets, and of all propositions.
fn within(case: &Case, seed: u64) {
    let Case { file, depth, words, .. } = case;
    let depth = *depth;
    let possible = case.possible(seed);
    let wider = case.with_states(&possible);
    let (built, times) = race!(build_within(file, &possible, depth => vec![0; words.len()]));
    times.print("build_within", case, wider.graph(built));

    let mut tasks = vec![case.task(4), wider.task(4)];
    tasks.dedup();
    for (set, goal) in tasks {
        let (levels, times) = race!(level_within(file, depth, set, goal, &wider.words, words));
        let task = format!("{} states, {} goals", set.count_ones(), goal.count_ones());
        times.print("level_within", case, format!("{task}, {:?} to {:?}", levels.possible, levels.sure));
    }
    let every = u32::MAX >> (32 - file[5]);
    let (levels, times) = race!(level_within(file, depth, case.states(), every, &wider.words, words));
    let bounds = format!("{:?} to {:?}", levels.possible, levels.sure);
    times.print("level_within", case, format!("all states, all goals, {bounds}"));
}

/// Levels by share: of a goal that comes late, for half of the weight and for nearly all, and of all propositions for all
/// of it.
fn shares(case: &Case, seed: u64) {
    let Case { file, depth, words, .. } = case;
    let (depth, weights) = (*depth, case.weights(seed));
    let ((_, goal), every) = (case.task(4), u32::MAX >> (32 - file[5]));
    let some = format!("{} goals", goal.count_ones());
    for (what, goal, numerator, denominator) in
        [(&some[..], goal, 1, 2), (&some[..], goal, 9, 10), ("all goals", every, 1, 1)]
    {
        let (level, times) = race!(level_share(file, depth, goal, &weights, numerator, denominator, words));
        times.print("level_share", case, format!("{what}, share {numerator}/{denominator}, {level:?}"));
    }
}

fn reads(case: &Case, seed: u64, random: &mut Random) {
    let Case { file, depth, words, .. } = case;
    let depth = *depth;
    let all = case.states();

    let (answer, times) = race!(rest(file, depth, words));
    times.print("rest", case, format!("{answer:?}"));

    let (set, goal) = case.task(4);
    let task = format!("{} states, {} goals", set.count_ones(), goal.count_ones());
    let (answer, times) = race!(level(file, depth, set, goal, words));
    times.print("level", case, format!("{task}, {answer:?}"));
    let every = u32::MAX >> (32 - file[5]);
    let (answer, times) = race!(level(file, depth, all, every, words));
    times.print("level", case, format!("all states, all goals, {answer:?}"));

    let goals = case.goals(seed);
    for set in [set, 1] {
        let (_, times) = race!(page(file, depth, set, &goals, words => vec![0; GOALS]));
        times.print("page", case, case.page(set, &goals));
    }

    let middle = 1 << (file[7] / 2);
    // all states but the first and one in the middle; of the lamp's two states nothing would be left
    let two_runs = if file[7] > 2 { all & !1 & !middle } else { all };
    for (what, set) in [
        ("all states", all),
        ("every other state", all & 0x5555_5555_5555_5555),
        ("half of the states", case.half(random)),
        ("two runs of states", two_runs),
        ("one state", middle),
    ] {
        let (count, times) = race!(extract(file, depth, set, words => vec![0; words.len()]));
        times.print("extract", case, format!("{what}, {count} words"));
    }

    let (plan, times) = race!(plan(file, depth, set, goal, words => vec![0; depth]));
    times.print("plan", case, format!("{task}, level {}, count {}", plan.level, plan.count));

    // hardly a list works from all states at once
    let steps = list(random, file, 1);
    let (ran, times) = race!(run(file, 1, &steps => vec![0; 64]));
    times.print("run", case, format!("1 state, {} steps, {} idle", steps.len(), ran.idle));
    let refilled = case.refilled();
    let steps = list(random, &refilled, all);
    let (ran, times) = race!(run(&refilled, all, &steps => vec![0; 64]));
    times.print("run", case, format!("all states, {} steps, {} idle, refilled", steps.len(), ran.idle));
    let (_, times) = race!(run(file, all, &[] => vec![0; 64]));
    times.print("run", case, "all states, no step".to_string());
}

/// The proved build against what bounds it from below: its words filled with zeros, which only writes them once; and
/// copied from elsewhere, which reads them too.
fn bounds(case: &Case) {
    let Case { file, depth, words, .. } = case;
    let (mut built, mut plain) = (words.clone(), words.clone());
    let mut build = || {
        let _ = black_box(mogzift::build(black_box(file), black_box(*depth), black_box(&mut built)));
    };
    let times = Race::run(&mut build, || black_box(&mut plain[..]).fill(black_box(0)));
    times.print("fill", case, "filled with zeros".to_string());
    let times = Race::run(&mut build, || black_box(&mut plain[..]).copy_from_slice(black_box(words)));
    times.print("copy", case, "copied once".to_string());
}

/// Both versions build the same words for each state by itself.
fn agree(case: &Case) {
    let (mut first, mut second) = (case.words.clone(), case.words.clone());
    for file in case.alone() {
        assert_eq!(mogzift::build(&file, case.depth, &mut first), reference::build(&file, case.depth, &mut second));
        assert!(first == second, "the memory differs");
    }
}

type Build = fn(&[u8], usize, &mut [u64]) -> Result<Built, Refusal>;

/// A build for each state by itself, against one for all of them.
fn alone(version: &str, build: Build, case: &Case) {
    let files = case.alone();
    let (mut own, mut shared) = (case.words.clone(), case.words.clone());
    let times = Race::run(
        || {
            for file in &files {
                let _ = black_box(build(black_box(file), black_box(case.depth), black_box(&mut own)));
            }
        },
        || {
            let _ = black_box(build(black_box(&case.file), black_box(case.depth), black_box(&mut shared)));
        },
    );
    times.print(version, case, format!("{} states", files.len()));
}

type SingleLevel = fn(&[u8], usize, u64, u32, &[u64]) -> Result<Level, Refusal>;
type Page = fn(&[u8], usize, u64, &[u32], &[u64], &mut [u16]) -> Result<usize, Refusal>;

/// A call for each goal by itself, against one page of them. Both must say the same.
fn goal_by_goal(version: &str, level: SingleLevel, page: Page, case: &Case, set: u64, goals: &[u32]) {
    let Case { file, depth, words, .. } = case;
    let mut levels = vec![0; GOALS];
    page(file, *depth, set, goals, words, &mut levels).unwrap();
    for (&goal, &code) in goals.iter().zip(&levels) {
        assert_eq!(mogzift::entry(code), level(file, *depth, set, goal, words));
    }
    let times = Race::run(
        || {
            for &goal in goals {
                let _ = black_box(level(
                    black_box(file),
                    black_box(*depth),
                    black_box(set),
                    black_box(goal),
                    black_box(words),
                ));
            }
        },
        || {
            let _ = black_box(page(
                black_box(file),
                black_box(*depth),
                black_box(set),
                black_box(goals),
                black_box(words),
                black_box(&mut levels),
            ));
        },
    );
    times.print(version, case, case.page(set, goals));
}

fn heading(what: &str, first: &str, second: &str) {
    println!("{what:<88} {first:>13} {second:>13} {:>9} {:>7}", "ratio", "rounds");
}

fn main() {
    let seed = std::env::var("SEED").map_or(SEED, |seed| seed.parse().expect("SEED is a number"));
    let mut random = Random(seed);
    let mut cases = vec![
        Case::new("small, lamp", lamp(), 255),
        Case::new("medium sparse", sparse(&mut random, 16, 16, 16), 32),
        Case::new("medium dense", dense(&mut random, 16, 16, 16), 32),
        Case::new("wide sparse", sparse(&mut random, 32, 32, 64), 64),
        Case::new("wide dense", dense(&mut random, 32, 32, 64), 64),
        Case::new("wide chain", chain(&mut random, 32, 64), 64),
    ];
    // numbers of their own, so that what is drawn for the others does not depend on them
    let mut other = Random(seed.rotate_left(32));
    cases.extend([
        Case::new("medium sparse effects", sparse_effects(&mut other, 16, 16, 16), 32),
        Case::new("medium dense effects", dense_effects(&mut other, 16, 16, 16), 32),
        Case::new("wide sparse effects", sparse_effects(&mut other, 32, 32, 64), 64),
        Case::new("wide dense effects", dense_effects(&mut other, 32, 32, 64), 64),
    ]);
    if let Some(name) = std::env::args().nth(1) {
        cases.retain(|case| case.name.contains(&name));
    }
    println!(
        "ns a call, medians of rounds that alternate the two; the ratio is the median of neighbouring rounds' ratios;"
    );
    println!("memory that is written is not cleared between calls; seed {seed}");
    println!("small: P=3 A=2 N=2; medium: P=16 A=16 N=16; wide: P=32 A=32 N=64; effects: version 2, E={EFFECTS}");
    heading("call", "proved ns", "plain Rust ns");
    for case in &cases {
        builds(case);
    }
    for case in &cases {
        reads(case, seed, &mut random);
    }
    for case in &cases {
        within(case, seed);
    }
    for case in &cases {
        shares(case, seed);
    }
    println!();
    heading("build", "each alone ns", "all in one ns");
    for case in cases.iter().filter(|case| case.file[7] == 64) {
        agree(case);
        alone("proved", mogzift::build, case);
        alone("plain", reference::build, case);
    }
    println!();
    heading("page", "each alone ns", "all in one ns");
    for case in &cases {
        let goals = case.goals(seed);
        for set in [case.task(4).0, 1] {
            goal_by_goal("proved", mogzift::level, mogzift::page, case, set, &goals);
            goal_by_goal("plain", reference::level, reference::page, case, set, &goals);
        }
    }
    println!();
    heading("build", "proved ns", "its words ns");
    for case in &cases {
        bounds(case);
    }
}
