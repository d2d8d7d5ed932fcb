//! Makes each call of the proved library and of the plain Rust version on the same input, and compares the answers and
//! all lent memory: many problems of both versions, short and long, whole, damaged, with equal actions and with effects of
//! no action, over built, altered and junk words. What a page of goals says of each is held to the single call for it,
//! too, the graph of actions to that of the same actions as effects, and the number of a build's looks to a count that
//! makes each look, where that does not take too long. A build for possible sets is held to one for the file that has them
//! as its states, two levels to the single calls for them, and the levels of states chosen between the sure and the
//! possible sets to these two. A level by share is held to a weighing of the states one by one, and on built words to the
//! levels of single states, to that of all of them, and to those by other shares. A run is held to one that takes each step
//! in each state by itself, and counts the steps that leave all of them as they were.
//!
//! Prints how often each kind of answer came up, and fails where one that the paper has never did.

use mogzift::{reference, word_count, Built, Level, Levels, Plan, Ran, Refusal, Rest, TEXT_ROOM};
use std::collections::{BTreeMap, BTreeSet};
use std::fmt::Debug;
use std::time::Instant;

const SEED: u64 = 64;
const PROBLEMS: usize = 10_000;

// ---- random numbers

/// SplitMix64.
struct Random(u64);

impl Random {
    fn word(&mut self) -> u64 {
        self.0 = self.0.wrapping_add(0x9E37_79B9_7F4A_7C15);
        let mut x = self.0;
        x = (x ^ (x >> 30)).wrapping_mul(0xBF58_476D_1CE4_E5B9);
        x = (x ^ (x >> 27)).wrapping_mul(0x94D0_49BB_1331_11EB);
        x ^ (x >> 31)
    }

    fn below(&mut self, n: usize) -> usize {
        (self.word() % n as u64) as usize
    }

    fn from(&mut self, least: usize, most: usize) -> usize {
        least + self.below(most - least + 1)
    }

    fn one_in(&mut self, n: usize) -> bool {
        self.below(n) == 0
    }

    fn pick<T: Copy>(&mut self, things: &[T]) -> T {
        things[self.below(things.len())]
    }

    /// Of n bits, each is set with a chance of so many in 16.
    fn bits(&mut self, n: usize, chance: usize) -> u64 {
        (0..n).fold(0, |bits, i| bits | ((self.below(16) < chance) as u64) << i)
    }

    fn words(&mut self, n: usize) -> Vec<u64> {
        (0..n).map(|_| self.word()).collect()
    }

    fn sets(&mut self, n: usize) -> Vec<u32> {
        (0..n).map(|_| self.word() as u32).collect()
    }

    /// A length: mostly what is needed or more, at times one less, or any less.
    fn room(&mut self, needed: usize) -> usize {
        match self.below(24) {
            0 => needed.saturating_sub(1),
            1 => self.below(needed + 1),
            2..=7 => needed + 1 + self.below(5),
            _ => needed,
        }
    }
}

// ---- problems

/// A problem of either version. In version 1 effect i is all that action i does, and has no antecedent.
#[derive(Clone)]
struct Problem {
    version: u8,
    props: usize,
    pre: Vec<u32>,
    effects: Vec<Effect>,
    starts: Vec<u32>,
}

#[derive(Clone, Copy)]
struct Effect {
    owner: usize,
    when: u32,
    add: u32,
    del: u32,
}

impl Problem {
    /// Version 1.
    fn of_actions(props: usize, actions: &[[u32; 3]], starts: Vec<u32>) -> Problem {
        let effect = |(owner, &[_, add, del]): (usize, &[u32; 3])| Effect { owner, when: 0, add, del };
        Problem {
            version: 1,
            props,
            pre: actions.iter().map(|action| action[0]).collect(),
            effects: actions.iter().enumerate().map(effect).collect(),
            starts,
        }
    }

    /// Of version 1 the three sets of each action.
    fn actions(&self) -> Vec<[u32; 3]> {
        self.pre.iter().zip(&self.effects).map(|(&pre, effect)| [pre, effect.add, effect.del]).collect()
    }

    fn file(&self) -> Vec<u8> {
        let counts = [self.props, self.pre.len(), self.starts.len()].map(|n| n as u8);
        let mut file = [b'S', b'A', b'G', self.version, 0].to_vec();
        file.extend(counts);
        let bytes = |sets: &[u32]| -> Vec<u8> { sets.iter().flat_map(|set| set.to_le_bytes()).collect() };
        if self.version == 1 {
            file.extend(bytes(&self.actions().concat()));
        } else {
            file.push(self.effects.len() as u8);
            file.extend(bytes(&self.pre));
            for &Effect { owner, when, add, del } in &self.effects {
                file.push(owner as u8);
                file.extend(bytes(&[when, add, del]));
            }
        }
        file.extend(bytes(&self.starts));
        file
    }

    fn words(&self, depth: usize) -> usize {
        word_count(self.props, self.effects.len(), depth)
    }

    /// What a step of an action makes of a state.
    fn after(&self, action: usize, state: u32) -> u32 {
        let fired = self.effects.iter().filter(|effect| effect.owner == action && effect.when & !state == 0);
        let (add, del) = fired.fold((0, 0), |(add, del), effect| (add | effect.add, del | effect.del));
        state & !del | add
    }
}

/// Counts of all sizes, those at the ends of their ranges more often than others.
fn counts(random: &mut Random) -> (usize, usize, usize) {
    match random.below(8) {
        0 => (random.pick(&[1, 2, 31, 32]), random.pick(&[0, 1, 31, 32]), random.pick(&[1, 2, 63, 64])),
        1 => (random.from(1, 32), random.from(0, 32), random.from(1, 64)),
        2..=3 => (random.from(1, 16), random.from(0, 16), random.from(1, 64)),
        _ => (random.from(1, 7), random.from(0, 7), random.from(1, 9)),
    }
}

/// So many actions, no two of them equal: one that equals an earlier one is changed until it does not, a bit at a time.
fn different(
    random: &mut Random,
    props: usize,
    actions: usize,
    draw: impl Fn(&mut Random, usize) -> [u32; 3],
) -> Vec<[u32; 3]> {
    // with one proposition there are no more than eight
    let most = if props == 1 { 8 } else { 32 };
    let mut drawn = Vec::new();
    for i in 0..actions.min(most) {
        let mut action = draw(random, i);
        while drawn.contains(&action) {
            action[random.below(3)] ^= 1 << random.below(props);
        }
        drawn.push(action);
    }
    drawn
}

/// Sets at random, as dense as was drawn for each kind of them.
fn scattered(random: &mut Random) -> Problem {
    let (props, actions, states) = counts(random);
    let dense: [usize; 4] = std::array::from_fn(|_| random.pick(&[0, 1, 2, 2, 4, 4, 8, 13, 16]));
    let actions = different(random, props, actions, |random, _| {
        std::array::from_fn(|kind| random.bits(props, dense[kind]) as u32)
    });
    let starts = (0..states).map(|_| random.bits(props, dense[3]) as u32).collect();
    Problem::of_actions(props, &actions, starts)
}

/// Actions that go from one proposition to another, so that a level may lie deep; some ask or delete something more.
fn chained(random: &mut Random) -> Problem {
    let (props, actions, states) = counts(random);
    let tidy = random.one_in(2);
    let actions = different(random, props, actions, |random, i| {
        let from = if tidy { i % props } else { random.below(props) };
        let to = if tidy { (i + 1) % props } else { random.below(props) };
        let more = random.bits(props, 1) as u32;
        match random.below(6) {
            0 => [1 << from | more, 1 << to, 1 << from],
            1 => [1 << from, 1 << to | more, 1 << from],
            2 => [1 << from, 1 << to, more],
            _ => [1 << from, 1 << to, 1 << from],
        }
    });
    let starts = chain_starts(random, props, states);
    Problem::of_actions(props, &actions, starts)
}

fn chain_starts(random: &mut Random, props: usize, states: usize) -> Vec<u32> {
    let mut start = || if random.one_in(4) { random.bits(props, 3) as u32 } else { 1 << random.below(props) };
    (0..states).map(|_| start()).collect()
}

/// So many effects, drawn in turn, of actions drawn for them: any, or one of the first few only, so that some have many
/// effects and some none. At times one is drawn as a copy of an earlier one, of the same action or another.
fn owned(random: &mut Random, actions: usize, draw: impl Fn(&mut Random, usize) -> [u32; 3]) -> Vec<Effect> {
    if actions == 0 {
        return Vec::new();
    }
    let most = random.pick(&[actions, actions, 2 * actions, 32]).min(32);
    let count = if random.one_in(8) { random.pick(&[0, 1, 31, 32]) } else { random.from(0, most) };
    let owners = if random.one_in(3) { random.from(1, actions) } else { actions };
    let mut effects: Vec<Effect> = Vec::new();
    for i in 0..count {
        let owner = random.below(owners);
        let [when, add, del] = draw(random, i);
        let mut effect = Effect { owner, when, add, del };
        if i > 0 && random.one_in(20) {
            effect = random.pick(&effects);
            effect.owner = if random.one_in(2) { effect.owner } else { owner };
        }
        effects.push(effect);
    }
    effects
}

/// As `scattered`, with effects.
fn scattered_effects(random: &mut Random) -> Problem {
    let (props, actions, states) = counts(random);
    let dense: [usize; 5] = std::array::from_fn(|_| random.pick(&[0, 1, 2, 2, 4, 4, 8, 13, 16]));
    let effects =
        owned(random, actions, |random, _| std::array::from_fn(|kind| random.bits(props, dense[kind]) as u32));
    let pre = (0..actions).map(|_| random.bits(props, dense[3]) as u32).collect();
    let starts = (0..states).map(|_| random.bits(props, dense[4]) as u32).collect();
    Problem { version: 2, props, pre, effects, starts }
}

/// As `chained`, with effects, most of which go from their antecedents. Half of the actions need something besides.
fn chained_effects(random: &mut Random) -> Problem {
    let (props, actions, states) = counts(random);
    let effects = owned(random, actions, |random, i| {
        let (from, to) = (1 << (i % props), 1 << random.pick(&[(i + 1) % props, i / 2 % props]));
        let more = random.bits(props, 1) as u32;
        match random.below(6) {
            0 => [from | more, to, from],
            1 => [from, to | more, from],
            2 => [from, to, more],
            3 => [0, to, more],
            _ => [from, to, from],
        }
    });
    let mut pre = || if random.one_in(2) { 0 } else { 1 << random.below(props) };
    let pre = (0..actions).map(|_| pre()).collect();
    let starts = chain_starts(random, props, states);
    Problem { version: 2, props, pre, effects, starts }
}

/// A depth for which a plain build does not take too long: a chosen few problems may cost more.
fn depth(random: &mut Random, problem: &Problem) -> usize {
    let vertices = problem.props + problem.effects.len();
    let layer = (vertices * vertices * problem.props * problem.props).max(500);
    let budget = match random.below(200) {
        0..=1 => 200_000_000,
        2..=19 => 30_000_000,
        _ => 4_000_000,
    };
    let most = (budget / layer).clamp(1, 255);
    match random.below(8) {
        0 => random.from(0, 1),
        1..=3 => random.from(0, most.min(6)),
        4..=5 => random.from(0, most.min(40)),
        6 => random.from(0, most),
        _ => most,
    }
}

/// The file with something wrong in it, or at least changed.
fn damaged(random: &mut Random, mut file: Vec<u8>) -> Vec<u8> {
    let flip = |random: &mut Random, file: &mut Vec<u8>, least: usize| {
        if least < file.len() {
            let at = random.from(least, file.len() - 1);
            file[at] ^= 1 << random.below(8);
        }
    };
    match random.below(10) {
        0 => file.truncate(random.below(file.len())),
        1 => file.truncate(file.len() - 1),
        2 => file.truncate(random.below(10)),
        3 => file.push(random.word() as u8),
        4 => file.extend((0..random.below(40)).map(|i| i as u8)),
        5 => file[random.below(3)] ^= 1 << random.below(8),
        6 if random.one_in(3) => file[3] = random.pick(&[1, 2, 3]),
        6 => file[random.from(3, 4)] ^= 1 << random.below(8),
        7 => {
            // the last of these is a count in version 2 only
            let counts = random.from(1, 2);
            (0..counts).for_each(|_| file[random.from(5, 8)] = random.pick(&[0, 1, 31, 32, 33, 63, 64, 65, 128, 255]));
        }
        8 => flip(random, &mut file, 8),
        _ => (0..random.from(1, 6)).for_each(|_| flip(random, &mut file, 0)),
    }
    file
}

/// The file with equal actions: up to three copies, each before an action or in the place of one. At times the last copy
/// has a bit changed, or something else is wrong too.
fn repeated(random: &mut Random, problem: &Problem) -> Vec<u8> {
    let mut actions = problem.actions();
    for left in (0..random.from(1, 3)).rev() {
        if actions.is_empty() {
            break;
        }
        let (mut copy, at) = (random.pick(&actions), random.below(actions.len()));
        if left == 0 && random.one_in(4) {
            copy[random.below(3)] ^= 1 << random.below(problem.props);
        }
        if actions.len() < 32 && random.one_in(3) {
            actions.insert(at, copy);
        } else {
            actions[at] = copy;
        }
    }
    let file = Problem::of_actions(problem.props, &actions, problem.starts.clone()).file();
    if random.one_in(4) {
        damaged(random, file)
    } else {
        file
    }
}

/// The file with up to three effects of no action. At times something else is wrong too.
fn misowned(random: &mut Random, problem: &Problem) -> Vec<u8> {
    let (mut problem, actions) = (problem.clone(), problem.pre.len());
    for _ in 0..random.from(1, 3) {
        let owner = random.pick(&[actions, actions, actions + 1, 128, 255]);
        if problem.effects.is_empty() {
            problem.effects.push(Effect { owner, when: 0, add: 1, del: 1 });
        }
        let at = random.below(problem.effects.len());
        problem.effects[at].owner = owner;
    }
    let file = problem.file();
    if random.one_in(4) {
        damaged(random, file)
    } else {
        file
    }
}

/// A file that is in order with these start states in the place of its own.
fn with_states(file: &[u8], states: &[u32]) -> Vec<u8> {
    let (rules, _) = file.split_at(file.len() - 4 * states.len());
    [rules, &states.iter().flat_map(|set| set.to_le_bytes()).collect::<Vec<u8>>()].concat()
}

/// What is wrong with a list of possible sets for a file that is in order, and at which place, looked for bit by bit.
fn list_wrong(file: &[u8], possible: &[u32]) -> Option<(&'static str, usize)> {
    let [props, states] = [5, 7].map(|at| file[at] as usize);
    if possible.len() != states {
        let what = if possible.len() < states { "too few sets" } else { "too many sets" };
        return Some((what, states));
    }
    let first = file.len() - 4 * states;
    let sure = |s: usize, p: usize| file[first + 4 * s + p / 8] >> (p % 8) & 1 == 1;
    let may = |s: usize, p: usize| possible[s] >> p & 1 == 1;
    for s in 0..states {
        if (0..props).any(|p| sure(s, p) && !may(s, p)) {
            return Some(("a set too small", s));
        }
        if (props..32).any(|p| may(s, p)) {
            return Some(("a set with bit P", s));
        }
    }
    None
}

/// What is wrong with weights and a share for a file that is in order.
fn share_wrong(file: &[u8], weights: &[u16], numerator: u16, denominator: u16) -> Option<&'static str> {
    let states = file[7] as usize;
    if weights.len() < states {
        Some("too few weights")
    } else if weights.len() > states {
        Some("too many weights")
    } else if weights.iter().all(|&weight| weight == 0) {
        Some("no weight")
    } else if denominator == 0 {
        Some("a share over 0")
    } else if numerator > denominator {
        Some("a share above 1")
    } else {
        None
    }
}

/// Whether so much weight is enough of so much.
fn enough(weight: u128, total: u128, numerator: u16, denominator: u16) -> bool {
    weight * denominator as u128 >= total * numerator as u128
}

/// Of an accepted file, depth, goal, weights and share: the first layer in which the states are enough that hold the goal,
/// each asked by itself.
fn first_enough(
    file: &[u8],
    depth: usize,
    goal: u32,
    weights: &[u16],
    numerator: u16,
    denominator: u16,
    words: &[u64],
) -> Option<usize> {
    let (props, adds) = vertices(file);
    let [layer, over] = [props, adds.len()].map(|n| n * (n + 1) / 2);
    let goals: Vec<usize> = (0..props).filter(|&p| goal >> p & 1 == 1).collect();
    let total = weights.iter().map(|&weight| weight as u128).sum();
    (0..=depth).find(|t| {
        let layer = Layer { elements: props, words: &words[t * (layer + over)..][..layer] };
        let has = |word: u64, s: usize| word >> s & 1 == 1;
        let holds = |s: usize| {
            goals.iter().all(|&p| has(layer.words[p], s))
                && goals.iter().all(|&p| goals.iter().all(|&q| p >= q || !has(layer.mutex(p, q), s)))
        };
        let weight = (0..weights.len()).filter(|&s| holds(s)).map(|s| weights[s] as u128).sum();
        enough(weight, total, numerator, denominator)
    })
}

// ---- runs, state by state

/// A run in which each step was taken in each state of the set by itself: what is answered, the sets of all states after
/// it, and of its steps how many were of each of these kinds.
struct Walk {
    ran: Ran,
    ends: Vec<u32>,
    /// An effect fires in some states of the set and not in all.
    parted: usize,
    /// Such a step is idle.
    parted_idle: usize,
    /// It changes some states of the set and not all.
    uneven: usize,
    /// It is idle, and would change a state outside the set.
    idle_within: usize,
}

/// Of an accepted file the run of a list with room for so many sets, or why it is turned away.
fn walk(file: &[u8], set: u64, list: &[u8], room: usize) -> Result<Walk, Refusal> {
    let [actions, states] = [6, 7].map(|at| file[at] as usize);
    let set_at = |at: usize| u32::from_le_bytes(*file[at..].first_chunk().expect("four bytes"));
    let within = |s: usize| set >> s & 1 == 1;
    if set == 0 || (states..64).any(within) {
        return Err(Refusal::StateSet);
    }
    if room < states {
        return Err(Refusal::Output(states));
    }
    if list.len() > 65_535 {
        return Err(Refusal::Sequence(65_535));
    }
    if let Some(at) = list.iter().position(|&a| a as usize >= actions) {
        return Err(Refusal::Sequence(at));
    }
    let (pre, effects): (Vec<u32>, Vec<Effect>) = if version(file) == 1 {
        let effect = |a: usize| {
            let at = 8 + 12 * a;
            Effect { owner: a, when: 0, add: set_at(at + 4), del: set_at(at + 8) }
        };
        ((0..actions).map(|a| set_at(8 + 12 * a)).collect(), (0..actions).map(effect).collect())
    } else {
        let effect = |e: usize| {
            let at = 9 + 4 * actions + 13 * e;
            Effect { owner: file[at] as usize, when: set_at(at + 1), add: set_at(at + 5), del: set_at(at + 9) }
        };
        ((0..actions).map(|a| set_at(9 + 4 * a)).collect(), (0..file[8] as usize).map(effect).collect())
    };
    let mut sets: Vec<u32> = (0..states).map(|s| set_at(file.len() - 4 * (states - s))).collect();

    let members: Vec<usize> = (0..states).filter(|&s| within(s)).collect();
    let others: Vec<usize> = (0..states).filter(|&s| !within(s)).collect();
    let (mut idle, mut parted, mut parted_idle, mut uneven, mut idle_within) = (0, 0, 0, 0, 0);
    for (i, &a) in list.iter().enumerate() {
        let a = a as usize;
        if members.iter().any(|&s| pre[a] & !sets[s] != 0) {
            return Err(Refusal::Precondition(i));
        }
        let own: Vec<&Effect> = effects.iter().filter(|effect| effect.owner == a).collect();
        let fires = |effect: &Effect, state: u32| effect.when & !state == 0;
        let after = |state: u32| {
            let mut next = state;
            own.iter().filter(|effect| fires(effect, state)).for_each(|effect| next &= !effect.del);
            own.iter().filter(|effect| fires(effect, state)).for_each(|effect| next |= effect.add);
            next
        };
        let nexts: Vec<u32> = members.iter().map(|&s| after(sets[s])).collect();
        let changed = members.iter().zip(&nexts).filter(|(&s, &next)| sets[s] != next).count();
        let part = own.iter().any(|effect| {
            let fired = members.iter().filter(|&&s| fires(effect, sets[s])).count();
            0 < fired && fired < members.len()
        });
        idle += (changed == 0) as usize;
        parted += part as usize;
        parted_idle += (part && changed == 0) as usize;
        uneven += (0 < changed && changed < members.len()) as usize;
        idle_within += (changed == 0 && others.iter().any(|&s| after(sets[s]) != sets[s])) as usize;
        members.iter().zip(nexts).for_each(|(&s, next)| sets[s] = next);
    }
    Ok(Walk { ran: Ran { sets: states, idle }, ends: sets, parted, parted_idle, uneven, idle_within })
}

// ---- looks, one by one

/// A count of looks that may take more than so many steps, one for each two propositions and two vertices, is not made.
const LOOKS_BUDGET: usize = 4_000_000;

/// Of an accepted file the propositions, and of each vertex, effects first, those that it adds.
fn vertices(file: &[u8]) -> (usize, Vec<u32>) {
    let [props, actions] = [5, 6].map(|at| file[at] as usize);
    let (first, step, effects) =
        if version(file) == 2 { (9 + 4 * actions + 5, 13, file[8] as usize) } else { (8 + 4, 12, actions) };
    let add = |e: usize| u32::from_le_bytes(*file[first + step * e..].first_chunk().expect("four bytes"));
    (props, (0..effects).map(add).chain((0..props).map(|p| 1 << p)).collect())
}

/// A layer of so many elements: its labels, then the mutex words of its pairs.
struct Layer<'a> {
    elements: usize,
    words: &'a [u64],
}

impl Layer<'_> {
    /// The mutex word of two elements.
    fn mutex(&self, i: usize, j: usize) -> u64 {
        let (i, j) = (i.min(j), i.max(j));
        self.words[self.elements + i * (2 * self.elements - i - 1) / 2 + j - i - 1]
    }

    /// What the labels of two elements share.
    fn shared(&self, i: usize, j: usize) -> u64 {
        self.words[i] & self.words[j]
    }
}

/// The looks of the scan of two propositions, the lower one first.
fn scan(adds: &[u32], over: &Layer, next: &Layer, p: usize, q: usize) -> usize {
    let adders = |p: usize| (0..adds.len()).filter(move |&v| adds[v] >> p & 1 == 1);
    let single = adders(p).filter(|&v| adds[v] >> q & 1 == 1).map(|v| over.words[v]);
    let pairs = adders(p).flat_map(|v| adders(q).filter(move |&w| w != v).map(move |w| (v, w)));
    let mut left = next.shared(p, q);
    let mut looked = 0;
    for word in single.chain(pairs.map(|(v, w)| over.shared(v, w) & !over.mutex(v, w))) {
        if left == 0 {
            break;
        }
        left &= !word;
        looked += 1;
    }
    assert_eq!(left, next.mutex(p, q), "what a scan leaves of {p} and {q}");
    looked
}

/// The looks of all steps of a graph, or nothing where they are too many.
fn looks(file: &[u8], depth: usize, words: &[u64]) -> Option<usize> {
    let (props, adds) = vertices(file);
    if depth * (props * adds.len()).pow(2) > LOOKS_BUDGET {
        return None;
    }
    let [layer, over] = [props, adds.len()].map(|n| n * (n + 1) / 2);
    let step = |t: usize| {
        let words = &words[t * (layer + over) + layer..];
        let over_layer = Layer { elements: adds.len(), words: &words[..over] };
        let next = Layer { elements: props, words: &words[over..over + layer] };
        let scans = (0..props).flat_map(|p| (p + 1..props).map(move |q| (p, q)));
        scans.map(|(p, q)| scan(&adds, &over_layer, &next, p, q)).sum::<usize>()
    };
    Some((0..depth).map(step).sum())
}

// ---- the two versions side by side

const REFUSED: [&str; 18] = [
    "refused 1",
    "refused 2",
    "refused 3",
    "refused 4",
    "refused 5",
    "refused 6",
    "refused 7",
    "refused 8",
    "refused 9",
    "refused 10",
    "refused 11",
    "refused 12",
    "refused 13",
    "refused 14",
    "refused 15",
    "refused 16",
    "refused 17",
    "refused 18",
];

/// What an answer is counted as.
trait Kind {
    fn kind(&self) -> &'static str;
}

impl Kind for Rest {
    fn kind(&self) -> &'static str {
        match self {
            Rest::At(_) => "layer",
            Rest::None => "none",
        }
    }
}

impl Kind for Level {
    fn kind(&self) -> &'static str {
        match self {
            Level::At(0) => "level 0",
            Level::At(_) => "level above 0",
            Level::Never => "never",
            Level::NotByDepth => "not by depth",
        }
    }
}

impl Kind for Levels {
    fn kind(&self) -> &'static str {
        match (self.possible, self.sure) {
            (Level::At(first), Level::At(second)) if first == second => "equal levels",
            (Level::At(_), Level::At(_)) => "two levels",
            (Level::At(_), _) => "the first only",
            (_, Level::At(_)) => "the second only",
            _ => "no level",
        }
    }
}

/// What a list of possible sets is.
struct List(&'static str);

impl Kind for List {
    fn kind(&self) -> &'static str {
        self.0
    }
}

/// What weights and a share are.
struct Share(&'static str);

impl Kind for Share {
    fn kind(&self) -> &'static str {
        self.0
    }
}

impl Kind for Plan {
    fn kind(&self) -> &'static str {
        match self.level {
            0 => "plan of level 0",
            _ => "plan of a level above 0",
        }
    }
}

impl Kind for usize {
    fn kind(&self) -> &'static str {
        "written"
    }
}

impl Kind for Built {
    fn kind(&self) -> &'static str {
        match self.looked {
            0 => "built without a look",
            _ => "written",
        }
    }
}

impl Kind for Ran {
    fn kind(&self) -> &'static str {
        match self.idle {
            0 => "written",
            _ => "with idle steps",
        }
    }
}

/// The entries that were written for a page of goals.
#[derive(Debug, PartialEq)]
struct Entries(usize);

impl Kind for Entries {
    fn kind(&self) -> &'static str {
        match self.0 {
            0 => "empty page",
            _ => "written",
        }
    }
}

/// The greatest depth that fits.
#[derive(Debug, PartialEq)]
struct Fits(usize);

impl Kind for Fits {
    fn kind(&self) -> &'static str {
        match self.0 {
            0 => "depth 0",
            255 => "depth 255",
            _ => "depth between",
        }
    }
}

/// What `levels` prints.
#[derive(Debug, PartialEq)]
struct Text(String);

impl Text {
    fn of(answer: Result<usize, Refusal>, out: &[u8]) -> Result<Text, Refusal> {
        answer.map(|count| Text(String::from_utf8(out[..count].to_vec()).expect("ASCII")))
    }
}

impl Kind for Text {
    fn kind(&self) -> &'static str {
        if self.0.starts_with("refused 15 ") {
            "text of refusal 15"
        } else if self.0.starts_with("refused 16 ") {
            "text of refusal 16"
        } else if self.0.starts_with("refused") {
            "text of a refusal"
        } else if self.0.contains("rest ?") {
            "text, no rest"
        } else {
            "text, a rest"
        }
    }
}

/// What a file is counted as: version 2 if it says so and has the 8 bytes without which that is not looked at.
fn version(file: &[u8]) -> usize {
    if file.len() >= 8 && file.starts_with(b"SAG\x02\x00") {
        2
    } else {
        1
    }
}

/// How often each call was answered by each kind, and each number came with each place, by version.
#[derive(Default)]
struct Tally {
    calls: usize,
    /// The builds whose looks were made one by one, too.
    looked: usize,
    /// The levels of chosen states that were held to two others, and those of them that could be another one's.
    chosen: usize,
    loose: usize,
    /// The levels by share on built words, those of them between the first and the last of the states' own, and those of
    /// all of the weight that were held to the level of all states.
    weighed: usize,
    partial: usize,
    whole: usize,
    /// The runs that were accepted, those with a step that is idle, with one of which an effect fires in a part of the
    /// set's states, with such a one that is idle, with one that changes a part of these states, and with one that is idle
    /// where a state outside the set would change.
    walked: usize,
    idle: usize,
    parted: usize,
    parted_idle: usize,
    uneven: usize,
    idle_within: usize,
    kinds: BTreeMap<(usize, &'static str, &'static str), usize>,
    places: BTreeMap<(usize, usize, usize), usize>,
}

impl Tally {
    fn compare<T: Kind + Debug + PartialEq>(
        &mut self,
        call: &'static str,
        file: &[u8],
        proved: Result<T, Refusal>,
        plain: Result<T, Refusal>,
        input: impl FnOnce() -> String,
    ) {
        assert!(proved == plain, "{call}: proved {proved:?}, plain {plain:?}; {}", input());
        self.calls += 1;
        self.count(call, file, &proved);
    }

    fn count<T: Kind>(&mut self, call: &'static str, file: &[u8], answer: &Result<T, Refusal>) {
        let version = version(file);
        let kind = match answer {
            Ok(answer) => answer.kind(),
            Err(why) => {
                *self.places.entry((version, why.number(), why.place())).or_default() += 1;
                REFUSED[why.number() - 1]
            }
        };
        *self.kinds.entry((version, call, kind)).or_default() += 1;
    }

    /// How often a call of a version was answered by this.
    fn answers(&self, version: usize, call: &str, kind: &str) -> usize {
        let matching = self.kinds.iter().filter(|((v, c, k), _)| (*v, *c, *k) == (version, call, kind));
        matching.map(|(_, n)| n).sum()
    }

    /// How often this number came with such a place.
    fn refusals(&self, version: usize, number: usize, place: impl Fn(usize) -> bool) -> usize {
        let matching = self.places.iter().filter(|((v, n, p), _)| (*v, *n) == (version, number) && place(*p));
        matching.map(|(_, n)| n).sum()
    }

    /// Compares memory that was lent to a call, of which an accepted one wrote so many elements.
    fn memory<T: Copy + PartialEq>(
        &self,
        call: &str,
        before: &[T],
        proved: &[T],
        plain: &[T],
        written: usize,
        input: impl FnOnce() -> String,
    ) {
        if proved != plain || proved[written..] != before[written..] {
            let at = (0..before.len()).find(|&i| proved[i] != plain[i]);
            panic!("{call}: the memory differs, {written} written, first at {at:?}; {}", input());
        }
    }

    /// The words, and how many looks an accepted build made.
    fn build(&mut self, file: &[u8], depth: usize, before: Vec<u64>) -> (Vec<u64>, Option<usize>) {
        let input = || format!("depth {depth}, {} words, file {file:02x?}", before.len());
        let (mut proved, mut plain) = (before.clone(), before.clone());
        let (answer, other) = (mogzift::build(file, depth, &mut proved), reference::build(file, depth, &mut plain));
        if let Some((built, looks)) = other.ok().and_then(|built| Some((built, looks(file, depth, &plain)?))) {
            assert!(built.looked == looks, "build: plain {built:?}, one by one {looks} looks; {}", input());
            self.looked += 1;
        }
        self.compare("build", file, answer, other, input);
        self.memory("build", &before, &proved, &plain, answer.map_or(0, |built| built.words), input);
        (proved, answer.ok().map(|built| built.looked))
    }

    /// The words. What is answered and written is held to what a build answers and writes for the file with the possible
    /// sets in the place of its states, if the file and the list are in order.
    fn build_within(&mut self, file: &[u8], possible: &[u32], depth: usize, before: Vec<u64>) -> Vec<u64> {
        let input = || format!("possible {possible:x?}, depth {depth}, {} words, file {file:02x?}", before.len());
        let (mut proved, mut plain, mut single) = (before.clone(), before.clone(), before.clone());
        let answer = mogzift::build_within(file, possible, depth, &mut proved);
        let other = reference::build_within(file, possible, depth, &mut plain);
        self.compare("build_within", file, answer, other, input);
        self.memory("build_within", &before, &proved, &plain, answer.map_or(0, |built| built.words), input);
        let wanted = match mogzift::fitting_depth(file, 0) {
            Err(Refusal::Memory(_)) => {
                let wrong = list_wrong(file, possible);
                self.count("list", file, &Ok(List(wrong.map_or("possible sets", |(what, _)| what))));
                match wrong {
                    Some((_, place)) => Err(Refusal::PossibleSet(place)),
                    None => mogzift::build(&with_states(file, possible), depth, &mut single),
                }
            }
            other => other.map(|depth| unreachable!("depth {depth} in no words")),
        };
        assert!(answer == wanted, "build_within {answer:?}, wanted {wanted:?}; {}", input());
        assert!(proved == single, "build_within: not the words of a build; {}", input());
        proved
    }

    fn rest(&mut self, file: &[u8], depth: usize, words: &[u64]) {
        let input = || format!("depth {depth}, file {file:02x?}, words {words:x?}");
        self.compare("rest", file, mogzift::rest(file, depth, words), reference::rest(file, depth, words), input);
    }

    fn level(&mut self, file: &[u8], depth: usize, set: u64, goal: u32, words: &[u64]) {
        let input = || format!("depth {depth}, set {set:x}, goal {goal:x}, file {file:02x?}, words {words:x?}");
        let proved = mogzift::level(file, depth, set, goal, words);
        self.compare("level", file, proved, reference::level(file, depth, set, goal, words), input);
    }

    /// Each level is held to the single call's over its words, and so is a refusal.
    fn level_within(&mut self, file: &[u8], depth: usize, set: u64, goal: u32, possible: &[u64], sure: &[u64]) {
        let input = || {
            let words = format!("words {possible:x?} and {sure:x?}");
            format!("depth {depth}, set {set:x}, goal {goal:x}, file {file:02x?}, {words}")
        };
        let proved = mogzift::level_within(file, depth, set, goal, possible, sure);
        let plain = reference::level_within(file, depth, set, goal, possible, sure);
        self.compare("level_within", file, proved, plain, input);
        let single = |words: &[u64]| mogzift::level(file, depth, set, goal, words);
        let wanted = single(possible).and_then(|possible| Ok(Levels { possible, sure: single(sure)? }));
        assert!(proved == wanted, "level_within {proved:?}, by themselves {wanted:?}; {}", input());
        if let Ok(Levels { possible, sure }) = proved {
            [possible, sure].into_iter().for_each(|level| self.count("bound", file, &Ok(level)));
        }
    }

    /// The level, if the call is accepted. Both it and a refusal are held to what is found state by state.
    #[allow(clippy::too_many_arguments)] // the call's own
    fn level_share(
        &mut self,
        file: &[u8],
        depth: usize,
        goal: u32,
        weights: &[u16],
        numerator: u16,
        denominator: u16,
        words: &[u64],
    ) -> Option<Level> {
        let input = || {
            let share = format!("share {numerator}/{denominator} of {weights:?}");
            format!("depth {depth}, goal {goal:x}, {share}, file {file:02x?}, words {words:x?}")
        };
        let proved = mogzift::level_share(file, depth, goal, weights, numerator, denominator, words);
        let plain = reference::level_share(file, depth, goal, weights, numerator, denominator, words);
        self.compare("level_share", file, proved, plain, input);
        let wanted = match mogzift::fitting_depth(file, 0) {
            Err(Refusal::Memory(_)) if depth > 255 => Err(Refusal::Depth),
            Err(Refusal::Memory(_)) if (goal as u64) >> file[5] != 0 => Err(Refusal::Goal),
            Err(Refusal::Memory(_)) => {
                let wrong = share_wrong(file, weights, numerator, denominator);
                let right = if numerator == 0 {
                    "share of nothing"
                } else if numerator == denominator {
                    "share of all"
                } else {
                    "share of some"
                };
                self.count("share", file, &Ok(Share(wrong.unwrap_or(right))));
                match (wrong, mogzift::rest(file, depth, words)) {
                    (Some(_), _) => Err(Refusal::Share),
                    (None, Err(why)) => Err(why),
                    (None, Ok(rest)) => {
                        let first = first_enough(file, depth, goal, weights, numerator, denominator, words);
                        let no_layer = if rest == Rest::None { Level::NotByDepth } else { Level::Never };
                        Ok(first.map_or(no_layer, Level::At))
                    }
                }
            }
            other => other.map(|depth| unreachable!("depth {depth} in no words")),
        };
        assert!(proved == wanted, "level_share {proved:?}, state by state {wanted:?}; {}", input());
        proved.ok()
    }

    /// The level of states chosen between is no smaller than the first and no larger than the second; no layer is larger
    /// than any. The calls that answer are compared elsewhere.
    fn between(&mut self, file: &[u8], levels: Result<Levels, Refusal>, chosen: Result<Level, Refusal>) {
        match (levels, chosen) {
            (Ok(levels), Ok(chosen)) => {
                let bounds = layer_of(levels.possible)..=layer_of(levels.sure);
                assert!(bounds.contains(&layer_of(chosen)), "{chosen:?} is not between {levels:?}; file {file:02x?}");
                self.chosen += 1;
                self.loose += (bounds.start() < bounds.end()) as usize;
            }
            _ => assert_eq!(levels.err(), chosen.err()),
        }
    }

    fn page(&mut self, file: &[u8], depth: usize, set: u64, goals: &[u32], words: &[u64], before: Vec<u16>) {
        let input = || {
            let room = before.len();
            format!("depth {depth}, set {set:x}, goals {goals:x?}, {room} out, file {file:02x?}, words {words:x?}")
        };
        let (mut proved, mut plain) = (before.clone(), before.clone());
        let answer = mogzift::page(file, depth, set, goals, words, &mut proved);
        let other = reference::page(file, depth, set, goals, words, &mut plain);
        self.compare("page", file, answer.map(Entries), other.map(Entries), input);
        self.memory("page", &before, &proved, &plain, answer.unwrap_or(0), input);
        if answer.is_ok() {
            for (&goal, &code) in goals.iter().zip(&proved) {
                let (entry, single) = (mogzift::entry(code), mogzift::level(file, depth, set, goal, words));
                assert!(entry == single, "goal {goal:x} in a page {entry:?}, by itself {single:?}; {}", input());
                self.count("entry", file, &entry);
            }
        }
    }

    fn depth(&mut self, file: &[u8], room: usize) {
        let input = || format!("room {room}, file {file:02x?}");
        let proved = mogzift::fitting_depth(file, room).map(Fits);
        self.compare("depth", file, proved, reference::fitting_depth(file, room).map(Fits), input);
    }

    fn text(&mut self, file: &[u8], before: Vec<u8>) {
        let input = || format!("{} out, file {file:02x?}", before.len());
        let (mut proved, mut plain) = (before.clone(), before.clone());
        let answer = mogzift::levels_text(file, &mut proved);
        let other = reference::levels_text(file, &mut plain);
        self.compare("text", file, Text::of(answer, &proved), Text::of(other, &plain), input);
        self.memory("text", &before, &proved, &plain, answer.unwrap_or(0), input);
    }

    fn extract(&mut self, file: &[u8], depth: usize, set: u64, words: &[u64], before: Vec<u64>) {
        let input = || format!("depth {depth}, set {set:x}, {} out, file {file:02x?}, words {words:x?}", before.len());
        let (mut proved, mut plain) = (before.clone(), before.clone());
        let answer = mogzift::extract(file, depth, set, words, &mut proved);
        self.compare("extract", file, answer, reference::extract(file, depth, set, words, &mut plain), input);
        self.memory("extract", &before, &proved, &plain, answer.unwrap_or(0), input);
    }

    /// What is answered and written is held to what is found state by state, and so is a refusal.
    fn run(&mut self, file: &[u8], set: u64, list: &[u8], before: Vec<u32>) {
        let input = || format!("set {set:x}, list {list:?}, {} out, file {file:02x?}", before.len());
        let (mut proved, mut plain) = (before.clone(), before.clone());
        let answer = mogzift::run(file, set, list, &mut proved);
        self.compare("run", file, answer, reference::run(file, set, list, &mut plain), input);
        self.memory("run", &before, &proved, &plain, answer.map_or(0, |ran| ran.sets), input);
        let walk = match mogzift::fitting_depth(file, 0) {
            Err(Refusal::Memory(_)) => walk(file, set, list, before.len()),
            other => other.map(|depth| unreachable!("depth {depth} in no words")),
        };
        let wanted = walk.as_ref().map(|walk| walk.ran).map_err(|&why| why);
        assert!(answer == wanted, "run {answer:?}, state by state {wanted:?}; {}", input());
        if let Ok(Walk { ran, ends, parted, parted_idle, uneven, idle_within }) = walk {
            let sets = &proved[..ends.len()];
            assert!(ends == sets, "run: sets {sets:x?}, state by state {ends:x?}; {}", input());
            self.walked += 1;
            self.idle += (ran.idle > 0) as usize;
            self.parted += (parted > 0) as usize;
            self.parted_idle += (parted_idle > 0) as usize;
            self.uneven += (uneven > 0) as usize;
            self.idle_within += (idle_within > 0) as usize;
        }
    }

    fn plan(&mut self, file: &[u8], depth: usize, set: u64, goal: u32, words: &[u64], before: Vec<u32>) {
        let input = || {
            let room = before.len();
            format!("depth {depth}, set {set:x}, goal {goal:x}, {room} out, file {file:02x?}, words {words:x?}")
        };
        let (mut proved, mut plain) = (before.clone(), before.clone());
        let answer = mogzift::plan(file, depth, set, goal, words, &mut proved);
        self.compare("plan", file, answer, reference::plan(file, depth, set, goal, words, &mut plain), input);
        self.memory("plan", &before, &proved, &plain, answer.map_or(0, |plan| plan.level), input);
    }
}

// ---- what the calls are given

/// Mostly a set of some of the states, at times all, none, or some that do not exist.
fn state_set(random: &mut Random, states: usize) -> u64 {
    let all = u64::MAX >> (64 - states);
    let one = 1 << random.below(states);
    match random.below(20) {
        0 => 0,
        1 => random.word(),
        2 => all.checked_add(1).unwrap_or(0) | random.word() & all,
        3..=5 => all,
        6..=12 => one,
        _ => {
            let chance = random.pick(&[1, 4, 8, 15]);
            one | random.bits(states, chance)
        }
    }
}

/// Mostly one goal or a few, at times none, all, or some that do not exist.
fn goal_set(random: &mut Random, props: usize) -> u32 {
    let all = u32::MAX >> (32 - props);
    match random.below(20) {
        0 => 0,
        1 => random.word() as u32,
        2 => all.checked_add(1).unwrap_or(0) | random.word() as u32 & all,
        3 => all,
        4..=11 => 1 << random.below(props),
        12..=16 => 1 << random.below(props) | 1 << random.below(props),
        _ => random.bits(props, 3) as u32,
    }
}

/// Mostly a few goals, at times none, one, or some hundreds.
fn goal_page(random: &mut Random, props: usize) -> Vec<u32> {
    let goals = match random.below(12) {
        0 => 0,
        1 => 1,
        2 => random.from(100, 500),
        _ => random.from(2, 16),
    };
    (0..goals).map(|_| goal_set(random, props)).collect()
}

/// Possible sets for all states, as wide as is drawn.
fn possible_sets(random: &mut Random, problem: &Problem) -> Vec<u32> {
    let chance = random.pick(&[0, 1, 2, 4, 8, 16]);
    problem.starts.iter().map(|start| start | random.bits(problem.props, chance) as u32).collect()
}

/// Mostly such a list, at times a shorter or longer one, or one with sets that lack something or have too much.
fn any_list(random: &mut Random, problem: &Problem) -> Vec<u32> {
    let mut list = possible_sets(random, problem);
    match random.below(12) {
        0 => list.truncate(random.below(list.len())),
        1 => {
            list.pop();
        }
        2 => {
            let more = random.from(1, 3);
            list.extend(random.sets(more));
        }
        3..=6 => {
            for _ in 0..random.from(1, 3) {
                let at = random.below(list.len());
                match random.below(3) {
                    0 => list[at] &= random.word() as u32,
                    1 => list[at] |= u32::MAX << random.from(problem.props - 1, 31),
                    _ => list[at] ^= 1 << random.below(32),
                }
            }
        }
        _ => {}
    }
    list
}

/// Weights of so many states, not all 0: of one kind, or of several.
fn some_weights(random: &mut Random, states: usize) -> Vec<u16> {
    let one = random.word() as u16;
    let kind = random.below(8);
    let mut weight = || match kind {
        0 => 1,
        1 => one.max(1),
        2 => u16::MAX,
        3 => random.below(4) as u16,
        4 => random.pick(&[0, 0, 0, 1, u16::MAX]),
        5 => random.pick(&[1, u16::MAX - 1, u16::MAX]),
        6 => 1 + random.below(9) as u16,
        _ => random.word() as u16,
    };
    let mut weights: Vec<u16> = (0..states).map(|_| weight()).collect();
    if weights.iter().all(|&weight| weight == 0) {
        weights[random.below(states)] = 1;
    }
    weights
}

/// A share up to 1. At times it is one that so many states of the same weight can have, or that such weights do have.
fn some_share(random: &mut Random, weights: &[u16]) -> (u16, u16) {
    let most = random.pick(&[1, 2, 10, 1000, u16::MAX as usize]);
    let denominator = random.from(1, most);
    let numerator = match random.below(8) {
        0 => 0,
        1 => denominator,
        2 => denominator - 1,
        3 => 1,
        4..=5 => {
            let total: u64 = weights.iter().map(|&weight| weight as u64).sum();
            let part: u64 = weights.iter().filter(|_| random.one_in(2)).map(|&weight| weight as u64).sum();
            return match (u16::try_from(part), u16::try_from(total)) {
                (Ok(part), Ok(total)) => (part, total),
                _ => (random.below(weights.len() + 1) as u16, weights.len() as u16),
            };
        }
        _ => random.from(0, denominator),
    };
    (numerator as u16, denominator as u16)
}

/// Mostly such weights, at times fewer or more, or all 0.
fn any_weights(random: &mut Random, states: usize) -> Vec<u16> {
    let mut weights = some_weights(random, states);
    match random.below(16) {
        0 => weights.truncate(random.below(states)),
        1 => {
            weights.pop();
        }
        2 => weights.extend((0..random.from(1, 3)).map(|_| random.word() as u16)),
        3 => weights.fill(0),
        _ => {}
    }
    weights
}

/// Mostly such a share, at times one above 1, or over 0.
fn any_share(random: &mut Random, weights: &[u16]) -> (u16, u16) {
    let (numerator, denominator) = some_share(random, weights);
    match random.below(16) {
        0 => (numerator, 0),
        1 => (denominator.saturating_add(1), denominator),
        2 => (random.word() as u16, random.word() as u16),
        _ => (numerator, denominator),
    }
}

fn call_depth(random: &mut Random, depth: usize) -> usize {
    match random.below(40) {
        0 => random.pick(&[256, 257, 1000, 1 << 32, usize::MAX]),
        1 => 255,
        2..=6 => random.below(depth + 1),
        _ => depth,
    }
}

/// The words as built, with a few altered, or junk.
fn graph_words(random: &mut Random, problem: &Problem, built: &[u64]) -> Vec<u64> {
    let mut words = built.to_vec();
    let all = u64::MAX >> (64 - problem.starts.len());
    match random.below(6) {
        0..=1 => {}
        2..=3 => {
            for _ in 0..random.from(1, 8) {
                let at = random.below(words.len());
                let mask = random.word();
                match random.below(4) {
                    0 => words[at] |= mask,
                    1 => words[at] &= mask,
                    2 => words[at] = 0,
                    _ => words[at] ^= mask,
                }
            }
        }
        4 => {
            // every word with the same chance for a bit, so that goals are met at times
            let (left, right) = (random.below(3), random.below(3));
            for word in &mut words {
                *word = (0..left).fold(random.word(), |word, _| word & random.word());
                *word = (0..right).fold(*word, |word, _| word | random.word());
                if random.below(2) == 0 {
                    *word &= all;
                }
            }
        }
        _ => {
            // labels lost all over a built graph
            let gone = random.bits(64, 3);
            let every = random.from(2, 9);
            for word in words.iter_mut().skip(random.below(9)).step_by(every) {
                *word &= !gone;
            }
        }
    }
    words
}

/// A list that runs from the states of the set as far as it goes; at times a step is put in that may not work, or is
/// none.
fn list(random: &mut Random, problem: &Problem, set: u64) -> Vec<u8> {
    let mut states: Vec<u32> =
        problem.starts.iter().enumerate().filter(|(s, _)| set >> s & 1 == 1).map(|(_, &start)| start).collect();
    let mut list = Vec::new();
    let most = random.pick(&[0, 1, 2, 5, 20, 100]);
    while list.len() < most {
        let ready = |pre: u32| states.iter().all(|x| pre & !x == 0);
        let able: Vec<usize> = (0..problem.pre.len()).filter(|&a| ready(problem.pre[a])).collect();
        if able.is_empty() {
            break;
        }
        let a = random.pick(&able);
        states.iter_mut().for_each(|x| *x = problem.after(a, *x));
        list.push(a as u8);
    }
    match random.below(12) {
        0 => {
            let at = random.below(list.len() + 1);
            list.insert(at, random.word() as u8);
        }
        1..=4 if !problem.pre.is_empty() => {
            let at = random.below(list.len() + 1);
            list.insert(at, random.below(problem.pre.len()) as u8);
        }
        5 => list.extend((0..random.below(30)).map(|_| random.below(problem.pre.len() + 1) as u8)),
        _ => {}
    }
    if random.one_in(100) {
        list.resize(random.pick(&[65_534, 65_535, 65_536, 65_600]), random.below(3) as u8);
    }
    list
}

/// One of the twelve calls, over a file whose problem was this before it was changed, if it was.
fn any_call(tally: &mut Tally, random: &mut Random, problem: &Problem, file: &[u8], depth: usize, built: &[u64]) {
    let depth = call_depth(random, depth);
    // a deeper call than was built wants more words than there are; they are not made, so that it is turned away
    let needed = if depth > 255 { built.len() } else { problem.words(depth) };
    let set = state_set(random, problem.starts.len());
    let goal = goal_set(random, problem.props);
    let mut words = graph_words(random, problem, built);
    words.truncate(random.room(needed).min(words.len()));
    match random.below(23) {
        20..=22 => {
            let weights = any_weights(random, problem.starts.len());
            let (numerator, denominator) = any_share(random, &weights);
            tally.level_share(file, depth, goal, &weights, numerator, denominator, &words);
        }
        18..=19 => {
            let mut sure = graph_words(random, problem, built);
            sure.truncate(random.room(needed).min(sure.len()));
            tally.level_within(file, depth, set, goal, &words, &sure);
        }
        16..=17 => {
            let list = any_list(random, problem);
            let room = build_room(random, problem, needed, built);
            let before = random.words(room);
            tally.build_within(file, &list, depth, before);
        }
        14..=15 => {
            let goals = goal_page(random, problem.props);
            let room = random.room(goals.len());
            let before = (0..room).map(|_| random.word() as u16).collect();
            tally.page(file, depth, set, &goals, &words, before);
        }
        13 => {
            let room = random.room(TEXT_ROOM);
            tally.text(file, (0..room).map(|_| random.word() as u8).collect());
        }
        12 => tally.depth(file, if random.one_in(8) { random.word() as usize } else { random.room(needed) }),
        0 => tally.rest(file, depth, &words),
        1..=3 => tally.level(file, depth, set, goal, &words),
        4 => {
            let room = random.room(needed).min(built.len() + 5);
            let before = random.words(room);
            tally.extract(file, depth, set, &words, before);
        }
        5..=7 => {
            let room = random.room(problem.starts.len());
            let (list, before) = (list(random, problem, set), random.sets(room));
            tally.run(file, set, &list, before);
        }
        8 => {
            let room = build_room(random, problem, needed, built);
            let before = random.words(room);
            tally.build(file, depth, before);
        }
        _ => {
            let room = random.room(depth.min(255));
            let before = random.sets(room);
            tally.plan(file, depth, set, goal, &words, before);
        }
    }
}

/// Room for a build: only for those that are turned away, or are small, since the others were made once.
fn build_room(random: &mut Random, problem: &Problem, needed: usize, built: &[u64]) -> usize {
    let room = if problem.words(1) < 60 { random.room(needed) } else { needed.saturating_sub(1) };
    room.min(built.len() + 5)
}

/// The graph for possible sets and one for states chosen between: all that is sure, and of what is possible some. The
/// levels of several goals, for several sets of states, in all three graphs.
fn bounds(tally: &mut Tally, random: &mut Random, problem: &Problem, file: &[u8], depth: usize, built: &[u64]) {
    let possible = possible_sets(random, problem);
    let between = |(&sure, &set): (&u32, &u32)| sure | set & random.word() as u32;
    let chosen: Vec<u32> = problem.starts.iter().zip(&possible).map(between).collect();
    let chosen_file = with_states(file, &chosen);
    let before = random.words(problem.words(depth));
    let wider = tally.build_within(file, &possible, depth, before.clone());
    let (words, _) = tally.build(&chosen_file, depth, before);
    for _ in 0..10 {
        let (set, goal) = (state_set(random, problem.starts.len()), goal_set(random, problem.props));
        tally.level_within(file, depth, set, goal, &wider, built);
        let levels = mogzift::level_within(file, depth, set, goal, &wider, built);
        tally.between(file, levels, mogzift::level(&chosen_file, depth, set, goal, &words));
    }
}

/// Levels by share on built words. There a state holds a goal from its own level on, so that the layer can be told by the
/// levels of single states; a larger share never has an earlier one; and all of the weight, where each state has some, is
/// the level of all states.
fn shares(tally: &mut Tally, random: &mut Random, problem: &Problem, file: &[u8], depth: usize, built: &[u64]) {
    let states = problem.starts.len();
    let level = |set: u64, goal: u32| mogzift::level(file, depth, set, goal, built).expect("a level call in order");
    for _ in 0..4 {
        // of some goals the one with the most different levels: with most goals it is 0 or no layer
        let goals = (0..6).map(|_| goal_set(random, problem.props) & (u32::MAX >> (32 - problem.props)));
        let singles = |goal: u32| (0..states).map(|s| layer_of(level(1 << s, goal))).collect::<Vec<usize>>();
        let layers = goals.map(|goal| (goal, singles(goal)));
        let (goal, singles) = layers.max_by_key(|(_, all)| BTreeSet::from_iter(all).len()).expect("a goal");

        let weights = some_weights(random, states);
        let mut rising: Vec<(u16, u16)> = (0..4).map(|_| some_share(random, &weights)).chain([(1, 1)]).collect();
        rising.sort_by(|&(a, b), &(c, d)| (a as u32 * d as u32).cmp(&(c as u32 * b as u32)));
        let mut before = 0;
        for (numerator, denominator) in rising {
            let input = || format!("{numerator}/{denominator} of {weights:?}, goal {goal:x}, file {file:02x?}");
            let answer = tally.level_share(file, depth, goal, &weights, numerator, denominator, built);
            let answer = answer.expect("a share in order");
            let layer = layer_of(answer);
            let wanted = by_singles(&singles, &weights, numerator, denominator);
            assert!(layer == wanted, "{answer:?}, by the states' {singles:?} {wanted}; {}", input());
            assert!(before <= layer, "{answer:?}, by a smaller share {before}; {}", input());
            before = layer;
            if numerator == denominator && !weights.contains(&0) {
                let all = level(u64::MAX >> (64 - states), goal);
                assert!(answer == all, "{answer:?}, of all states {all:?}; {}", input());
                tally.whole += 1;
            }
            tally.weighed += 1;
            tally.partial += (singles.iter().min() < Some(&layer) && Some(&layer) < singles.iter().max()) as usize;
        }
    }
}

/// The layer of a level. No layer is larger than any.
fn layer_of(level: Level) -> usize {
    match level {
        Level::At(t) => t,
        Level::Never | Level::NotByDepth => usize::MAX,
    }
}

/// The first of the states' layers by which enough of the weight has come, or 0 if none is asked for.
fn by_singles(layers: &[usize], weights: &[u16], numerator: u16, denominator: u16) -> usize {
    let total = weights.iter().map(|&weight| weight as u128).sum();
    let mut by_layer: Vec<(usize, u16)> = layers.iter().copied().zip(weights.iter().copied()).collect();
    by_layer.sort();
    let mut come = 0;
    let mut layer = 0;
    for (next, weight) in by_layer {
        if enough(come, total, numerator, denominator) {
            break;
        }
        (layer, come) = (next, come + weight as u128);
    }
    layer
}

fn problem_calls(tally: &mut Tally, random: &mut Random) {
    let kinds = [scattered, chained, scattered_effects, chained_effects];
    let problem = random.pick(&kinds)(random);
    let file = problem.file();
    let depth = depth(random, &problem);
    let room = problem.words(depth) + random.below(4);
    let before = random.words(room);
    let built = tally.build(&file, depth, before.clone());
    if problem.version == 1 && random.one_in(8) {
        let as_effects = Problem { version: 2, ..problem.clone() };
        assert!(tally.build(&as_effects.file(), depth, before) == built, "not the same as effects: {file:02x?}");
    }
    let (built, _) = built;
    if random.one_in(2) {
        bounds(tally, random, &problem, &file, depth, &built[..problem.words(depth)]);
    }
    if random.one_in(2) {
        shares(tally, random, &problem, &file, depth, &built);
    }
    // fewer calls where there are many words to copy for each
    let calls = if built.len() < 20_000 { 30 } else { 6 };
    for _ in 0..calls {
        any_call(tally, random, &problem, &file, depth, &built);
    }
    for _ in 0..calls / 5 {
        let file = damaged(random, file.clone());
        any_call(tally, random, &problem, &file, depth, &built);
    }
    for _ in 0..1 + calls / 15 {
        let file = if problem.version == 1 { repeated(random, &problem) } else { misowned(random, &problem) };
        any_call(tally, random, &problem, &file, depth, &built);
    }
}

/// As wide and as deep as can be.
fn widest(tally: &mut Tally, random: &mut Random) {
    for dense in [2, 8] {
        let draw = |random: &mut Random, _| std::array::from_fn(|_| random.bits(32, dense) as u32);
        let actions = different(random, 32, 32, draw);
        let starts = (0..64).map(|_| random.bits(32, dense) as u32).collect();
        let mut problem = Problem::of_actions(32, &actions, starts);
        deepest_calls(tally, random, &problem);
        problem.version = 2;
        for effect in &mut problem.effects {
            (effect.owner, effect.when) = (random.below(32), random.bits(32, dense) as u32);
        }
        deepest_calls(tally, random, &problem);
    }
}

fn deepest_calls(tally: &mut Tally, random: &mut Random, problem: &Problem) {
    let (file, depth) = (problem.file(), 255);
    let before = random.words(problem.words(depth));
    let (built, _) = tally.build(&file, depth, before);
    bounds(tally, random, problem, &file, depth, &built);
    shares(tally, random, problem, &file, depth, &built);
    for _ in 0..10 {
        any_call(tally, random, problem, &file, depth, &built);
    }
}

// ---- what came up

/// Some are no calls: an entry is a goal of a page that was accepted, a list what was given to a build within bounds whose
/// file was in order, a bound one of the two levels of a call that was accepted, a share what was given to a level by share
/// whose file, depth and goal were in order.
const CALLS: [&str; 16] = [
    "build",
    "build_within",
    "list",
    "rest",
    "level",
    "level_within",
    "bound",
    "level_share",
    "share",
    "page",
    "entry",
    "extract",
    "run",
    "plan",
    "depth",
    "text",
];

fn print_kinds(tally: &Tally, version: usize) {
    println!("{:<24} {}", format!("version {version}"), CALLS.map(|call| format!(" {call:>7}")).concat());
    let mut kinds: Vec<&str> =
        tally.kinds.keys().map(|(_, _, kind)| *kind).filter(|kind| !REFUSED.contains(kind)).collect();
    kinds.sort();
    kinds.dedup();
    for kind in kinds.into_iter().chain(REFUSED) {
        let count = |call: &str| format!(" {:>1$}", tally.answers(version, call, kind), call.len().max(7));
        println!("{kind:<24} {}", CALLS.map(count).concat());
    }
}

/// How often some refusals came with the places that they can have.
fn print_places(tally: &Tally) {
    let mut places = Vec::new();
    for version in [1, 2] {
        let mut place = |what: &'static str, number: usize, test: fn(usize) -> bool| {
            places.push((version, what, tally.refusals(version, number, test)));
        };
        place("3 at offset 5", 3, |place| place == 5);
        place("3 at offset 6", 3, |place| place == 6);
        place("3 at offset 7", 3, |place| place == 7);
        place("11, too long", 11, |place| place == 65_535);
        place("11, a number", 11, |place| place != 65_535);
        place("12, not the first step", 12, |place| place > 0);
        place("14 at layer 0", 14, |place| place == 0);
        place("14 above layer 0", 14, |place| place > 0);
        if version == 1 {
            place("15, the second action", 15, |place| place == 20);
            place("15, a later one", 15, |place| place > 20);
        } else {
            place("1, of 8 bytes", 1, |_| true);
            place("3 at offset 8", 3, |place| place == 8);
            place("5, the first set", 5, |place| place == 9);
            place("5, a later one", 5, |place| place > 9);
            place("16, without an action", 16, |place| place == 9);
            place("16, elsewhere", 16, |place| place > 9);
        }
        place("17, the first state", 17, |place| place == 0);
        place("17, a later place", 17, |place| place > 0);
    }
    for (version, what, count) in places {
        println!("version {version}: {what:<24} {count:>8}");
        assert!(count > 0, "nothing of version {version} was refused by {what}");
    }
}

fn check_kinds(tally: &Tally, version: usize) {
    for (call, kind) in [
        ("build", "written"),
        ("build", "built without a look"),
        ("build_within", "written"),
        ("build_within", "built without a look"),
        ("build_within", REFUSED[5]),
        ("build_within", REFUSED[8]),
        ("list", "possible sets"),
        ("list", "too few sets"),
        ("list", "too many sets"),
        ("list", "a set too small"),
        ("list", "a set with bit P"),
        ("rest", "layer"),
        ("rest", "none"),
        ("level", "level 0"),
        ("level", "level above 0"),
        ("level", "never"),
        ("level", "not by depth"),
        ("level_within", "equal levels"),
        ("level_within", "two levels"),
        ("level_within", "the first only"),
        ("level_within", "the second only"),
        ("level_within", "no level"),
        ("level_within", REFUSED[5]),
        ("level_within", REFUSED[6]),
        ("level_within", REFUSED[7]),
        ("level_within", REFUSED[8]),
        ("bound", "level 0"),
        ("bound", "level above 0"),
        ("bound", "never"),
        ("bound", "not by depth"),
        ("level_share", "level 0"),
        ("level_share", "level above 0"),
        ("level_share", "never"),
        ("level_share", "not by depth"),
        ("level_share", REFUSED[5]),
        ("level_share", REFUSED[7]),
        ("level_share", REFUSED[17]),
        ("level_share", REFUSED[8]),
        ("share", "share of nothing"),
        ("share", "share of some"),
        ("share", "share of all"),
        ("share", "too few weights"),
        ("share", "too many weights"),
        ("share", "no weight"),
        ("share", "a share over 0"),
        ("share", "a share above 1"),
        ("page", "written"),
        ("page", "empty page"),
        ("page", REFUSED[9]),
        ("entry", "level 0"),
        ("entry", "level above 0"),
        ("entry", "never"),
        ("entry", "not by depth"),
        ("entry", REFUSED[7]),
        ("extract", "written"),
        ("run", "written"),
        ("run", "with idle steps"),
        ("run", REFUSED[11]),
        ("plan", "plan of level 0"),
        ("plan", "plan of a level above 0"),
        ("depth", "depth 0"),
        ("depth", "depth between"),
        ("depth", "depth 255"),
        ("text", "text, a rest"),
        ("text", "text, no rest"),
        ("text", "text of a refusal"),
        ("text", if version == 1 { "text of refusal 15" } else { "text of refusal 16" }),
        ("text", REFUSED[9]),
    ] {
        assert!(tally.answers(version, call, kind) > 0, "version {version}: no {call} was answered by: {kind}");
    }
    // a file of another version than these is counted as version 1
    let others: &[usize] = if version == 1 { &[16] } else { &[2, 15] };
    for number in 1..=18 {
        let count = tally.refusals(version, number, |_| true);
        assert_eq!(count > 0, !others.contains(&number), "version {version}: {count} refused with {number}");
    }
    let own = if version == 1 { 15 } else { 16 };
    for call in CALLS.into_iter().filter(|call| !["list", "bound", "share", "entry", "text"].contains(call)) {
        assert!(tally.answers(version, call, REFUSED[own - 1]) > 0, "no {call} was refused with {own}");
    }
}

fn main() {
    let began = Instant::now();
    let mut random = Random(SEED);
    let mut tally = Tally::default();
    for _ in 0..PROBLEMS {
        problem_calls(&mut tally, &mut random);
    }
    widest(&mut tally, &mut random);

    println!("seed {SEED}: {} calls in {:.1} s, all alike", tally.calls, began.elapsed().as_secs_f64());
    println!("{} builds whose looks were made one by one, too", tally.looked);
    println!("{} levels of chosen states, {} of them between two levels that differ", tally.chosen, tally.loose);
    let Tally { weighed, partial, whole, .. } = tally;
    println!(
        "{weighed} levels by share on built words, {partial} between those of single states, {whole} of all states"
    );
    let Tally { walked, idle, parted, parted_idle, uneven, idle_within, .. } = tally;
    println!(
        "{walked} runs, {idle} with an idle step, {idle_within} with one that would change a state outside the set"
    );
    println!("{uneven} runs with a step that changes some states only");
    println!(
        "{parted} runs with an effect that fires in some states only, {parted_idle} with an idle step that has one"
    );
    [1, 2].into_iter().for_each(|version| print_kinds(&tally, version));
    print_places(&tally);
    assert!(tally.calls >= 100_000, "too few calls");
    assert!(tally.looked >= PROBLEMS / 2, "too few counts of looks");
    assert!(tally.loose >= PROBLEMS / 2, "too few levels of chosen states");
    assert!(tally.partial >= PROBLEMS / 10 && tally.whole >= PROBLEMS / 10, "too few levels by share");
    assert!(tally.idle >= PROBLEMS / 4 && tally.idle_within >= PROBLEMS / 10, "too few runs with idle steps");
    assert!(tally.parted_idle >= PROBLEMS / 100 && tally.uneven >= PROBLEMS / 100, "too few runs that differ by state");
    [1, 2].into_iter().for_each(|version| check_kinds(&tally, version));
}
