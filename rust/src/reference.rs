//! The same calls in plain Rust, written from the paper and for speed: what the proved library is compared with, answer
//! by answer (`tests/compare.rs`) and nanosecond by nanosecond (`src/bin/bench.rs`).
//!
//! It uses no unsafe code and no instruction that a processor may lack. What makes it quick:
//!
//! - The check of the file looks for equal actions in a table, and compares one only with the few that its mark leads to.
//! - The build knows effects, of which an action of version 1 has one. It keeps no mutex words but the states in which two
//!   elements are together: both there and not mutex, an element with itself where it is there. An effect is together
//!   with what all its needs are together with, a proposition with what one of its adders is together with: rows of words
//!   are met and joined, and one adder of both propositions is a pair of adders like any other. Only effects of one
//!   action, which do not interfere, are looked at by their needs, pair by pair.
//! - Persistences have no rows of their own: an effect is together with one as with its proposition, if it does not
//!   delete it, and two of them are as their propositions.
//! - All of this only grows from layer to layer: what has no need that changed is not made again, and few pairs are
//!   made one by one. Once a layer equals the one before, all further ones are copied.
//! - The build counts the looks of its scans, and makes few of them. Where something is left before the last look all are
//!   made, and a product says how many: that is seen in passing, as the rows are joined. Of the other pairs a scan takes a
//!   row of looks at once, and only those of the row that settles the pair one by one, without the ones that interfere.
//!   Where few propositions are touched, the pairs of all others keep their counts.
//! - Extract cuts out runs of states by shifts where they are few, and else copies what repeats.
//! - Level looks first at the word that stood in the goal's way one layer before, and for a rest from the top.
//! - Level by share keeps the states that did not weigh enough: fewer do not, either, and of more it weighs the new ones.
//! - Page remembers in which layers such a word stands in the way, for all goals to come, and looks for a rest once.
//! - Plan goes over the propositions that are needed only, and over the effects that add one as a set.
//! - Run follows a sequence of version 1 once, for all states: one word has what some of them lack and what some have, and
//!   tells whether a precondition holds and whether a step is idle. So it is in version 2 where an effect fires in every
//!   state or in none. Where one fires in a part of them, and from then on, there is a word of states for each proposition
//!   in which they differ.

#![allow(clippy::needless_range_loop)] // an index that several rows share

use crate::{word_count, Built, Level, Levels, Plan, Ran, Refusal, Rest, TEXT_ROOM};
use crate::{ENTRY_GOAL, ENTRY_NEVER, ENTRY_NOT_BY_DEPTH};
use std::fmt::Write;

/// The members of a set of states, rising.
struct States(u64);

impl Iterator for States {
    type Item = usize;

    #[inline(always)]
    fn next(&mut self) -> Option<usize> {
        if self.0 == 0 {
            return None;
        }
        let s = self.0.trailing_zeros() as usize;
        self.0 &= self.0 - 1;
        Some(s)
    }
}

/// The members of a set of up to R effects or propositions, rising. R is a power of two, up to 32.
struct Members<const R: usize>(u32);

impl<const R: usize> Iterator for Members<R> {
    type Item = usize;

    #[inline(always)]
    fn next(&mut self) -> Option<usize> {
        if self.0 == 0 {
            return None;
        }
        // the remainder changes nothing, and shows that a row of R has the place
        let i = self.0.trailing_zeros() as usize % R;
        self.0 &= self.0 - 1;
        Some(i)
    }
}

/// So many ones, up to 64.
fn first_bits(n: usize) -> u64 {
    u64::MAX.checked_shr(64 - n as u32).unwrap_or(0)
}

/// The set of propositions in the first four bytes.
#[inline]
fn set_of(bytes: &[u8]) -> u32 {
    u32::from_le_bytes(*bytes.first_chunk().unwrap())
}

/// The sets in the first twelve bytes.
#[inline]
fn three_sets(bytes: &[u8]) -> [u32; 3] {
    [set_of(bytes), set_of(&bytes[4..]), set_of(&bytes[8..])]
}

/// The sets of these bytes.
#[inline]
fn sets_of(bytes: &[u8]) -> impl ExactSizeIterator<Item = u32> + Clone + '_ {
    bytes.chunks_exact(4).map(set_of)
}

/// All sets of these bytes together.
#[inline]
fn joined(sets: &[u8]) -> u32 {
    sets_of(sets).fold(0, |all, set| all | set)
}

/// All sets of these effects of version 2 together.
#[inline]
fn joined_effects(effects: &[u8]) -> u32 {
    let (two, last) = effects.chunks_exact(13).fold((0, 0), |(two, last), bytes| {
        (two | u64::from_le_bytes(*bytes[1..].first_chunk().unwrap()), last | set_of(&bytes[9..]))
    });
    two as u32 | (two >> 32) as u32 | last
}

/// What a file says of its actions: a precondition for each, and effects.
#[derive(Clone, Copy)]
enum Rules<'a> {
    /// Version 1: of each action precondition, add and delete, 12 bytes. It has one effect, of the same number.
    Actions(&'a [u8]),
    /// Version 2: of each action its precondition, 4 bytes; of each effect its action, antecedent, add and delete, 13.
    Effects(&'a [u8], &'a [u8]),
}

/// An effect: its action's number and precondition, the antecedent, what it adds and deletes.
struct Effect {
    owner: usize,
    pre: u32,
    when: u32,
    add: u32,
    del: u32,
}

impl Effect {
    /// What it needs as a vertex.
    fn needs(&self) -> u32 {
        self.pre | self.when
    }
}

impl Rules<'_> {
    /// The preconditions in the order of their actions' numbers.
    fn preconditions(&self) -> impl Iterator<Item = u32> + '_ {
        let (bytes, step) = match self {
            Rules::Actions(actions) => (actions, 12),
            Rules::Effects(pre, _) => (pre, 4),
        };
        bytes.chunks_exact(step).map(set_of)
    }

    /// The effects in the order of their numbers.
    #[inline(always)]
    fn each_effect(self, mut take: impl FnMut(usize, Effect)) {
        match self {
            Rules::Actions(actions) => {
                for (a, bytes) in actions.chunks_exact(12).enumerate() {
                    let [pre, add, del] = three_sets(bytes);
                    take(a, Effect { owner: a, pre, when: 0, add, del });
                }
            }
            Rules::Effects(pre, effects) => {
                for (e, bytes) in effects.chunks_exact(13).enumerate() {
                    let (owner, [when, add, del]) = (bytes[0] as usize, three_sets(&bytes[1..]));
                    take(e, Effect { owner, pre: set_of(&pre[4 * owner..]), when, add, del });
                }
            }
        }
    }

    /// Of each proposition the effects that add it.
    #[inline(always)]
    fn adders(self) -> [u32; 32] {
        match self {
            Rules::Actions(actions) => turned(actions.chunks_exact(12).map(|bytes| set_of(&bytes[4..]))),
            Rules::Effects(_, effects) => turned(effects.chunks_exact(13).map(|bytes| set_of(&bytes[5..]))),
        }
    }

    /// The actions that these effects are of.
    #[inline(always)]
    fn owners(self, effects: u32) -> u32 {
        match self {
            Rules::Actions(_) => effects,
            Rules::Effects(_, bytes) => Members::<32>(effects).fold(0, |owners, e| owners | 1 << bytes[13 * e]),
        }
    }
}

/// A problem file that is in order: its counts, and what stands behind them.
struct Problem<'a> {
    version: Version,
    props: usize,
    actions: usize,
    effects: usize,
    states: usize,
    sets: &'a [u8],
}

enum Version {
    One,
    Two,
}

impl<'a> Problem<'a> {
    /// Causes 1 to 5, 16 and 15.
    fn open(file: &'a [u8]) -> Result<Self, Refusal> {
        let Some((&[b'S', b'A', b'G', v0, v1, p, a, n], rest)) = file.split_first_chunk::<8>() else {
            return Err(Refusal::Head);
        };
        match u16::from_le_bytes([v0, v1]) {
            1 => Self::open_actions([p, a, n], rest),
            2 => Self::open_effects([p, a, n], rest),
            _ => Err(Refusal::Version),
        }
    }

    /// Version 1: the bytes behind its counts.
    #[inline(always)]
    fn open_actions(counts: [u8; 3], sets: &'a [u8]) -> Result<Self, Refusal> {
        let [props, actions, states] = checked(counts)?;
        let length = 12 * actions + 4 * states;
        if sets.len() != length {
            return Err(Refusal::Length(8 + length));
        }
        let problem = Problem { version: Version::One, props, actions, effects: actions, states, sets };
        let outside = !problem.all_props();
        // with 32 propositions there is none outside
        if outside != 0 && joined(sets) & outside != 0 {
            let first = sets.chunks_exact(4).position(|bytes| set_of(bytes) & outside != 0).unwrap();
            return Err(Refusal::PropSet(8 + 4 * first));
        }
        if let Some(a) = first_equal(&sets[..12 * actions]) {
            return Err(Refusal::EqualAction(8 + 12 * a));
        }
        Ok(problem)
    }

    /// Version 2: the bytes from the number of effects on.
    #[inline(never)] // version 1 is quicker without it in the same function
    fn open_effects(counts: [u8; 3], rest: &'a [u8]) -> Result<Self, Refusal> {
        let (&effects, sets) = rest.split_first().ok_or(Refusal::Head)?;
        let ([props, actions, states], effects) = (checked(counts)?, effects as usize);
        if effects > 32 {
            return Err(Refusal::Count(8));
        }
        let length = 4 * actions + 13 * effects + 4 * states;
        if sets.len() != length {
            return Err(Refusal::Length(9 + length));
        }
        let problem = Problem { version: Version::Two, props, actions, effects, states, sets };
        let (outside, (pre, rules)) = (!problem.all_props(), problem.effect_parts());
        if outside != 0 && (joined(pre) | joined_effects(rules) | joined(problem.starts())) & outside != 0 {
            let first = problem.set_places().find(|&at| set_of(&sets[at..]) & outside != 0).unwrap();
            return Err(Refusal::PropSet(9 + first));
        }
        if let Some(e) = rules.chunks_exact(13).position(|bytes| bytes[0] as usize >= actions) {
            return Err(Refusal::EffectAction(9 + pre.len() + 13 * e));
        }
        Ok(problem)
    }

    #[inline(always)]
    fn rules(&self) -> Rules<'a> {
        match self.version {
            Version::One => Rules::Actions(&self.sets[..12 * self.actions]),
            Version::Two => {
                let (pre, effects) = self.effect_parts();
                Rules::Effects(pre, effects)
            }
        }
    }

    /// Of a version 2 file the preconditions and the effects.
    #[inline(always)]
    fn effect_parts(&self) -> (&'a [u8], &'a [u8]) {
        self.sets[..4 * self.actions + 13 * self.effects].split_at(4 * self.actions)
    }

    /// Where the sets of a version 2 file stand.
    fn set_places(&self) -> impl Iterator<Item = usize> {
        let (first_effect, effects) = (4 * self.actions, self.effects);
        let first_start = first_effect + 13 * effects;
        let of_effects = (0..effects).flat_map(move |e| [1, 5, 9].map(|part| first_effect + 13 * e + part));
        let of_starts = (first_start..self.sets.len()).step_by(4);
        (0..first_effect).step_by(4).chain(of_effects).chain(of_starts)
    }

    /// The start states, 4 bytes each.
    #[inline(always)]
    fn starts(&self) -> &'a [u8] {
        &self.sets[self.sets.len() - 4 * self.states..]
    }

    fn vertices(&self) -> usize {
        self.effects + self.props
    }

    fn all_props(&self) -> u32 {
        u32::MAX >> (32 - self.props)
    }

    fn all_states(&self) -> u64 {
        first_bits(self.states)
    }

    /// Cause 17.
    fn check_possible(&self, possible: &[u32]) -> Result<(), Refusal> {
        if possible.len() != self.states {
            return Err(Refusal::PossibleSet(self.states));
        }
        let outside = !self.all_props();
        let mut wrong = sets_of(self.starts()).zip(possible).map(|(sure, set)| sure & !set | set & outside);
        if wrong.clone().fold(0, |all, wrong| all | wrong) != 0 {
            return Err(Refusal::PossibleSet(wrong.position(|wrong| wrong != 0).unwrap()));
        }
        Ok(())
    }

    fn check_set(&self, set: u64) -> Result<(), Refusal> {
        if set == 0 || set & !self.all_states() != 0 {
            return Err(Refusal::StateSet);
        }
        Ok(())
    }

    fn check_goal(&self, goal: u32) -> Result<(), Refusal> {
        if goal & !self.all_props() != 0 {
            return Err(Refusal::Goal);
        }
        Ok(())
    }

    /// The weight of all states, or cause 18.
    fn check_share(&self, weights: &[u16], numerator: u16, denominator: u16) -> Result<u64, Refusal> {
        if weights.len() != self.states || denominator == 0 || numerator > denominator {
            return Err(Refusal::Share);
        }
        match weights.iter().map(|&weight| weight as u32).sum() {
            0 => Err(Refusal::Share),
            total => Ok(total as u64),
        }
    }

    /// The graph's words in a memory of so many, or cause 9.
    fn check_memory(&self, depth: usize, have: usize) -> Result<usize, Refusal> {
        let wanted = word_count(self.props, self.effects, depth);
        if have < wanted {
            return Err(Refusal::Memory(wanted));
        }
        Ok(wanted)
    }

    /// The words from one layer of propositions to the next.
    fn stride(&self) -> usize {
        size(self.props) + size(self.vertices())
    }

    /// The layers of propositions in a graph's words, or cause 9.
    fn layers<'b>(&self, depth: usize, words: &'b [u64]) -> Result<Layers<'b>, Refusal> {
        let words = &words[..self.check_memory(depth, words.len())?];
        Ok(Layers { words, props: self.props, depth, size: size(self.props), stride: self.stride() })
    }
}

/// The counts of both versions, or cause 3.
#[inline(always)]
fn checked(counts: [u8; 3]) -> Result<[usize; 3], Refusal> {
    let [props, actions, states] = counts.map(usize::from);
    if !(1..=32).contains(&props) {
        return Err(Refusal::Count(5));
    }
    if actions > 32 {
        return Err(Refusal::Count(6));
    }
    if !(1..=64).contains(&states) {
        return Err(Refusal::Count(7));
    }
    Ok([props, actions, states])
}

/// The first action that equals one before it. Each takes the first free slot of a table from its mark on, and meets an
/// equal one on the way there.
#[inline(never)] // within a call its loop may be short of registers
fn first_equal(actions: &[u8]) -> Option<usize> {
    // of each slot the action that took it, counted from 1; to clear more of them costs more than it saves
    let mut slots = [0u8; 1 << u8::BITS];
    for (a, action) in actions.chunks_exact(12).enumerate() {
        let mut at = mark(action);
        while slots[at as usize] != 0 {
            let before = 12 * (slots[at as usize] as usize - 1);
            if actions[before..before + 12] == *action {
                return Some(a);
            }
            at = at.wrapping_add(1);
        }
        slots[at as usize] = a as u8 + 1;
    }
    None
}

/// A number that goes by all three sets of an action, and that few others have: the top of a product.
#[inline(always)]
fn mark(action: &[u8]) -> u8 {
    let needs_and_adds = u64::from_le_bytes(*action.first_chunk().unwrap());
    let deletes = set_of(&action[8..]) as u64;
    // in the middle of the others, so that a proposition has a place of its own in each
    ((needs_and_adds ^ deletes << 16).wrapping_mul(0x9E37_79B9_7F4A_7C15) >> (u64::BITS - u8::BITS)) as u8
}

fn check_depth(depth: usize) -> Result<(), Refusal> {
    if depth > 255 {
        return Err(Refusal::Depth);
    }
    Ok(())
}

/// The words of a layer of n elements.
const fn size(n: usize) -> usize {
    n * (n + 1) / 2
}

// ---- the build

/// Builds the file's graph to the depth, and answers the number of words written and that of the looks.
pub fn build(file: &[u8], depth: usize, words: &mut [u64]) -> Result<Built, Refusal> {
    // the problem stays where it was put: to move what was just written takes longer
    match &Problem::open(file) {
        Ok(problem) => build_for(problem, problem.starts(), depth, words),
        Err(why) => Err(*why),
    }
}

/// Builds the graph for the possible sets in the place of the file's states, and answers as a build does.
pub fn build_within(file: &[u8], possible: &[u32], depth: usize, words: &mut [u64]) -> Result<Built, Refusal> {
    match &Problem::open(file) {
        Ok(problem) => {
            problem.check_possible(possible)?;
            // as they would stand in the file
            let mut starts = [0; 4 * 64];
            for (bytes, set) in starts.chunks_exact_mut(4).zip(possible) {
                bytes.copy_from_slice(&set.to_le_bytes());
            }
            build_for(problem, &starts[..4 * possible.len()], depth, words)
        }
        Err(why) => Err(*why),
    }
}

/// Causes 6 and 9, or the graph for these start states, 4 bytes each.
fn build_for(problem: &Problem, starts: &[u8], depth: usize, words: &mut [u64]) -> Result<Built, Refusal> {
    check_depth(depth)?;
    let wanted = problem.check_memory(depth, words.len())?;
    let words = &mut words[..wanted];
    let looked = match problem.props.max(problem.effects) {
        0..=4 => build_graph::<4, 4>(problem, starts, words),
        5..=8 => build_graph::<8, 8>(problem, starts, words),
        9..=16 => build_graph::<16, 16>(problem, starts, words),
        _ if problem.props <= 16 => build_graph::<16, 32>(problem, starts, words),
        _ => build_graph::<32, 32>(problem, starts, words),
    };
    Ok(Built { words: wanted, looked })
}

/// For each of up to R effects or propositions a row, with a word for each of up to W effects or propositions.
type Rows<const R: usize, const W: usize> = [[u64; W]; R];

/// All layers, of up to P propositions and up to E effects, for these start states, into just as many words as they take. E
/// is not below P. The number of looks.
fn build_graph<const P: usize, const E: usize>(problem: &Problem, starts: &[u8], words: &mut [u64]) -> usize {
    let (layer, vertices) = (size(problem.props), size(problem.vertices()));
    let label: [u64; P] = start_labels(starts);
    let (first, mut rest) = words.split_at_mut(layer);
    first[..problem.props].copy_from_slice(&label[..problem.props]);
    first[problem.props..].fill(0);
    if rest.is_empty() {
        return 0;
    }
    let sets = Sets::<P, E>::new(problem);
    let mut now = Layer::new(problem, label);
    let mut looks = Looks::new(&sets);
    let mut looked = 0;
    let mut before = &*first;
    while !rest.is_empty() {
        let (over, next) = rest[..vertices + layer].split_at_mut(vertices);
        now.admit(&sets);
        if now.pairs_due(&sets) > FEW_PAIRS * sets.effects as u32 {
            now.pair_by_rows(&sets);
        } else {
            now.pair_one_by_one(&sets);
        }
        now.write_vertices(&sets, before, over);
        let changed = now.grow(&sets, &mut looks);
        now.write_props(&sets, next);
        if !changed {
            // each step that is copied counts as this one
            looked += looks.step * (rest.len() / (vertices + layer));
            repeat(rest, vertices + layer);
            return looked;
        }
        looked += looks.step;
        let (step, left) = rest.split_at_mut(vertices + layer);
        before = &step[vertices..];
        rest = left;
    }
    looked
}

/// The label of each proposition in layer 0.
fn start_labels<const R: usize>(starts: &[u8]) -> [u64; R] {
    let mut label = [0; R];
    for (i, starts) in starts.chunks(4 * 32).enumerate() {
        let states = turned(sets_of(starts));
        label.iter_mut().zip(states).for_each(|(label, states)| *label |= (states as u64) << (32 * i));
    }
    label
}

/// Up to so many sets are turned member by member.
const FEW_SETS: usize = 4;

/// Up to 32 sets turned round: bit j of set i becomes bit i of set j.
#[inline(always)]
fn turned(sets: impl ExactSizeIterator<Item = u32>) -> [u32; 32] {
    let mut rows = [0; 32];
    if sets.len() <= FEW_SETS {
        for (i, set) in sets.enumerate() {
            for j in Members::<32>(set) {
                rows[j] |= 1 << i;
            }
        }
        return rows;
    }
    for (row, set) in rows.iter_mut().zip(sets) {
        *row = set;
    }
    turn_bits(&mut rows);
    rows
}

/// Bit j of row i becomes bit i of row j: ever smaller squares change places.
fn turn_bits(rows: &mut [u32; 32]) {
    swap_squares::<16>(rows);
    swap_squares::<8>(rows);
    swap_squares::<4>(rows);
    swap_squares::<2>(rows);
    swap_squares::<1>(rows);
}

/// In each square of 2W by 2W bits, the upper right quarter and the lower left one change places.
#[inline(always)]
fn swap_squares<const W: usize>(rows: &mut [u32; 32]) {
    let low = u32::MAX / ((1 << W) + 1); // W ones, W zeros, W ones ..
    for rows in rows.chunks_exact_mut(2 * W) {
        let (upper, lower) = rows.split_at_mut(W);
        for (upper, lower) in upper.iter_mut().zip(lower) {
            let change = (*upper >> W ^ *lower) & low;
            *upper ^= change << W;
            *lower ^= change;
        }
    }
}

/// A problem's sets by effect, and what follows from them for every layer.
struct Sets<const P: usize, const E: usize> {
    props: usize,
    effects: usize,
    all: u64,
    needs: [u32; E],
    add: [u32; E],
    del: [u32; E],
    /// The effects that add a proposition.
    adders: [u32; P],
    /// The effects with which an effect does not interfere: all of its action, itself among them, and some of others.
    free: [u32; E],
    /// Of these the ones of other actions.
    independent: [u32; E],
    /// The effects whose action has several.
    with_siblings: u32,
}

impl<const P: usize, const E: usize> Sets<P, E> {
    fn new(problem: &Problem) -> Self {
        let (mut needs, mut add, mut del, mut touched) = ([0; E], [0; E], [0; E], [0; E]);
        let rules = problem.rules();
        rules.each_effect(|e, effect| {
            let e = e % E;
            (needs[e], add[e], del[e]) = (effect.needs(), effect.add, effect.del);
            touched[e] = needs[e] | add[e];
        });
        let mut adders = [0; P];
        adders.copy_from_slice(&rules.adders()[..P]);

        let own: [u32; E] = effects_of_same(rules);
        let every = first_bits(problem.effects) as u32;
        let (mut free, mut independent, mut with_siblings) = ([0; E], [0; E], 0);
        for e in 0..problem.effects {
            let e = e % E;
            let mut interferers = 0;
            for f in 0..E {
                interferers |= ((del[e] & touched[f] | del[f] & touched[e] != 0) as u32) << f;
            }
            free[e] = every & !interferers | own[e];
            independent[e] = free[e] & !own[e];
            with_siblings |= own[e] & !(1 << e);
        }
        Sets {
            props: problem.props,
            effects: problem.effects,
            all: problem.all_states(),
            needs,
            add,
            del,
            adders,
            free,
            independent,
            with_siblings,
        }
    }

    /// Whether all rows are joined at once if these propositions may have something new.
    fn joins_all(&self, touched: u32) -> bool {
        MANY_ROWS * touched.count_ones() > self.props as u32
    }

    /// The effects that go by one of these propositions. One that needs nothing goes by all.
    fn going_by(&self, props: u32) -> u32 {
        (0..E).fold(0, |going, e| going | ((self.needs[e] & props != 0 || self.needs[e] == 0) as u32) << e)
            & first_bits(self.effects) as u32
    }
}

/// Of each effect those of the same action, itself among them.
fn effects_of_same<const R: usize>(rules: Rules) -> [u32; R] {
    if let Rules::Actions(_) = rules {
        return std::array::from_fn(|e| 1 << e);
    }
    let (mut owned, mut same) = ([0; 32], [0; R]);
    rules.each_effect(|e, effect| owned[effect.owner % 32] |= 1 << e);
    rules.each_effect(|e, effect| same[e % R] = owned[effect.owner % 32]);
    same
}

/// The present layer of propositions and the vertices over it. Two elements are together in a state if both are there
/// and not mutex; an element is together with itself where it is there. All of it only grows from layer to layer, so
/// what did not change below need not be made again.
#[repr(align(64))]
struct Layer<const P: usize, const E: usize> {
    /// Of two propositions: the states in which they are together.
    props: Rows<P, P>,
    /// Of an effect and a proposition: the states in which the effect and the persistence are together.
    kept: Rows<E, P>,
    /// Of two effects: the states in which they are together.
    effects: Rows<E, E>,
    /// Of an effect and a proposition: the states in which the effect is together with a vertex that adds the
    /// proposition.
    reached: Rows<E, P>,
    /// A table turned round, or, in its first P columns, what is to be joined.
    spare: Rows<P, E>,
    /// The labels of propositions and of effects.
    prop: [u64; P],
    effect: [u64; E],
    /// The effects that some state has, and of them those to be made again.
    live: u32,
    stale: u32,
    /// The effects that may reach more than their rows say, by others that were made again.
    behind: u32,
}

/// With up to so many pairs for each effect it is quicker to make them one by one.
const FEW_PAIRS: u32 = 8;

/// If one in so many propositions may have something new, all rows are joined at once.
const MANY_ROWS: u32 = 3;

impl<const P: usize, const E: usize> Layer<P, E> {
    fn new(problem: &Problem, prop: [u64; P]) -> Self {
        let mut props = [[0; P]; P];
        for (row, label) in props.iter_mut().zip(&prop) {
            row.iter_mut().zip(&prop).for_each(|(word, other)| *word = label & other);
        }
        let stale = first_bits(problem.effects) as u32;
        Layer {
            props,
            kept: [[0; P]; E],
            effects: [[0; E]; E],
            reached: [[0; P]; E],
            spare: [[0; E]; P],
            prop,
            effect: [0; E],
            live: 0,
            stale,
            behind: 0,
        }
    }

    /// The stale effects' labels, and their rows with the persistences.
    fn admit(&mut self, sets: &Sets<P, E>) {
        for e in Members::<E>(self.stale) {
            let needs = sets.needs[e];
            let some = Members::<P>(needs).fold(sets.all, |label, p| label & self.prop[p]);
            if some == 0 {
                continue; // as it was
            }
            let row = &mut self.kept[e];
            fold_rows(row, &self.prop, &self.props, needs, |x, y| x & y);
            let label = Members::<P>(needs).fold(some, |label, p| label & row[p]);
            row.iter_mut().for_each(|word| *word &= label);
            for p in Members::<P>(sets.del[e]) {
                row[p] = 0;
            }
            self.effect[e] = label;
            self.effects[e][e] = label;
            self.live |= ((label != 0) as u32) << e;
        }
        self.stale &= self.live;
    }

    /// How many pairs of effects of different actions have one that is stale.
    fn pairs_due(&self, sets: &Sets<P, E>) -> u32 {
        Members::<E>(self.stale).map(|e| (sets.independent[e] & self.live).count_ones()).sum()
    }

    /// All pairs of effects, and all that they reach, by whole rows.
    fn pair_by_rows(&mut self, sets: &Sets<P, E>) {
        turn(&mut self.spare, &self.kept);
        for e in Members::<E>(self.live) {
            let label = self.effect[e];
            let own = self.effect.map(|other| other & label);
            let row = &mut self.effects[e];
            fold_rows(row, &own, &self.spare, sets.needs[e], |x, y| x & y);
            for f in Members::<E>(self.live & !sets.independent[e]) {
                row[f] = 0;
            }
            row[e] = label;
        }
        if sets.with_siblings != 0 {
            self.pair_siblings(sets, self.live);
        }
        for (p, row) in self.spare.iter_mut().enumerate() {
            let own = *row;
            fold_rows(row, &own, &self.effects, sets.adders[p] & self.live, |x, y| x | y);
        }
        turn(&mut self.reached, &self.spare);
        self.behind = 0;
    }

    /// The propositions that a stale effect adds: only their rows may have something new.
    fn touched(&self, sets: &Sets<P, E>) -> u32 {
        Members::<E>(self.stale).fold(0, |touched, e| touched | sets.add[e])
    }

    /// The pairs with a stale effect, and what the stale ones reach, one by one.
    fn pair_one_by_one(&mut self, sets: &Sets<P, E>) {
        let mut open = self.live;
        for e in Members::<E>(self.stale) {
            open &= !(self.stale & 1 << e);
            let (label, row) = (self.effect[e], &self.kept[e]);
            // a pair of two stale effects once
            for f in Members::<E>(sets.independent[e] & open) {
                let with = Members::<P>(sets.needs[f]).fold(label & self.effect[f], |with, p| with & row[p]);
                self.effects[e][f] = with;
                self.effects[f][e] = with;
            }
        }
        if sets.with_siblings != 0 {
            self.pair_siblings(sets, self.stale);
        }
        if sets.joins_all(self.touched(sets)) {
            self.reach_again(sets, self.stale | self.behind);
            self.reach_stale(sets, self.live & !self.stale & !self.behind);
            self.behind = 0;
        } else {
            self.reach_again(sets, self.stale);
            self.behind = (self.behind | self.live) & !self.stale;
        }
    }

    /// What these effects reach.
    fn reach_again(&mut self, sets: &Sets<P, E>, these: u32) {
        for e in Members::<E>(these) {
            let row = &mut self.reached[e];
            *row = self.kept[e];
            for f in Members::<E>(sets.free[e] & self.live) {
                let with = self.effects[e][f];
                for p in Members::<P>(sets.add[f]) {
                    row[p] |= with;
                }
            }
        }
    }

    /// What these effects reach by the stale ones. Only the scans ask for it: the rows to be joined have it the other way
    /// round.
    fn reach_stale(&mut self, sets: &Sets<P, E>, these: u32) {
        for e in Members::<E>(self.stale) {
            for f in Members::<E>(sets.free[e] & these) {
                let with = self.effects[e][f];
                for p in Members::<P>(sets.add[e]) {
                    self.reached[f][p] |= with;
                }
            }
        }
    }

    /// The pairs of effects of one action of which one is of these. They are apart by their needs only, so that the
    /// rows with the persistences, which leave out what an effect deletes, do not serve; what both need does not matter.
    #[inline(never)] // version 1 is quicker without it in the same function
    fn pair_siblings(&mut self, sets: &Sets<P, E>, these: u32) {
        let mut open = self.live;
        for e in Members::<E>(these & sets.with_siblings) {
            open &= !(1 << e);
            for f in Members::<E>(sets.free[e] & !sets.independent[e] & open) {
                let mut with = self.effect[e] & self.effect[f];
                for p in Members::<P>(sets.needs[e] & !sets.needs[f]) {
                    let row = &self.props[p];
                    with = Members::<P>(sets.needs[f] & !sets.needs[e]).fold(with, |with, q| with & row[q]);
                }
                self.effects[e][f] = with;
                self.effects[f][e] = with;
            }
        }
    }

    /// Goes on to the next layer of propositions, and counts the looks of the step. Whether anything changed.
    fn grow(&mut self, sets: &Sets<P, E>, looks: &mut Looks<P>) -> bool {
        let touched = self.touched(sets);
        let changed = if sets.joins_all(touched) {
            for (p, row) in self.spare.iter_mut().enumerate() {
                let row = row.first_chunk_mut().unwrap();
                // not of the stale ones only: what is left is what no effect shows
                fold_rows(row, &[0; P], &self.reached, sets.adders[p] & self.live, |x, y| x | y);
            }
            let (changed, unsettled) = join_both_ways(&mut self.props, &self.spare, &looks.marks);
            self.relabel();
            looks.count_all(sets, self, &unsettled);
            changed
        } else {
            let changed = self.join_rows(sets, touched);
            self.relabel();
            looks.count_touched(sets, self, touched);
            changed
        };
        self.stale = sets.going_by(changed);
        changed != 0
    }

    /// The labels of propositions, as their rows have them.
    fn relabel(&mut self) {
        for p in 0..P {
            self.prop[p] = self.props[p][p];
        }
    }

    /// Joins what the stale effects reach into these propositions' rows, and into the same columns. The propositions
    /// with something new.
    fn join_rows(&mut self, sets: &Sets<P, E>, touched: u32) -> u32 {
        let mut changed = 0;
        for p in Members::<P>(touched) {
            let mut row = [0; P];
            fold_rows(&mut row, &self.props[p], &self.reached, sets.adders[p] & self.stale, |x, y| x | y);
            let mut new = 0;
            for q in 0..P {
                new |= ((row[q] != self.props[p][q]) as u32) << q;
            }
            self.props[p] = row;
            for q in Members::<P>(new) {
                self.props[q][p] = row[q];
            }
            changed |= new | ((new != 0) as u32) << p;
        }
        changed
    }

    /// The propositions that some state has.
    fn labelled(&self) -> u32 {
        (0..P).fold(0, |some, p| some | ((self.prop[p] != 0) as u32) << p)
    }

    /// The action layer, over the layer of propositions whose words are `before`.
    fn write_vertices(&self, sets: &Sets<P, E>, before: &[u64], words: &mut [u64]) {
        let (props, effects) = (sets.props, sets.effects);
        let (labels, mut pairs) = words.split_at_mut(effects + props);
        labels[..effects].copy_from_slice(&self.effect[..effects]);
        labels[effects..].copy_from_slice(&self.prop[..props]);
        for e in 0..effects {
            let e = e % E;
            let (by_effect, after) = pairs.split_at_mut(effects - e - 1);
            let (by_prop, after) = after.split_at_mut(props);
            pairs = after;
            let label = self.effect[e];
            if label == 0 {
                by_effect.fill(0);
                by_prop.fill(0);
                continue;
            }
            write_apart(by_effect, label, &self.effect[e + 1..], &self.effects[e][e + 1..]);
            // a full row has a length that the compiler knows
            match <&mut [u64; P]>::try_from(&mut *by_prop) {
                Ok(full) => write_apart(full, label, &self.prop, &self.kept[e]),
                Err(_) => write_apart(by_prop, label, &self.prop, &self.kept[e]),
            }
        }
        // two persistences are mutex as their propositions are
        pairs.copy_from_slice(&before[props..]);
    }

    fn write_props(&self, sets: &Sets<P, E>, words: &mut [u64]) {
        let (labels, mut pairs) = words.split_at_mut(sets.props);
        labels.copy_from_slice(&self.prop[..sets.props]);
        for p in 0..sets.props {
            let p = p % P;
            let (row, after) = pairs.split_at_mut(sets.props - p - 1);
            pairs = after;
            write_apart(row, self.prop[p], &self.prop[p + 1..], &self.props[p][p + 1..]);
        }
    }
}

/// How many vertices and pairs the scans of a step look at.
struct Looks<const P: usize> {
    /// How many vertices add a proposition, its persistence among them.
    sizes: [usize; P],
    /// The same in the upper half of a word, and the proposition's bit in the lower.
    marks: [u64; P],
    /// The looks of the step.
    step: usize,
    /// Of p the propositions q above it such that all looks of the two are made.
    all: [u32; P],
    /// Of two others, the lower one first, how many are made.
    some: [[u16; P]; P],
    /// The propositions whose pairs were not counted yet.
    new: u32,
}

impl<const P: usize> Looks<P> {
    fn new<const E: usize>(sets: &Sets<P, E>) -> Self {
        let sizes = sets.adders.map(|adders| adders.count_ones() as usize + 1);
        let marks = std::array::from_fn(|p| (sizes[p] as u64) << 32 | 1 << p);
        Looks { sizes, marks, step: 0, all: [0; P], some: [[0; P]; P], new: u32::MAX }
    }

    /// Counts all pairs. Of each proposition the marks are given, in one sum, of those above it with which something is
    /// left before the last look.
    fn count_all<const E: usize>(&mut self, sets: &Sets<P, E>, layer: &Layer<P, E>, unsettled: &[u64; P]) {
        let mut step = 0;
        let mut above = layer.labelled();
        for p in Members::<P>(above) {
            above &= !(1 << p);
            self.all[p] = unsettled[p] as u32;
            step += self.sizes[p] * (unsettled[p] >> 32) as usize;
            for q in Members::<P>(above & !self.all[p]) {
                if layer.prop[p] & layer.prop[q] != 0 {
                    let looked = self.scan::<true, E>(sets, layer, p, q);
                    self.some[p][q] = looked as u16;
                    step += looked;
                }
            }
        }
        self.step = step;
        self.new = 0;
    }

    /// Counts the pairs of these propositions, and leaves the others as they were.
    fn count_touched<const E: usize>(&mut self, sets: &Sets<P, E>, layer: &Layer<P, E>, touched: u32) {
        let mut step = self.step;
        let mut others = layer.labelled();
        for i in Members::<P>(others & (touched | self.new)) {
            others &= !(1 << i);
            for j in Members::<P>(others) {
                let shared = layer.prop[i] & layer.prop[j];
                let (p, q) = (i.min(j), i.max(j));
                let (mutex, before) = (shared & !layer.props[i][j] != 0, self.all[p] >> q & 1 == 1);
                if shared == 0 || mutex && before {
                    continue; // as it was
                }
                let all = self.sizes[p] * self.sizes[q];
                step -= if before { all } else { self.some[p][q] as usize };
                let looked = if mutex { all } else { self.scan::<false, E>(sets, layer, p, q) };
                step += looked;
                self.all[p] = self.all[p] & !(1 << q) | (mutex as u32) << q;
                self.some[p][q] = looked as u16;
            }
        }
        self.step = step;
        self.new = 0;
    }

    /// The looks of the scan of p and q, which share a state. REACHED: whether no effect is behind, so that a row of looks
    /// may be taken at once.
    #[inline(always)]
    fn scan<const REACHED: bool, const E: usize>(
        &self,
        sets: &Sets<P, E>,
        layer: &Layer<P, E>,
        p: usize,
        q: usize,
    ) -> usize {
        let (lower, upper) = (sets.adders[p], sets.adders[q]);
        let mut left = layer.prop[p] & layer.prop[q];
        let mut looked = 0;
        for v in Members::<E>(lower & upper) {
            left &= !layer.effect[v];
            looked += 1;
            if left == 0 {
                return looked;
            }
        }
        for v in Members::<E>(lower) {
            let row = self.sizes[q] - (upper >> v & 1) as usize;
            // its own label, which is among what it reaches if it adds q, is taken away by now
            let after = left & !layer.reached[v][q];
            if REACHED && after != 0 {
                left = after;
            } else {
                let others = upper & !(1 << v);
                for w in Members::<E>(others & sets.free[v]) {
                    left &= !layer.effects[v][w];
                    if left == 0 {
                        return looked + (others << (31 - w)).count_ones() as usize;
                    }
                }
                // the persistence is the last of the row
                left &= !layer.kept[v][q];
                if REACHED || left == 0 {
                    return looked + row;
                }
            }
            looked += row;
        }
        for w in Members::<E>(upper) {
            left &= !layer.kept[w][p];
            looked += 1;
            if left == 0 {
                return looked;
            }
        }
        looked + 1
    }
}

/// The mutex words of an element of this label with others, from the states in which it is together with them.
#[inline(always)]
fn write_apart(words: &mut [u64], label: u64, others: &[u64], with: &[u64]) {
    for ((word, other), with) in words.iter_mut().zip(others).zip(with) {
        *word = label & other & !with;
    }
}

/// So many words of a row stay in registers.
const PART: usize = 16;

/// A row from its first words and the named rows, part by part.
#[inline(always)]
fn fold_rows<const R: usize, const W: usize>(
    to: &mut [u64; W],
    first: &[u64; W],
    rows: &Rows<R, W>,
    named: u32,
    join: impl Fn(u64, u64) -> u64,
) {
    let width = PART.min(W);
    for at in (0..W).step_by(width) {
        let mut part = [0; PART];
        part[..width].copy_from_slice(&first[at..at + width]);
        for i in Members::<R>(named) {
            let row = &rows[i][at..at + width];
            for k in 0..width {
                part[k] = join(part[k], row[k]);
            }
        }
        to[at..at + width].copy_from_slice(&part[..width]);
    }
}

/// Word `[j][i]` of the one is word `[i][j]` of the other.
#[inline(always)]
fn turn<const R: usize, const W: usize>(to: &mut Rows<W, R>, from: &Rows<R, W>) {
    for j in 0..W {
        for i in 0..R {
            to[j][i] = from[i][j];
        }
    }
}

/// The square of two rows and two columns that begins at `[p][q]`.
#[inline(always)]
fn square<const R: usize, const W: usize>(rows: &Rows<R, W>, p: usize, q: usize) -> [u64; 4] {
    [rows[p][q], rows[p][q + 1], rows[p + 1][q], rows[p + 1][q + 1]]
}

/// Joins a table of R columns, as it is and turned round, into one that is the same turned round. The rows with something
/// new; and of each row the sum of the marks of those behind it with which its label, as it is then, shares more than the
/// one table joins into the other.
#[inline(always)]
fn join_both_ways<const R: usize, const W: usize>(
    to: &mut Rows<R, R>,
    from: &Rows<R, W>,
    marks: &[u64; R],
) -> (u32, [u64; R]) {
    let (mut new, mut unsettled) = ([0; R], [0; R]);
    let label: [u64; R] = std::array::from_fn(|p| to[p][p] | from[p][p]);
    for p in (0..R).step_by(2) {
        let (mut upper, mut lower) = ([0; 2], [0; 2]);
        for q in (p..R).step_by(2) {
            let (old, here) = (square(to, p, q), square(from, p, q));
            let [a, c, b, d] = square(from, q, p);
            let there = [a, b, c, d];
            let joined: [u64; 4] = std::array::from_fn(|i| here[i] | there[i]);
            if q > p {
                for k in 0..2 {
                    let shared = label[q + k] & !joined[k];
                    upper[k] += if label[p] & shared != 0 { marks[q + k] } else { 0 };
                    let shared = label[q + k] & !joined[2 + k];
                    lower[k] += if label[p + 1] & shared != 0 { marks[q + k] } else { 0 };
                }
            } else if label[p] & label[p + 1] & !joined[1] != 0 {
                upper[1] += marks[p + 1];
            }
            let all: [u64; 4] = std::array::from_fn(|i| old[i] | joined[i]);
            let more: [u64; 4] = std::array::from_fn(|i| old[i] ^ all[i]);
            new[p] |= more[0] | more[1];
            new[p + 1] |= more[2] | more[3];
            new[q] |= more[0] | more[2];
            new[q + 1] |= more[1] | more[3];
            let [a, b, c, d] = all;
            (to[p][q], to[p][q + 1], to[p + 1][q], to[p + 1][q + 1]) = (a, b, c, d);
            (to[q][p], to[q][p + 1], to[q + 1][p], to[q + 1][p + 1]) = (a, c, b, d);
        }
        (unsettled[p], unsettled[p + 1]) = (upper[0] + upper[1], lower[0] + lower[1]);
    }
    ((0..R).fold(0, |rows, p| rows | ((new[p] != 0) as u32) << p), unsettled)
}

/// Repeats the first `n` words to the end: first in ever longer runs, then from one run that stays near at hand.
fn repeat(words: &mut [u64], n: usize) {
    const RUN: usize = 1024;
    let mut run = n;
    let mut at = n;
    while at < words.len() {
        let len = run.min(words.len() - at);
        words.copy_within(..len, at);
        at += len;
        if run < RUN {
            run = at;
        }
    }
}

// ---- level and rest

/// The layers of propositions in a graph's words.
struct Layers<'a> {
    words: &'a [u64],
    props: usize,
    depth: usize,
    /// The words of a layer, and those from its start to the next one's.
    size: usize,
    stride: usize,
}

/// What stands in a goal's way: a word of a layer, and what it would have to have in common with the set of states.
struct Obstacle {
    at: usize,
    wanted: u64,
}

impl<'a> Layers<'a> {
    fn layer(&self, t: usize) -> &'a [u64] {
        &self.words[t * self.stride..][..self.size]
    }

    /// The first label of a goal that does not contain the set, or else the first mutex word of two goals that meets it.
    fn obstacle(&self, layer: &[u64], set: u64, goal: u32) -> Option<Obstacle> {
        if let Some(at) = Members::<32>(goal).find(|&p| set & !layer[p] != 0) {
            return Some(Obstacle { at, wanted: set });
        }
        let mut goals = Members::<32>(goal);
        while let Some(p) = goals.next() {
            // word (p, q) stands at row + q
            let row = self.props + p * (2 * self.props - p - 1) / 2 - p - 1;
            if let Some(q) = Members::<32>(goals.0).find(|&q| set & layer[row + q] != 0) {
                return Some(Obstacle { at: row + q, wanted: 0 });
            }
        }
        None
    }

    /// The first layer that meets the goal. What was in the way is looked at first: mostly it still is.
    fn first_met(&self, set: u64, goal: u32) -> Option<usize> {
        if goal == 0 {
            return Some(0);
        }
        let mut last = Obstacle { at: goal.trailing_zeros() as usize, wanted: set };
        let mut first = 0;
        // the compiler makes a slower loop of 0..=depth
        for t in 0..self.depth + 1 {
            if self.words[first + last.at] & set == last.wanted {
                match self.obstacle(self.layer(t), set, goal) {
                    Some(obstacle) => last = obstacle,
                    None => return Some(t),
                }
            }
            first += self.stride;
        }
        None
    }

    /// The level of the goal.
    #[inline(always)]
    fn level(&self, set: u64, goal: u32) -> Level {
        self.level_at(self.first_met(set, goal))
    }

    /// The level at this layer, or what it is called if there is none.
    #[inline(always)]
    fn level_at(&self, first: Option<usize>) -> Level {
        match first {
            Some(t) => Level::At(t),
            None if self.rests() => Level::Never,
            None => Level::NotByDepth,
        }
    }

    /// Those of the states that hold the whole goal in a layer, free of mutexes. It looks no further once all that are left
    /// are among those not asked for.
    #[inline(always)]
    fn holders(&self, layer: &[u64], states: u64, goal: u32, unasked: u64) -> u64 {
        let mut held = states;
        for p in Members::<32>(goal) {
            held &= layer[p];
            if held & !unasked == 0 {
                return held;
            }
        }
        let mut goals = Members::<32>(goal);
        while let Some(p) = goals.next() {
            // word (p, q) stands at row + q
            let row = self.props + p * (2 * self.props - p - 1) / 2 - p - 1;
            for q in Members::<32>(goals.0) {
                held &= !layer[row + q];
            }
            if held & !unasked == 0 {
                return held;
            }
        }
        held
    }

    /// The first layer in which the holders of the goal weigh enough. Those that do not are kept: fewer weigh no more,
    /// and of more only the new ones are weighed.
    fn first_enough(&self, states: u64, goal: u32, weights: &[u16], enough: impl Fn(u64) -> bool) -> Option<usize> {
        if enough(0) {
            return Some(0);
        }
        let weigh = |set: u64| States(set).map(|s| weights[s] as u64).sum::<u64>();
        let (mut short, mut weight) = (0, 0);
        for t in 0..self.depth + 1 {
            let held = self.holders(self.layer(t), states, goal, short);
            if held & !short != 0 {
                weight = weight + weigh(held & !short) - weigh(short & !held);
                if enough(weight) {
                    return Some(t);
                }
                short = held;
            }
        }
        None
    }

    /// The first layer from this one on in which the word is not in the way, or the one behind the last.
    fn passed(&self, from: usize, set: u64, obstacle: &Obstacle) -> usize {
        let mut at = from * self.stride + obstacle.at;
        for t in from..self.depth + 1 {
            if self.words[at] & set == obstacle.wanted {
                return t;
            }
            at += self.stride;
        }
        self.depth + 1
    }

    fn rests_at(&self, t: usize) -> bool {
        self.layer(t) == self.layer(t + 1)
    }

    fn first_rest(&self) -> Option<usize> {
        (0..self.depth).find(|&t| self.rests_at(t))
    }

    /// Whether the graph rests. A built one that does shows it at its top.
    fn rests(&self) -> bool {
        (0..self.depth).rev().any(|t| self.rests_at(t))
    }
}

/// The layer at which the graph rests.
pub fn rest(file: &[u8], depth: usize, words: &[u64]) -> Result<Rest, Refusal> {
    let problem = Problem::open(file)?;
    check_depth(depth)?;
    let layers = problem.layers(depth, words)?;
    Ok(layers.first_rest().map_or(Rest::None, Rest::At))
}

/// The level of a goal for a set of states.
pub fn level(file: &[u8], depth: usize, set: u64, goal: u32, words: &[u64]) -> Result<Level, Refusal> {
    let problem = Problem::open(file)?;
    check_depth(depth)?;
    problem.check_set(set)?;
    problem.check_goal(goal)?;
    let layers = problem.layers(depth, words)?;
    Ok(layers.level(set, goal))
}

/// The levels of a goal for a set of states in the graph of the possible sets and in that of the sure sets.
pub fn level_within(
    file: &[u8],
    depth: usize,
    set: u64,
    goal: u32,
    possible: &[u64],
    sure: &[u64],
) -> Result<Levels, Refusal> {
    let problem = Problem::open(file)?;
    check_depth(depth)?;
    problem.check_set(set)?;
    problem.check_goal(goal)?;
    let (possible, sure) = (problem.layers(depth, possible)?, problem.layers(depth, sure)?);
    Ok(Levels { possible: possible.level(set, goal), sure: sure.level(set, goal) })
}

/// The first layer that holds a goal for enough of the weight.
pub fn level_share(
    file: &[u8],
    depth: usize,
    goal: u32,
    weights: &[u16],
    numerator: u16,
    denominator: u16,
    words: &[u64],
) -> Result<Level, Refusal> {
    let problem = Problem::open(file)?;
    check_depth(depth)?;
    problem.check_goal(goal)?;
    let wanted = problem.check_share(weights, numerator, denominator)? * numerator as u64;
    let layers = problem.layers(depth, words)?;
    let enough = |weight: u64| weight * denominator as u64 >= wanted;
    Ok(layers.level_at(layers.first_enough(problem.all_states(), goal, weights, enough)))
}

/// The words of the widest layer of propositions.
const PLACES: usize = size(32);

/// What the goals before have shown of the words for a set of states. What a word would have to have in common with the
/// set goes by its place, so it holds for every goal.
struct Known<'a> {
    layers: Layers<'a>,
    set: u64,
    /// Of each label a layer before which it is in the way.
    firsts: [u16; 32],
    /// Of each other word a row of layers in which it is: from one on, up to another in which it is not.
    rows: [[u16; 2]; PLACES],
}

impl<'a> Known<'a> {
    fn nothing(layers: Layers<'a>, set: u64) -> Self {
        Known { layers, set, firsts: [0; 32], rows: [[0; 2]; PLACES] }
    }

    /// The first layer that meets the goal: none before its labels are as wanted.
    fn first_met(&mut self, goal: u32) -> Option<usize> {
        let mut t = Members::<32>(goal).fold(0, |t, p| t.max(self.firsts[p])) as usize;
        while t <= self.layers.depth {
            match self.layers.obstacle(self.layers.layer(t), self.set, goal) {
                Some(obstacle) if obstacle.at < self.layers.props => t = self.next_label(t, &obstacle),
                Some(obstacle) => t = self.next_pair(t + 1, &obstacle),
                None => return Some(t),
            }
        }
        None
    }

    /// The first layer behind t in which the label is not in the way.
    fn next_label(&mut self, t: usize, label: &Obstacle) -> usize {
        let first = self.layers.passed(self.firsts[label.at] as usize, self.set, label);
        self.firsts[label.at] = first as u16;
        // in altered words a label may be in the way again
        if t < first {
            first
        } else {
            self.layers.passed(t + 1, self.set, label)
        }
    }

    /// The first layer from this one on in which the mutex word is not in the way.
    fn next_pair(&mut self, next: usize, word: &Obstacle) -> usize {
        let [from, upto] = &mut self.rows[word.at];
        if !(*from as usize..=*upto as usize).contains(&next) {
            *from = next as u16;
            *upto = self.layers.passed(next, self.set, word) as u16;
        }
        *upto as usize
    }
}

/// The levels of a page of goals for a set of states; answers the number of entries written, which is that of the goals.
pub fn page(
    file: &[u8],
    depth: usize,
    set: u64,
    goals: &[u32],
    words: &[u64],
    out: &mut [u16],
) -> Result<usize, Refusal> {
    let problem = Problem::open(file)?;
    check_depth(depth)?;
    problem.check_set(set)?;
    let layers = problem.layers(depth, words)?;
    if out.len() < goals.len() {
        return Err(Refusal::Output(goals.len()));
    }
    let mut known = Known::nothing(layers, set);
    // the entry of a goal without a level, once there is one
    let mut unmet = None;
    for (entry, &goal) in out.iter_mut().zip(goals) {
        *entry = if problem.check_goal(goal).is_err() {
            ENTRY_GOAL
        } else if let Some(t) = known.first_met(goal) {
            t as u16
        } else {
            *unmet.get_or_insert_with(|| if known.layers.rests() { ENTRY_NEVER } else { ENTRY_NOT_BY_DEPTH })
        };
    }
    Ok(goals.len())
}

// ---- extract

/// The graph's words cut to a set of states, bits closed up in order; answers the number of words written.
pub fn extract(file: &[u8], depth: usize, set: u64, words: &[u64], out: &mut [u64]) -> Result<usize, Refusal> {
    let problem = Problem::open(file)?;
    check_depth(depth)?;
    problem.check_set(set)?;
    let wanted = problem.check_memory(depth, words.len())?;
    if out.len() < wanted {
        return Err(Refusal::Output(wanted));
    }
    let (from, to) = (&words[..wanted], &mut out[..wanted]);
    let stride = problem.stride();
    match runs(set) {
        // such a cut is no dearer than a comparison, least of all where nothing goes down
        1 if set & 1 == 1 => cut_all(from, to, |word| word & set),
        1 => cut_all(from, to, by_runs::<1>(set)),
        2 => cut_new(stride, from, to, by_runs::<2>(set)),
        3 => cut_new(stride, from, to, by_runs::<3>(set)),
        4 => cut_new(stride, from, to, by_runs::<4>(set)),
        _ => close_up(stride, from, to, &moves(set)),
    }
    Ok(wanted)
}

/// The cut by moves, up to the last that moves anything.
fn close_up(stride: usize, from: &[u64], to: &mut [u64], moves: &[Move; 6]) {
    match moves.iter().rposition(|bits| bits.going != 0) {
        Some(5) => cut_new(stride, from, to, by_moves::<6>(moves)),
        Some(4) => cut_new(stride, from, to, by_moves::<5>(moves)),
        _ => cut_new(stride, from, to, by_moves::<4>(moves)),
    }
}

/// So many words are compared, and then copied or cut, at a time.
const PIECE: usize = 192;

#[inline(always)]
fn cut_all(from: &[u64], to: &mut [u64], cut: impl Fn(u64) -> u64) {
    for (to, from) in to.iter_mut().zip(from) {
        *to = cut(*from);
    }
}

/// Cuts piece by piece. One that is the same as some strides before was cut there: from the rest on, all are.
#[inline(always)]
fn cut_new(stride: usize, from: &[u64], to: &mut [u64], cut: impl Fn(u64) -> u64) {
    // as many strides as hold a piece
    let back = PIECE.div_ceil(stride) * stride;
    let first = back.min(from.len());
    cut_all(&from[..first], &mut to[..first], &cut);
    for at in (first..from.len()).step_by(PIECE) {
        let len = PIECE.min(from.len() - at);
        let (piece, earlier) = (&from[at..at + len], at - back..at - back + len);
        let (done, todo) = to.split_at_mut(at);
        if piece == &from[earlier.clone()] {
            todo[..len].copy_from_slice(&done[earlier]);
        } else {
            cut_all(piece, &mut todo[..len], &cut);
        }
    }
}

/// How many runs of neighbours a set has.
fn runs(set: u64) -> u32 {
    (set & !(set << 1)).count_ones()
}

/// The cut to a set of N runs, each of which goes down by a shift of its own.
fn by_runs<const N: usize>(set: u64) -> impl Fn(u64) -> u64 {
    let (mut left, mut below) = (set, 0);
    let runs: [(u32, u64); N] = std::array::from_fn(|_| {
        let from = left.trailing_zeros();
        let len = (left >> from).trailing_ones();
        let ones = first_bits(len as usize);
        let run = (from - below, ones << below);
        left &= !(ones << from);
        below += len;
        run
    });
    move |word| runs.iter().fold(0, |cut, (shift, mask)| cut | word >> shift & mask)
}

/// The cut to a set that is closed up by its first M moves.
fn by_moves<const M: usize>(moves: &[Move; 6]) -> impl Fn(u64) -> u64 {
    let moves: [Move; M] = std::array::from_fn(|i| moves[i]);
    move |word| {
        moves.iter().enumerate().fold(word, |word, (i, bits)| word & bits.staying | (word & bits.going) >> (1 << i))
    }
}

/// Which bits stay, and which go down. All others are gone.
#[derive(Clone, Copy)]
struct Move {
    staying: u64,
    going: u64,
}

/// The moves by 1, by 2, .. by 32 places behind which the bits of the set are side by side (Warren's compress).
fn moves(set: u64) -> [Move; 6] {
    let mut at = set;
    let mut gaps = !set << 1;
    std::array::from_fn(|i| {
        // bit b: whether an odd number of gaps lies below b
        let odd = [1, 2, 4, 8, 16, 32].iter().fold(gaps, |odd, shift| odd ^ odd << shift);
        gaps &= !odd;
        let (staying, going) = (at & !odd, at & odd);
        at = staying | going >> (1 << i);
        Move { staying, going }
    })
}

// ---- run

/// Runs a sequence of actions from each state of a set; answers the number of sets written, which is N, and that of the
/// idle steps.
pub fn run(file: &[u8], set: u64, list: &[u8], out: &mut [u32]) -> Result<Ran, Refusal> {
    let problem = Problem::open(file)?;
    problem.check_set(set)?;
    let sets = problem.states;
    if out.len() < sets {
        return Err(Refusal::Output(sets));
    }
    if list.len() > 65535 {
        return Err(Refusal::Sequence(65535));
    }
    let (starts, ends) = (problem.starts(), &mut out[..sets]);
    if list.is_empty() {
        copy_sets(starts, ends);
        return Ok(Ran { sets, idle: 0 }); // and there is no table to make
    }
    let known = |a: u8| (a as usize) < problem.actions;
    if !known(list.iter().fold(0, |most, &a| most.max(a))) {
        return Err(Refusal::Sequence(list.iter().position(|&a| !known(a)).unwrap()));
    }
    let changes = match problem.rules() {
        Rules::Actions(actions) => run_actions(actions, starts, set, list, ends)?,
        rules => run_effects(rules, starts, set, list, ends)?,
    };
    Ok(Ran { sets, idle: list.len() - changes })
}

/// Copies the sets of these bytes.
#[inline(always)]
fn copy_sets(bytes: &[u8], to: &mut [u32]) {
    for (to, bytes) in to.iter_mut().zip(bytes.chunks_exact(4)) {
        *to = set_of(bytes);
    }
}

/// Of the states of a set, below what some lack, above what some have. Each proposition is in a half or in both.
#[derive(Clone, Copy)]
struct Mix(u64);

impl Mix {
    #[inline(always)]
    fn of(starts: &[u8], set: u64) -> Mix {
        let (lacked, had) = if set == first_bits(starts.len() / 4) {
            (!sets_of(starts).fold(u32::MAX, |all, start| all & start), joined(starts))
        } else {
            let start = |s: usize| set_of(&starts[4 * s..]);
            States(set).fold((0, 0), |(lacked, had), s| (lacked | !start(s), had | start(s)))
        };
        Mix(lacked as u64 | (had as u64) << 32)
    }

    fn lacked(self) -> u32 {
        self.0 as u32
    }

    fn had(self) -> u32 {
        (self.0 >> 32) as u32
    }

    /// A step that adds and deletes this in every state. Whether it changes one.
    #[inline(always)]
    fn step(&mut self, add: u32, del: u32) -> bool {
        let gone = gone(add, del);
        let changes = self.0 & gone != 0;
        self.0 = self.0 & !gone | come(gone);
        changes
    }

    /// Writes the sets of all states, if each step did the same in every state of the set: where some still lack what
    /// others have, no step added or deleted it.
    #[inline(always)]
    fn end(self, starts: &[u8], set: u64, ends: &mut [u32]) {
        let (kept, added) = (self.had(), !self.lacked());
        copy_sets(starts, ends);
        if set == first_bits(ends.len()) {
            for end in ends {
                *end = *end & kept | added;
            }
        } else {
            for s in States(set) {
                ends[s] = ends[s] & kept | added;
            }
        }
    }
}

/// What goes from a mix in a step that adds and deletes this in every state: after it no state lacks the one or has the
/// other.
#[inline(always)]
fn gone(add: u32, del: u32) -> u64 {
    add as u64 | ((del & !add) as u64) << 32
}

/// What comes to the mix where this goes: what no state lacks all have, and what none has all lack.
#[inline(always)]
fn come(gone: u64) -> u64 {
    gone.rotate_left(32)
}

/// The actions of version 1: of each what stays of a mix in a step, what comes to that, and what no state may lack.
struct Table {
    stay: [u64; 32],
    come: [u64; 32],
    pre: [u64; 32],
}

impl Table {
    #[inline(always)]
    fn of(actions: &[u8]) -> Table {
        let mut table = Table { stay: [0; 32], come: [0; 32], pre: [0; 32] };
        for (a, bytes) in actions.chunks_exact(12).enumerate() {
            let (a, [pre, add, del]) = (a % 32, three_sets(bytes));
            let gone = gone(add, del);
            (table.stay[a], table.come[a], table.pre[a]) = (!gone, come(gone), pre as u64);
        }
        table
    }
}

/// Version 1; answers how many steps were not idle. A step removes and adds the same propositions in every state, and so
/// does a sequence: it is followed once, with what some states of the set lack and have, and the states are moved at its
/// end.
#[inline(always)]
fn run_actions(actions: &[u8], starts: &[u8], set: u64, list: &[u8], ends: &mut [u32]) -> Result<usize, Refusal> {
    let (mix, changes) = follow(&Table::of(actions), Mix::of(starts, set), list)?;
    mix.end(starts, set, ends);
    Ok(changes)
}

/// The mix that a list of actions leads to, and how many of its steps were not idle.
#[inline(never)] // within a call its loop may be short of registers
fn follow(table: &Table, Mix(mut mix): Mix, list: &[u8]) -> Result<(Mix, usize), Refusal> {
    let mut changes = 0;
    let mut take = |a: u8| {
        let a = a as usize % 32;
        if mix & table.pre[a] != 0 {
            return false;
        }
        // if all of it stays, what comes was there
        let stays = mix & table.stay[a];
        changes += (stays != mix) as usize;
        mix = stays | table.come[a];
        true
    };
    // four steps at a time are quicker than one or eight
    let fours = list.chunks_exact(4);
    let last = fours.remainder();
    for (i, four) in fours.enumerate() {
        for (j, &a) in four.iter().enumerate() {
            if !take(a) {
                return Err(Refusal::Precondition(4 * i + j));
            }
        }
    }
    match last.iter().position(|&a| !take(a)) {
        Some(j) => Err(Refusal::Precondition(list.len() - last.len() + j)),
        None => Ok((Mix(mix), changes)),
    }
}

/// Version 2; answers how many steps were not idle. Where all effects of a step fire in every state of the set or in none,
/// the mix of the states tells all, as in version 1. Only once some fire in a part of them the sets are turned round: of
/// each proposition in which the states differ it is kept which of the set have it.
#[inline(never)] // version 1 is quicker without it in the same function
fn run_effects(rules: Rules, starts: &[u8], set: u64, list: &[u8], ends: &mut [u32]) -> Result<usize, Refusal> {
    let steps = Steps::new(rules);
    let mut mix = Mix::of(starts, set);
    let mut labels = None;
    let mut changes = 0;
    for (i, &a) in list.iter().enumerate() {
        let a = a as usize % 32;
        if steps.pre[a] & mix.lacked() != 0 {
            return Err(Refusal::Precondition(i));
        }
        // what is added and deleted in every state, and the effects that may fire in some
        let (mut add, mut del, mut some) = (0, 0, 0);
        for e in Members::<32>(steps.effects[a]) {
            let when = steps.when[e];
            if when & mix.lacked() == 0 {
                add |= steps.add[e];
                del |= steps.del[e];
            } else if when & !mix.had() == 0 {
                some |= 1 << e;
            }
        }
        if some == 0 {
            changes += mix.step(add, del) as usize;
        } else {
            let labels = labels.get_or_insert_with(|| start_labels(starts).map(|states: u64| states & set));
            changes += steps.part(some, add, del, set, labels, &mut mix) as usize;
        }
    }
    mix.end(starts, set, ends);
    let differ = mix.lacked() & mix.had();
    if let Some(labels) = labels.filter(|_| differ != 0) {
        for (i, ends) in ends.chunks_mut(32).enumerate() {
            let mut rows = labels.map(|states| (states >> (32 * i)) as u32);
            turn_bits(&mut rows);
            for s in Members::<32>((set >> (32 * i)) as u32) {
                ends[s] = ends[s] & !differ | rows[s] & differ;
            }
        }
    }
    Ok(changes)
}

/// Preconditions and effects by action, and the sets of each effect.
struct Steps {
    pre: [u32; 32],
    effects: [u32; 32],
    when: [u32; 32],
    add: [u32; 32],
    del: [u32; 32],
}

impl Steps {
    fn new(rules: Rules) -> Self {
        let mut steps = Steps { pre: [0; 32], effects: [0; 32], when: [0; 32], add: [0; 32], del: [0; 32] };
        for (to, pre) in steps.pre.iter_mut().zip(rules.preconditions()) {
            *to = pre;
        }
        rules.each_effect(|e, effect| {
            let e = e % 32;
            steps.effects[effect.owner % 32] |= 1 << e;
            (steps.when[e], steps.add[e], steps.del[e]) = (effect.when, effect.add, effect.del);
        });
        steps
    }

    /// A step that adds and deletes something in every state, and of which some effects may fire in a part of the states.
    /// Whether it changes a state. The label of a proposition in which the states do not differ is not looked at: all have
    /// it or none has.
    #[inline(never)]
    fn part(&self, some: u32, add: u32, del: u32, set: u64, labels: &mut [u64; 32], mix: &mut Mix) -> bool {
        let (lacked, had) = (mix.lacked(), mix.had());
        let mut fired = [0; 32];
        let (mut some_add, mut some_del) = (0, 0);
        for e in Members::<32>(some) {
            fired[e] = Members::<32>(self.when[e] & lacked).fold(set, |all, p| all & labels[p]);
            if fired[e] != 0 {
                some_add |= self.add[e];
                some_del |= self.del[e];
            }
        }
        // what these effects may change, which nothing adds in every state
        let del = del & !add;
        let touched = (some_add & (lacked | del) | some_del & had & !del) & !add;
        Members::<32>(touched & !lacked).for_each(|p| labels[p] = set);
        Members::<32>(touched & !had).for_each(|p| labels[p] = 0);
        let before = *labels;
        Members::<32>(touched & del).for_each(|p| labels[p] = 0);
        for e in Members::<32>(some) {
            for p in Members::<32>(self.del[e] & touched) {
                labels[p] &= !fired[e];
            }
        }
        for e in Members::<32>(some) {
            for p in Members::<32>(self.add[e] & touched) {
                labels[p] |= fired[e];
            }
        }
        let changed = Members::<32>(touched).fold(0, |all, p| all | ((labels[p] != before[p]) as u32) << p);
        for p in Members::<32>(changed) {
            let (lacked, had) = ((labels[p] != set) as u64, (labels[p] != 0) as u64);
            mix.0 = mix.0 & !(1 << p | 1 << (32 + p)) | lacked << p | had << (32 + p);
        }
        mix.step(add, del & !touched) || changed != 0
    }
}

// ---- plan

/// The relaxed plan of a goal for a set of states.
pub fn plan(file: &[u8], depth: usize, set: u64, goal: u32, words: &[u64], out: &mut [u32]) -> Result<Plan, Refusal> {
    let problem = Problem::open(file)?;
    check_depth(depth)?;
    problem.check_set(set)?;
    problem.check_goal(goal)?;
    let layers = problem.layers(depth, words)?;
    if out.len() < depth {
        return Err(Refusal::Output(depth));
    }
    let level = layers.first_met(set, goal).ok_or(Refusal::NoLevel(depth))?;

    let rules = problem.rules();
    let mut needs = [0; 32];
    rules.each_effect(|e, effect| needs[e % 32] = effect.needs());
    let adders = rules.adders();

    // the propositions that are needed, and the states that each is needed for, here and a layer below
    let mut needed = goal;
    let (mut wanted, mut below) = (&mut [0; 32], &mut [0; 32]);
    for p in Members::<32>(goal) {
        wanted[p] = set;
    }
    let mut marked = [0u32; 255];
    let mut count = 0;
    for t in (1..=level).rev() {
        let labels = &words[(t - 1) * layers.stride + layers.size..][..problem.vertices()];
        let (effects, persistences) = labels.split_at(problem.effects);
        let (mut needed_below, mut chosen) = (0, 0);
        for p in Members::<32>(needed) {
            let mut left = std::mem::take(&mut wanted[p]);
            let carried = left & persistences[p];
            below[p] |= carried;
            needed_below |= ((carried != 0) as u32) << p;
            left ^= carried;
            let mut adders = Members::<32>(adders[p]);
            while left != 0 {
                let e = adders.next().ok_or(Refusal::Uncovered(t))?;
                let taken = left & effects[e];
                if taken != 0 {
                    chosen |= 1 << e;
                    needed_below |= needs[e];
                    for q in Members::<32>(needs[e]) {
                        below[q] |= taken;
                    }
                    left ^= taken;
                }
            }
        }
        let marks = rules.owners(chosen);
        marked[t - 1] = marks;
        count += marks.count_ones() as usize;
        needed = needed_below;
        std::mem::swap(&mut wanted, &mut below);
    }
    if Members::<32>(needed).any(|p| wanted[p] & !words[p] != 0) {
        return Err(Refusal::Uncovered(0));
    }
    out[..level].copy_from_slice(&marked[..level]);
    Ok(Plan { level, count })
}

// ---- the greatest depth that fits

/// The greatest depth up to 255 whose graph for the file fits so many words.
pub fn fitting_depth(file: &[u8], room: usize) -> Result<usize, Refusal> {
    let problem = Problem::open(file)?;
    problem.check_memory(0, room)?;
    Ok((0..=255).rev().find(|&depth| word_count(problem.props, problem.effects, depth) <= room).unwrap())
}

// ---- the text of `levels`

/// What the program `levels` prints for the file; answers the number of bytes written.
pub fn levels_text(file: &[u8], out: &mut [u8]) -> Result<usize, Refusal> {
    if out.len() < TEXT_ROOM {
        return Err(Refusal::Output(TEXT_ROOM));
    }
    let text = text(file).unwrap_or_else(|why| format!("refused {} {}\n", why.number(), why.place()));
    out[..text.len()].copy_from_slice(text.as_bytes());
    Ok(text.len())
}

/// The text of a file that is in order: depth and rest, a line for each state, a line for all of them.
fn text(file: &[u8]) -> Result<String, Refusal> {
    let depth = fitting_depth(file, 8192)?;
    let mut words = [0; 8192];
    let count = build(file, depth, &mut words)?.words;
    let (problem, words) = (Problem::open(file)?, &words[..count]);

    let rest = match rest(file, depth, words)? {
        Rest::At(layer) => layer.to_string(),
        Rest::None => "?".to_string(),
    };
    let mut text = format!("depth {depth} rest {rest}\n");
    let states = (0..problem.states).map(|s| (s.to_string(), 1 << s));
    for (name, set) in states.chain([("all".to_string(), problem.all_states())]) {
        text += &name;
        text += ":";
        for p in 0..problem.props {
            match level(file, depth, set, 1 << p, words)? {
                Level::At(layer) => write!(text, " {layer}").expect("a String takes any text"),
                Level::Never => text += " -",
                Level::NotByDepth => text += " ?",
            }
        }
        text += "\n";
    }
    Ok(text)
}
