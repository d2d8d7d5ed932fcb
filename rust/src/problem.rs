//! Problem files put together, and a graph with memory of its own.

use crate::{build, build_within, entry, extract, fitting_depth, page, plan, rest, word_count};
use crate::{level, level_share, level_within, Level, Levels, Plan, Refusal, Rest};

/// What problems of both versions have: so many propositions, and start states.
#[derive(Clone, Debug, PartialEq, Eq)]
struct Common {
    props: usize,
    states: Vec<u32>,
}

impl Common {
    fn new(props: usize) -> Result<Common, Refusal> {
        if !(1..=32).contains(&props) {
            return Err(Refusal::Count(5));
        }
        Ok(Common { props, states: Vec::new() })
    }

    /// Sets that stand one behind the other, the first at this offset.
    fn check(&self, sets: &[u32], offset: usize) -> Result<(), Refusal> {
        let outside = !(u32::MAX >> (32 - self.props));
        match sets.iter().position(|set| set & outside != 0) {
            Some(i) => Err(Refusal::PropSet(offset + 4 * i)),
            None => Ok(()),
        }
    }

    /// One more start state. They stand from this offset on.
    fn add_state(&mut self, set: u32, offset: usize) -> Result<(), Refusal> {
        if self.states.len() == 64 {
            return Err(Refusal::Count(7));
        }
        self.check(&[set], offset + 4 * self.states.len())?;
        self.states.push(set);
        Ok(())
    }

    /// The file of a version: its counts, and what stands between them and the start states.
    fn file(&self, version: u8, actions: usize, rules: Vec<u8>) -> Result<Vec<u8>, Refusal> {
        if self.states.is_empty() {
            return Err(Refusal::Count(7));
        }
        let head = [b'S', b'A', b'G', version, 0, self.props as u8, actions as u8, self.states.len() as u8];
        Ok([&head[..], &rules, &bytes_of(&self.states)].concat())
    }

    fn words(&self, effects: usize, depth: usize) -> Result<usize, Refusal> {
        if depth > 255 {
            return Err(Refusal::Depth);
        }
        Ok(word_count(self.props, effects, depth))
    }
}

fn bytes_of(sets: &[u32]) -> Vec<u8> {
    sets.iter().flat_map(|set| set.to_le_bytes()).collect()
}

/// A problem that is put together: so many propositions, then actions and start states in the order of their numbers. Its
/// file is of version 1; for actions with conditional effects there is [`ConditionalProblem`].
///
/// What no problem file may have is turned away as the library turns it away, with the same number and place: the offset
/// of a set or an action is the one that it would have in the file as it is by then. Start states may repeat, actions may
/// not.
///
/// ```
/// use mogzift::{Level, Problem, Refusal};
///
/// # fn main() -> Result<(), Refusal> {
/// // The paper's lamp: 0 at door, 1 at desk, 2 lit.
/// let lamp = Problem::new(3)?
///     .action(0b001, 0b010, 0b001)? // walk: needs 0, adds 1, deletes 0
///     .action(0b010, 0b100, 0b000)? // light: needs 1, adds 2
///     .state(0b001)? // at the door
///     .state(0b010)?; // at the desk
/// assert_eq!(lamp.bytes()?.len(), 40);
/// assert_eq!(lamp.words(2)?, 48);
///
/// let graph = lamp.graph(2)?;
/// assert_eq!(graph.level(0b11, 0b100)?, Level::At(2));
/// assert_eq!(graph.plan(0b11, 0b100)?.1, [3, 2]);
///
/// assert_eq!(lamp.clone().state(0b1000), Err(Refusal::PropSet(40)));
/// assert_eq!(lamp.action(0b001, 0b010, 0b001), Err(Refusal::EqualAction(32))); // another walk
/// # Ok(())
/// # }
/// ```
#[derive(Clone, Debug, PartialEq, Eq)]
pub struct Problem {
    common: Common,
    actions: Vec<[u32; 3]>,
}

impl Problem {
    /// A problem with so many propositions, 1 to 32, and as yet no actions and no start states.
    pub fn new(props: usize) -> Result<Problem, Refusal> {
        Ok(Problem { common: Common::new(props)?, actions: Vec::new() })
    }

    /// The offset behind the actions.
    fn end(&self) -> usize {
        8 + 12 * self.actions.len()
    }

    /// With one more action: what it needs, what it adds and what it deletes, bit p for proposition p. It differs from
    /// each one before in one of these at least.
    pub fn action(mut self, pre: u32, add: u32, del: u32) -> Result<Problem, Refusal> {
        if self.actions.len() == 32 {
            return Err(Refusal::Count(6));
        }
        let action = [pre, add, del];
        self.common.check(&action, self.end())?;
        if self.actions.contains(&action) {
            return Err(Refusal::EqualAction(self.end()));
        }
        self.actions.push(action);
        Ok(self)
    }

    /// With one more start state: the propositions that hold in it, bit p for proposition p.
    pub fn state(mut self, set: u32) -> Result<Problem, Refusal> {
        let offset = self.end();
        self.common.add_state(set, offset)?;
        Ok(self)
    }

    /// The problem file. A problem without a start state has none.
    pub fn bytes(&self) -> Result<Vec<u8>, Refusal> {
        self.common.file(1, self.actions.len(), bytes_of(&self.actions.concat()))
    }

    /// The number of words that the graph of a depth needs.
    pub fn words(&self, depth: usize) -> Result<usize, Refusal> {
        self.common.words(self.actions.len(), depth)
    }

    /// The greatest depth up to 255 whose graph fits so many words.
    pub fn fitting_depth(&self, room: usize) -> Result<usize, Refusal> {
        fitting_depth(&self.bytes()?, room)
    }

    /// The graph of a depth, in memory that is made for it.
    pub fn graph(&self, depth: usize) -> Result<Graph, Refusal> {
        Graph::new(self.bytes()?, depth)
    }
}

/// A problem with conditional effects that is put together: so many propositions, then actions, effects and start states,
/// each in the order of their numbers. Its file is of version 2.
///
/// A step of an action needs the action's precondition in every state. Then each of its effects fires in the states in
/// which the effect's antecedent held before the step: all that they delete is removed, then all that they add is joined.
/// An action may have several effects, or none, and then its step changes nothing.
///
/// What no problem file may have is turned away as with a [`Problem`]. An effect is of an action that is there by then.
/// Actions, effects and start states may repeat.
///
/// ```
/// use mogzift::{ConditionalProblem, Level, Refusal};
///
/// # fn main() -> Result<(), Refusal> {
/// // 0 the case is at home, 1 in the office; 2 the letter is at home, 3 in the office; 4 it is in the case.
/// let letter = ConditionalProblem::new(5)?
///     .action(0b00001)? // carry, action 0: needs the case at home
///     .effect(0, 0b00000, 0b00010, 0b00001)? // the case, in any state: adds 1, deletes 0
///     .effect(0, 0b10000, 0b01000, 0b00100)? // the letter, where it is in the case: adds 3, deletes 2
///     .action(0b00101)? // pack, action 1: needs both at home
///     .effect(1, 0b00000, 0b10000, 0b00000)? // adds 4
///     .state(0b00101)? // both are at home
///     .state(0b10101)?; // and packed
/// let file = letter.bytes()?;
/// assert_eq!(file.len(), 9 + 4 * 2 + 13 * 3 + 4 * 2);
///
/// // carried from both states
/// let mut ends = [0; 2];
/// assert_eq!(mogzift::run(&file, 0b11, &[0], &mut ends), Ok(mogzift::Ran { sets: 2, idle: 0 }));
/// assert_eq!(ends, [0b00110, 0b11010]);
///
/// // the letter in the office: packed and carried, or carried at once
/// let graph = letter.graph(2)?;
/// assert_eq!(graph.level(0b01, 0b01000)?, Level::At(2));
/// assert_eq!(graph.level(0b10, 0b01000)?, Level::At(1));
/// // a plan marks actions: pack, then carry
/// assert_eq!(graph.plan(0b01, 0b01000)?.1, [0b10, 0b01]);
///
/// assert_eq!(letter.effect(2, 0, 0b00001, 0), Err(Refusal::EffectAction(56))); // there is no action 2
/// # Ok(())
/// # }
/// ```
#[derive(Clone, Debug, PartialEq, Eq)]
pub struct ConditionalProblem {
    common: Common,
    actions: Vec<u32>,
    effects: Vec<(u8, [u32; 3])>,
}

impl ConditionalProblem {
    /// A problem with so many propositions, 1 to 32, and as yet no actions, no effects and no start states.
    pub fn new(props: usize) -> Result<ConditionalProblem, Refusal> {
        Ok(ConditionalProblem { common: Common::new(props)?, actions: Vec::new(), effects: Vec::new() })
    }

    /// The offset behind the actions, and the one behind the effects.
    fn ends(&self) -> (usize, usize) {
        let actions = 9 + 4 * self.actions.len();
        (actions, actions + 13 * self.effects.len())
    }

    /// With one more action: what it needs, bit p for proposition p. It has no effects as yet.
    pub fn action(mut self, pre: u32) -> Result<ConditionalProblem, Refusal> {
        if self.actions.len() == 32 {
            return Err(Refusal::Count(6));
        }
        self.common.check(&[pre], self.ends().0)?;
        self.actions.push(pre);
        Ok(self)
    }

    /// With one more effect of the action of this number: where it fires (its antecedent), what it adds and what it
    /// deletes, bit p for proposition p. With an empty antecedent it fires wherever the action's step is taken.
    pub fn effect(mut self, action: usize, when: u32, add: u32, del: u32) -> Result<ConditionalProblem, Refusal> {
        if self.effects.len() == 32 {
            return Err(Refusal::Count(8));
        }
        let (sets, offset) = ([when, add, del], self.ends().1);
        self.common.check(&sets, offset + 1)?;
        if action >= self.actions.len() {
            return Err(Refusal::EffectAction(offset));
        }
        self.effects.push((action as u8, sets));
        Ok(self)
    }

    /// With one more start state: the propositions that hold in it, bit p for proposition p.
    pub fn state(mut self, set: u32) -> Result<ConditionalProblem, Refusal> {
        let offset = self.ends().1;
        self.common.add_state(set, offset)?;
        Ok(self)
    }

    /// The problem file. A problem without a start state has none.
    pub fn bytes(&self) -> Result<Vec<u8>, Refusal> {
        let mut rules = vec![self.effects.len() as u8];
        rules.extend(bytes_of(&self.actions));
        for (action, sets) in &self.effects {
            rules.push(*action);
            rules.extend(bytes_of(sets));
        }
        self.common.file(2, self.actions.len(), rules)
    }

    /// The number of words that the graph of a depth needs.
    pub fn words(&self, depth: usize) -> Result<usize, Refusal> {
        self.common.words(self.effects.len(), depth)
    }

    /// The greatest depth up to 255 whose graph fits so many words.
    pub fn fitting_depth(&self, room: usize) -> Result<usize, Refusal> {
        fitting_depth(&self.bytes()?, room)
    }

    /// The graph of a depth, in memory that is made for it.
    pub fn graph(&self, depth: usize) -> Result<Graph, Refusal> {
        Graph::new(self.bytes()?, depth)
    }
}

/// The same problem with its actions as effects: each action has one, which fires in any state. Its graphs have the same
/// words.
impl From<Problem> for ConditionalProblem {
    fn from(problem: Problem) -> ConditionalProblem {
        let effect = |(a, &[_, add, del]): (usize, &[u32; 3])| (a as u8, [0, add, del]);
        ConditionalProblem {
            actions: problem.actions.iter().map(|&[pre, _, _]| pre).collect(),
            effects: problem.actions.iter().enumerate().map(effect).collect(),
            common: problem.common,
        }
    }
}

/// A graph with the file that it was built from, its depth, memory of its own, and what the build looked at. Nothing alters
/// its words.
#[derive(Clone, Debug, PartialEq, Eq)]
pub struct Graph {
    file: Vec<u8>,
    depth: usize,
    words: Vec<u64>,
    looked: usize,
}

impl Graph {
    /// Builds the file's graph to the depth, in as many words as it needs.
    pub fn new(file: Vec<u8>, depth: usize) -> Result<Graph, Refusal> {
        // a graph has a word at least, so that no memory is too short, and the refusal says what is needed
        let mut words = match build(&file, depth, &mut []) {
            Err(Refusal::Memory(needed)) => vec![0; needed],
            Err(why) => return Err(why),
            Ok(built) => unreachable!("a graph of {} words", built.words),
        };
        let looked = build(&file, depth, &mut words)?.looked;
        Ok(Graph { file, depth, words, looked })
    }

    /// The graph for start states known within bounds, of the same depth: this one's states are the sure sets, and these
    /// are the possible sets, one for each, with all that is sure in it. It counts as built for the file with the possible
    /// sets in the place of its states, and that is its file.
    ///
    /// ```
    /// use mogzift::{Level, Levels, Problem, Refusal};
    ///
    /// # fn main() -> Result<(), Refusal> {
    /// // The paper's lamp: one is at the door or at the desk, and whether the lamp is lit is not known.
    /// let sure = Problem::new(3)?.action(1, 2, 1)?.action(2, 4, 0)?.state(1)?.state(2)?.graph(2)?;
    /// let possible = sure.within(&[1 | 4, 2 | 4])?;
    /// let levels = sure.level_within(&possible, 0b11, 0b100)?;
    /// assert_eq!(levels, Levels { possible: Level::At(0), sure: Level::At(2) });
    ///
    /// assert_eq!(sure.within(&[1 | 4]), Err(Refusal::PossibleSet(2))); // two states
    /// assert_eq!(sure.within(&[1, 4]), Err(Refusal::PossibleSet(1))); // one is at the desk, surely
    /// # Ok(())
    /// # }
    /// ```
    pub fn within(&self, possible: &[u32]) -> Result<Graph, Refusal> {
        let mut words = vec![0; self.words.len()];
        let looked = build_within(&self.file, possible, self.depth, &mut words)?.looked;
        let (rules, _) = self.file.split_at(self.file.len() - 4 * possible.len());
        Ok(Graph { file: [rules, &bytes_of(possible)].concat(), depth: self.depth, words, looked })
    }

    /// The problem file.
    pub fn file(&self) -> &[u8] {
        &self.file
    }

    /// The depth.
    pub fn depth(&self) -> usize {
        self.depth
    }

    /// The graph's words.
    pub fn words(&self) -> &[u64] {
        &self.words
    }

    /// How many vertices and pairs the build's scans looked at, over all steps: see [`Built`](crate::Built::looked).
    pub fn looked(&self) -> usize {
        self.looked
    }

    /// The layer at which the graph rests.
    pub fn rest(&self) -> Result<Rest, Refusal> {
        rest(&self.file, self.depth, &self.words)
    }

    /// The level of a goal for a set of states.
    pub fn level(&self, set: u64, goal: u32) -> Result<Level, Refusal> {
        level(&self.file, self.depth, set, goal, &self.words)
    }

    /// The levels of a goal for a set of states in the graph of the possible sets, which [`within`](Graph::within) made of
    /// this one, and in this one, that of the sure sets. A graph with fewer words than this one is turned away, and one of
    /// another problem or depth is read as if it were of this one's.
    pub fn level_within(&self, possible: &Graph, set: u64, goal: u32) -> Result<Levels, Refusal> {
        level_within(&self.file, self.depth, set, goal, &possible.words, &self.words)
    }

    /// The first layer that holds a goal for enough of the weight: of each state its weight, and the share as numerator
    /// and denominator.
    ///
    /// ```
    /// use mogzift::{Level, Problem, Refusal};
    ///
    /// # fn main() -> Result<(), Refusal> {
    /// // The paper's lamp: it is lit at layer 1 for who is at the desk, and at layer 2 for who is at the door.
    /// let graph = Problem::new(3)?.action(1, 2, 1)?.action(2, 4, 0)?.state(1)?.state(2)?.graph(2)?;
    /// assert_eq!(graph.level_share(0b100, &[1, 9], 9, 10)?, Level::At(1));
    /// assert_eq!(graph.level_share(0b100, &[2, 9], 9, 10)?, Level::At(2));
    ///
    /// assert_eq!(graph.level_share(0b100, &[1], 9, 10), Err(Refusal::Share)); // two states
    /// assert_eq!(graph.level_share(0b100, &[1, 9], 11, 10), Err(Refusal::Share)); // more than all
    /// # Ok(())
    /// # }
    /// ```
    pub fn level_share(&self, goal: u32, weights: &[u16], numerator: u16, denominator: u16) -> Result<Level, Refusal> {
        level_share(&self.file, self.depth, goal, weights, numerator, denominator, &self.words)
    }

    /// The levels of a page of goals for a set of states: of each goal what [`level`](Graph::level) answers.
    pub fn page(&self, set: u64, goals: &[u32]) -> Result<Vec<Result<Level, Refusal>>, Refusal> {
        let mut out = vec![0; goals.len()];
        page(&self.file, self.depth, set, goals, &self.words, &mut out)?;
        Ok(out.into_iter().map(entry).collect())
    }

    /// The words of the graph that is built for the states of a set only.
    pub fn extract(&self, set: u64) -> Result<Vec<u64>, Refusal> {
        let mut out = vec![0; self.words.len()];
        extract(&self.file, self.depth, set, &self.words, &mut out)?;
        Ok(out)
    }

    /// The relaxed plan of a goal for a set of states, with its words: one for each layer below the level.
    pub fn plan(&self, set: u64, goal: u32) -> Result<(Plan, Vec<u32>), Refusal> {
        let mut out = vec![0; self.depth];
        let made = plan(&self.file, self.depth, set, goal, &self.words, &mut out)?;
        out.truncate(made.level);
        Ok((made, out))
    }
}

#[cfg(test)]
mod tests {
    use super::*;
    use crate::{reference, Built, Ran};

    /// The bytes of the README's table.
    const LAMP: [u8; 40] = *b"SAG\x01\x00\x03\x02\x02\
        \x01\x00\x00\x00\x02\x00\x00\x00\x01\x00\x00\x00\
        \x02\x00\x00\x00\x04\x00\x00\x00\x00\x00\x00\x00\
        \x01\x00\x00\x00\x02\x00\x00\x00";

    fn lamp() -> Problem {
        let lamp = || Problem::new(3)?.action(1, 2, 1)?.action(2, 4, 0)?.state(1)?.state(2);
        lamp().unwrap()
    }

    /// An action for each number below 32, all different: its bits, dealt out to the three sets.
    fn numbered(a: usize, props: usize) -> [u32; 3] {
        let every = u32::MAX >> (32 - props);
        [0, 1, 2].map(|kind| (a >> (kind * props.min(5))) as u32 & every)
    }

    /// Three actions, of which the first has two effects, the second one and the third none, and two states.
    const EFFECTS: [u8; 68] = *b"SAG\x02\x00\x03\x03\x02\x03\
        \x01\x00\x00\x00\x02\x00\x00\x00\x03\x00\x00\x00\
        \x00\x00\x00\x00\x00\x02\x00\x00\x00\x01\x00\x00\x00\
        \x01\x00\x00\x00\x00\x04\x00\x00\x00\x00\x00\x00\x00\
        \x00\x02\x00\x00\x00\x05\x00\x00\x00\x06\x00\x00\x00\
        \x01\x00\x00\x00\x02\x00\x00\x00";

    fn effects() -> Result<ConditionalProblem, Refusal> {
        let actions = ConditionalProblem::new(3)?.action(1)?.action(2)?.action(3)?;
        actions.effect(0, 0, 2, 1)?.effect(1, 0, 4, 0)?.effect(0, 2, 5, 6)
    }

    /// What the library says of a file.
    fn judged(file: &[u8]) -> Result<usize, Refusal> {
        fitting_depth(file, usize::MAX)
    }

    #[test]
    fn the_lamp_is_the_readmes_file() {
        assert_eq!(lamp().bytes(), Ok(LAMP.to_vec()));
        let stated = include_bytes!("../../crates/levels/stdin");
        assert_eq!(stated, &LAMP);
        assert_eq!(judged(&LAMP), Ok(255));
    }

    #[test]
    fn the_words_are_those_that_the_library_asks_for() {
        // of one proposition there are no more than eight different actions
        for (props, actions) in [(1, 0), (1, 8), (2, 32), (3, 2), (16, 16), (32, 0), (32, 32)] {
            let mut problem = Problem::new(props).and_then(|problem| problem.state(1)).unwrap();
            for a in 0..actions {
                let [pre, add, del] = numbered(a, props);
                problem = problem.action(pre, add, del).unwrap();
            }
            let file = problem.bytes().unwrap();
            for depth in [0, 1, 2, 100, 255] {
                assert_eq!(build(&file, depth, &mut []), Err(Refusal::Memory(problem.words(depth).unwrap())));
            }
            assert_eq!(problem.words(256), Err(Refusal::Depth));
            assert_eq!(build(&file, 256, &mut []), Err(Refusal::Depth));
            let room = problem.words(2).unwrap();
            assert_eq!(problem.fitting_depth(room), Ok(2));
            assert_eq!(problem.fitting_depth(room - 1), Ok(1));
        }
    }

    #[test]
    fn a_count_out_of_range_is_turned_away_as_in_a_file() {
        for (props, byte) in [(0, 0), (33, 33), (usize::MAX, 255)] {
            let file = [b"SAG\x01\x00", &[byte, 0, 1, 0, 0, 0, 0][..]].concat();
            assert_eq!(Problem::new(props).map(|_| 0), judged(&file));
        }
        let mut problem = Problem::new(32).unwrap();
        assert_eq!(problem.bytes(), Err(Refusal::Count(7)));
        assert_eq!(judged(b"SAG\x01\x00\x20\x00\x00"), Err(Refusal::Count(7)));
        for a in 0..32 {
            problem = problem.action(u32::MAX, u32::MAX, a).unwrap();
        }
        assert_eq!(problem.clone().action(0, 0, 0), Err(Refusal::Count(6)));
        assert_eq!(problem.clone().action(u32::MAX, u32::MAX, 0), Err(Refusal::Count(6)));
        for _ in 0..64 {
            problem = problem.state(u32::MAX).unwrap();
        }
        assert_eq!(problem.clone().state(0), Err(Refusal::Count(7)));
        let file = problem.bytes().unwrap();
        assert_eq!(file.len(), 648);
        assert!(judged(&file).is_ok());
        for (at, byte) in [(6, 33), (7, 65)] {
            let mut file = file.clone();
            file[at] = byte;
            assert_eq!(judged(&file), Err(Refusal::Count(at)));
        }
    }

    #[test]
    fn a_set_out_of_range_is_turned_away_as_in_a_file() {
        let outside = 1 << 3;
        let walk = || Problem::new(3)?.action(1, 2, 1);
        let light = || walk()?.action(2, 4, 0);
        let refused = [
            (8, Problem::new(3).and_then(|problem| problem.action(outside, outside, 0))),
            (16, Problem::new(3).and_then(|problem| problem.action(1, 2, outside))),
            (24, walk().and_then(|problem| problem.action(2, outside, 0))),
            (32, light().and_then(|problem| problem.state(outside))),
            (36, light().and_then(|problem| problem.state(1)?.state(outside))),
        ];
        for (offset, problem) in refused {
            assert_eq!(problem, Err(Refusal::PropSet(offset)));
            let mut file = LAMP;
            file[offset] |= 1 << 3;
            assert_eq!(judged(&file), Err(Refusal::PropSet(offset)));
        }
        let whole = Problem::new(32).unwrap().action(u32::MAX, 0, u32::MAX).unwrap();
        assert!(judged(&whole.state(u32::MAX).unwrap().bytes().unwrap()).is_ok());
    }

    #[test]
    fn an_equal_action_is_turned_away_as_in_a_file() {
        let walks = |[pre, add, del]: [u32; 3]| Problem::new(3)?.action(1, 2, 1)?.action(pre, add, del);
        let judged_walks = |sets: [u32; 3]| {
            let mut file = LAMP;
            file[20..32].copy_from_slice(&sets.map(u32::to_le_bytes).concat());
            judged(&file)
        };
        assert_eq!(walks([1, 2, 1]), Err(Refusal::EqualAction(20)));
        assert_eq!(judged_walks([1, 2, 1]), Err(Refusal::EqualAction(20)));
        for other in [[3, 2, 1], [1, 6, 1], [1, 2, 0]] {
            assert!(walks(other).is_ok() && judged_walks(other).is_ok());
        }
        // the lamp with a third action
        assert_eq!(lamp().action(2, 4, 0), Err(Refusal::EqualAction(32)));
        assert_eq!(lamp().action(1, 2, 1), Err(Refusal::EqualAction(32)));
        assert_eq!(lamp().action(1, 2, 9), Err(Refusal::PropSet(40)));
        // states may repeat
        let twice = lamp().state(1).unwrap().state(1).unwrap();
        assert_eq!(judged(&twice.bytes().unwrap()), Ok(255));
    }

    #[test]
    fn effects_are_written_as_in_version_2() {
        let problem = || effects()?.state(1)?.state(2);
        assert_eq!(problem().unwrap().bytes(), Ok(EFFECTS.to_vec()));
        assert_eq!(judged(&EFFECTS), Ok(255));
        // in any order of the three kinds
        let mixed = || {
            let first = ConditionalProblem::new(3)?.state(1)?.action(1)?.effect(0, 0, 2, 1)?.action(2)?;
            first.effect(1, 0, 4, 0)?.state(2)?.effect(0, 2, 5, 6)?.action(3)
        };
        assert_eq!(mixed(), problem());
    }

    #[test]
    fn the_words_go_by_the_effects() {
        for (props, actions, effects) in [(1, 0, 0), (1, 1, 0), (1, 1, 32), (3, 32, 2), (16, 16, 32), (32, 32, 32)] {
            let mut problem = ConditionalProblem::new(props).and_then(|problem| problem.state(1)).unwrap();
            for _ in 0..actions {
                problem = problem.action(1).unwrap();
            }
            for e in 0..effects {
                problem = problem.effect(e % actions, 0, 1, 1).unwrap();
            }
            let file = problem.bytes().unwrap();
            for depth in [0, 1, 255] {
                assert_eq!(build(&file, depth, &mut []), Err(Refusal::Memory(problem.words(depth).unwrap())));
                assert_eq!(problem.words(depth), Ok(word_count(props, effects, depth)));
            }
            assert_eq!(problem.words(256), Err(Refusal::Depth));
            assert_eq!(problem.fitting_depth(problem.words(2).unwrap()), Ok(2));
        }
    }

    #[test]
    fn a_count_of_effects_out_of_range_is_turned_away_as_in_a_file() {
        assert_eq!(ConditionalProblem::new(33), Err(Refusal::Count(5)));
        let mut problem = ConditionalProblem::new(32).unwrap();
        assert_eq!(problem.bytes(), Err(Refusal::Count(7)));
        for _ in 0..32 {
            problem = problem.action(u32::MAX).unwrap();
        }
        assert_eq!(problem.clone().action(0), Err(Refusal::Count(6)));
        for a in 0..32 {
            problem = problem.effect(a, u32::MAX, u32::MAX, u32::MAX).unwrap();
        }
        assert_eq!(problem.clone().effect(32, 0, 0, 0), Err(Refusal::Count(8)));
        for _ in 0..64 {
            problem = problem.state(u32::MAX).unwrap();
        }
        assert_eq!(problem.clone().state(0), Err(Refusal::Count(7)));
        let file = problem.bytes().unwrap();
        assert_eq!(file.len(), 809);
        assert!(judged(&file).is_ok());
        for (at, byte) in [(6, 33), (7, 65), (8, 33)] {
            let mut file = file.clone();
            file[at] = byte;
            assert_eq!(judged(&file), Err(Refusal::Count(at)));
        }
    }

    #[test]
    fn an_effect_out_of_range_is_turned_away_as_in_a_file() {
        let outside = 1 << 3;
        let two =
            || ConditionalProblem::new(3)?.action(1)?.action(2)?.action(3)?.effect(0, 0, 2, 1)?.effect(1, 0, 4, 0);
        let refused = [
            (9, ConditionalProblem::new(3).and_then(|problem| problem.action(outside))),
            (17, ConditionalProblem::new(3).and_then(|problem| problem.action(1)?.action(2)?.action(outside))),
            (48, two().and_then(|problem| problem.effect(3, outside, outside, 0))),
            (52, two().and_then(|problem| problem.effect(0, 2, outside, outside))),
            (56, two().and_then(|problem| problem.effect(0, 2, 5, outside))),
            (60, effects().and_then(|problem| problem.state(outside))),
            (64, effects().and_then(|problem| problem.state(1)?.state(outside))),
        ];
        for (offset, problem) in refused {
            assert_eq!(problem, Err(Refusal::PropSet(offset)));
            let mut file = EFFECTS;
            file[offset] |= 1 << 3;
            assert_eq!(judged(&file), Err(Refusal::PropSet(offset)));
        }
        for action in [3, 255, 256, usize::MAX] {
            let problem = two().and_then(|problem| problem.effect(action, 2, 5, 6));
            assert_eq!(problem, Err(Refusal::EffectAction(47)));
        }
        let mut file = EFFECTS;
        for number in [3, 255] {
            file[47] = number;
            assert_eq!(judged(&file), Err(Refusal::EffectAction(47)));
        }
        assert_eq!(ConditionalProblem::new(3).unwrap().effect(0, 0, 0, 0), Err(Refusal::EffectAction(9)));
    }

    #[test]
    fn actions_and_effects_may_repeat() {
        let twice = || effects()?.action(1)?.effect(0, 0, 2, 1)?.effect(0, 0, 2, 1)?.state(1)?.state(1);
        assert!(judged(&twice().unwrap().bytes().unwrap()).is_ok());
    }

    #[test]
    fn actions_as_effects_have_the_same_graph() {
        let problem = ConditionalProblem::from(lamp());
        assert_eq!(problem.bytes().unwrap().len(), 9 + 4 * 2 + 13 * 2 + 4 * 2);
        let (graph, other) = (lamp().graph(3).unwrap(), problem.graph(3).unwrap());
        assert_eq!(graph.words(), other.words());
        assert_eq!(graph.looked(), other.looked());
        assert_eq!(graph.plan(0b11, 0b100), other.plan(0b11, 0b100));
    }

    /// Problems of both versions, each with a depth and the looks of its build.
    fn scanned() -> Result<Vec<(Vec<u8>, usize, usize)>, Refusal> {
        let two = || Problem::new(2);
        let problems = [
            // 5 at the first step, 7 at each further one, behind the rest too
            (lamp(), 0, 0),
            (lamp(), 1, 5),
            (lamp(), 2, 12),
            (lamp(), 255, 5 + 254 * 7),
            // two actions that each add both: a state each, at the second step both by the first
            (two()?.action(1, 3, 0)?.action(2, 3, 0)?.state(1)?.state(2)?, 1, 2),
            (two()?.action(1, 3, 0)?.action(2, 3, 0)?.state(1)?.state(2)?, 2, 3),
            // settled by the last look, never settled, nothing to settle
            (two()?.action(1, 1, 2)?.state(3)?, 1, 2),
            (two()?.action(1, 2, 1)?.state(1)?, 1, 2),
            (two()?.state(1)?.state(2)?, 1, 0),
            // an action that adds both is no pair with itself: 4 looks for them, 1 for each with the third
            (Problem::new(3)?.action(4, 3, 0)?.state(4)?.state(3)?, 1, 6),
            // an adder that no state has is looked at
            (Problem::new(3)?.action(4, 1, 0)?.state(3)?, 1, 2),
        ];
        let mut files = Vec::new();
        for (problem, depth, looked) in problems {
            files.push((problem.bytes()?, depth, looked));
            files.push((ConditionalProblem::from(problem).bytes()?, depth, looked));
        }
        // two effects, of which the second deletes what the first adds: of one action, of two
        let effects = || ConditionalProblem::new(2)?.state(0)?.action(0)?.action(0)?.effect(0, 0, 1, 0);
        files.push((effects()?.effect(0, 0, 2, 1)?.bytes()?, 2, 2));
        files.push((effects()?.effect(1, 0, 2, 1)?.bytes()?, 2, 6));
        // an effect that reaches more by another one, at a step that touches few propositions, and is asked for it later
        let late =
            ConditionalProblem::new(6)?.state(4)?.action(0)?.action(0)?.effect(0, 4, 10, 0)?.effect(0, 0, 16, 4)?;
        files.push((late.effect(1, 40, 16, 0)?.effect(1, 2, 33, 24)?.bytes()?, 5, 116));
        Ok(files)
    }

    #[test]
    fn a_scan_ends_as_soon_as_nothing_is_left() {
        for (file, depth, looked) in scanned().unwrap() {
            assert_eq!(Graph::new(file, depth).unwrap().looked(), looked);
        }
    }

    #[test]
    fn the_plain_version_counts_the_same() {
        for (file, depth, looked) in scanned().unwrap() {
            let Err(Refusal::Memory(words)) = reference::build(&file, depth, &mut []) else { panic!("no words") };
            assert_eq!(reference::build(&file, depth, &mut vec![0; words]), Ok(Built { words, looked }));
        }
    }

    /// A file, a list, the sets that it leads to from each state, and how many of its steps are idle.
    type Led = (Vec<u8>, &'static [u8], Vec<u32>, usize);

    /// Runs each list from all states, in both versions.
    fn check_led(all: Vec<Led>) {
        for (file, list, ends, idle) in all {
            let (set, mut proved, mut plain) = ((1 << ends.len()) - 1, vec![9; ends.len()], vec![9; ends.len()]);
            let ran = Ok(Ran { sets: ends.len(), idle });
            assert_eq!(crate::run(&file, set, list, &mut proved), ran);
            assert_eq!(reference::run(&file, set, list, &mut plain), ran);
            assert_eq!((proved, plain), (ends.clone(), ends));
        }
    }

    /// Steps that add and delete one proposition: by one action, by one effect, by two effects in either order.
    fn added_and_deleted() -> Result<Vec<Led>, Refusal> {
        let both = Problem::new(2)?.action(0, 1, 1)?.action(1, 0, 1)?.state(0)?.state(3)?;
        let effects = || ConditionalProblem::new(3)?.action(0)?.state(0)?.state(2)?.state(3);
        Ok(vec![
            (both.bytes()?, &[0], vec![1, 3], 0),
            (both.bytes()?, &[0, 1], vec![0, 2], 0),
            (ConditionalProblem::from(both.clone()).bytes()?, &[0], vec![1, 3], 0),
            (ConditionalProblem::from(both).bytes()?, &[0, 1], vec![0, 2], 0),
            // the second fires in states 1 and 2 only
            (effects()?.effect(0, 0, 1, 0)?.effect(0, 2, 4, 1)?.bytes()?, &[0], vec![1, 7, 7], 0),
            (effects()?.effect(0, 2, 4, 1)?.effect(0, 0, 1, 0)?.bytes()?, &[0], vec![1, 7, 7], 0),
            (effects()?.effect(0, 0, 1, 2)?.effect(0, 0, 2, 1)?.bytes()?, &[0], vec![3, 3, 3], 0),
            // only the first fires in state 2, only the second in state 1
            (effects()?.effect(0, 1, 4, 0)?.effect(0, 2, 0, 4)?.bytes()?, &[0, 0], vec![0, 2, 7], 1),
        ])
    }

    #[test]
    fn an_add_wins_over_a_delete() {
        check_led(added_and_deleted().unwrap());
    }

    /// Steps that leave every state as it was, and others.
    fn idle_steps() -> Result<Vec<Led>, Refusal> {
        let actions = Problem::new(2)?.action(0, 1, 0)?.action(0, 0, 2)?.action(0, 1, 1)?.action(0, 0, 0)?;
        let actions = actions.state(0)?.state(1)?;
        let effects = || ConditionalProblem::new(3)?.action(0)?.action(0)?.state(1)?.state(2);
        let swapped = effects()?.effect(0, 1, 0, 5)?.effect(0, 0, 4, 0)?.effect(1, 4, 0, 4)?.effect(1, 2, 4, 0)?;
        Ok(vec![
            (actions.bytes()?, &[], vec![0, 1], 0),
            (actions.bytes()?, &[3, 1], vec![0, 1], 2),
            // one of the states has what is added
            (actions.bytes()?, &[0], vec![1, 1], 0),
            (actions.bytes()?, &[0, 0, 2, 3, 1], vec![1, 1], 4),
            (ConditionalProblem::from(actions).bytes()?, &[0, 0, 2, 3, 1], vec![1, 1], 4),
            // deleted in every state, and added again in those that had it
            (effects()?.effect(0, 0, 0, 1)?.effect(0, 1, 1, 0)?.bytes()?, &[0, 0, 1], vec![1, 2], 3),
            // deleted in every state, and added in another than those that had it
            (effects()?.effect(0, 0, 0, 1)?.effect(0, 2, 1, 0)?.bytes()?, &[0, 0], vec![0, 3], 1),
            // added in every state, and deleted in one that has it
            (effects()?.effect(0, 0, 4, 0)?.effect(0, 1, 0, 4)?.bytes()?, &[0, 0], vec![5, 6], 1),
            // each fires in one state, and does nothing there
            (effects()?.effect(0, 1, 1, 2)?.effect(0, 2, 2, 5)?.bytes()?, &[0, 1, 0], vec![1, 2], 3),
            // 4 and 6 after the first step; the second takes 4 from the first state only, and again from none
            (swapped.bytes()?, &[0, 1, 1], vec![0, 6], 1),
        ])
    }

    #[test]
    fn an_idle_step_leaves_every_state_as_it_was() {
        check_led(idle_steps().unwrap());
    }

    /// Where a run is turned away nothing is told of idle steps, also if there were some; states outside the set, whatever a
    /// step would do there, do not count.
    #[test]
    fn idle_steps_are_those_of_the_set() {
        let run = |file: &[u8], set: u64, list: &[u8]| {
            let answer = crate::run(file, set, list, &mut [9; 2]);
            assert_eq!(answer, reference::run(file, set, list, &mut [9; 2]));
            answer
        };
        let problem = || Problem::new(2)?.action(0, 1, 0)?.action(2, 0, 0)?.state(0)?.state(1);
        let file = problem().unwrap().bytes().unwrap();
        for file in [file, problem().map(ConditionalProblem::from).unwrap().bytes().unwrap()] {
            assert_eq!(run(&file, 0b10, &[0, 0]), Ok(Ran { sets: 2, idle: 2 }));
            assert_eq!(run(&file, 0b01, &[0, 0]), Ok(Ran { sets: 2, idle: 1 }));
            assert_eq!(run(&file, 0b11, &[0, 0]), Ok(Ran { sets: 2, idle: 1 }));
            assert_eq!(run(&file, 0b10, &[0, 0, 1]), Err(Refusal::Precondition(2)));
            assert_eq!(run(&file, 0b10, &[0, 0, 2]), Err(Refusal::Sequence(2)));
        }
    }

    #[test]
    fn a_graph_has_what_the_calls_say() {
        let graph = lamp().graph(2).unwrap();
        let mut words = vec![u64::MAX; 48];
        assert_eq!(reference::build(&LAMP, 2, &mut words), Ok(Built { words: 48, looked: 12 }));
        assert_eq!((graph.file(), graph.depth(), graph.words()), (&LAMP[..], 2, &words[..]));
        assert_eq!(graph.looked(), 12);
        assert_eq!(graph.rest(), Ok(Rest::None));
        assert_eq!(graph.level(0b11, 0b100), Ok(Level::At(2)));
        assert_eq!(graph.level(0b01, 0b101), Ok(Level::NotByDepth));
        let levels = [Ok(Level::At(2)), Err(Refusal::Goal), Ok(Level::NotByDepth)];
        assert_eq!(graph.page(0b11, &[0b100, 0b1000, 0b101]), Ok(levels.to_vec()));
        assert_eq!(graph.page(0b11, &[]), Ok(vec![]));
        assert_eq!(graph.page(0, &[]), Err(Refusal::StateSet));
        assert_eq!(graph.extract(0b10).unwrap()[42..], [0, 1, 1, 0, 0, 0]);
        assert_eq!(graph.plan(0b11, 0b100), Ok((Plan { level: 2, count: 3 }, vec![3, 2])));
        assert_eq!(graph.plan(0b10, 0b100), Ok((Plan { level: 1, count: 1 }, vec![2])));
        assert_eq!(graph.plan(0b01, 0b101), Err(Refusal::NoLevel(2)));
        assert_eq!(graph.level(0, 0), Err(Refusal::StateSet));
        assert_eq!(lamp().graph(3).unwrap().rest(), Ok(Rest::At(2)));
        assert_eq!(lamp().graph(3).unwrap().page(0b01, &[0b101, 0]), Ok(vec![Ok(Level::Never), Ok(Level::At(0))]));
        assert_eq!(lamp().graph(256), Err(Refusal::Depth));
        let (door, desk, lit) = (1, 2, 4);
        let possible = graph.within(&[door | lit, desk | lit]).unwrap();
        let other = Problem::new(3).unwrap().action(1, 2, 1).unwrap().action(2, 4, 0).unwrap();
        assert_eq!(possible, other.state(door | lit).unwrap().state(desk | lit).unwrap().graph(2).unwrap());
        let levels = |possible, sure| Ok(Levels { possible, sure });
        assert_eq!(graph.level_within(&possible, 0b11, lit), levels(Level::At(0), Level::At(2)));
        assert_eq!(graph.level_within(&possible, 0b01, door | lit), levels(Level::At(0), Level::NotByDepth));
        assert_eq!(graph.level_within(&possible, 0b11, door), levels(Level::Never, Level::NotByDepth));
        assert_eq!(graph.level_within(&lamp().graph(1).unwrap(), 0b11, lit), Err(Refusal::Memory(48)));
        assert_eq!(graph.level_share(lit, &[1, 1], 1, 2), Ok(Level::At(1)));
        assert_eq!(graph.level_share(lit, &[1, 1], 1, 1), graph.level(0b11, lit));
        assert_eq!(graph.level_share(door, &[1, 1], 2, 3), Ok(Level::NotByDepth));
        assert_eq!(lamp().graph(3).unwrap().level_share(door, &[1, 1], 2, 3), Ok(Level::Never));
        assert_eq!(graph.level_share(8, &[0, 0], 1, 1), Err(Refusal::Goal));
        assert_eq!(graph.level_share(lit, &[0, 0], 1, 1), Err(Refusal::Share));
        assert_eq!(graph.level_share(lit, &[1, 1, 1], 1, 1), Err(Refusal::Share));
        assert_eq!(graph.level_share(lit, &[1, 1], 0, 0), Err(Refusal::Share));
        assert_eq!(graph.within(&[door, desk]).as_ref(), Ok(&graph));
        assert_eq!(graph.within(&[door]), Err(Refusal::PossibleSet(2)));
        assert_eq!(graph.within(&[door, lit]), Err(Refusal::PossibleSet(1)));
        assert_eq!(Graph::new(LAMP[..39].to_vec(), 2), Err(Refusal::Length(40)));
    }
}
