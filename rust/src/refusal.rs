//! Why a call is turned away.

use std::fmt;

/// The texts of `mogzift_message` in include/mogzift.h, from number 1 on.
const MESSAGES: [&str; 18] = [
    "not a problem file: begin it with SAG, the version and its counts, 8 bytes in all, 9 in version 2",
    "another version: write 1 and 0, or 2 and 0, at offsets 3 and 4",
    "a count is out of range, at the place: 1 to 32 propositions, 0 to 32 actions and effects, 1 to 64 states",
    "the length does not fit the counts: make it as long as the place says, or set the counts right",
    "a set in the file, at the place, has bit P or above: clear the bit, or count P up",
    "the depth is above 255: ask for 255 at most",
    "the set of states is empty or has bit N or above: name one state at least, and only 0 to N - 1",
    "the goal has bit P or above: name only propositions 0 to P - 1",
    "the graph's memory is too short: lend as many words as the place says, or ask for a smaller depth",
    "the output is too short: lend as many elements as the place says",
    "the list has over 65535 steps, or the one at the place is no action: cut it, or name only 0 to A - 1",
    "the step at the place lacks its precondition in some state of the set: take another, or a smaller set",
    "the goal has no level up to the depth, so there is no plan: build deeper, unless the level is never",
    "the graph's words were altered, seen at the layer that the place says: build the graph again",
    "an action, at the place, has the same three sets as an earlier one: leave it out, and count A down",
    "an effect, at the place, has an action number of A or above: name only 0 to A - 1, or count A up",
    "not N possible sets, or the one at the place lacks a sure proposition or has bit P or above: mend the list",
    "not N weights, all of them 0, denominator 0, or numerator above it: weigh each state, and ask for 1 at most",
];

/// Why a call is turned away: the paper's causes in the order of their numbers, with the place where it varies.
///
/// The first cause that holds is told. They are looked for in the order of their numbers, but 16, then 15 and then 17
/// right behind 5, and 18 right behind 8.
///
/// It displays as its [`message`](Refusal::message), number and place.
#[derive(Clone, Copy, Debug, PartialEq, Eq, Hash)]
pub enum Refusal {
    /// Under 8 bytes, in version 2 under 9, or no `SAG`.
    Head,
    /// Another version than 1 and 2.
    Version,
    /// A count outside its range, with its offset: 5, 6 or 7, in version 2 also 8.
    Count(usize),
    /// The file's length is wrong, with the right one.
    Length(usize),
    /// A set of propositions in the file with bit P or above, with the set's offset.
    PropSet(usize),
    /// Depth above 255.
    Depth,
    /// The set of start states is empty, or has bit N or above.
    StateSet,
    /// The goal has bit P or above.
    Goal,
    /// The graph's memory is too short, with the number of words needed.
    Memory(usize),
    /// The output is too short, with the number of elements needed.
    Output(usize),
    /// The sequence is longer than 65,535 (that number), else has an action number of A or above (its index).
    Sequence(usize),
    /// A step lacks its precondition in some state of the set, with the step's index.
    Precondition(usize),
    /// A plan is wanted and there is no level, with the depth.
    NoLevel(usize),
    /// The graph's words were altered: states are left uncovered at this layer, or a need lies outside its label at 0.
    Uncovered(usize),
    /// In version 1 an action has the same three sets as an earlier one, with the offset of the first that does.
    EqualAction(usize),
    /// In version 2 an effect has an action number of A or above, with the offset of the first that does.
    EffectAction(usize),
    /// The possible sets are not N (that number), else one lacks a proposition of its state in the file or has bit P or
    /// above, with the number of the first such state.
    PossibleSet(usize),
    /// The weights are not N, or all 0, or the share's denominator is 0 or its numerator above the denominator.
    Share,
}

impl Refusal {
    /// The paper's number, 1 to 18.
    pub fn number(self) -> usize {
        match self {
            Refusal::Head => 1,
            Refusal::Version => 2,
            Refusal::Count(_) => 3,
            Refusal::Length(_) => 4,
            Refusal::PropSet(_) => 5,
            Refusal::Depth => 6,
            Refusal::StateSet => 7,
            Refusal::Goal => 8,
            Refusal::Memory(_) => 9,
            Refusal::Output(_) => 10,
            Refusal::Sequence(_) => 11,
            Refusal::Precondition(_) => 12,
            Refusal::NoLevel(_) => 13,
            Refusal::Uncovered(_) => 14,
            Refusal::EqualAction(_) => 15,
            Refusal::EffectAction(_) => 16,
            Refusal::PossibleSet(_) => 17,
            Refusal::Share => 18,
        }
    }

    /// The paper's place.
    pub fn place(self) -> usize {
        match self {
            Refusal::Head | Refusal::StateSet | Refusal::Goal | Refusal::Share => 0,
            Refusal::Version => 3,
            Refusal::Depth => 255,
            Refusal::Count(place)
            | Refusal::Length(place)
            | Refusal::PropSet(place)
            | Refusal::Memory(place)
            | Refusal::Output(place)
            | Refusal::Sequence(place)
            | Refusal::Precondition(place)
            | Refusal::NoLevel(place)
            | Refusal::Uncovered(place)
            | Refusal::EqualAction(place)
            | Refusal::EffectAction(place)
            | Refusal::PossibleSet(place) => place,
        }
    }

    /// What is wrong, and what to do: one text for each number, the same that `mogzift_message` gives in C.
    pub fn message(self) -> &'static str {
        MESSAGES[self.number() - 1]
    }

    pub(crate) fn of(number: usize, place: usize) -> Refusal {
        let refusal = match number {
            1 => Refusal::Head,
            2 => Refusal::Version,
            3 => Refusal::Count(place),
            4 => Refusal::Length(place),
            5 => Refusal::PropSet(place),
            6 => Refusal::Depth,
            7 => Refusal::StateSet,
            8 => Refusal::Goal,
            9 => Refusal::Memory(place),
            10 => Refusal::Output(place),
            11 => Refusal::Sequence(place),
            12 => Refusal::Precondition(place),
            13 => Refusal::NoLevel(place),
            14 => Refusal::Uncovered(place),
            15 => Refusal::EqualAction(place),
            16 => Refusal::EffectAction(place),
            17 => Refusal::PossibleSet(place),
            18 => Refusal::Share,
            _ => unreachable!("no refusal has the number {number}"),
        };
        assert_eq!(refusal.place(), place, "the place of refusal {number}");
        refusal
    }
}

impl fmt::Display for Refusal {
    fn fmt(&self, f: &mut fmt::Formatter<'_>) -> fmt::Result {
        write!(f, "{} (refusal {}, place {})", self.message(), self.number(), self.place())
    }
}

impl std::error::Error for Refusal {}
