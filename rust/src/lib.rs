//! The proved calls of Mogzift: one planning graph for up to 64 start states.
//!
//! Each function hands its slices to the proved library and turns the numbers that come back into Rust's enums. No
//! argument is out of bounds: any bytes, depth, set, goal, list and memory are accepted, or turned away with a
//! [`Refusal`], and then no lent memory has changed. Memory behind what an accepted call writes stays.
//!
//! A problem file is of version 1, where an action adds and deletes the same whatever else holds, or of version 2, where
//! it has conditional effects; each call takes both. [`Problem`] and [`ConditionalProblem`] put such files together,
//! [`Graph`] builds into memory of its own, and [`reference`](mod@reference) has the same calls in plain Rust, written from
//! the paper.
//!
//! ```
//! // The paper's lamp: walk needs 0, adds 1, deletes 0; light needs 1, adds 2; states: at the door, at the desk.
//! let mut file = b"SAG\x01\x00\x03\x02\x02".to_vec();
//! for set in [1u32, 2, 1, 2, 4, 0, 1, 2] {
//!     file.extend(set.to_le_bytes());
//! }
//! let mut words = vec![0; mogzift::word_count(3, 2, 2)];
//! assert_eq!(mogzift::build(&file, 2, &mut words), Ok(mogzift::Built { words: 48, looked: 12 }));
//! assert_eq!(mogzift::level(&file, 2, 0b11, 1 << 2, &words), Ok(mogzift::Level::At(2)));
//!
//! let mut levels = [0; 2];
//! assert_eq!(mogzift::page(&file, 2, 0b11, &[1 << 1, 1 << 2], &words, &mut levels), Ok(2));
//! assert_eq!(levels.map(mogzift::entry), [Ok(mogzift::Level::At(1)), Ok(mogzift::Level::At(2))]);
//!
//! let mut out = [0; 2];
//! let plan = mogzift::plan(&file, 2, 0b11, 1 << 2, &words, &mut out);
//! assert_eq!(plan, Ok(mogzift::Plan { level: 2, count: 3 }));
//! assert_eq!(out, [3, 2]);
//!
//! // Whether it is lit is not known: the level of 'lit' is 0 at the least and 2 at the most.
//! let mut possible = vec![0; 48];
//! assert_eq!(mogzift::build_within(&file, &[1 | 1 << 2, 2 | 1 << 2], 2, &mut possible).map(|built| built.words), Ok(48));
//! let levels = mogzift::level_within(&file, 2, 0b11, 1 << 2, &possible, &words);
//! assert_eq!(levels, Ok(mogzift::Levels { possible: mogzift::Level::At(0), sure: mogzift::Level::At(2) }));
//!
//! // At the desk lie three quarters of the weight: enough for a share of 1/2, not for one of 9/10.
//! assert_eq!(mogzift::level_share(&file, 2, 1 << 2, &[1, 3], 1, 2, &words), Ok(mogzift::Level::At(1)));
//! assert_eq!(mogzift::level_share(&file, 2, 1 << 2, &[1, 3], 9, 10, &words), Ok(mogzift::Level::At(2)));
//!
//! assert_eq!(mogzift::build(&file, 2, &mut words[..47]), Err(mogzift::Refusal::Memory(48)));
//! ```

#![warn(missing_docs)]

mod problem;
pub mod reference;
mod refusal;

pub use problem::{ConditionalProblem, Graph, Problem};
pub use refusal::Refusal;

use std::mem::MaybeUninit;

/// A graph that was built.
#[derive(Clone, Copy, Debug, PartialEq, Eq, Hash)]
pub struct Built {
    /// How many words were written.
    pub words: usize,
    /// How many vertices and pairs the scans looked at, over all steps.
    ///
    /// The scan of two propositions at a step begins with what their labels share after it, and ends as soon as nothing
    /// is left. It looks at the vertices that add both, then at the pairs of a vertex that adds the lower one with
    /// another that adds the higher one, and takes away the states in which these are there and not mutex.
    pub looked: usize,
}

/// What a goal's level is.
#[derive(Clone, Copy, Debug, PartialEq, Eq, Hash)]
pub enum Level {
    /// The first layer that meets the goal.
    At(usize),
    /// No layer does, and the graph rests: no depth would help.
    Never,
    /// No layer does, and the graph does not rest.
    NotByDepth,
}

/// What a goal's level is in two graphs, that of the possible sets and that of the sure sets.
///
/// They bound what is not known. Whichever states are chosen, each with all of its sure set and nothing outside its
/// possible set, their level at this depth is no smaller than the first and no larger than the second: if the first is no
/// layer, no choice has one, and if the second is one, every choice has one.
#[derive(Clone, Copy, Debug, PartialEq, Eq, Hash)]
pub struct Levels {
    /// The first: the level in the graph of the possible sets.
    pub possible: Level,
    /// The second: the level in the graph of the sure sets.
    pub sure: Level,
}

/// Where the graph rests.
#[derive(Clone, Copy, Debug, PartialEq, Eq, Hash)]
pub enum Rest {
    /// The first layer that equals the next one.
    At(usize),
    /// No layer below the depth does.
    None,
}

/// A relaxed plan that was written.
#[derive(Clone, Copy, Debug, PartialEq, Eq, Hash)]
pub struct Plan {
    /// The goal's level, which is the number of words written.
    pub level: usize,
    /// How many actions are marked, over all words.
    pub count: usize,
}

/// A sequence that was run.
#[derive(Clone, Copy, Debug, PartialEq, Eq, Hash)]
pub struct Ran {
    /// How many sets were written, which is N.
    pub sets: usize,
    /// How many steps were idle: they left every state of the set as it was. States outside the set do not count.
    pub idle: usize,
}

/// The bytes of output that [`levels_text`] asks for: the longest text's.
pub const TEXT_ROOM: usize = 8600;

/// A thread with so many bytes of stack can make any call, with a margin; the program `stack` of this package measures
/// what each needs.
pub const STACK: usize = 256 * 1024;

/// The number of words of a graph: what a build needs.
///
/// It goes by the number of effects, E in a file of version 2. In version 1 each action has one, so it is A there.
pub fn word_count(props: usize, effects: usize, depth: usize) -> usize {
    let vertices = effects + props;
    (depth + 1) * (props * (props + 1) / 2) + depth * (vertices * (vertices + 1) / 2)
}

mod proved {
    // A slice is a pointer and a length; the answer's room is a pointer to three numbers. See include/mogzift.h.
    extern "C" {
        pub fn mogzift_build(
            file: *const u8,
            file_len: usize,
            depth: usize,
            words: *mut u64,
            words_len: usize,
            answer: *mut [u64; 3],
        ) -> usize;
        pub fn mogzift_build_within(
            file: *const u8,
            file_len: usize,
            possible: *const u32,
            possible_len: usize,
            depth: usize,
            words: *mut u64,
            words_len: usize,
            answer: *mut [u64; 3],
        ) -> usize;
        pub fn mogzift_rest(
            file: *const u8,
            file_len: usize,
            depth: usize,
            words: *const u64,
            words_len: usize,
            answer: *mut [u64; 3],
        ) -> usize;
        pub fn mogzift_level(
            file: *const u8,
            file_len: usize,
            depth: usize,
            set: u64,
            goal: u32,
            words: *const u64,
            words_len: usize,
            answer: *mut [u64; 3],
        ) -> usize;
        pub fn mogzift_level_within(
            file: *const u8,
            file_len: usize,
            depth: usize,
            set: u64,
            goal: u32,
            possible_words: *const u64,
            possible_len: usize,
            sure_words: *const u64,
            sure_len: usize,
            answer: *mut [u64; 3],
        ) -> usize;
        pub fn mogzift_level_share(
            file: *const u8,
            file_len: usize,
            depth: usize,
            goal: u32,
            weights: *const u16,
            weights_len: usize,
            numerator: u16,
            denominator: u16,
            words: *const u64,
            words_len: usize,
            answer: *mut [u64; 3],
        ) -> usize;
        pub fn mogzift_page(
            file: *const u8,
            file_len: usize,
            depth: usize,
            set: u64,
            goals: *const u32,
            goals_len: usize,
            words: *const u64,
            words_len: usize,
            out: *mut u16,
            out_len: usize,
            answer: *mut [u64; 3],
        ) -> usize;
        pub fn mogzift_extract(
            file: *const u8,
            file_len: usize,
            depth: usize,
            set: u64,
            words: *const u64,
            words_len: usize,
            out: *mut u64,
            out_len: usize,
            answer: *mut [u64; 3],
        ) -> usize;
        pub fn mogzift_run(
            file: *const u8,
            file_len: usize,
            set: u64,
            list: *const u8,
            list_len: usize,
            out: *mut u32,
            out_len: usize,
            answer: *mut [u64; 3],
        ) -> usize;
        pub fn mogzift_plan(
            file: *const u8,
            file_len: usize,
            depth: usize,
            set: u64,
            goal: u32,
            words: *const u64,
            words_len: usize,
            out: *mut u32,
            out_len: usize,
            answer: *mut [u64; 3],
        ) -> usize;
        pub fn mogzift_depth(file: *const u8, file_len: usize, room: usize, answer: *mut [u64; 3]) -> usize;
        pub fn mogzift_levels_text(
            file: *const u8,
            file_len: usize,
            out: *mut u8,
            out_len: usize,
            answer: *mut [u64; 3],
        ) -> usize;
    }
}

/// The kinds of an answer, as the library tells them.
const REFUSED: u64 = 0;
const ANSWERED: u64 = 1;
const NONE: u64 = 2;
const NOT_BY_DEPTH: u64 = 3;

/// The entries of a page that are no level.
const ENTRY_NEVER: u16 = 256;
const ENTRY_NOT_BY_DEPTH: u16 = 257;
const ENTRY_GOAL: u16 = 258;

/// Makes a call with room for its answer, and gives the answer's kind and two numbers, or the refusal.
#[inline(always)] // what the calls below add to those of the library is little, and so it stays
fn told(call: impl FnOnce(*mut [u64; 3]) -> usize) -> Result<(u64, usize, usize), Refusal> {
    let mut answer = MaybeUninit::<[u64; 3]>::uninit();
    let code = call(answer.as_mut_ptr());
    // each call writes all three numbers of its answer, whatever it answers: its contract says so
    let [kind, first, second] = unsafe { answer.assume_init() };
    if code != 0 {
        return Err(refused(code, kind, first as usize, second as usize));
    }
    Ok((kind, first as usize, second as usize))
}

/// The refusal of a call that returned its number.
#[cold]
fn refused(code: usize, kind: u64, number: usize, place: usize) -> Refusal {
    assert_eq!((kind, number), (REFUSED, code), "the kind and the number told, and the number returned");
    Refusal::of(number, place)
}

/// For an answer that the call does not have.
#[cold]
fn unknown(kind: u64, call: &str) -> ! {
    panic!("an answer of kind {kind} of a {call}")
}

fn count(answer: (u64, usize, usize)) -> usize {
    match answer {
        (ANSWERED, count, 0) => count,
        _ => unknown(answer.0, "call that counts"),
    }
}

fn built(answer: (u64, usize, usize)) -> Built {
    match answer {
        (ANSWERED, words, looked) => Built { words, looked },
        _ => unknown(answer.0, "build"),
    }
}

fn level_of(answer: (u64, usize, usize)) -> Level {
    match answer {
        (ANSWERED, layer, 0) => Level::At(layer),
        (NONE, 0, 0) => Level::Never,
        (NOT_BY_DEPTH, 0, 0) => Level::NotByDepth,
        _ => unknown(answer.0, "level"),
    }
}

// In each call below the pointers and lengths are those of slices that live as long as the call, and what is written is
// borrowed alone. The library asks nothing else.

/// Builds the file's graph to the depth, and answers the number of words written and that of the looks.
#[inline]
pub fn build(file: &[u8], depth: usize, words: &mut [u64]) -> Result<Built, Refusal> {
    told(|answer| unsafe {
        proved::mogzift_build(file.as_ptr(), file.len(), depth, words.as_mut_ptr(), words.len(), answer)
    })
    .map(built)
}

/// Builds the graph for start states known within bounds, and answers as [`build`] does.
///
/// The file's states are the sure sets, and the list has, for each, the possible set, with all that is sure in it. The
/// words are those that [`build`] writes for the file with the possible sets in the place of its states, and with that
/// file each other call reads them. [`level_within`] reads them beside those for the sure sets.
#[inline]
pub fn build_within(file: &[u8], possible: &[u32], depth: usize, words: &mut [u64]) -> Result<Built, Refusal> {
    told(|answer| unsafe {
        proved::mogzift_build_within(
            file.as_ptr(),
            file.len(),
            possible.as_ptr(),
            possible.len(),
            depth,
            words.as_mut_ptr(),
            words.len(),
            answer,
        )
    })
    .map(built)
}

/// The layer at which the graph rests.
#[inline]
pub fn rest(file: &[u8], depth: usize, words: &[u64]) -> Result<Rest, Refusal> {
    let answer = told(|answer| unsafe {
        proved::mogzift_rest(file.as_ptr(), file.len(), depth, words.as_ptr(), words.len(), answer)
    })?;
    Ok(match answer {
        (ANSWERED, layer, 0) => Rest::At(layer),
        (NONE, 0, 0) => Rest::None,
        _ => unknown(answer.0, "rest"),
    })
}

/// The level of a goal for a set of states.
#[inline]
pub fn level(file: &[u8], depth: usize, set: u64, goal: u32, words: &[u64]) -> Result<Level, Refusal> {
    told(|answer| unsafe {
        proved::mogzift_level(file.as_ptr(), file.len(), depth, set, goal, words.as_ptr(), words.len(), answer)
    })
    .map(level_of)
}

/// The levels of a goal for a set of states in two graphs: the first one's words are those of [`build_within`], for the
/// possible sets, the second one's those of [`build`], for the sure sets. [`Levels`] says what they bound.
#[inline]
pub fn level_within(
    file: &[u8],
    depth: usize,
    set: u64,
    goal: u32,
    possible: &[u64],
    sure: &[u64],
) -> Result<Levels, Refusal> {
    let answer = told(|answer| unsafe {
        proved::mogzift_level_within(
            file.as_ptr(),
            file.len(),
            depth,
            set,
            goal,
            possible.as_ptr(),
            possible.len(),
            sure.as_ptr(),
            sure.len(),
            answer,
        )
    })?;
    // told as the entries of a page are written
    let level = |code: usize| match u16::try_from(code).map(entry) {
        Ok(Ok(level)) => level,
        _ => unknown(answer.0, "call for two levels"),
    };
    Ok(match answer {
        (ANSWERED, first, second) => Levels { possible: level(first), sure: level(second) },
        _ => unknown(answer.0, "call for two levels"),
    })
}

/// The first layer that holds a goal for enough of the weight.
///
/// Each state has a weight, and the share is a fraction, 0 to 1. The layer is the first where the weight of the states
/// that hold the whole goal, free of mutexes, times the denominator, is at least the weight of all states, times the
/// numerator. With share 1 and no weight 0 it is the [`level`] of all states.
#[inline]
pub fn level_share(
    file: &[u8],
    depth: usize,
    goal: u32,
    weights: &[u16],
    numerator: u16,
    denominator: u16,
    words: &[u64],
) -> Result<Level, Refusal> {
    told(|answer| unsafe {
        proved::mogzift_level_share(
            file.as_ptr(),
            file.len(),
            depth,
            goal,
            weights.as_ptr(),
            weights.len(),
            numerator,
            denominator,
            words.as_ptr(),
            words.len(),
            answer,
        )
    })
    .map(level_of)
}

/// The levels of a page of goals for a set of states; answers the number of entries written, which is that of the goals.
///
/// Entry i is what [`level`] answers for goal i, as a number that [`entry`] reads. A goal with bit P or above has an entry
/// of its own and leaves the others as they are. A page may be empty.
#[inline]
pub fn page(
    file: &[u8],
    depth: usize,
    set: u64,
    goals: &[u32],
    words: &[u64],
    out: &mut [u16],
) -> Result<usize, Refusal> {
    told(|answer| unsafe {
        proved::mogzift_page(
            file.as_ptr(),
            file.len(),
            depth,
            set,
            goals.as_ptr(),
            goals.len(),
            words.as_ptr(),
            words.len(),
            out.as_mut_ptr(),
            out.len(),
            answer,
        )
    })
    .map(count)
}

/// What an entry of a [`page`] says, which is what [`level`] answers for its goal: up to 255 the layer, 256
/// [`Level::Never`], 257 [`Level::NotByDepth`], 258 [`Refusal::Goal`]. It panics above that, which no page writes.
pub fn entry(code: u16) -> Result<Level, Refusal> {
    match code {
        0..=255 => Ok(Level::At(code as usize)),
        ENTRY_NEVER => Ok(Level::Never),
        ENTRY_NOT_BY_DEPTH => Ok(Level::NotByDepth),
        ENTRY_GOAL => Err(Refusal::Goal),
        _ => panic!("no page has the entry {code}"),
    }
}

/// The graph's words cut to a set of states, bits closed up in order; answers the number of words written.
#[inline]
pub fn extract(file: &[u8], depth: usize, set: u64, words: &[u64], out: &mut [u64]) -> Result<usize, Refusal> {
    told(|answer| unsafe {
        proved::mogzift_extract(
            file.as_ptr(),
            file.len(),
            depth,
            set,
            words.as_ptr(),
            words.len(),
            out.as_mut_ptr(),
            out.len(),
            answer,
        )
    })
    .map(count)
}

/// Runs a sequence of actions from each state of a set; answers the number of sets written, which is N, and that of the
/// idle steps.
///
/// In version 2 a step fires, in each state, the action's effects whose antecedents held there before it. What a step
/// deletes is removed before what it adds is joined, in both versions, so that an add wins over a delete.
#[inline]
pub fn run(file: &[u8], set: u64, list: &[u8], out: &mut [u32]) -> Result<Ran, Refusal> {
    let answer = told(|answer| unsafe {
        proved::mogzift_run(
            file.as_ptr(),
            file.len(),
            set,
            list.as_ptr(),
            list.len(),
            out.as_mut_ptr(),
            out.len(),
            answer,
        )
    })?;
    Ok(match answer {
        (ANSWERED, sets, idle) => Ran { sets, idle },
        _ => unknown(answer.0, "run"),
    })
}

/// The relaxed plan of a goal for a set of states: of each layer below the level the set of the actions that are marked,
/// in version 2 those of which an effect is chosen.
#[inline]
pub fn plan(file: &[u8], depth: usize, set: u64, goal: u32, words: &[u64], out: &mut [u32]) -> Result<Plan, Refusal> {
    let answer = told(|answer| unsafe {
        proved::mogzift_plan(
            file.as_ptr(),
            file.len(),
            depth,
            set,
            goal,
            words.as_ptr(),
            words.len(),
            out.as_mut_ptr(),
            out.len(),
            answer,
        )
    })?;
    Ok(match answer {
        (ANSWERED, level, count) => Plan { level, count },
        _ => unknown(answer.0, "plan"),
    })
}

/// The greatest depth up to 255 whose graph for the file fits so many words.
#[inline]
pub fn fitting_depth(file: &[u8], room: usize) -> Result<usize, Refusal> {
    told(|answer| unsafe { proved::mogzift_depth(file.as_ptr(), file.len(), room, answer) }).map(count)
}

/// What the program `levels` prints for the file, also where the file is turned away; answers the number of bytes
/// written. The output has [`TEXT_ROOM`] bytes at least, or the call is turned away.
#[inline]
pub fn levels_text(file: &[u8], out: &mut [u8]) -> Result<usize, Refusal> {
    told(|answer| unsafe {
        proved::mogzift_levels_text(file.as_ptr(), file.len(), out.as_mut_ptr(), out.len(), answer)
    })
    .map(count)
}
