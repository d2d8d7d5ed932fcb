//! Measures the stack that each call needs, twice.
//!
//! First by paint: the call is made on a stack of its own, filled with a pattern, and the deepest byte is looked for that
//! is the pattern no more. The figure is the largest over problems of the size, of both versions, and has the frames of
//! this program and of the Rust wrapper in it, a few hundred bytes. Then by threads: the smallest stack, in steps of a
//! page, of a thread that makes the call on the largest problems, each in a process of its own, since a stack that is too
//! small ends it. What a thread needs for itself is in that figure; no thread has less than 16 KiB.
//!
//! It fails where `STACK`, which the header says, is not half as much again as the largest of these at least.

use mogzift::{word_count, STACK, TEXT_ROOM};
use std::process::{Command, Stdio};
use std::{arch, env, hint, thread};

const CALLS: [&str; 12] = [
    "build",
    "build_within",
    "rest",
    "level",
    "level_within",
    "level_share",
    "page",
    "extract",
    "run",
    "plan",
    "fitting_depth",
    "levels_text",
];

/// P, A and N of the problems, which have as many effects as actions, and the depth of their graphs.
const SIZES: [(usize, usize, usize); 4] = [(3, 2, 2), (8, 8, 8), (16, 16, 16), (32, 32, 64)];
const DEPTH: usize = 12;

const PAGE: usize = 4096;
const LEAST: usize = 4 * PAGE;

// ---- what is called

/// SplitMix64.
struct Random(u64);

impl Random {
    fn word(&mut self) -> u64 {
        self.0 = self.0.wrapping_add(0x9E37_79B9_7F4A_7C15);
        let mut x = self.0;
        x = (x ^ (x >> 30)).wrapping_mul(0xBF58_476D_1CE4_E5B9);
        x = (x ^ (x >> 27)).wrapping_mul(0x94D0_49BB_1331_11EB);
        x ^ (x >> 31)
    }
}

fn bytes_of(sets: &[u32]) -> Vec<u8> {
    sets.iter().flat_map(|set| set.to_le_bytes()).collect()
}

/// What stands between N and the start states in version 2: an effect for each of these actions, of one drawn for it. What
/// the action needed is its antecedent, and no action needs anything.
fn as_effects(actions: &[[u32; 3]], random: &mut Random) -> Vec<u8> {
    let mut bytes = vec![actions.len() as u8];
    bytes.extend(vec![0; 4 * actions.len()]);
    for sets in actions {
        bytes.push((random.word() % actions.len() as u64) as u8);
        bytes.extend(bytes_of(sets));
    }
    bytes
}

/// A problem file, its graph, and what else is lent to a call.
struct Case {
    file: Vec<u8>,
    possible: Vec<u32>,
    weights: Vec<u16>,
    words: Vec<u64>,
    out: Vec<u64>,
    sets: Vec<u32>,
    levels: Vec<u16>,
    text: Vec<u8>,
}

impl Case {
    /// A problem of this size and version whose sets have so many members at most.
    fn new((props, actions, states): (usize, usize, usize), members: usize, version: u8) -> Case {
        let mut random = Random(members as u64);
        let mut set = || (0..members).fold(0u32, |set, _| set | 1 << (random.word() % props as u64));
        let mut drawn = Vec::new();
        while drawn.len() < actions {
            let action = [set(), set(), set()];
            // one that equals an earlier one is drawn again
            if !drawn.contains(&action) {
                drawn.push(action);
            }
        }
        let starts: Vec<u32> = (0..states).map(|_| set()).collect();
        let mut file = vec![b'S', b'A', b'G', version, 0, props as u8, actions as u8, states as u8];
        file.extend(if version == 1 { bytes_of(&drawn.concat()) } else { as_effects(&drawn, &mut random) });
        file.extend(bytes_of(&starts));
        let mut words = vec![0; word_count(props, actions, DEPTH)];
        mogzift::build(&file, DEPTH, &mut words).expect("a file that is in order");
        let out = words.clone();
        let possible = starts.iter().map(|start| start | 1 << (random.word() % props as u64)).collect();
        let weights = starts.iter().map(|_| random.word() as u16 | 1).collect();
        let (sets, levels, text) = (vec![0; 64], vec![0; 3], vec![0; TEXT_ROOM]);
        Case { file, possible, weights, words, out, sets, levels, text }
    }

    fn all(size: (usize, usize, usize)) -> Vec<Case> {
        let both = |members| [1, 2].map(|version| Case::new(size, members, version));
        [1, 2, 5].into_iter().flat_map(both).collect()
    }

    /// Makes the call for each single goal and for several sets of states, accepted or turned away.
    fn call(&mut self, name: &str) {
        let Case { file, possible, weights, words, out, sets, levels, text } = self;
        let all = u64::MAX >> (64 - file[7]);
        let states = all.count_ones() as u16;
        for (p, set) in (0..file[5]).flat_map(|p| [1, all, all / 3, all & 0x1234_5678_9ABC_DEF1].map(|set| (p, set))) {
            let goal = 1 << p;
            let answer = match name {
                "build" => mogzift::build(file, DEPTH, out).map(drop),
                "build_within" => mogzift::build_within(file, possible, DEPTH, out).map(drop),
                "rest" => mogzift::rest(file, DEPTH, words).map(drop),
                "level" => mogzift::level(file, DEPTH, set, goal, words).map(drop),
                "level_within" => mogzift::level_within(file, DEPTH, set, goal, out, words).map(drop),
                "level_share" => {
                    let share = set.count_ones() as u16;
                    mogzift::level_share(file, DEPTH, goal, weights, share, states, words).map(drop)
                }
                "page" => mogzift::page(file, DEPTH, set, &[goal, goal | 1, u32::MAX], words, levels).map(drop),
                "extract" => mogzift::extract(file, DEPTH, set, words, out).map(drop),
                "run" => mogzift::run(file, set, &[p % file[6]], sets).map(drop),
                "plan" => mogzift::plan(file, DEPTH, set, goal, words, sets).map(drop),
                "fitting_depth" => mogzift::fitting_depth(file, words.len()).map(drop),
                "levels_text" => mogzift::levels_text(file, text).map(drop),
                _ => panic!("no call is named {name}"),
            };
            hint::black_box(answer).ok();
        }
    }
}

// ---- by paint

const PAINT: u64 = 0xA5A5_A5A5_A5A5_A5A5;

extern "C" fn enter(call: &mut &mut dyn FnMut()) {
    call()
}

/// The bytes of stack that are written while this is called.
fn painted(mut call: &mut dyn FnMut()) -> usize {
    let mut stack = vec![PAINT; 1 << 17];
    let top = stack.as_mut_ptr_range().end as usize & !15;
    // SAFETY: the stack pointer stands 16 bytes aligned in memory that nothing else uses, and is set back from a
    // register that a C function leaves as it was. The call neither unwinds nor keeps anything.
    unsafe {
        arch::asm!(
            "mov r12, rsp",
            "mov rsp, {top}",
            "call {enter}",
            "mov rsp, r12",
            top = in(reg) top,
            enter = sym enter,
            in("rdi") &mut call,
            out("r12") _,
            clobber_abi("C"),
        );
    }
    let left = stack.iter().take_while(|&&word| word == PAINT).count();
    assert!(left > 0, "the stack was too small");
    8 * (stack.len() - left)
}

// ---- by threads

/// Makes the call on the largest problems in a thread with so many bytes of stack.
fn in_thread(name: &'static str, stack: usize) {
    let mut cases = Case::all(SIZES[3]);
    let call = move || cases.iter_mut().for_each(|case| case.call(name));
    thread::Builder::new().stack_size(stack).spawn(call).expect("a thread").join().expect("no panic");
}

/// Whether that ends well.
fn enough(call: usize, stack: usize) -> bool {
    let program = env::current_exe().expect("this program");
    let mut child = Command::new(program);
    child.args([call, stack].map(|n| n.to_string())).stderr(Stdio::null());
    child.status().expect("a process").success()
}

/// The smallest stack with which it does.
fn smallest(call: usize) -> usize {
    let mut stack = 2 * STACK;
    assert!(enough(call, stack), "{} in a thread of twice what the header says", CALLS[call]);
    let mut short = LEAST - PAGE;
    while stack - short > PAGE {
        let between = (short + stack) / 2 / PAGE * PAGE;
        if enough(call, between) {
            stack = between;
        } else {
            short = between;
        }
    }
    stack
}

fn main() {
    let given: Vec<usize> = env::args().skip(1).map(|word| word.parse().expect("a number")).collect();
    if let [call, stack] = given[..] {
        return in_thread(CALLS[call], stack);
    }
    println!("bytes of stack by paint, for problems of this P, A and N; the smallest stack of a thread, in KiB");
    print!("{:<16}", "call");
    SIZES.iter().for_each(|(props, actions, states)| print!("{:>12}", format!("{props} {actions} {states}")));
    println!("{:>12}", "thread");
    let mut most = 0;
    for (call, name) in CALLS.into_iter().enumerate() {
        print!("{name:<16}");
        for size in SIZES {
            let used = Case::all(size).iter_mut().map(|case| painted(&mut || case.call(name))).max();
            print!("{:>12}", used.unwrap_or(0));
        }
        let least = smallest(call);
        println!("{:>12}", least / 1024);
        most = most.max(least);
    }
    println!("STACK is {} KiB", STACK / 1024);
    assert!(most + most / 2 <= STACK, "the header must say more");
}
