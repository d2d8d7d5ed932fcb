//! The C header beside the Rust library: the refusals' numbers and texts, the other numbers, and the C test.

use mogzift::{ConditionalProblem, Level, Levels, Plan, Problem, Refusal};
use std::path::Path;
use std::process::Command;
use std::thread;

const HEADER: &str = include_str!("../../include/mogzift.h");

/// The refusals by the header's names, in the order of their numbers, each with a place that it can have.
const REFUSALS: [(&str, Refusal); 18] = [
    ("MOGZIFT_BAD_HEAD", Refusal::Head),
    ("MOGZIFT_BAD_VERSION", Refusal::Version),
    ("MOGZIFT_BAD_COUNT", Refusal::Count(5)),
    ("MOGZIFT_BAD_LENGTH", Refusal::Length(40)),
    ("MOGZIFT_BAD_PROP_SET", Refusal::PropSet(8)),
    ("MOGZIFT_BAD_DEPTH", Refusal::Depth),
    ("MOGZIFT_BAD_STATE_SET", Refusal::StateSet),
    ("MOGZIFT_BAD_GOAL", Refusal::Goal),
    ("MOGZIFT_SHORT_MEMORY", Refusal::Memory(48)),
    ("MOGZIFT_SHORT_OUTPUT", Refusal::Output(2)),
    ("MOGZIFT_BAD_SEQUENCE", Refusal::Sequence(65535)),
    ("MOGZIFT_NO_PRECONDITION", Refusal::Precondition(7)),
    ("MOGZIFT_NO_LEVEL", Refusal::NoLevel(2)),
    ("MOGZIFT_UNCOVERED", Refusal::Uncovered(1)),
    ("MOGZIFT_EQUAL_ACTION", Refusal::EqualAction(20)),
    ("MOGZIFT_EFFECT_ACTION", Refusal::EffectAction(17)),
    ("MOGZIFT_BAD_POSSIBLE_SET", Refusal::PossibleSet(1)),
    ("MOGZIFT_BAD_SHARE", Refusal::Share),
];

/// What stands in the header between these two, once.
fn between(before: &str, after: &str) -> &'static str {
    let mut parts = HEADER.split(before);
    let (Some(_), Some(part), None) = (parts.next(), parts.next(), parts.next()) else {
        panic!("the header has `{before}` not once");
    };
    part.split(after).next().unwrap()
}

fn number(name: &str) -> usize {
    let number = between(&format!(" {name} = "), "\n");
    number.trim_end_matches([' ', ',', '}', ';']).parse().expect(name)
}

#[test]
fn refusals_have_the_headers_numbers_and_texts() {
    for (i, (name, refusal)) in REFUSALS.into_iter().enumerate() {
        assert_eq!(refusal.number(), i + 1);
        assert_eq!(number(name), i + 1);
        let text = between(&format!("case {name}:\n        return \""), "\";\n");
        assert_eq!(refusal.message(), text);
        assert_eq!(refusal.to_string(), format!("{text} (refusal {}, place {})", i + 1, refusal.place()));
    }
    assert_eq!(
        HEADER.matches("        return \"").count(),
        REFUSALS.len() + 2,
        "a text for 0, one for each number, one for all others"
    );
}

#[test]
fn the_other_numbers_are_the_headers() {
    assert_eq!(number("MOGZIFT_TEXT_ROOM"), mogzift::TEXT_ROOM);
    assert_eq!(number("MOGZIFT_STACK"), mogzift::STACK);
}

#[test]
fn entries_of_a_page_have_the_headers_numbers() {
    for (name, entry) in [
        ("MOGZIFT_ENTRY_NEVER", Ok(Level::Never)),
        ("MOGZIFT_ENTRY_NOT_BY_DEPTH", Ok(Level::NotByDepth)),
        ("MOGZIFT_ENTRY_BAD_GOAL", Err(Refusal::Goal)),
    ] {
        assert_eq!(mogzift::entry(number(name) as u16), entry);
    }
    assert_eq!([0, 255].map(mogzift::entry), [0, 255].map(|layer| Ok(Level::At(layer))));
}

#[test]
fn a_thread_of_the_headers_stack_makes_the_deepest_calls() {
    let mut problem = Problem::new(32).unwrap();
    for p in 0..32 {
        problem = problem.action(1 << p, 1 << ((p + 1) % 32), 1 << p).unwrap();
    }
    let problem = problem.state(1).unwrap();
    let files = [problem.bytes().unwrap(), ConditionalProblem::from(problem).bytes().unwrap()];
    let (mut words, mut out) = (vec![0; mogzift::word_count(32, 32, 40)], vec![0; 40]);
    let mut text = vec![0; mogzift::TEXT_ROOM];
    let calls = move || {
        for file in files {
            mogzift::build(&file, 40, &mut words).unwrap();
            mogzift::build_within(&file, &[1], 40, &mut words).unwrap();
            let plan = mogzift::plan(&file, 40, 1, 1 << 31, &words, &mut out).unwrap();
            assert_eq!(plan, Plan { level: 31, count: 31 });
            let levels = mogzift::level_within(&file, 40, 1, 1 << 31, &words, &words).unwrap();
            assert_eq!(levels, Levels { possible: Level::At(31), sure: Level::At(31) });
            assert_eq!(mogzift::level_share(&file, 40, 1 << 31, &[9], 1, 1, &words), Ok(Level::At(31)));
            mogzift::run(&file, 1, &[0, 1, 2], &mut out).unwrap();
            mogzift::levels_text(&file, &mut text).unwrap();
        }
    };
    thread::Builder::new().stack_size(mogzift::STACK).spawn(calls).unwrap().join().unwrap();
}

#[test]
fn the_c_test_passes() {
    let script = Path::new(env!("CARGO_MANIFEST_DIR")).join("../include/test.sh");
    let done = Command::new("sh").arg(script).output().expect("a shell");
    let said = [done.stdout, done.stderr].concat();
    assert!(done.status.success(), "{}", String::from_utf8_lossy(&said));
}
