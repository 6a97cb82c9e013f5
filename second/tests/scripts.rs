//! The generator reaches what it should; the exhaustive mode, the shrinking and the running of programs work.

use std::collections::BTreeSet;
use std::time::{Duration, Instant};

use second::built::{Built, Ground};
use second::exhaustive::{self, Limits};
use second::generate;
use second::hunt::Hunt;
use second::lines;
use second::meaning::{Answer, House};
use second::program::{Failure, Program};
use second::scratch::Scratch;
use second::script::{self, Command};
use second::shrink;

// ---------------------------------------------------------------- what scripts of a seed reach

/// Kinds of calls with the kinds of their answers, by scripts played without cuts. Refusals stand for themselves.
fn reached(built: Built, seeds: std::ops::Range<u64>) -> BTreeSet<(u8, String)> {
    let mut pairs = BTreeSet::new();
    for seed in seeds {
        let mut ground = Ground { built, sectors: script::SECTORS_LEAST, longest: script::LONGEST };
        let mut house = House::blank();
        for command in script::commands(&generate::script(built, seed)) {
            match command {
                Command::Drives(n) => ground.sectors = n,
                Command::Longest(n) => ground.longest = n,
                _ => {}
            }
            let Some(bytes) = command.line() else { continue };
            let line = lines::read_line(&bytes, ground.longest);
            let (after, answer) = ground.answer(&house, &line);
            house = after;
            let kind = line.call.map_or(0, |call| call.kind());
            pairs.insert((kind, answer_kind(&answer)));
        }
    }
    pairs
}

fn answer_kind(answer: &Answer) -> String {
    match answer {
        Answer::TurnedAway(refusal) => (*refusal as u8).to_string(),
        Answer::Yes => "yes".to_string(),
        Answer::Number(_) => "number".to_string(),
        Answer::Got { .. } => "got".to_string(),
        Answer::List(_) => "list".to_string(),
        Answer::Full => "full".to_string(),
    }
}

/// All that docs/MEANING.md says of each call. 8 for numbers that are used up can't be reached by calls.
const WANTED: [(u8, &str); 14] = [
    (1, "1 3 8 10 yes full"),
    (2, "2 5 10 yes"),
    (3, "1 2 4 8 10 number full"),
    (4, "1 2 10 got"),
    (5, "2 6 8 10 number yes full"),
    (6, "1 2 10 list"),
    (7, "2 10 list"),
    (8, "1 2 8 10 number full"),
    (9, "1 2 10 yes full"),
    (10, "2 4 7 10 number"),
    (11, "2 10 yes"),
    (12, "1 2 10 yes"),
    (13, "1 2 10 yes"),
    (14, "1 yes"),
];

#[test]
fn scripts_reach_every_answer_of_every_call() {
    let reached = reached(Built::All, 0..1_500);
    for (kind, answers) in WANTED {
        for answer in answers.split(' ') {
            assert!(reached.contains(&(kind, answer.to_string())), "kind {kind}: {answer}");
        }
    }
    assert!(reached.contains(&(0, "1".to_string())) && reached.contains(&(0, "10".to_string())), "no call");
}

#[test]
fn scripts_for_the_core_reach_what_is_built_and_what_isnt() {
    let reached = reached(Built::Core, 0..600);
    for (kind, answers) in WANTED.iter().filter(|(kind, _)| Built::Core.has_kind(*kind)) {
        for answer in answers.split(' ').filter(|answer| *answer != "6") {
            assert!(reached.contains(&(*kind, answer.to_string())), "kind {kind}: {answer}");
        }
    }
    for kind in [4, 5, 7, 8, 9, 10, 11, 12, 13] {
        assert!(reached.contains(&(kind, "12".to_string())), "kind {kind}: 12");
    }
}

#[test]
fn scripts_for_the_time_are_mostly_times_mends_cuts_and_losses() {
    let (mut wanted, mut all, mut kinds) = (0, 0, BTreeSet::new());
    for seed in 0..200 {
        for command in script::commands(&generate::script(Built::Time, seed)) {
            all += 1;
            let line = command.line().map(|bytes| lines::read_line(&bytes, u64::MAX));
            let is_time = line.as_ref().is_some_and(|line| line.kind == Some(14));
            let others = matches!(
                command,
                Command::Mend | Command::MendWhole | Command::Lose(_) | Command::Replace(_) | Command::Cut { .. }
            );
            wanted += u64::from(is_time || others);
            kinds.extend(line.and_then(|line| line.kind));
        }
    }
    assert!(wanted * 10 > all * 7, "{wanted} of {all}");
    assert!((0..=15).all(|kind| kinds.contains(&kind)), "{kinds:?}");
}

#[test]
fn what_is_cut_in_a_short_script_is_read_back_at_once() {
    let mut cut_first = 0;
    for seed in 0..100 {
        let commands = script::commands(&generate::small_script_with_cut(Built::Time, seed));
        let at = commands.iter().position(|command| matches!(command, Command::Cut { .. })).expect("a cut");
        assert_eq!(commands.get(at + 2), Some(&Command::In(Vec::new())), "{seed}");
        cut_first += usize::from(at == 0);
    }
    // Only then does it show whether the time was told.
    assert!(cut_first > 10, "{cut_first}");
}

#[test]
fn a_seed_makes_the_same_script_again() {
    for seed in 0..20 {
        assert_eq!(generate::script(Built::All, seed), generate::script(Built::All, seed));
    }
    assert_ne!(generate::script(Built::All, 1), generate::script(Built::All, 2));
}

#[test]
fn what_is_written_is_read_again() {
    for seed in 0..60 {
        let commands = script::commands(&generate::script(Built::All, seed));
        assert_eq!(script::commands(&script::write(&commands)), commands);
    }
}

// ---------------------------------------------------------------- running programs

fn fake(built: Built, bug: &str) -> Program {
    let command = format!("{} {} {bug}", env!("CARGO_BIN_EXE_fake"), built.word());
    Program::new(&command, built).expect("the test double")
}

/// Plays everything around a script: how many scripts were played, and the first that failed.
fn explored(program: &Program, text: &str, limits: Limits) -> (u64, Option<String>) {
    let (mut played, mut failed) = (0, None);
    let explore = exhaustive::explore(program, text, limits, |text, checked| {
        played += 1;
        if checked.failure.is_some() && failed.is_none() {
            failed = Some(text.to_string());
        }
        failed.is_none()
    });
    explore.expect("the program runs");
    (played, failed)
}

const SOME: Limits = Limits { places: 60, choices: 3, variants: 400, seed: 1 };

/// Time, a room, two puts and a removal.
fn base(built: Built) -> String {
    let words = ["make r keeps", "put r a any hello", "put r a any there", "remove r a 0"];
    let calls = words.map(|text| Command::call(&second::words::read_call(text).expect("a call in words")));
    match built {
        Built::Time => "time 5\ntime 9\nmend whole\n".to_string(),
        _ => "time 5\n".to_string() + &script::write(&calls),
    }
}

#[test]
fn everything_around_a_script_is_allowed_of_a_right_program() {
    for built in [Built::Time, Built::Core, Built::All] {
        let (played, failed) = explored(&fake(built, "right"), &base(built), SOME);
        assert!(played > 300, "{played}");
        assert_eq!(failed, None);
    }
}

#[test]
fn every_asking_is_a_place() {
    // The double asks 18 times for opening, for a change, and for a stretch.
    let program = fake(Built::Time, "right");
    let all = Limits { places: usize::MAX, choices: 1, variants: usize::MAX, seed: 1 };
    let mut cuts = BTreeSet::new();
    exhaustive::explore(&program, "time 5\ntime 9\nmend\n", all, |text, _| {
        cuts.extend(script::commands(text).iter().find_map(|command| match command {
            Command::Cut { after, .. } => Some(*after),
            _ => None,
        }));
        true
    })
    .expect("the program runs");
    assert!((0..=72).all(|after| cuts.contains(&after)), "{cuts:?}");
}

#[test]
fn everything_around_a_script_finds_what_is_wrong() {
    for bug in ["forgets", "torn", "fragile"] {
        for built in [Built::Core, Built::All] {
            let (_, failed) = explored(&fake(built, bug), &base(built), SOME);
            assert!(failed.is_some(), "{bug} {}", built.word());
        }
    }
}

#[test]
fn a_failing_script_is_made_smaller() {
    let program = fake(Built::All, "torn");
    let fails = |text: &str| program.check(text).is_ok_and(|checked| checked.failure.is_some());
    let text = (0..).map(|seed| generate::script(Built::All, seed)).find(|text| fails(text)).expect("one that fails");
    let small = shrink::shrink(&text, Instant::now() + Duration::from_secs(60), fails);
    assert!(fails(&small));
    // Time, room, cut, put, and a put that shows it; some more where numbers must fit.
    assert!(small.lines().count() <= 12, "{small}");
}

/// Hunts as `second check` does, and reads the smallest script that it leaves.
fn hunted(built: Built, bug: &str) -> String {
    let folder = Scratch::in_memory().expect("a folder");
    let mut hunt = Hunt::new(fake(built, bug), Duration::from_secs(60), folder.path());
    hunt.seeds(1..1_000).expect("the double runs");
    assert!(hunt.failed() > 0, "{bug} isn't found");
    std::fs::read_to_string(folder.path().join("smallest.script")).expect("the smallest script is left")
}

#[test]
fn what_is_wrong_is_found_by_a_script_that_is_short_enough_to_read() {
    let wanted = [
        (Built::Time, "unbuilt", 1),
        (Built::Time, "reckless", 3),
        (Built::Time, "endless", 3),
        (Built::All, "forgets", 5),
        (Built::All, "fragile", 6),
        (Built::All, "torn", 8),
        (Built::All, "late", 8),
        (Built::All, "slow", 10),
    ];
    for (built, bug, most) in wanted {
        let small = hunted(built, bug);
        assert!(small.lines().count() <= most, "{bug}:\n{small}");
    }
}

#[test]
fn many_scripts_in_one_run_are_told_apart() {
    let program = fake(Built::All, "right");
    let texts: Vec<String> = (0..30).map(|seed| generate::script(Built::All, seed)).collect();
    let checked = program.check_all(&texts).expect("the program runs");
    assert_eq!(checked.len(), 30);
    assert!(checked.iter().all(|checked| checked.failure.is_none()));
}

#[test]
fn a_program_that_ends_badly_is_found() {
    let program = Program::new("false", Built::All).expect("a program");
    let checked = program.check("time 5\n").expect("it runs");
    assert!(matches!(checked.failure, Some(Failure::Trouble(_))));
    assert!(!program.answers_help());
}

#[test]
fn a_program_that_says_nothing_is_found() {
    let program = Program::new("true", Built::All).expect("a program");
    let checked = program.check_all(&["time 5\n".to_string(), "time 6\n".to_string()]).expect("it runs");
    assert!(checked.iter().all(|checked| matches!(checked.failure, Some(Failure::Wrong(_)))));
}

#[test]
fn a_program_that_doesnt_end_is_found() {
    let mut program = Program::new("tail -f /dev/null", Built::All).expect("a program");
    program.patience = Duration::from_millis(300);
    let checked = program.check("time 5\n").expect("it runs");
    assert!(matches!(checked.failure, Some(Failure::Trouble(_))));
}

#[test]
fn the_double_answers_help() {
    assert!(fake(Built::All, "right").answers_help());
}
