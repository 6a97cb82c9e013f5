//! The driver of `house` on real files, held against a test double of it that does right, and that does wrong.

use std::time::{Duration, Instant};

use second::built::Built;
use second::generate;
use second::hunt::RealHunt;
use second::judge;
use second::program::{Checked, Failure};
use second::real::Real;
use second::scratch::Scratch;

fn double(built: Built, bug: &str) -> Real {
    let command = format!("{} {} {bug}", env!("CARGO_BIN_EXE_fake_house"), built.word());
    Real::new(&command, built).expect("the test double")
}

/// Where nothing else is tested the files are in memory.
fn check(real: &Real, text: &str) -> Checked {
    real.check(text, 1).expect("the double runs")
}

fn wrong(checked: &Checked) -> String {
    checked.failure.as_ref().map_or("nothing is wrong".to_string(), ToString::to_string)
}

#[test]
fn what_is_done_right_is_allowed() {
    for built in [Built::Time, Built::Core, Built::All] {
        let real = double(built, "right");
        let (mut kills, mut within, mut losses, mut replacements) = (0, 0, 0, 0);
        for seed in (0..200).filter(|seed| generate::script(built, *seed).len() < 20_000).take(12) {
            let checked = real.check(&generate::script(built, seed), seed).expect("the double runs");
            assert!(checked.failure.is_none(), "{} {seed}: {}", built.word(), wrong(&checked));
            kills += checked.verdict.tally.cuts;
            within += checked.verdict.cut_short.len();
            losses += checked.verdict.tally.losses;
            replacements += checked.verdict.tally.replacements;
        }
        assert!(kills > 0 && within > 0 && losses > 0 && replacements > 0);
    }
}

#[test]
fn a_script_is_read_for_the_house() {
    let text = "drives 9000\nlongest 16\n\ntime 5\nasked\nstatus\nlose 0\nlose 1\nlose 2\nreplace 3\nreplace 0\n\
                mend whole\ncut 0 5\ntime 4 \n  \nin 00\n";
    let checked = check(&double(Built::Time, "right"), text);
    assert!(checked.failure.is_none(), "{}", wrong(&checked));
    let done = "longest 5243414\ndrives 9000\n\ntime 5\nstatus\nlose 0\nlose 1\nreplace 0\nmend\ncut 0 0\ntime 4 \n  \nin 00\n";
    assert_eq!(checked.script, done);
    let heard = "out 000000050000000001\nhelp: a test double of house\nwhole\ncut\nout 000000050000000001\n\
                 out 00000006000000000001\n";
    assert_eq!(checked.printed, heard);
}

/// Hunts as `second real` does: the smallest that failed, and what was heard.
fn hunted(built: Built, bug: &str) -> (String, String) {
    let folder = Scratch::in_memory().expect("a folder");
    let mut hunt = RealHunt::new(double(built, bug), Duration::from_secs(60), folder.path());
    hunt.seeds(1).expect("the double runs");
    assert!(hunt.failed() > 0, "{bug} isn't found");
    let read = |name: &str| std::fs::read_to_string(folder.path().join(name)).expect("what failed is left");
    (read("smallest.script"), read("smallest.printed"))
}

#[test]
fn what_is_on_two_drives_only_is_found() {
    let (script, printed) = hunted(Built::Time, "thin");
    // The longest line, a time, two removals, and a line that shows that no time was told.
    assert!(script.lines().count() <= 6, "{script}");
    assert!(judge::judge_texts(Built::Time, &script, &printed).wrong.is_some());
}

#[test]
fn what_is_answered_before_it_is_written_is_found() {
    let (script, printed) = hunted(Built::Time, "hasty");
    assert!(script.lines().count() <= 8, "{script}");
    assert!(judge::judge_texts(Built::Time, &script, &printed).wrong.is_some());
}

#[test]
fn a_house_that_doesnt_answer_is_found() {
    let mut real = double(Built::Time, "mute");
    real.patience = Duration::from_millis(300);
    let start = Instant::now();
    let checked = check(&real, "time 5\nmend\n");
    assert!(matches!(checked.failure, Some(Failure::Trouble(_))));
    assert!(checked.script.ends_with("time 5\nmend\n"), "{}", checked.script);
    assert!(start.elapsed() < Duration::from_secs(20));
}

#[test]
fn a_house_that_ends_by_itself_is_found() {
    let checked = check(&double(Built::Time, "quits"), "time 5\nmend\n");
    assert!(matches!(checked.failure, Some(Failure::Trouble(_))));
}

#[test]
fn a_program_that_isnt_there_is_said() {
    let real = Real::new("/there/is/no/house", Built::Time).expect("a path");
    assert!(matches!(check(&real, "time 5\n").failure, Some(Failure::Trouble(_))));
}
