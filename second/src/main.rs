//! `second`: says whether what `rehearse` printed is allowed; makes scripts; plays many of them.

use std::path::Path;
use std::process::ExitCode;
use std::time::{Duration, Instant};

use second::built::Built;
use second::exhaustive::Limits;
use second::generate;
use second::hunt::{Hunt, RealCounts, RealHunt};
use second::judge::{self, Tally};
use second::program::Program;
use second::real::Real;
use second::script::Command;
use second::shrink;
use second::words;

const USAGE: &str = "\
second judge BUILT SCRIPT PRINTED        same, or the first line that isn't allowed
second generate BUILT SEED               a script
second small BUILT SEED                  a short script without cuts, for exhaustive
second words FILE                        calls in words to a script (other lines stay as they are)
second answers PROGRAM                   whether it answers help as rehearse does
second check BUILT PROGRAM SECONDS FOLDER SCRIPT ..
                                         a fixed set: the scripts exhaustively, and seeds from 1 on
second soak BUILT PROGRAM SECONDS FOLDER [SEED]
                                         new seeds until the time is over
second real BUILT HOUSE SECONDS FOLDER [SEED]
                                         house on real files: seeds from this one on (without it, new ones)
second exhaustive BUILT PROGRAM FOLDER SCRIPT
                                         every asking as the place of a cut, nothing left out
second shrink BUILT PROGRAM SCRIPT       the smallest failing script that can be found

BUILT is nothing, time, core or all. PROGRAM is rehearse, with arguments that come first if there are any; HOUSE is house.
FOLDER is where failing scripts are left.";

fn main() -> ExitCode {
    let arguments: Vec<String> = std::env::args().skip(1).collect();
    let words: Vec<&str> = arguments.iter().map(String::as_str).collect();
    match run(&words) {
        Ok(true) => ExitCode::SUCCESS,
        Ok(false) => ExitCode::FAILURE,
        Err(message) => {
            eprintln!("second: {message}");
            ExitCode::from(2)
        }
    }
}

fn run(words: &[&str]) -> Result<bool, String> {
    match words {
        ["judge", built, script, printed] => judge_files(read_built(built)?, script, printed),
        ["generate", built, seed] => show(&generate::script(read_built(built)?, read_number(seed)?)),
        ["small", built, seed] => show(&generate::small_script(read_built(built)?, read_number(seed)?)),
        ["words", file] => show(&from_words(&read_file(file)?)),
        ["answers", program] => Ok(Program::new(program, Built::Nothing)?.answers_help()),
        ["check", built, program, seconds, folder, scripts @ ..] => {
            check(Program::new(program, read_built(built)?)?, read_seconds(seconds)?, folder, scripts)
        }
        ["soak", built, program, seconds, folder, seed @ ..] => {
            soak(Program::new(program, read_built(built)?)?, read_seconds(seconds)?, folder, read_seed(seed)?)
        }
        ["real", built, house, seconds, folder, seed @ ..] => {
            real(Real::new(house, read_built(built)?)?, read_seconds(seconds)?, folder, read_seed(seed)?)
        }
        ["exhaustive", built, program, folder, script] => {
            exhaustive(Program::new(program, read_built(built)?)?, folder, &read_file(script)?)
        }
        ["shrink", built, program, script] => {
            shrink_file(Program::new(program, read_built(built)?)?, &read_file(script)?)
        }
        _ => Err(USAGE.to_string()),
    }
}

fn read_built(word: &str) -> Result<Built, String> {
    Built::from_word(word).ok_or(format!("not nothing, time, core or all: {word}"))
}

fn read_number(word: &str) -> Result<u64, String> {
    word.parse().map_err(|_| format!("not a number: {word}"))
}

fn read_seconds(word: &str) -> Result<Duration, String> {
    Ok(Duration::from_secs(read_number(word)?))
}

/// One seed, or none for one that wasn't used before.
fn read_seed(words: &[&str]) -> Result<u64, String> {
    match words {
        [] => Ok(seed_of_now()),
        [seed] => read_number(seed),
        _ => Err(USAGE.to_string()),
    }
}

/// Bytes that are no text would be no command either; they are shown to the judge as such.
fn read_file(path: &str) -> Result<String, String> {
    let bytes = std::fs::read(path).map_err(|error| format!("{path}: {error}"))?;
    Ok(String::from_utf8_lossy(&bytes).into_owned())
}

fn show(text: &str) -> Result<bool, String> {
    print!("{text}");
    Ok(true)
}

fn judge_files(built: Built, script: &str, printed: &str) -> Result<bool, String> {
    let verdict = judge::judge_texts(built, &read_file(script)?, &read_file(printed)?);
    match &verdict.wrong {
        None => println!("same"),
        Some(wrong) => print!("{wrong}"),
    }
    Ok(verdict.wrong.is_none())
}

/// Lines that are calls in words become `in` lines. `time` is a command already.
fn from_words(text: &str) -> String {
    let command = |line: &str| match words::read_call(line) {
        Some(call) if !line.starts_with("time") => Command::call(&call).text(),
        _ => line.to_string(),
    };
    text.lines().map(|line| command(line) + "\n").collect()
}

/// A fixed set of scripts in a fixed order; where it ends depends on how fast the program is.
fn check(program: Program, time: Duration, folder: &str, scripts: &[&str]) -> Result<bool, String> {
    let mut hunt = Hunt::new(program, time, Path::new(folder));
    // A first helping of seeds, so that no script is so long that they don't come.
    hunt.seeds(1..400)?;
    for (index, script) in scripts.iter().enumerate() {
        if !hunt.goes_on() {
            break;
        }
        let text = from_words(&read_file(script)?);
        hunt.exhaustive(&text, Limits { places: 200, choices: 6, variants: 1_200, seed: index as u64 })?;
        println!("   {script}: {}", hunt.tally());
    }
    hunt.seeds(400..1_000_000)?;
    println!("   {}", hunt.tally());
    Ok(finish(&hunt, true))
}

fn soak(program: Program, time: Duration, folder: &str, seed: u64) -> Result<bool, String> {
    let mut hunt = Hunt::new(program, time, Path::new(folder));
    hunt.soak(seed)?;
    println!("   {}", hunt.tally());
    Ok(finish(&hunt, true))
}

/// A house that is never killed within a call isn't tested for that, so that is a failure too.
fn real(house: Real, time: Duration, folder: &str, seed: u64) -> Result<bool, String> {
    let mut hunt = RealHunt::new(house, time, Path::new(folder));
    hunt.seeds(seed)?;
    println!("   {}", hunt.counts());
    let RealCounts { tally, within } = hunt.counts();
    Ok(passed_and_failed(tally.scripts, hunt.failed(), tally.scripts > 30 && *within == 0))
}

/// A program that never cuts passes over what is to be tested, so that is a failure too.
fn finish(hunt: &Hunt, cuts_wanted: bool) -> bool {
    let Tally { scripts, cuts, .. } = *hunt.tally();
    passed_and_failed(scripts, hunt.failed(), cuts_wanted && scripts > 100 && cuts == 0)
}

/// The last line.
fn passed_and_failed(played: u64, failed: u64, no_cuts: bool) -> bool {
    if no_cuts {
        println!("FAILED\nno cut ever fell");
    }
    let all_failed = failed + u64::from(no_cuts);
    println!("{} passed, {all_failed} failed", played.saturating_sub(failed));
    all_failed == 0
}

fn exhaustive(program: Program, folder: &str, text: &str) -> Result<bool, String> {
    let mut hunt = Hunt::new(program, Duration::from_secs(1 << 30), Path::new(folder));
    let all = Limits { places: usize::MAX, choices: usize::MAX, variants: usize::MAX, seed: 1 };
    hunt.exhaustive(&from_words(text), all)?;
    println!("   {}", hunt.tally());
    Ok(finish(&hunt, false))
}

fn shrink_file(program: Program, text: &str) -> Result<bool, String> {
    let fails = |text: &str| program.check(text).is_ok_and(|checked| checked.failure.is_some());
    if !fails(text) {
        return Err("this script doesn't fail".to_string());
    }
    show(&shrink::shrink(text, Instant::now() + Duration::from_secs(600), fails))
}

/// A first seed that wasn't used before.
fn seed_of_now() -> u64 {
    let since = std::time::SystemTime::now().duration_since(std::time::UNIX_EPOCH);
    since.map_or(1, |since| since.as_secs() * 1_000)
}
