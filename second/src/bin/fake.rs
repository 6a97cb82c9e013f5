//! `fake BUILT BUG [SCRIPT ..]`: a test double of `rehearse` that plays scripts on the house in memory.
//! BUG is `right`, or one of the ways of doing wrong of module `play`.

use std::io::{Read, Write};
use std::process::ExitCode;

use second::built::Built;
use second::play::{self, Bug};
use second::script;

fn main() -> ExitCode {
    let arguments: Vec<String> = std::env::args().skip(1).collect();
    match run(&arguments) {
        Ok(()) => ExitCode::SUCCESS,
        Err(message) => {
            eprintln!("fake: {message}");
            ExitCode::FAILURE
        }
    }
}

fn bug(word: &str) -> Result<Option<Bug>, String> {
    if word == "right" {
        return Ok(None);
    }
    let found = play::BUGS.iter().find(|(name, _)| *name == word);
    found.map(|(_, bug)| Some(*bug)).ok_or(format!("no such way of doing wrong: {word}"))
}

fn run(arguments: &[String]) -> Result<(), String> {
    let [built, bug_word, files @ ..] = arguments else {
        return Err("fake nothing|time|core|all right|BUG [SCRIPT ..]".to_string());
    };
    let built = Built::from_word(built).ok_or(format!("not nothing, time, core or all: {built}"))?;
    let bug = bug(bug_word)?;
    let mut output = std::io::BufWriter::new(std::io::stdout().lock());
    let mut say = |text: &str| writeln!(output, "{text}").map_err(|error| error.to_string());
    if files.is_empty() {
        let mut text = String::new();
        std::io::stdin().read_to_string(&mut text).map_err(|error| error.to_string())?;
        return play::play(built, bug, &script::commands(&text)).iter().try_for_each(|line| say(line));
    }
    for file in files {
        let text = std::fs::read_to_string(file).map_err(|error| format!("{file}: {error}"))?;
        say(&format!("script {file}"))?;
        play::play(built, bug, &script::commands(&text)).iter().try_for_each(|line| say(line))?;
    }
    Ok(())
}
