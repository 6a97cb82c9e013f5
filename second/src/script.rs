//! The script language of `rehearse`: docs/REHEARSE.md.

use crate::lines;
use crate::meaning::Call;

/// Sectors of a drive: the least, which is also what there is without a `drives`, and the most.
pub const SECTORS_LEAST: u64 = 8_192;
pub const SECTORS_MOST: u64 = 1 << 40;
/// The longest line of bytes without a `longest`.
pub const LONGEST: u64 = 1_048_576;
pub const DRIVES: usize = 6;

#[derive(Clone, Debug, PartialEq, Eq)]
pub enum Command {
    Drives(u64),
    Longest(u64),
    In(Vec<u8>),
    Time(u64),
    Mend,
    MendWhole,
    Lose(usize),
    Replace(usize),
    Status,
    Asked,
    Help,
    Cut {
        after: u64,
        choice: Choice,
    },
    /// Any other text: answered as a line of bytes that is no call, with tag 0.
    Text(String),
}

/// Which of its two contents an unsynced sector has after a cut. It matters to no judgement, only to the playing.
#[derive(Clone, Debug, PartialEq, Eq)]
pub enum Choice {
    Seed(u64),
    Bits(u64),
}

/// A command and the line of the file where it stands, counted from 1.
#[derive(Clone, Debug, PartialEq, Eq)]
pub struct Placed {
    pub line: usize,
    pub command: Command,
}

/// Decimal digits and nothing else, below 2^64.
pub fn number(word: &str) -> Option<u64> {
    let digits = !word.is_empty() && word.bytes().all(|byte| byte.is_ascii_digit());
    if digits {
        word.parse().ok()
    } else {
        None
    }
}

fn drive(word: &str) -> Option<usize> {
    let index = number(word)? as usize;
    (index < DRIVES).then_some(index)
}

fn read_cut(words: &[&str]) -> Option<Command> {
    let (after, choice) = match words {
        [after, "bits", bits] => (after, Choice::Bits(number(bits)?)),
        [after, seed] => (after, Choice::Seed(number(seed)?)),
        _ => return None,
    };
    Some(Command::Cut { after: number(after)?, choice })
}

/// The commands whose text must be exactly right; none for any other text.
fn read_exact(text: &str) -> Option<Command> {
    let words: Vec<&str> = text.split(' ').collect();
    match words.as_slice() {
        ["drives", n] => number(n).filter(|n| (SECTORS_LEAST..=SECTORS_MOST).contains(n)).map(Command::Drives),
        ["longest", n] => number(n).map(Command::Longest),
        ["mend"] => Some(Command::Mend),
        ["mend", "whole"] => Some(Command::MendWhole),
        ["lose", i] => drive(i).map(Command::Lose),
        ["replace", i] => drive(i).map(Command::Replace),
        ["status"] => Some(Command::Status),
        ["asked"] => Some(Command::Asked),
        ["help"] => Some(Command::Help),
        ["cut", rest @ ..] => read_cut(rest),
        _ => None,
    }
}

/// One line of text that isn't blank, without the white space at its end.
fn read_command(text: &str) -> Command {
    let no_call = || Command::Text(text.to_string());
    if text == "in" {
        return Command::In(Vec::new());
    }
    if let Some(digits) = text.strip_prefix("in ") {
        return lines::from_hex(digits).map_or_else(no_call, Command::In);
    }
    if let Some(time) = text.strip_prefix("time ") {
        // What is no number of eight bytes is told as the highest, which is out of range.
        return Command::Time(number(time).unwrap_or(u64::MAX));
    }
    read_exact(text).unwrap_or_else(no_call)
}

pub fn read(text: &str) -> Vec<Placed> {
    let placed = text.lines().enumerate().filter_map(|(index, line)| {
        let line_text = line.trim_end_matches(|c: char| c.is_ascii_whitespace());
        (!line_text.is_empty()).then(|| Placed { line: index + 1, command: read_command(line_text) })
    });
    placed.collect()
}

impl Command {
    pub fn text(&self) -> String {
        match self {
            Command::Drives(n) => format!("drives {n}"),
            Command::Longest(n) => format!("longest {n}"),
            Command::In(bytes) if bytes.is_empty() => "in".to_string(),
            Command::In(bytes) => format!("in {}", lines::to_hex(bytes)),
            Command::Time(time) => format!("time {time}"),
            Command::Mend => "mend".to_string(),
            Command::MendWhole => "mend whole".to_string(),
            Command::Lose(i) => format!("lose {i}"),
            Command::Replace(i) => format!("replace {i}"),
            Command::Status => "status".to_string(),
            Command::Asked => "asked".to_string(),
            Command::Help => "help".to_string(),
            Command::Cut { after, choice: Choice::Seed(seed) } => format!("cut {after} {seed}"),
            Command::Cut { after, choice: Choice::Bits(bits) } => format!("cut {after} bits {bits}"),
            Command::Text(text) => text.clone(),
        }
    }

    /// The line of bytes that the house gets, for commands that are calls to it.
    pub fn line(&self) -> Option<Vec<u8>> {
        match self {
            Command::In(bytes) => Some(bytes.clone()),
            Command::Time(time) => Some(lines::write_call([0; 4], &Call::Time { time: *time })),
            Command::Text(_) => Some(Vec::new()),
            _ => None,
        }
    }

    /// Settings stand before everything else and print nothing.
    pub fn is_setting(&self) -> bool {
        matches!(self, Command::Drives(_) | Command::Longest(_))
    }

    pub fn call(call: &Call) -> Command {
        Command::In(lines::write_call([0, 0, 0, 7], call))
    }
}

/// A script as a file holds it.
pub fn write(commands: &[Command]) -> String {
    commands.iter().map(|command| command.text() + "\n").collect()
}

/// The commands alone.
pub fn commands(text: &str) -> Vec<Command> {
    read(text).into_iter().map(|placed| placed.command).collect()
}
