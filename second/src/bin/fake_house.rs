//! `fake_house BUILT right|thin|hasty|mute|quits`: a test double of `house`, on the drive files of its folder.
//!
//! Each drive file holds a log of the lines that changed something, and zeros after it. A drive that has a log is a member.
//! The longest log of the members counts; what it has more is first written to the others, so that it stays.
//! Mending writes the log to drives that are blank.

use std::fs::{File, OpenOptions};
use std::io::{BufRead, BufReader, ErrorKind, Write};
use std::os::unix::fs::FileExt;
use std::process::ExitCode;
use std::time::Duration;

use second::built::{Built, Ground};
use second::lines;
use second::meaning::House;
use second::script::{self, Command, DRIVES};

/// What every log begins with, so that an empty one isn't blank.
const HEAD: &[u8] = b"log\n";

#[derive(Clone, Copy, PartialEq, Eq)]
enum Bug {
    Right,
    /// What changes is written to the first two drives only.
    Thin,
    /// What changes is written after it was answered.
    Hasty,
    /// Mending isn't answered.
    Mute,
    /// Mending ends the program.
    Quits,
}

const BUGS: [(&str, Bug); 5] =
    [("right", Bug::Right), ("thin", Bug::Thin), ("hasty", Bug::Hasty), ("mute", Bug::Mute), ("quits", Bug::Quits)];

fn main() -> ExitCode {
    let arguments: Vec<String> = std::env::args().skip(1).collect();
    match run(&arguments) {
        Ok(()) => ExitCode::SUCCESS,
        Err(message) => {
            eprintln!("fake_house: {message}");
            ExitCode::FAILURE
        }
    }
}

fn run(arguments: &[String]) -> Result<(), String> {
    let usage = "fake_house nothing|time|core|all right|thin|hasty|mute|quits";
    let [built, word] = arguments else { return Err(usage.to_string()) };
    let built = Built::from_word(built).ok_or(usage)?;
    let (_, bug) = BUGS.iter().find(|(name, _)| name == word).ok_or(usage)?;
    let mut double = Double::new(built, *bug);
    for line in std::io::stdin().lock().lines() {
        let line = line.map_err(|error| error.to_string())?;
        if let Some(command) = script::commands(&line).pop() {
            double.command(&command).map_err(|error| error.to_string())?;
        }
    }
    Ok(())
}

struct Double {
    ground: Ground,
    bug: Bug,
    /// The log as it was last read, and the house that it leads to: only what is new in it is played.
    log: Vec<u8>,
    house: House,
    members: Vec<usize>,
    blank: Vec<usize>,
}

impl Double {
    fn new(built: Built, bug: Bug) -> Double {
        let ground = Ground { built, sectors: script::SECTORS_LEAST, longest: u64::MAX };
        Double { ground, bug, log: HEAD.to_vec(), house: House::blank(), members: vec![], blank: vec![] }
    }

    fn command(&mut self, command: &Command) -> std::io::Result<()> {
        match (command, self.bug) {
            (Command::Status | Command::Help, _) => say("help: a test double of house"),
            (Command::Mend, Bug::Mute) => Ok(()),
            (Command::Mend, Bug::Quits) => std::process::exit(3),
            (Command::Mend, _) => {
                self.open()?;
                self.blank.iter().try_for_each(|index| write_log(*index, &self.log, 0))?;
                say("whole")
            }
            _ => self.call(&command.line().unwrap_or_default()),
        }
    }

    fn call(&mut self, line: &[u8]) -> std::io::Result<()> {
        self.open()?;
        let (after, answer) = self.ground.answer_line(&self.house, line);
        let changed = after != self.house;
        let answer = format!("out {}", lines::to_hex(&answer));
        if self.bug == Bug::Hasty && changed {
            say(&answer)?;
            std::thread::sleep(Duration::from_millis(1));
            return self.keep(line, after);
        }
        if changed {
            self.keep(line, after)?;
        }
        say(&answer)
    }

    fn keep(&mut self, line: &[u8], after: House) -> std::io::Result<()> {
        let at = self.log.len();
        self.log.extend_from_slice(format!("{}\n", lines::to_hex(line)).as_bytes());
        self.house = after;
        let thin = self.bug == Bug::Thin;
        self.members.iter().filter(|index| !thin || **index < 2).try_for_each(|index| write_log(*index, &self.log, at))
    }

    /// Reads all drives anew.
    fn open(&mut self) -> std::io::Result<()> {
        let logs: Vec<(usize, Vec<u8>)> = (0..DRIVES).filter_map(|index| Some((index, read_log(index)?))).collect();
        self.ground.sectors = logs.first().map_or(Ok(0), |(index, _)| sectors(*index))?;
        let longest = logs.iter().map(|(_, log)| log).max_by_key(|log| log.len()).cloned().unwrap_or_default();
        let first = longest.is_empty();
        self.play(if first { HEAD.to_vec() } else { longest });
        let is_member = |log: &Vec<u8>| first || !log.is_empty();
        self.blank = logs.iter().filter(|(_, log)| !is_member(log)).map(|(index, _)| *index).collect();
        self.members = logs.iter().filter(|(_, log)| is_member(log)).map(|(index, _)| *index).collect();
        let behind = logs.iter().filter(|(index, log)| log.len() < self.log.len() && self.members.contains(index));
        let thin = self.bug == Bug::Thin && !first;
        behind.filter(|_| !thin).try_for_each(|(index, log)| write_log(*index, &self.log, log.len()))
    }

    fn play(&mut self, log: Vec<u8>) {
        let known = if log.starts_with(&self.log) { self.log.len() } else { 0 };
        if known == 0 {
            self.house = House::blank();
        }
        let text = String::from_utf8_lossy(&log[known.max(HEAD.len())..]).into_owned();
        for bytes in text.lines().filter_map(lines::from_hex) {
            self.house = self.ground.answer_line(&self.house, &bytes).0;
        }
        self.log = log;
    }
}

fn say(line: &str) -> std::io::Result<()> {
    let mut output = std::io::stdout().lock();
    writeln!(output, "{line}")?;
    output.flush()
}

fn sectors(index: usize) -> std::io::Result<u64> {
    Ok(std::fs::metadata(format!("drive{index}"))?.len() / 512)
}

/// The whole lines before the first zero; none if there is no such drive.
fn read_log(index: usize) -> Option<Vec<u8>> {
    let mut reader = BufReader::new(File::open(format!("drive{index}")).ok()?);
    let mut bytes = Vec::new();
    reader.read_until(0, &mut bytes).ok()?;
    let end = bytes.iter().rposition(|byte| *byte == b'\n').map_or(0, |last| last + 1);
    bytes.truncate(end);
    Some(bytes)
}

/// What comes from there on in the log. A drive that is gone by now is passed over.
fn write_log(index: usize, log: &[u8], from: usize) -> std::io::Result<()> {
    match OpenOptions::new().write(true).open(format!("drive{index}")) {
        Ok(file) => file.write_all_at(&log[from..], from as u64),
        Err(error) if error.kind() == ErrorKind::NotFound => Ok(()),
        Err(error) => Err(error),
    }
}
