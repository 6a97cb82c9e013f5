//! A program that is talked to over pipes: a line in, a line out.

use std::io::{BufRead, BufReader, Write};
use std::path::{Path, PathBuf};
use std::process::{Child, ChildStdin, ChildStdout, Command as Process, Stdio};
use std::sync::mpsc::{self, Receiver, Sender};
use std::time::Duration;

use crate::program;

/// Ends with this value, by `kill -9` if it must: nothing is left running.
pub struct Talk {
    child: Child,
    input: Option<ChildStdin>,
    lines: Receiver<String>,
}

impl Talk {
    pub fn start(program: &Path, arguments: &[String], folder: &Path) -> Result<Talk, String> {
        let trouble = |error: std::io::Error| format!("{}: {error}", program.display());
        let mut child = Process::new(program)
            .args(arguments)
            .current_dir(folder)
            .stdin(Stdio::piped())
            .stdout(Stdio::piped())
            .stderr(Stdio::null())
            .spawn()
            .map_err(trouble)?;
        let (input, output) = (child.stdin.take(), child.stdout.take());
        let (sender, lines) = mpsc::channel();
        let talk = Talk { child, input, lines };
        let output = output.ok_or("no pipe from the program")?;
        std::thread::spawn(move || hand_on(output, sender));
        Ok(talk)
    }

    /// What can't be written is seen by the answer that doesn't come.
    pub fn say(&mut self, line: &str) {
        if let Some(input) = &mut self.input {
            let _ = input.write_all(format!("{line}\n").as_bytes());
        }
    }

    /// The next line; none if the program has ended, or says nothing for so long.
    pub fn hear(&mut self, patience: Duration) -> Option<String> {
        self.lines.recv_timeout(patience).ok()
    }

    /// `kill -9`. The lines that had come by then and weren't heard yet; trouble if it had ended by itself.
    pub fn kill(mut self) -> (Vec<String>, Option<String>) {
        let ended = self.child.try_wait().ok().flatten();
        self.kill_and_wait();
        (self.lines.iter().collect(), ended.map(|status| format!("the program ended by itself: {status}")))
    }

    /// Nothing more is said, so the program should end. The lines that weren't heard yet, and what went wrong.
    pub fn end(mut self, patience: Duration) -> (Vec<String>, Option<String>) {
        self.input = None;
        let trouble = program::wait(&mut self.child, patience);
        (self.lines.iter().collect(), trouble)
    }

    fn kill_and_wait(&mut self) {
        // It may have ended by itself.
        let _ = self.child.kill();
        let _ = self.child.wait();
    }
}

impl Drop for Talk {
    fn drop(&mut self) {
        self.kill_and_wait();
    }
}

/// Only whole lines: one that was being written when the program was killed wasn't said.
fn hand_on(output: ChildStdout, lines: Sender<String>) {
    let mut reader = BufReader::new(output);
    let mut bytes = Vec::new();
    while reader.read_until(b'\n', &mut bytes).is_ok_and(|count| count > 0) && bytes.pop() == Some(b'\n') {
        if lines.send(String::from_utf8_lossy(&bytes).into_owned()).is_err() {
            return;
        }
        bytes.clear();
    }
}

/// A path and the arguments that come first, separated by spaces.
pub fn read_command(command: &str) -> Result<(PathBuf, Vec<String>), String> {
    let mut words = command.split_whitespace().map(str::to_string);
    let path = words.next().ok_or("no program was named")?;
    Ok((path.into(), words.collect()))
}

#[cfg(test)]
mod tests {
    use super::*;

    fn talk(program: &str) -> Talk {
        Talk::start(Path::new(program), &[], Path::new("/")).expect("a program")
    }

    #[test]
    fn what_was_said_before_the_kill_is_heard() {
        let mut cat = talk("cat");
        cat.say("one");
        assert_eq!(cat.hear(Duration::from_secs(20)), Some("one".to_string()));
        cat.say("two");
        std::thread::sleep(Duration::from_millis(200));
        assert_eq!(cat.kill(), (vec!["two".to_string()], None));
    }

    #[test]
    fn a_program_that_ended_before_the_kill_is_found() {
        let mut ended = talk("false");
        assert_eq!(ended.hear(Duration::from_secs(20)), None);
        std::thread::sleep(Duration::from_millis(200));
        assert!(ended.kill().1.is_some());
    }

    #[test]
    fn the_end_of_the_input_is_the_end() {
        let mut cat = talk("cat");
        cat.say("one");
        assert_eq!(cat.end(Duration::from_secs(20)), (vec!["one".to_string()], None));
    }
}
