//! Running `rehearse` (or its test double) on scripts, and judging what it prints.

use std::io::Read;
use std::path::PathBuf;
use std::process::{Child, Command as Process, Stdio};
use std::time::{Duration, Instant};

use crate::built::Built;
use crate::judge::{self, Verdict, Wrong};
use crate::pipes;
use crate::scratch::Scratch;
use crate::script;

/// A program that plays scripts, and how it is held against the meaning.
pub struct Program {
    path: PathBuf,
    arguments: Vec<String>,
    pub built: Built,
    /// How long one run may take before it counts as not ending.
    pub patience: Duration,
    folder: Scratch,
}

/// Why a script failed.
#[derive(Clone, Debug)]
pub enum Failure {
    Wrong(Wrong),
    /// The program didn't end, or ended badly.
    Trouble(String),
}

impl std::fmt::Display for Failure {
    fn fmt(&self, f: &mut std::fmt::Formatter) -> std::fmt::Result {
        match self {
            Failure::Wrong(wrong) => write!(f, "{wrong}"),
            Failure::Trouble(text) => writeln!(f, "{text}"),
        }
    }
}

/// One script, judged. The texts may be left out where nothing failed.
pub struct Checked {
    pub verdict: Verdict,
    pub script: String,
    pub printed: String,
    pub failure: Option<Failure>,
}

/// What a run printed, and what went wrong with it as a run.
struct Ran {
    output: String,
    trouble: Option<String>,
}

impl Program {
    /// The command is a path and arguments that come before the scripts, separated by spaces.
    pub fn new(command: &str, built: Built) -> Result<Program, String> {
        let (path, arguments) = pipes::read_command(command)?;
        let patience = Duration::from_secs(120);
        Ok(Program { path, arguments, built, patience, folder: Scratch::in_memory()? })
    }

    /// Whether it answers `help` as `rehearse` does once it is there.
    pub fn answers_help(&self) -> bool {
        let Ok(file) = self.write_script(0, "help\n") else { return false };
        let ran = self.run(&[file]);
        ran.is_ok_and(|ran| ran.output.lines().any(|line| line.starts_with("help")))
    }

    fn write_script(&self, index: usize, text: &str) -> Result<PathBuf, String> {
        let file = self.folder.path().join(format!("{index}.script"));
        std::fs::write(&file, text).map_err(|error| format!("{}: {error}", file.display()))?;
        Ok(file)
    }

    fn run(&self, files: &[PathBuf]) -> Result<Ran, String> {
        let mut child = Process::new(&self.path)
            .args(&self.arguments)
            .args(files)
            .stdin(Stdio::null())
            .stdout(Stdio::piped())
            .stderr(Stdio::null())
            .spawn()
            .map_err(|error| format!("{}: {error}", self.path.display()))?;
        let Some(mut pipe) = child.stdout.take() else { return Err("no pipe from the program".to_string()) };
        let reader = std::thread::spawn(move || {
            let mut bytes = Vec::new();
            // What can't be read is missing from the output, which the judge then sees.
            let _ = pipe.read_to_end(&mut bytes);
            bytes
        });
        let trouble = wait(&mut child, self.patience);
        let bytes = reader.join().map_err(|_| "the reader of the output failed".to_string())?;
        Ok(Ran { output: String::from_utf8_lossy(&bytes).into_owned(), trouble })
    }

    /// Runs all the scripts in one run and judges each.
    /// If the run goes wrong, those that it didn't finish are run again, each alone, so that only the guilty one is blamed.
    pub fn check_all(&self, texts: &[String]) -> Result<Vec<Checked>, String> {
        let files = texts.iter().enumerate().map(|(index, text)| self.write_script(index, text));
        let files: Vec<PathBuf> = files.collect::<Result<_, _>>()?;
        let ran = self.run(&files)?;
        let outputs = split(&ran.output);
        let finished = if ran.trouble.is_some() { outputs.len().saturating_sub(1) } else { outputs.len() };
        let mut checked = Vec::new();
        for (index, text) in texts.iter().enumerate() {
            let printed = outputs.get(index).map_or(&[][..], |lines| lines);
            if index < finished {
                checked.push(self.judged(text, printed, None));
            } else if texts.len() == 1 {
                checked.push(self.judged(text, printed, ran.trouble.clone()));
            } else {
                checked.push(self.check(text)?);
            }
        }
        Ok(checked)
    }

    /// One script in a run of its own.
    pub fn check(&self, text: &str) -> Result<Checked, String> {
        let mut checked = self.check_all(&[text.to_string()])?;
        checked.pop().ok_or("nothing was checked".to_string())
    }

    fn judged(&self, text: &str, printed: &[&str], trouble: Option<String>) -> Checked {
        let verdict = judge::judge(self.built, &script::read(text), printed);
        let failure = match (trouble, &verdict.wrong) {
            (Some(trouble), _) => Some(Failure::Trouble(trouble)),
            (None, Some(wrong)) => Some(Failure::Wrong(wrong.clone())),
            (None, None) => None,
        };
        let (script, printed) = match failure {
            Some(_) => (text.to_string(), printed.join("\n") + "\n"),
            None => (String::new(), String::new()),
        };
        Checked { verdict, script, printed, failure }
    }

    /// What a script prints, not judged.
    pub fn printed(&self, text: &str) -> Result<String, String> {
        let file = self.write_script(0, text)?;
        Ok(self.run(&[file])?.output)
    }
}

/// Waits for the end, but not for ever. What went wrong, if anything.
pub fn wait(child: &mut Child, patience: Duration) -> Option<String> {
    let start = Instant::now();
    let mut pause = Duration::from_micros(200);
    loop {
        match child.try_wait() {
            Ok(Some(status)) if status.success() => return None,
            Ok(Some(status)) => return Some(format!("the program ended badly: {status}")),
            Ok(None) if start.elapsed() > patience => {
                let _ = child.kill();
                let _ = child.wait();
                return Some(format!("the program didn't end within {} seconds", patience.as_secs()));
            }
            Ok(None) => std::thread::sleep(pause),
            Err(error) => return Some(format!("the program can't be waited for: {error}")),
        }
        pause = (pause * 2).min(Duration::from_millis(10));
    }
}

/// The lines of each script, which come after its line `script NAME`.
fn split(output: &str) -> Vec<Vec<&str>> {
    let mut scripts: Vec<Vec<&str>> = Vec::new();
    for line in output.lines() {
        match scripts.last_mut() {
            _ if line.starts_with("script ") => scripts.push(Vec::new()),
            Some(lines) => lines.push(line),
            // Before the first `script NAME` nothing should be said; it belongs to no script.
            None => {}
        }
    }
    scripts
}
