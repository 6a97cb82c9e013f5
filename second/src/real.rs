//! `house` on real files: lines in, `kill -9` at random moments, drive files removed and replaced.
//!
//! What is done comes from a script ([`crate::generate`]), read for `house`:
//!
//! | command | what is done |
//! |---|---|
//! | `cut 0 ..` | the program is killed between two lines |
//! | `cut N ..` | it is killed after the next line was written, at a random moment; an answer that came before counts |
//! | `lose I`, `replace I` | the file is removed, a blank one is made, as [`crate::drives::Drives`] allows |
//! | `mend whole` | `mend` until the answer is `whole` |
//! | `longest N`, `asked` | passed over: `house` doesn't have them |
//!
//! After a kill the program is started with the next line, so files come and go while it is off, too.
//! What was done and heard is a script with what was printed, which `second judge` takes. A kill is a `cut` in it.

use std::cell::Cell;
use std::fs::File;
use std::path::PathBuf;
use std::time::{Duration, Instant};

use crate::built::Built;
use crate::dice::Dice;
use crate::judge::{self, Judge};
use crate::pipes::{self, Talk};
use crate::program::{Checked, Failure};
use crate::scratch::Scratch;
use crate::script::{self, Choice, Command, DRIVES};

/// The longest line of bytes that `house` takes: that of the longest put in range.
const LONGEST: u64 = 5_243_414;
/// Files for larger drives can't be made everywhere.
const SECTORS_MOST: u64 = 1 << 20;
const SECTOR: u64 = 512;
/// One seed in so many has its files on a disk, where syncs take their time; the others in memory, where more are played.
const ON_DISK: u64 = 8;
/// How long an answer takes, until one was heard.
const FIRST_PACE: Duration = Duration::from_millis(1);

const KILL_BETWEEN: Command = Command::Cut { after: 0, choice: Choice::Seed(0) };
const KILL_WITHIN: Command = Command::Cut { after: 1, choice: Choice::Seed(0) };

/// `house`, and how it is held against the meaning.
pub struct Real {
    path: PathBuf,
    arguments: Vec<String>,
    pub built: Built,
    /// How long an answer may take.
    pub patience: Duration,
    /// About how long an answer takes: in memory and on a disk; while the program runs, and where it is started first.
    paces: Cell<[[Duration; 2]; 2]>,
}

/// Why a play ends early.
enum Stop {
    /// The judge doesn't allow what was heard.
    Wrong,
    Trouble(String),
}

impl From<String> for Stop {
    fn from(text: String) -> Stop {
        Stop::Trouble(text)
    }
}

impl Real {
    /// The command is a path and arguments, separated by spaces.
    pub fn new(command: &str, built: Built) -> Result<Real, String> {
        let (path, arguments) = pipes::read_command(command)?;
        // It is started in other folders.
        let path = std::path::absolute(path).map_err(|error| error.to_string())?;
        Ok(Real { path, arguments, built, patience: Duration::from_secs(30), paces: Cell::new([[FIRST_PACE; 2]; 2]) })
    }

    /// Plays a script on fresh drives. The seed chooses the moments of the kills, and where the files are.
    pub fn check(&self, text: &str, seed: u64) -> Result<Checked, String> {
        let mut play = Play::new(self, seed)?;
        let stopped = play.script(text).err();
        let Play { script, printed, .. } = play;
        let lines: Vec<&str> = printed.iter().map(String::as_str).collect();
        let verdict = judge::judge(self.built, &script::read(&script), &lines);
        let failure = match (stopped, &verdict.wrong) {
            (Some(Stop::Trouble(text)), _) => Some(Failure::Trouble(text)),
            (_, Some(wrong)) => Some(Failure::Wrong(wrong.clone())),
            (Some(Stop::Wrong), None) => return Err("the judge says one thing at first and another later".to_string()),
            (None, None) => None,
        };
        Ok(Checked { verdict, script, printed: lines.iter().map(|line| format!("{line}\n")).collect(), failure })
    }
}

/// One play of a script.
struct Play<'a> {
    real: &'a Real,
    folder: Scratch,
    sectors: u64,
    /// None while it is off.
    house: Option<Talk>,
    judge: Judge,
    kill_next: bool,
    dice: Dice,
    on_disk: bool,
    /// What was done, and what was heard.
    script: String,
    printed: Vec<String>,
}

impl<'a> Play<'a> {
    fn new(real: &'a Real, seed: u64) -> Result<Play<'a>, String> {
        let on_disk = seed % ON_DISK == 0;
        let folder = if on_disk { Scratch::on_disk()? } else { Scratch::in_memory()? };
        let mut play = Play {
            real,
            folder,
            sectors: script::SECTORS_LEAST,
            house: None,
            judge: Judge::new(real.built),
            kill_next: false,
            dice: Dice::new(seed),
            on_disk,
            script: String::new(),
            printed: Vec::new(),
        };
        play.make_drives()?;
        Ok(play)
    }

    fn script(&mut self, text: &str) -> Result<(), Stop> {
        self.show(&Command::Longest(LONGEST), None)?;
        for line in text.lines() {
            match script::commands(line).pop() {
                Some(command) => self.command(line, &command)?,
                // A blank line is passed over. If it isn't, the next answer is wrong, or there is one too many.
                None => self.blank(line)?,
            }
        }
        self.end()
    }

    fn blank(&mut self, line: &str) -> Result<(), Stop> {
        self.script += &format!("{line}\n");
        self.house()?.say(line);
        Ok(())
    }

    fn command(&mut self, line: &str, command: &Command) -> Result<(), Stop> {
        match command {
            Command::Drives(sectors) => self.set_sectors(*sectors),
            Command::Longest(_) | Command::Asked => Ok(()),
            Command::Cut { after: 0, .. } => self.kill(),
            Command::Cut { .. } => {
                self.kill_next = true;
                Ok(())
            }
            Command::Lose(index) => self.remove(*index),
            Command::Replace(index) => self.replace(*index),
            Command::MendWhole => self.mend_whole(),
            Command::Status | Command::Help => self.line(line, command),
            _ if std::mem::take(&mut self.kill_next) => self.line_with_kill(line, command),
            _ => self.line(line, command),
        }
    }

    /// Puts down what was done and heard, and asks the judge.
    fn show(&mut self, command: &Command, heard: Option<&str>) -> Result<(), Stop> {
        self.show_line(&command.text(), command, heard)
    }

    /// The same with the text of the command as it was said, white space and all.
    fn show_line(&mut self, line: &str, command: &Command, heard: Option<&str>) -> Result<(), Stop> {
        self.script += &format!("{line}\n");
        self.printed.extend(heard.map(str::to_string));
        match self.judge.take(command, heard) {
            Ok(_) => Ok(()),
            Err(_) => Err(Stop::Wrong),
        }
    }

    // ------------------------------------------------------------ lines and kills

    /// The running program, started if it is off.
    fn house(&mut self) -> Result<&mut Talk, String> {
        let house = match self.house.take() {
            Some(house) => house,
            None => Talk::start(&self.real.path, &self.real.arguments, self.folder.path())?,
        };
        Ok(self.house.insert(house))
    }

    fn line(&mut self, line: &str, command: &Command) -> Result<(), Stop> {
        let (patience, starts, start) = (self.real.patience, self.house.is_none(), Instant::now());
        let house = self.house()?;
        house.say(line);
        let Some(answer) = house.hear(patience) else {
            self.script += &format!("{line}\n");
            return Err(Stop::Trouble(format!("no answer to {line}, or none within {} seconds", patience.as_secs())));
        };
        self.set_pace(starts, start.elapsed());
        self.show_line(line, command, Some(&answer))
    }

    fn set_pace(&self, starts: bool, taken: Duration) {
        let mut paces = self.real.paces.get();
        let pace = &mut paces[usize::from(self.on_disk)][usize::from(starts)];
        *pace = (3 * *pace + taken) / 4;
        self.real.paces.set(paces);
    }

    /// The kill falls before the answer is due, or about then. What came until the kill is heard; if nothing came,
    /// the call is cut short.
    fn line_with_kill(&mut self, line: &str, command: &Command) -> Result<(), Stop> {
        let pace = self.real.paces.get()[usize::from(self.on_disk)][usize::from(self.house.is_none())];
        let moment = pace * self.dice.below(125) as u32 / 100;
        let house = self.house()?;
        house.say(line);
        wait_exactly(moment);
        let (came, trouble) = self.house.take().map_or((vec![], None), Talk::kill);
        let mut came = came.into_iter();
        match came.next() {
            Some(answer) => {
                self.show_line(line, command, Some(&answer))?;
                self.nothing_more(came, trouble)?;
                self.show(&KILL_BETWEEN, Some("cut"))
            }
            None => {
                self.show(&KILL_WITHIN, None)?;
                self.show_line(line, command, Some("cut"))?;
                self.nothing_more(came, trouble)
            }
        }
    }

    fn kill(&mut self) -> Result<(), Stop> {
        let (came, trouble) = self.house.take().map_or((vec![], None), Talk::kill);
        self.nothing_more(came.into_iter(), trouble)?;
        self.show(&KILL_BETWEEN, Some("cut"))
    }

    /// Lines that nothing was asked for are left at the end, where the judge sees them as too many.
    fn nothing_more(&mut self, came: impl Iterator<Item = String>, trouble: Option<String>) -> Result<(), Stop> {
        let count = self.printed.len();
        self.printed.extend(came);
        match trouble {
            Some(text) => Err(Stop::Trouble(text)),
            None if self.printed.len() > count => Err(Stop::Wrong),
            None => Ok(()),
        }
    }

    /// The judge turns down a `working` too many, so this ends.
    fn mend_whole(&mut self) -> Result<(), Stop> {
        loop {
            self.command("mend", &Command::Mend)?;
            if self.printed.last().is_none_or(|line| line != "working") {
                return Ok(());
            }
        }
    }

    /// Without more lines the program ends by itself, and well.
    fn end(&mut self) -> Result<(), Stop> {
        let Some(house) = self.house.take() else { return Ok(()) };
        let (came, trouble) = house.end(self.real.patience);
        self.nothing_more(came.into_iter(), trouble)
    }

    // ------------------------------------------------------------ drive files

    fn drive(&self, index: usize) -> PathBuf {
        self.folder.path().join(format!("drive{index}"))
    }

    fn make_blank(&self, index: usize) -> Result<(), String> {
        let path = self.drive(index);
        File::create(&path)
            .and_then(|file| file.set_len(self.sectors * SECTOR))
            .map_err(|error| format!("{}: {error}", path.display()))
    }

    fn make_drives(&mut self) -> Result<(), String> {
        (0..DRIVES).try_for_each(|index| self.make_blank(index))
    }

    /// Settings stand before all else, so nothing is on the drives yet.
    fn set_sectors(&mut self, sectors: u64) -> Result<(), Stop> {
        self.sectors = sectors.min(SECTORS_MOST);
        self.make_drives()?;
        self.show(&Command::Drives(self.sectors), None)
    }

    /// More than the house may count on isn't done to it.
    fn remove(&mut self, index: usize) -> Result<(), Stop> {
        let drives = self.judge.drives();
        if drives.is_gone(index) || !drives.may_lose(index) {
            return Ok(());
        }
        let path = self.drive(index);
        std::fs::remove_file(&path).map_err(|error| format!("{}: {error}", path.display()))?;
        self.show(&Command::Lose(index), None)
    }

    fn replace(&mut self, index: usize) -> Result<(), Stop> {
        if !self.judge.drives().may_replace(index) {
            return Ok(());
        }
        self.make_blank(index)?;
        self.show(&Command::Replace(index), None)
    }
}

/// A sleep may end too late, where an answer takes less than a tenth of a millisecond. So the last bit isn't slept.
fn wait_exactly(time: Duration) {
    let start = Instant::now();
    std::thread::sleep(time.saturating_sub(Duration::from_millis(1)));
    while start.elapsed() < time {
        std::hint::spin_loop();
    }
}
