//! A test double of `rehearse`: plays a script on the house in memory.
//!
//! It stands on no drives. A cut is simulated: the call that is cut short is done or not, by the seed of the cut.
//! It can be told to do wrong in one of several ways, so that the comparing is tested both ways.

use crate::built::{Built, Ground};
use crate::dice::Dice;
use crate::drives::Drives;
use crate::lines;
use crate::meaning::{Answer, House};
use crate::script::{self, Choice, Command};

/// Ways of doing wrong. Each is something that a real house might do.
#[derive(Clone, Copy, Debug, PartialEq, Eq)]
pub enum Bug {
    /// A call that was answered is undone by the next power cut.
    Forgets,
    /// A call that was cut short and not done is done at the second power cut after it.
    Late,
    /// A call that was cut short takes its number, and leaves the rest undone.
    Torn,
    /// What was there is gone once two drives are lost.
    Fragile,
    /// A byte of every twentieth answer is another.
    Flips,
    /// Mending doesn't end.
    Endless,
    /// Prints `cut` where no cut was asked for.
    Eager,
    /// Never refuses a loss.
    Reckless,
    /// Leaves out every tenth line.
    Quiet,
    /// Says something after the end.
    Chatty,
    /// Answers 12 for telling the time.
    Unbuilt,
    /// The clock is a millisecond late: holds and spans end too late.
    Slow,
}

pub const BUGS: [(&str, Bug); 12] = [
    ("forgets", Bug::Forgets),
    ("late", Bug::Late),
    ("torn", Bug::Torn),
    ("fragile", Bug::Fragile),
    ("flips", Bug::Flips),
    ("endless", Bug::Endless),
    ("eager", Bug::Eager),
    ("reckless", Bug::Reckless),
    ("quiet", Bug::Quiet),
    ("chatty", Bug::Chatty),
    ("unbuilt", Bug::Unbuilt),
    ("slow", Bug::Slow),
];

/// The power failed before the asking was carried out.
struct PowerCut;

/// Made-up askings: what opening, a change, or a stretch needs. Reading needs one for each drive.
const ASKED_FULL: [u64; 3] = [6, 6, 6];
const ASKED_READ: [u64; 3] = [6, 0, 0];
/// How many stretches a drive that was replaced needs.
const STRETCHES_TO_MEND: u64 = 3;

struct Pending {
    left: u64,
    choice: Choice,
}

pub struct Player {
    ground: Ground,
    house: House,
    open: bool,
    drives: Drives,
    pending: Option<Pending>,
    last_cut: Choice,
    asked: [u64; 3],
    stretches_left: u64,
    bug: Option<Bug>,
    /// The house before the last answered call (for `Forgets`).
    earlier: House,
    /// The house with the call that was cut short and not done, and how many cuts ago that was (for `Late`).
    undone: Option<(House, u64)>,
    answers: u64,
    printed: Vec<String>,
}

/// What a script prints, without the line `script NAME`.
pub fn play(built: Built, bug: Option<Bug>, commands: &[Command]) -> Vec<String> {
    let mut player = Player::new(built, bug);
    for command in commands {
        player.command(command);
    }
    player.end()
}

impl Player {
    fn new(built: Built, bug: Option<Bug>) -> Player {
        Player {
            ground: Ground { built, sectors: script::SECTORS_LEAST, longest: script::LONGEST },
            house: House::blank(),
            open: false,
            drives: Drives::default(),
            pending: None,
            last_cut: Choice::Seed(0),
            asked: [0; 3],
            stretches_left: 0,
            bug,
            earlier: House::blank(),
            undone: None,
            answers: 0,
            printed: Vec::new(),
        }
    }

    fn end(mut self) -> Vec<String> {
        if self.bug == Some(Bug::Chatty) {
            self.print("good bye".to_string());
        }
        self.printed
    }

    fn print(&mut self, line: String) {
        self.answers += 1;
        if self.bug == Some(Bug::Quiet) && self.answers % 10 == 0 {
            return;
        }
        self.printed.push(line);
    }

    fn command(&mut self, command: &Command) {
        match command {
            Command::Drives(n) => self.ground.sectors = *n,
            Command::Longest(n) => self.ground.longest = *n,
            Command::In(_) | Command::Time(_) | Command::Text(_) => self.call(&command.line().unwrap_or_default()),
            Command::Mend => self.mend(),
            Command::MendWhole => self.mend_whole(),
            Command::Lose(i) => self.lose(*i),
            Command::Replace(i) => self.replace(*i),
            Command::Status => self.print(format!("a house in memory, the time is {}", self.house.time)),
            Command::Asked => self.print(format!("asked {} {} {}", self.asked[0], self.asked[1], self.asked[2])),
            Command::Help => self.print("help: a script, see docs/REHEARSE.md".to_string()),
            Command::Cut { after, choice } => self.ask_for_cut(*after, choice.clone()),
        }
    }

    // ------------------------------------------------------------ askings and cuts

    fn ask_for_cut(&mut self, after: u64, choice: Choice) {
        if after == 0 {
            self.last_cut = choice;
            self.power_cut();
        } else {
            self.pending = Some(Pending { left: after, choice });
        }
    }

    fn ask(&mut self, asked: [u64; 3]) -> Result<(), PowerCut> {
        let count: u64 = asked.iter().sum();
        match &mut self.pending {
            Some(pending) if pending.left < count => {
                self.last_cut = pending.choice.clone();
                Err(PowerCut)
            }
            Some(pending) => {
                pending.left -= count;
                self.add_asked(asked);
                Ok(())
            }
            None => {
                self.add_asked(asked);
                Ok(())
            }
        }
    }

    fn add_asked(&mut self, asked: [u64; 3]) {
        for (sum, more) in self.asked.iter_mut().zip(asked) {
            *sum += more;
        }
    }

    fn power_cut(&mut self) {
        self.pending = None;
        self.open = false;
        self.wrong_at_cut();
        self.print("cut".to_string());
    }

    /// Whether the call that was cut short is done: all old, all newest, or as the choice has it.
    fn is_done(&self) -> bool {
        match self.last_cut {
            Choice::Seed(0) | Choice::Bits(0) => false,
            Choice::Seed(1) => true,
            Choice::Seed(seed) => Dice::new(seed).one_in(2),
            Choice::Bits(bits) => bits & 1 == 1,
        }
    }

    fn open(&mut self) -> Result<(), PowerCut> {
        self.asked = [0; 3];
        if !self.open {
            self.ask(ASKED_FULL)?;
            self.open = true;
        }
        Ok(())
    }

    // ------------------------------------------------------------ commands

    fn call(&mut self, line: &[u8]) {
        if self.open().is_err() {
            return self.power_cut();
        }
        if self.bug == Some(Bug::Eager) && self.answers % 17 == 16 {
            return self.power_cut();
        }
        let (after, answer) = self.answer(line);
        let asked = match (after == self.house, lines::read_answer(&answer)) {
            (_, Some((_, Answer::TurnedAway(_)))) => [0; 3],
            (true, _) => ASKED_READ,
            (false, _) => ASKED_FULL,
        };
        if self.ask(asked).is_err() {
            self.cut_in_call(after);
            return self.power_cut();
        }
        self.earlier = std::mem::replace(&mut self.house, after);
        self.print(format!("out {}", lines::to_hex(&answer)));
    }

    fn cut_in_call(&mut self, after: House) {
        if self.bug == Some(Bug::Torn) && after.next != self.house.next {
            self.house.next = after.next;
        } else if self.is_done() {
            self.earlier = std::mem::replace(&mut self.house, after);
        } else {
            self.undone = Some((after, 0));
        }
    }

    fn mend(&mut self) {
        if self.open().is_err() || self.ask(ASKED_FULL).is_err() {
            return self.power_cut();
        }
        let word = if self.stretch() { "whole" } else { "working" };
        self.print(word.to_string());
    }

    fn mend_whole(&mut self) {
        if self.open().is_err() {
            return self.power_cut();
        }
        for count in 1.. {
            if self.ask(ASKED_FULL).is_err() {
                return self.power_cut();
            }
            if self.stretch() || count > 3 * self.ground.sectors {
                return self.print(format!("whole {count}"));
            }
        }
    }

    /// One stretch of mending; whether all is whole after it.
    fn stretch(&mut self) -> bool {
        if self.bug == Some(Bug::Endless) && self.drives.any_to_mend() {
            return false;
        }
        self.stretches_left = self.stretches_left.saturating_sub(1);
        if self.stretches_left == 0 {
            self.drives.whole();
        }
        self.stretches_left == 0
    }

    fn lose(&mut self, index: usize) {
        if !self.drives.may_lose(index) && self.bug != Some(Bug::Reckless) {
            return self.print("refused: two other drives are weak".to_string());
        }
        self.drives.lose(index);
        let gone = (0..script::DRIVES).filter(|i| self.drives.is_gone(*i)).count();
        if self.bug == Some(Bug::Fragile) && gone == 2 {
            self.house = self.earlier.clone();
        }
    }

    fn replace(&mut self, index: usize) {
        if !self.drives.may_replace(index) {
            return self.print("refused: the drive is there".to_string());
        }
        self.drives.replace(index);
        self.stretches_left = STRETCHES_TO_MEND;
    }

    // ------------------------------------------------------------ doing wrong

    fn answer(&mut self, line: &[u8]) -> (House, Vec<u8>) {
        let told_late = self.bug == Some(Bug::Slow) && line.len() == 17 && line[8] == 14 && line[16] > 1;
        let (after, mut answer) = if told_late {
            let earlier = [&line[..16], &[line[16] - 1]].concat();
            self.ground.answer_line(&self.house, &earlier)
        } else {
            self.ground.answer_line(&self.house, line)
        };
        if self.bug == Some(Bug::Unbuilt) && line.get(8) == Some(&14) {
            answer = lines::write_answer([0; 4], &Answer::TurnedAway(crate::meaning::Refusal::NotBuilt));
        }
        if self.bug == Some(Bug::Flips) && self.answers % 20 == 19 {
            let last = answer.len() - 1;
            answer[last] ^= 1;
        }
        (after, answer)
    }

    fn wrong_at_cut(&mut self) {
        if self.bug == Some(Bug::Forgets) {
            self.house = self.earlier.clone();
        }
        if self.bug == Some(Bug::Late) {
            self.undone = match self.undone.take() {
                Some((house, 0)) => Some((house, 1)),
                Some((house, _)) => {
                    self.house = house;
                    None
                }
                None => None,
            };
        }
    }
}
