//! Which calls are built, and the order of tests for a line: sections 3 and 8 of docs/MEANING.md.

use crate::lines::{self, Line};
use crate::meaning::{Answer, Call, House, Refusal};

/// How far the house has grown.
#[derive(Clone, Copy, Debug, PartialEq, Eq)]
pub enum Built {
    Nothing,
    Time,
    /// Make a room, drop a room, put, get with number 0, remove with number 0, look, time.
    Core,
    All,
}

impl Built {
    pub fn from_word(word: &str) -> Option<Built> {
        match word {
            "nothing" => Some(Built::Nothing),
            "time" => Some(Built::Time),
            "core" => Some(Built::Core),
            "all" => Some(Built::All),
            _ => None,
        }
    }

    pub fn word(self) -> &'static str {
        match self {
            Built::Nothing => "nothing",
            Built::Time => "time",
            Built::Core => "core",
            Built::All => "all",
        }
    }

    /// Whether anything of that kind (1 to 14) is built.
    pub fn has_kind(self, kind: u8) -> bool {
        match self {
            Built::Nothing => false,
            Built::Time => kind == 14,
            Built::Core => matches!(kind, 1..=6 | 14),
            Built::All => true,
        }
    }

    pub fn has_call(self, call: &Call) -> bool {
        let part_of_kind = match call {
            Call::Get { number, .. } | Call::Remove { number, .. } => self == Built::All || *number == 0,
            _ => true,
        };
        self.has_kind(call.kind()) && part_of_kind
    }
}

/// What doesn't change while a house stands: what is built, how large a drive is, how long a line may be.
#[derive(Clone, Copy, Debug)]
pub struct Ground {
    pub built: Built,
    pub sectors: u64,
    pub longest: u64,
}

impl Ground {
    /// The house after a line of bytes, and the line that answers it.
    pub fn answer_line(&self, house: &House, bytes: &[u8]) -> (House, Vec<u8>) {
        let line = lines::read_line(bytes, self.longest);
        let (after, answer) = self.answer(house, &line);
        (after, lines::write_answer(line.tag, &answer))
    }

    /// "The order of tests for a line".
    pub fn answer(&self, house: &House, line: &Line) -> (House, Answer) {
        match self.tests_before(house, line) {
            Err(refusal) => (house.clone(), Answer::TurnedAway(refusal)),
            Ok(call) => house.call(self.sectors, call),
        }
    }

    fn tests_before<'a>(&self, house: &House, line: &'a Line) -> Result<&'a Call, Refusal> {
        // 1: of that kind nothing is built, also if the line is no call.
        if line.kind.is_some_and(|kind| (1..=14).contains(&kind) && !self.built.has_kind(kind)) {
            return Err(Refusal::NotBuilt);
        }
        // 2: a well-formed call that isn't built.
        if line.call.as_ref().is_some_and(|call| !self.built.has_call(call)) {
            return Err(Refusal::NotBuilt);
        }
        // 3: no time told, numbers used up; also for lines that are no call, and for those without a kind.
        house.before(line.kind.unwrap_or(0))?;
        // 4: no call. What is left is answered by the meaning.
        line.call.as_ref().ok_or(Refusal::OutOfRange)
    }
}
