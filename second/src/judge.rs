//! A script held against what was printed.
//!
//! After a cut in a call there are two houses that may stand: with the call done, and without it.
//! Both are kept until an answer tells them apart; a house whose answer would have been another is dropped, for good.
//! So "whichever it was stays so" (section 9 of docs/MEANING.md) is tested by all answers that follow.

use crate::built::{Built, Ground};
use crate::drives::Drives;
use crate::lines;
use crate::meaning::House;
use crate::script::{self, Command, Placed};
use crate::words;

/// The most houses that are kept side by side. More would mean a script of cuts without an answer between them.
const HOUSES_MOST: usize = 4_096;

/// The first line that isn't allowed.
#[derive(Clone, Debug, PartialEq, Eq)]
pub struct Wrong {
    /// The line of the script, counted from 1, and its text; none if the script was at its end.
    pub command: Option<(usize, String)>,
    /// The line of what was printed, counted from 1.
    pub at: usize,
    pub heard: Option<String>,
    pub allowed: Vec<String>,
}

/// What a script did, for counting.
#[derive(Clone, Copy, Debug, Default, PartialEq, Eq)]
pub struct Tally {
    pub scripts: u64,
    pub calls: u64,
    /// Calls answered other than by 12.
    pub built_calls: u64,
    pub cuts: u64,
    pub losses: u64,
    pub replacements: u64,
    pub stretches: u64,
}

impl Tally {
    pub fn add(&mut self, other: &Tally) {
        self.scripts += other.scripts;
        self.calls += other.calls;
        self.built_calls += other.built_calls;
        self.cuts += other.cuts;
        self.losses += other.losses;
        self.replacements += other.replacements;
        self.stretches += other.stretches;
    }
}

impl std::fmt::Display for Tally {
    fn fmt(&self, f: &mut std::fmt::Formatter) -> std::fmt::Result {
        write!(
            f,
            "{} scripts, {} calls, {} answered other than 12, {} cuts, {} losses, {} replacements, {} stretches",
            self.scripts, self.calls, self.built_calls, self.cuts, self.losses, self.replacements, self.stretches
        )
    }
}

/// What would have been allowed instead.
type Allowed = Vec<String>;

/// Whether the line that was shown belonged to the command.
#[derive(Clone, Copy, Debug, PartialEq, Eq)]
pub enum Line {
    Used,
    Left,
}

/// Judges command by command. A driver of the real `house` can use it too: it shows `cut` where it killed the program.
pub struct Judge {
    ground: Ground,
    /// The houses that may stand. Never none, no two the same.
    houses: Vec<House>,
    drives: Drives,
    /// A cut was asked for and hasn't fallen yet.
    cut_pending: bool,
    /// Since the last loss, replacement or power cut.
    stretches: u64,
    pub tally: Tally,
}

impl Judge {
    pub fn new(built: Built) -> Judge {
        Judge {
            ground: Ground { built, sectors: script::SECTORS_LEAST, longest: script::LONGEST },
            houses: vec![House::blank()],
            drives: Drives::default(),
            cut_pending: false,
            stretches: 0,
            tally: Tally::default(),
        }
    }

    pub fn houses(&self) -> &[House] {
        &self.houses
    }

    pub fn drives(&self) -> &Drives {
        &self.drives
    }

    /// Judges a command by the next line that was printed, if there is one.
    pub fn take(&mut self, command: &Command, next: Option<&str>) -> Result<Line, Allowed> {
        match command {
            Command::Drives(n) => self.set(|ground| ground.sectors = *n),
            Command::Longest(n) => self.set(|ground| ground.longest = *n),
            Command::In(_) | Command::Time(_) | Command::Text(_) => {
                self.call(&command.line().unwrap_or_default(), next)
            }
            Command::Mend => self.mend(next),
            Command::MendWhole => self.mend_whole(next),
            Command::Lose(i) => self.lose(*i, next),
            Command::Replace(i) => self.replace(*i, next),
            Command::Status => words_line(next, "one line in words", |_| true),
            Command::Asked => words_line(next, "asked R W S", is_asked),
            Command::Help => words_line(next, "help ..", |line| line.starts_with("help")),
            Command::Cut { after: 0, .. } => self.cut_at_once(next),
            Command::Cut { .. } => {
                self.cut_pending = true;
                Ok(Line::Left)
            }
        }
    }

    fn set(&mut self, change: impl Fn(&mut Ground)) -> Result<Line, Allowed> {
        change(&mut self.ground);
        Ok(Line::Left)
    }

    // ------------------------------------------------------------ calls

    /// Tells which of the houses gave the answer. Where a cut was due, the silence may be one too.
    fn call(&mut self, line: &[u8], next: Option<&str>) -> Result<Line, Allowed> {
        self.tally.calls += 1;
        let outcomes: Vec<(House, Vec<u8>)> =
            self.houses.iter().map(|house| self.ground.answer_line(house, line)).collect();
        if next == Some("cut") && self.cut_pending {
            self.power_cut();
            return self.done_or_not(outcomes);
        }
        let heard = next.and_then(|text| text.strip_prefix("out ")).filter(|text| is_lower_hex(text));
        let heard = heard.and_then(lines::from_hex);
        let fits: Vec<House> = outcomes
            .iter()
            .filter(|(_, answer)| Some(answer) == heard.as_ref())
            .map(|(after, _)| after.clone())
            .collect();
        if fits.is_empty() {
            let answers = outcomes.iter().map(|(_, answer)| format!("out {}", lines::to_hex(answer)));
            return Err(self.or_cut(answers.collect()));
        }
        self.houses = without_doubles(fits);
        self.tally.built_calls += u64::from(heard.is_some_and(|answer| !is_not_built(&answer)));
        Ok(Line::Used)
    }

    /// A call that was cut short was done wholly or not at all. (If the cut fell in the opening, it wasn't done.)
    fn done_or_not(&mut self, outcomes: Vec<(House, Vec<u8>)>) -> Result<Line, Allowed> {
        let done = outcomes.into_iter().map(|(after, _)| after);
        self.houses = without_doubles(self.houses.iter().cloned().chain(done).collect());
        if self.houses.len() > HOUSES_MOST {
            return Err(vec!["an answer: too many houses may stand, which this program doesn't follow".to_string()]);
        }
        Ok(Line::Used)
    }

    fn or_cut(&self, mut allowed: Allowed) -> Allowed {
        allowed.sort();
        allowed.dedup();
        if self.cut_pending {
            allowed.push("cut".to_string());
        }
        allowed
    }

    // ------------------------------------------------------------ cuts

    fn power_cut(&mut self) {
        self.cut_pending = false;
        self.stretches = 0;
        self.tally.cuts += 1;
    }

    /// Nothing was being done, so nothing is changed.
    fn cut_at_once(&mut self, next: Option<&str>) -> Result<Line, Allowed> {
        if next != Some("cut") {
            return Err(vec!["cut".to_string()]);
        }
        self.power_cut();
        Ok(Line::Used)
    }

    // ------------------------------------------------------------ mending

    /// `working` is allowed before the stretch that is as many as a drive has sectors.
    fn may_still_work(&self, stretch: u64) -> bool {
        stretch < self.ground.sectors
    }

    fn mend(&mut self, next: Option<&str>) -> Result<Line, Allowed> {
        let stretch = self.stretches + 1;
        match next {
            // Nothing is changed by a cut in an opening or in mending.
            Some("cut") if self.cut_pending => self.power_cut(),
            Some("whole") => self.said_whole(1),
            Some("working") if self.may_still_work(stretch) => self.stretched(1),
            _ => {
                let mut allowed = vec!["whole".to_string()];
                allowed.extend(self.may_still_work(stretch).then(|| "working".to_string()));
                return Err(self.or_cut(allowed));
            }
        }
        Ok(Line::Used)
    }

    /// All stretches but the last said `working`, so the last but one must have been allowed to.
    fn mend_whole(&mut self, next: Option<&str>) -> Result<Line, Allowed> {
        if next == Some("cut") && self.cut_pending {
            self.power_cut();
            return Ok(Line::Used);
        }
        let most = self.ground.sectors.saturating_sub(self.stretches).max(1);
        let count = next.and_then(|line| line.strip_prefix("whole ")).and_then(script::number);
        match count {
            Some(count) if (1..=most).contains(&count) => {
                self.said_whole(count);
                Ok(Line::Used)
            }
            _ => Err(self.or_cut(vec![format!("whole K, K from 1 to {most}")])),
        }
    }

    fn stretched(&mut self, count: u64) {
        self.stretches += count;
        self.tally.stretches += count;
    }

    fn said_whole(&mut self, count: u64) {
        self.stretched(count);
        self.drives.whole();
    }

    // ------------------------------------------------------------ losses and replacements

    fn lose(&mut self, index: usize, next: Option<&str>) -> Result<Line, Allowed> {
        if !self.drives.may_lose(index) {
            return words_line(next, "refused ..", |line| line.starts_with("refused"));
        }
        self.drives.lose(index);
        self.stretches = 0;
        self.tally.losses += 1;
        Ok(Line::Left)
    }

    fn replace(&mut self, index: usize, next: Option<&str>) -> Result<Line, Allowed> {
        if !self.drives.may_replace(index) {
            return words_line(next, "refused ..", |line| line.starts_with("refused"));
        }
        self.drives.replace(index);
        self.stretches = 0;
        self.tally.replacements += 1;
        Ok(Line::Left)
    }
}

fn words_line(next: Option<&str>, shape: &str, fits: impl Fn(&str) -> bool) -> Result<Line, Allowed> {
    match next {
        Some(line) if fits(line) => Ok(Line::Used),
        _ => Err(vec![shape.to_string()]),
    }
}

fn is_asked(line: &str) -> bool {
    let words: Vec<&str> = line.split(' ').collect();
    words.len() == 4 && words[0] == "asked" && words[1..].iter().all(|word| script::number(word).is_some())
}

fn is_lower_hex(text: &str) -> bool {
    text.bytes().all(|byte| matches!(byte, b'0'..=b'9' | b'a'..=b'f'))
}

/// Turned away by 12.
fn is_not_built(answer: &[u8]) -> bool {
    answer.len() == 10 && answer[8..] == [0, 12]
}

fn without_doubles(houses: Vec<House>) -> Vec<House> {
    let mut kept: Vec<House> = Vec::new();
    for house in houses {
        if !kept.contains(&house) {
            kept.push(house);
        }
    }
    kept
}

// ---------------------------------------------------------------- whole scripts

/// What each command of a script printed, and how the judge stood after it.
pub struct Verdict {
    pub tally: Tally,
    /// The indices of the commands that were cut short (not `cut 0`, which cuts nothing short), and the drives then.
    pub cut_short: Vec<(usize, Drives)>,
    pub wrong: Option<Wrong>,
}

/// Judges what a script printed, without the line `script NAME` before it.
pub fn judge(built: Built, placed: &[Placed], printed: &[&str]) -> Verdict {
    let mut judge = Judge::new(built);
    judge.tally.scripts = 1;
    let mut cut_short = Vec::new();
    let mut at = 0;
    for (index, Placed { line, command }) in placed.iter().enumerate() {
        let next = printed.get(at).copied();
        match judge.take(command, next) {
            Ok(Line::Left) => {}
            Ok(Line::Used) => {
                let short = next == Some("cut") && !matches!(command, Command::Cut { .. } | Command::Status);
                cut_short.extend(short.then(|| (index, judge.drives.clone())));
                at += 1;
            }
            Err(allowed) => {
                let wrong = wrong(Some((*line, command.text())), at, next, allowed);
                return Verdict { tally: judge.tally, cut_short, wrong: Some(wrong) };
            }
        }
    }
    let wrong = printed.get(at).map(|line| wrong(None, at, Some(line), vec!["nothing more".to_string()]));
    Verdict { tally: judge.tally, cut_short, wrong }
}

fn wrong(command: Option<(usize, String)>, at: usize, heard: Option<&str>, allowed: Allowed) -> Wrong {
    Wrong { command, at: at + 1, heard: heard.map(str::to_string), allowed }
}

/// Judges texts. A first line `script NAME` in what was printed is passed over.
pub fn judge_texts(built: Built, script_text: &str, printed: &str) -> Verdict {
    let lines: Vec<&str> = printed.lines().collect();
    let start = usize::from(lines.first().is_some_and(|line| line.starts_with("script ")));
    judge(built, &script::read(script_text), &lines[start..])
}

// ---------------------------------------------------------------- messages

/// Long lines are shown in part: the file has them whole.
fn shortened(text: &str) -> String {
    match text.char_indices().nth(160) {
        Some((end, _)) => format!("{}.. ({} characters)", &text[..end], text.len()),
        None => text.to_string(),
    }
}

/// What a command or an answer says, where it is made of bytes.
fn in_words(text: &str) -> String {
    let said = if let Some(digits) = text.strip_prefix("in ") {
        lines::from_hex(digits).map(|bytes| words::show_line(&bytes))
    } else if let Some(digits) = text.strip_prefix("out ") {
        lines::from_hex(digits)
            .and_then(|bytes| lines::read_answer(&bytes))
            .map(|(_, answer)| words::show_answer(&answer))
    } else {
        None
    };
    said.map_or(String::new(), |said| format!("   [{}]", shortened(&said)))
}

impl std::fmt::Display for Wrong {
    fn fmt(&self, f: &mut std::fmt::Formatter) -> std::fmt::Result {
        let show = |text: &str| shortened(text) + &in_words(text);
        writeln!(f, "not allowed: line {} of what was printed", self.at)?;
        match &self.command {
            Some((line, text)) => writeln!(f, "  command  {}   (line {line} of the script)", show(text))?,
            None => writeln!(f, "  command  none: the script was at its end")?,
        }
        writeln!(f, "  printed  {}", self.heard.as_deref().map_or("nothing more".to_string(), show))?;
        for (index, allowed) in self.allowed.iter().enumerate() {
            writeln!(f, "  {}  {}", if index == 0 { "allowed" } else { "     or" }, show(allowed))?;
        }
        Ok(())
    }
}
