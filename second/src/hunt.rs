//! Many scripts, one after the other: a fixed set for the tests, and new seeds for the soak.

use std::path::{Path, PathBuf};
use std::time::{Duration, Instant};

use crate::built::Built;
use crate::exhaustive::{self, Limits, BATCH};
use crate::generate;
use crate::judge::Tally;
use crate::program::{Checked, Program};
use crate::real::Real;
use crate::shrink;

/// How long a failing script is made smaller.
const SHRINKING: Duration = Duration::from_secs(30);
/// After so many failures the rest wouldn't say more.
const FAILURES_MOST: u64 = 5;
/// How often the progress is shown.
const PROGRESS: Duration = Duration::from_secs(10);

/// How long a hunt goes on, and when its progress was shown.
struct Clock {
    start: Instant,
    until: Instant,
    shown: Instant,
}

impl Clock {
    fn new(time: Duration) -> Clock {
        let now = Instant::now();
        Clock { start: now, until: now + time, shown: now }
    }

    fn show_progress(&mut self, counts: &impl std::fmt::Display) {
        if self.shown.elapsed() > PROGRESS {
            self.shown = Instant::now();
            println!("   {} s: {counts}", self.start.elapsed().as_secs());
        }
    }
}

/// What failed: shown, made smaller, and left in a folder.
struct Findings {
    folder: PathBuf,
    failed: u64,
    /// The lines of the smallest failing script so far.
    smallest: Option<usize>,
}

impl Findings {
    fn new(folder: &Path) -> Findings {
        forget_earlier(folder);
        Findings { folder: folder.to_path_buf(), failed: 0, smallest: None }
    }

    /// Leaves the script, what was printed, and the smallest script that fails when it is checked again.
    fn add(&mut self, checked: Checked, check: impl Fn(&str) -> Result<Checked, String>) -> Result<(), String> {
        let Some(failure) = &checked.failure else { return Ok(()) };
        self.failed += 1;
        println!("FAILED\n{failure}");
        // The first few say enough, and making scripts smaller takes time.
        if self.failed > FAILURES_MOST {
            return Ok(());
        }
        let name = format!("failing-{}", self.failed);
        self.leave(&name, &checked)?;
        let small = shrunk(checked, check);
        self.leave(&format!("{name}.small"), &small)?;
        let lines = small.script.lines().count();
        if let Some(failure) = &small.failure {
            println!("made smaller, {lines} lines: {}/{name}.small.script\n{failure}", self.folder.display());
        }
        if self.smallest.is_none_or(|smallest| lines < smallest) {
            self.smallest = Some(lines);
            self.leave("smallest", &small)?;
        }
        Ok(())
    }

    fn leave(&self, name: &str, checked: &Checked) -> Result<(), String> {
        std::fs::create_dir_all(&self.folder)
            .and_then(|()| std::fs::write(self.folder.join(format!("{name}.script")), &checked.script))
            .and_then(|()| std::fs::write(self.folder.join(format!("{name}.printed")), &checked.printed))
            .map_err(|error| format!("{}: {error}", self.folder.display()))
    }
}

/// What an earlier hunt left would be taken for what this one found.
fn forget_earlier(folder: &Path) {
    let Ok(files) = std::fs::read_dir(folder) else { return };
    for file in files.flatten() {
        let name = file.file_name().to_string_lossy().into_owned();
        if name.starts_with("failing-") || name.starts_with("smallest.") {
            // One that can't be removed is written over, or is seen to be old by its date.
            let _ = std::fs::remove_file(file.path());
        }
    }
}

/// The smallest that fails. The last that failed is the smallest, since each one that fails is gone on with.
fn shrunk(checked: Checked, check: impl Fn(&str) -> Result<Checked, String>) -> Checked {
    let (text, mut last) = (checked.script.clone(), checked);
    shrink::shrink(&text, Instant::now() + SHRINKING, |text| match check(text) {
        Ok(checked) if checked.failure.is_some() => {
            last = checked;
            true
        }
        _ => false,
    });
    last
}

// ---------------------------------------------------------------- rehearse

pub struct Hunt {
    program: Program,
    tally: Tally,
    clock: Clock,
    findings: Findings,
}

impl Hunt {
    /// Failing scripts are left in the folder.
    pub fn new(program: Program, time: Duration, folder: &Path) -> Hunt {
        Hunt { program, tally: Tally::default(), clock: Clock::new(time), findings: Findings::new(folder) }
    }

    pub fn tally(&self) -> &Tally {
        &self.tally
    }

    pub fn failed(&self) -> u64 {
        self.findings.failed
    }

    pub fn goes_on(&self) -> bool {
        Instant::now() < self.clock.until && self.findings.failed < FAILURES_MOST
    }

    /// Scripts of these seeds, as far as time allows.
    pub fn seeds(&mut self, mut seeds: std::ops::Range<u64>) -> Result<(), String> {
        while self.goes_on() {
            let texts: Vec<String> =
                seeds.by_ref().take(BATCH).map(|seed| generate::script(self.program.built, seed)).collect();
            if texts.is_empty() {
                break;
            }
            let checked = self.program.check_all(&texts)?;
            for checked in checked {
                self.tally.add(&checked.verdict.tally);
                self.clock.show_progress(&self.tally);
                self.fail(checked)?;
            }
        }
        Ok(())
    }

    /// Everything around one script, as far as time allows.
    pub fn exhaustive(&mut self, text: &str, limits: Limits) -> Result<(), String> {
        if !self.goes_on() {
            return Ok(());
        }
        // What fails is collected, since the program is in use while it comes.
        let mut failures = Vec::new();
        let (tally, clock) = (&mut self.tally, &mut self.clock);
        exhaustive::explore(&self.program, text, limits, |_, checked| {
            tally.add(&checked.verdict.tally);
            clock.show_progress(tally);
            failures.extend(checked.failure.is_some().then_some(checked));
            Instant::now() < clock.until && failures.len() < 3
        })?;
        failures.into_iter().try_for_each(|checked| self.fail(checked))
    }

    /// New seeds until the time is over, and every so often everything around a small script.
    pub fn soak(&mut self, first: u64) -> Result<(), String> {
        let mut seed = first;
        while self.goes_on() {
            self.seeds(seed..seed + 5 * BATCH as u64)?;
            seed += 5 * BATCH as u64;
            let text = generate::small_script(self.program.built, seed);
            self.exhaustive(&text, Limits { places: 60, choices: 4, variants: 400, seed })?;
        }
        println!("seeds {first} to {}", seed.saturating_sub(1));
        Ok(())
    }

    fn fail(&mut self, checked: Checked) -> Result<(), String> {
        let program = &self.program;
        self.findings.add(checked, |text| program.check(text))
    }
}

// ---------------------------------------------------------------- house

/// How often a script is played again before it counts as one that doesn't fail: moments of kills are never the same.
const PLAYS: u64 = 3;

/// `house` on real files, a script after the other.
pub struct RealHunt {
    house: Real,
    counts: RealCounts,
    clock: Clock,
    findings: Findings,
}

#[derive(Default)]
pub struct RealCounts {
    pub tally: Tally,
    /// Kills after a line was written and before its answer was heard.
    pub within: u64,
}

impl std::fmt::Display for RealCounts {
    fn fmt(&self, f: &mut std::fmt::Formatter) -> std::fmt::Result {
        let Tally { scripts, calls, built_calls, cuts, losses, replacements, stretches } = self.tally;
        write!(f, "{scripts} runs, {calls} calls, {built_calls} answered other than 12, {cuts} kills, ")?;
        write!(f, "{} of them within a call, {losses} removals, {replacements} replacements, ", self.within)?;
        write!(f, "{stretches} stretches")
    }
}

impl RealHunt {
    /// What failed is left in the folder.
    pub fn new(house: Real, time: Duration, folder: &Path) -> RealHunt {
        let (counts, clock) = (RealCounts::default(), Clock::new(time));
        RealHunt { house, counts, clock, findings: Findings::new(folder) }
    }

    pub fn counts(&self) -> &RealCounts {
        &self.counts
    }

    pub fn failed(&self) -> u64 {
        self.findings.failed
    }

    /// Scripts of seeds from this one on, until the time is over. At least one.
    pub fn seeds(&mut self, first: u64) -> Result<(), String> {
        for seed in first.. {
            let checked = self.house.check(&script_for_house(self.house.built, seed), seed)?;
            self.counts.tally.add(&checked.verdict.tally);
            self.counts.within += checked.verdict.cut_short.len() as u64;
            self.clock.show_progress(&self.counts);
            let house = &self.house;
            self.findings.add(checked, |text| check_often(house, text, seed))?;
            if Instant::now() > self.clock.until || self.findings.failed >= FAILURES_MOST {
                println!("seeds {first} to {seed}");
                break;
            }
        }
        Ok(())
    }
}

/// Most are short, of which many are played. Sixteen seeds come after each other with files in both places.
fn script_for_house(built: Built, seed: u64) -> String {
    match seed / 16 % 4 {
        0 => generate::script(built, seed),
        _ => generate::small_script_with_cut(built, seed),
    }
}

/// The first play that fails, or the last.
fn check_often(house: &Real, text: &str, seed: u64) -> Result<Checked, String> {
    let mut checked = house.check(text, seed)?;
    for play in 1..PLAYS {
        if checked.failure.is_some() {
            break;
        }
        checked = house.check(text, seed + play)?;
    }
    Ok(checked)
}
