//! Every asking of a script as the place of a cut, several choices of sectors each, every legal loss after it,
//! then everything read back.

use crate::built::Built;
use crate::dice::Dice;
use crate::drives::Drives;
use crate::generate;
use crate::program::{Checked, Program};
use crate::script::{self, Command};

/// How much is tried. What is more than this is chosen by the seed.
#[derive(Clone, Copy, Debug)]
pub struct Limits {
    pub places: usize,
    pub choices: usize,
    /// Variants in all, for each script.
    pub variants: usize,
    pub seed: u64,
}

/// How many scripts go into one run of the program.
pub const BATCH: usize = 40;

/// A place in a script where the power can fail.
struct Place {
    /// Askings that are carried out before.
    after: u64,
    /// The commands up to the one that is cut short, and those that follow it.
    before: Vec<Command>,
    rest: Vec<Command>,
    drives: Drives,
}

struct Base {
    settings: Vec<Command>,
    commands: Vec<Command>,
    read_back: Vec<Command>,
}

impl Base {
    fn new(built: Built, text: &str) -> Base {
        let read_back = generate::read_back(built, text).join("\n");
        let (settings, commands) = script::commands(text).into_iter().partition(Command::is_setting);
        Base { settings, commands, read_back: script::commands(&read_back) }
    }

    fn text(&self, parts: &[&[Command]]) -> String {
        script::write(&self.settings) + &parts.iter().map(|part| script::write(part)).collect::<String>()
    }
}

/// Goes through a script that has no cuts of its own. Each script that is played is handed on, judged.
/// Stops early when it is told so by `false`.
pub fn explore(
    program: &Program,
    text: &str,
    limits: Limits,
    mut hand_on: impl FnMut(&str, Checked) -> bool,
) -> Result<(), String> {
    let base = Base::new(program.built, text);
    let mut dice = Dice::new(limits.seed);
    let total = count_askings(program, &base)?;
    let afters = some_of(&mut dice, (0..=total).collect(), limits.places);
    let mut go_on = true;
    let places = find_places(program, &base, &afters, |text, checked| go_on &= hand_on(text, checked))?;
    let variants = places.iter().flat_map(|place| variants(&base, place, limits.choices, &mut dice)).collect();
    let variants = some_of(&mut dice, variants, limits.variants);
    for batch in variants.chunks(BATCH) {
        if !go_on {
            return Ok(());
        }
        for (text, checked) in batch.iter().zip(program.check_all(batch)?) {
            go_on &= hand_on(text, checked);
        }
    }
    Ok(())
}

/// At least as many askings as the script needs. A command that asks nothing repeats the count of the one before it,
/// so this may be too many; the places beyond the end are then found to be none.
fn count_askings(program: &Program, base: &Base) -> Result<u64, String> {
    let with_asked = base.commands.iter().flat_map(|command| [command.clone(), Command::Asked]);
    let text = base.text(&[&with_asked.collect::<Vec<_>>()]);
    let output = program.printed(&text)?;
    let counts = output.lines().filter_map(|line| line.strip_prefix("asked "));
    Ok(counts.flat_map(|words| words.split(' ').filter_map(script::number).collect::<Vec<_>>()).sum())
}

/// Plays the script with a cut at each place, to see which command is cut short there.
fn find_places(
    program: &Program,
    base: &Base,
    afters: &[u64],
    mut hand_on: impl FnMut(&str, Checked),
) -> Result<Vec<Place>, String> {
    let mut places = Vec::new();
    for batch in afters.chunks(BATCH) {
        let cut = |after: &u64| Command::Cut { after: *after, choice: script::Choice::Seed(0) };
        let texts: Vec<String> =
            batch.iter().map(|after| base.text(&[&[cut(after)], &base.commands, &base.read_back])).collect();
        for ((after, text), checked) in batch.iter().zip(&texts).zip(program.check_all(&texts)?) {
            places.extend(place(base, *after, &checked));
            hand_on(text, checked);
        }
    }
    Ok(places)
}

fn place(base: &Base, after: u64, checked: &Checked) -> Option<Place> {
    if after == 0 {
        let rest = base.commands.clone();
        return Some(Place { after, before: vec![], rest, drives: Drives::default() });
    }
    let (index, drives) = checked.verdict.cut_short.first()?;
    // The settings and the cut come before the commands. Beyond the script's own end it is the reading back that is cut.
    let end = index.checked_sub(base.settings.len() + 1)? + 1;
    let before = base.commands.get(..end)?.to_vec();
    Some(Place { after, before, rest: base.commands[end..].to_vec(), drives: drives.clone() })
}

/// All that is tried with a cut at a place.
fn variants(base: &Base, place: &Place, choices: usize, dice: &mut Dice) -> Vec<String> {
    let mut texts = Vec::new();
    for choice in some_choices(dice, choices) {
        let cut = script::commands(&format!("cut {} {choice}", place.after));
        for losses in place.drives.legal_losses() {
            let lose: Vec<Command> = losses.iter().map(|index| Command::Lose(*index)).collect();
            let parts: [&[Command]; 6] = [&cut, &place.before, &lose, &base.read_back, &place.rest, &base.read_back];
            texts.push(base.text(&parts));
            texts.extend(worse(base, place, &cut, &losses, dice));
        }
    }
    texts
}

/// After the losses: a second cut, in the opening or in what follows; or new drives, mending, and the loss of others.
fn worse(base: &Base, place: &Place, cut: &[Command], losses: &[usize], dice: &mut Dice) -> Option<String> {
    let lose: Vec<Command> = losses.iter().map(|index| Command::Lose(*index)).collect();
    match dice.below(4) {
        0 => {
            let after = dice.between(1, 24);
            let second = script::commands(&format!("cut {after} {}", some_choices(dice, 1).concat()));
            Some(base.text(&[cut, &place.before, &second, &lose, &base.read_back, &place.rest, &base.read_back]))
        }
        1 if !losses.is_empty() => {
            let mut drives = place.drives.clone();
            losses.iter().for_each(|index| drives.lose(*index));
            let gone: Vec<usize> = (0..script::DRIVES).filter(|index| drives.is_gone(*index)).collect();
            let mut mended: Vec<Command> = gone.iter().map(|index| Command::Replace(*index)).collect();
            mended.push(Command::MendWhole);
            let others = (0..script::DRIVES).filter(|index| !gone.contains(index));
            mended.extend(others.take(2).map(Command::Lose));
            Some(base.text(&[cut, &place.before, &lose, &mended, &base.read_back, &place.rest, &base.read_back]))
        }
        _ => None,
    }
}

/// All old, all newest, then choices of single sectors and seeds. Bits are written with the digits 0 and 1 only (see docs/REHEARSE.md).
fn some_choices(dice: &mut Dice, count: usize) -> Vec<String> {
    let mut choices = vec!["0".to_string(), "1".to_string()];
    for bits in [
        "1", "10", "100", "1000", "10000", "100000", "11", "110", "11000", "110000", "101010", "10101", "111", "111000",
    ] {
        choices.push(format!("bits {bits}"));
    }
    choices.extend((0..6).map(|_| dice.between(2, 1_000_000).to_string()));
    some_of(dice, choices, count)
}

/// That many at most, by chance, in the order in which they stood.
fn some_of<T>(dice: &mut Dice, mut all: Vec<T>, most: usize) -> Vec<T> {
    while all.len() > most.max(1) {
        let excess = all.len() - most.max(1);
        // Each is left out with the chance that makes about the right number; what is still too many goes next time.
        let (total, mut left_out) = (all.len() as u64, 0);
        all.retain(|_| {
            let goes = left_out < excess && dice.below(total) < excess as u64;
            left_out += usize::from(goes);
            !goes
        });
    }
    all
}

#[cfg(test)]
mod tests {
    use super::*;

    #[test]
    fn some_of_all_keeps_the_order_and_the_number() {
        let chosen = some_of(&mut Dice::new(3), (0..1_000).collect::<Vec<_>>(), 90);
        assert_eq!(chosen.len(), 90);
        assert!(chosen.windows(2).all(|pair| pair[0] < pair[1]));
        assert_eq!(some_of(&mut Dice::new(3), vec![1, 2, 3], 5), vec![1, 2, 3]);
    }
}
