//! The smallest failing script that can be found, by removing lines and by making cuts simpler.

use std::time::Instant;

use crate::script::{self, Choice, Command};

/// Makes a failing script smaller as long as it fails and there is time.
pub fn shrink(text: &str, until: Instant, mut fails: impl FnMut(&str) -> bool) -> String {
    let mut lines: Vec<String> = text.lines().map(str::to_string).collect();
    let mut still_fails = |lines: &[String]| Instant::now() < until && fails(&joined(lines));
    loop {
        let before = lines.clone();
        remove_lines(&mut lines, &mut still_fails);
        simplify_cuts(&mut lines, &mut still_fails);
        if lines == before {
            return joined(&lines);
        }
    }
}

fn joined(lines: &[String]) -> String {
    lines.iter().map(|line| format!("{line}\n")).collect()
}

/// Removes longer stretches of lines first, then shorter ones, down to single lines.
fn remove_lines(lines: &mut Vec<String>, still_fails: &mut impl FnMut(&[String]) -> bool) {
    let mut size = lines.len().next_power_of_two() / 2;
    while size > 0 {
        // From the end, since what follows the failure goes at once.
        let mut end = lines.len();
        while end > 0 {
            let start = end.saturating_sub(size);
            let fewer = [&lines[..start], &lines[end..]].concat();
            if still_fails(&fewer) {
                *lines = fewer;
            }
            end = start;
        }
        size /= 2;
    }
}

/// Earlier cuts, and all old or all newest instead of a seed.
fn simplify_cuts(lines: &mut [String], still_fails: &mut impl FnMut(&[String]) -> bool) {
    for index in 0..lines.len() {
        for simpler in simpler_cuts(&lines[index]) {
            let before = std::mem::replace(&mut lines[index], simpler);
            if still_fails(lines) {
                break;
            }
            lines[index] = before;
        }
    }
}

fn simpler_cuts(line: &str) -> Vec<String> {
    let commands = script::commands(line);
    let [Command::Cut { after, choice }] = commands.as_slice() else { return Vec::new() };
    let mut simpler = Vec::new();
    for fewer in [0, after / 2, after.saturating_sub(1)] {
        if fewer < *after {
            simpler.push(Command::Cut { after: fewer, choice: choice.clone() });
        }
    }
    if !matches!(choice, Choice::Seed(0 | 1)) {
        simpler.extend([0, 1].map(|seed| Command::Cut { after: *after, choice: Choice::Seed(seed) }));
    }
    simpler.iter().map(Command::text).collect()
}
