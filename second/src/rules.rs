//! What a telling of the time does: section 5 of docs/MEANING.md.

use std::rc::Rc;

use crate::meaning::{Body, Room, Rule, Thing, Version};

/// Lets the rules of a room act on each of its things by itself. Uploads aren't touched.
pub fn act(room: &mut Room, now: u64) {
    let Room { keeps, rules, things, .. } = room;
    things.retain(|key, thing| {
        // If no rule fits, the thing stays exactly as it is.
        let Some(rule) = rule_that_counts(rules, key) else { return true };
        let versions = versions_after(&thing.versions, rule, *keeps, now);
        // Step 4: if no version is left, the thing goes.
        if versions.is_empty() {
            return false;
        }
        if versions != thing.versions {
            *thing = Rc::new(Thing { versions });
        }
        true
    });
}

/// The first rule whose beginning the key begins with. Only that one.
fn rule_that_counts<'a>(rules: &'a [Rule], key: &[u8]) -> Option<&'a Rule> {
    rules.iter().find(|rule| key.starts_with(&rule.beginning))
}

/// A span of 0 is never due. At exactly the time plus the span it isn't due yet.
fn is_due(span: u64, since: u64, now: u64) -> bool {
    span != 0 && since + span < now
}

/// Steps 1 to 3 for one thing. The versions come the latest first, and so they go.
fn versions_after(before: &[Version], rule: &Rule, keeps: bool, now: u64) -> Vec<Version> {
    let Some(latest) = before.first() else { return Vec::new() };
    let older = older_that_stay(before, rule, now);
    let taken = is_due(rule.lasts, latest.time, now) && latest.has_bytes() && !latest.is_held(now);
    let mark = Version { number: 0, body: Body::Mark, time: now, hold: 0 };
    // Step 2: what stands above the older versions that stay.
    let above = match (taken, keeps) {
        (false, _) => vec![latest.clone()],
        (true, true) => vec![mark, latest.clone()],
        (true, false) if older.is_empty() => vec![],
        (true, false) => vec![mark],
    };
    tidy(above.into_iter().chain(older).collect())
}

/// Step 1. Counted from the version right above as it stood before this telling, whether or not that one goes now.
fn older_that_stay(before: &[Version], rule: &Rule, now: u64) -> Vec<Version> {
    let goes = |above: &Version, version: &Version| is_due(rule.older_last, above.time, now) && !version.is_held(now);
    before.windows(2).filter(|pair| !goes(&pair[0], &pair[1])).map(|pair| pair[1].clone()).collect()
}

/// Step 3: a mark that is alone goes too.
fn tidy(versions: Vec<Version>) -> Vec<Version> {
    match versions.as_slice() {
        [alone] if !alone.has_bytes() => Vec::new(),
        _ => versions,
    }
}
