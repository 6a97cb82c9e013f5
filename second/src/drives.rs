//! Which drives are gone and which are weak: what the house may count on, by docs/REHEARSE.md.

use crate::script::DRIVES;

#[derive(Clone, Copy, Debug, Default, PartialEq, Eq)]
struct Drive {
    gone: bool,
    /// From its loss until the house has said whole at mending while it was there.
    weak: bool,
}

#[derive(Clone, Debug, Default, PartialEq, Eq)]
pub struct Drives {
    drives: [Drive; DRIVES],
}

impl Drives {
    /// Whether a drive may be lost now: only while fewer than two other drives are weak.
    pub fn may_lose(&self, index: usize) -> bool {
        let other_weak = self.drives.iter().enumerate().filter(|(i, drive)| *i != index && drive.weak).count();
        other_weak < 2
    }

    pub fn lose(&mut self, index: usize) {
        self.drives[index] = Drive { gone: true, weak: true };
    }

    /// Only a gone drive is replaced.
    pub fn may_replace(&self, index: usize) -> bool {
        self.drives[index].gone
    }

    pub fn replace(&mut self, index: usize) {
        self.drives[index].gone = false;
    }

    pub fn is_gone(&self, index: usize) -> bool {
        self.drives[index].gone
    }

    /// The house has said whole: the drives that are there aren't weak any more.
    pub fn whole(&mut self) {
        for drive in self.drives.iter_mut().filter(|drive| !drive.gone) {
            drive.weak = false;
        }
    }

    /// Whether a drive that is there still has to be mended.
    pub fn any_to_mend(&self) -> bool {
        self.drives.iter().any(|drive| drive.weak && !drive.gone)
    }

    /// The legal sets of losses from here, by pairs at most: none, one drive, or two. Gone drives aren't lost again.
    pub fn legal_losses(&self) -> Vec<Vec<usize>> {
        let mut sets = vec![vec![]];
        for first in (0..DRIVES).filter(|i| !self.is_gone(*i) && self.may_lose(*i)) {
            sets.push(vec![first]);
            let mut then = self.clone();
            then.lose(first);
            for second in (first + 1..DRIVES).filter(|i| !then.is_gone(*i) && then.may_lose(*i)) {
                sets.push(vec![first, second]);
            }
        }
        sets
    }
}
