//! Folders that are there while they are needed.

use std::path::{Path, PathBuf};
use std::sync::atomic::{AtomicU64, Ordering};

/// A folder of its own for temporary files, removed with all that is in it.
pub struct Scratch {
    path: PathBuf,
}

impl Scratch {
    /// In memory where there is such a place: files that are written over and over are slow on a disk.
    pub fn in_memory() -> Result<Scratch, String> {
        let path = PathBuf::from("/dev/shm").join(new_name());
        match std::fs::create_dir(&path) {
            Ok(()) => Ok(Scratch { path }),
            Err(_) => Scratch::on_disk(),
        }
    }

    /// Where temporary files belong, which is on a disk as a rule.
    pub fn on_disk() -> Result<Scratch, String> {
        let path = std::env::temp_dir().join(new_name());
        std::fs::create_dir_all(&path).map_err(|error| format!("{}: {error}", path.display()))?;
        Ok(Scratch { path })
    }

    pub fn path(&self) -> &Path {
        &self.path
    }
}

impl Drop for Scratch {
    fn drop(&mut self) {
        // Nothing depends on it; what can't be removed is left among the temporary files.
        let _ = std::fs::remove_dir_all(&self.path);
    }
}

fn new_name() -> String {
    static COUNT: AtomicU64 = AtomicU64::new(0);
    format!("second-{}-{}", std::process::id(), COUNT.fetch_add(1, Ordering::Relaxed))
}

#[cfg(test)]
mod tests {
    use super::*;

    #[test]
    fn nothing_is_left_behind() {
        for scratch in [Scratch::in_memory(), Scratch::on_disk()] {
            let scratch = scratch.expect("a folder");
            let path = scratch.path().to_path_buf();
            std::fs::write(path.join("file"), "text").expect("a file");
            drop(scratch);
            assert!(!path.exists());
        }
    }
}
