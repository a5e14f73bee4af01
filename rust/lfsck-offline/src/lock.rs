//! The lock on a case: many readers, or one writer. It is a lock of the operating system on the
//! directory itself, so that a case that cannot be written can still be read.

use std::fs::{self, File, TryLockError};
use std::os::unix::fs::MetadataExt;
use std::path::Path;
use std::thread;
use std::time::{Duration, Instant};

use crate::disk::trouble;
use crate::outcome::Failure;

/// So long one waits for the others.
const PATIENCE: Duration = Duration::from_secs(1);
/// So often one looks meanwhile.
const PAUSE: Duration = Duration::from_millis(10);

/// With whom a case is open.
#[derive(Clone, Copy, Debug, PartialEq, Eq)]
pub enum Share {
    /// With others who read.
    Readers,
    /// With nobody.
    Nobody,
}

/// Locks a directory, or changes the lock that this process has on it.
pub fn lock(opened: &File, directory: &Path, share: Share) -> Result<(), Failure> {
    let started = Instant::now();
    loop {
        let tried = match share {
            Share::Readers => opened.try_lock_shared(),
            Share::Nobody => opened.try_lock(),
        };
        match tried {
            Ok(()) => return Ok(()),
            Err(TryLockError::WouldBlock) if started.elapsed() < PATIENCE => thread::sleep(PAUSE),
            Err(TryLockError::WouldBlock) => return Err(in_the_way(opened, directory)),
            Err(TryLockError::Error(error)) => return Err(trouble(directory, &error)),
        }
    }
}

/// Who has the case open, as far as the system tells.
fn in_the_way(opened: &File, directory: &Path) -> Failure {
    let locks = fs::read_to_string("/proc/locks").unwrap_or_default();
    let metadata = opened.metadata();
    let place = metadata.map_or(String::new(), |it| place(it.dev(), it.ino()));
    let named: Vec<String> = holders(&locks, &place).map(name).collect();
    let who = match named.len() {
        0 => "which one cannot be told here".to_string(),
        _ => named.join(", "),
    };
    let directory = directory.display();
    Failure::files(format!(
        "{directory}: another process has this case open: {who}"
    ))
}

/// How the system's list of locks writes a file.
fn place(device: u64, inode: u64) -> String {
    let major = (device >> 8) & 0xfff | (device >> 32) & 0xffff_f000;
    let minor = device & 0xff | (device >> 12) & 0xffff_ff00;
    format!("{major:02x}:{minor:02x}:{inode}")
}

/// The processes that hold a lock on a file; those that wait for it have an arrow.
fn holders<'list>(locks: &'list str, place: &'list str) -> impl Iterator<Item = u32> {
    locks.lines().filter_map(move |line| {
        let mut words = line.split_whitespace().skip(1);
        let (kind, process) = (words.next()?, words.nth(2)?);
        let found = kind == "FLOCK" && words.next()? == place;
        found.then(|| process.parse().ok())?
    })
}

/// A process by its number and the name of its program.
fn name(process: u32) -> String {
    match fs::read_to_string(format!("/proc/{process}/comm")) {
        Ok(program) => format!("process {process} ({})", program.trim_end()),
        Err(_) => format!("process {process}"),
    }
}

#[cfg(test)]
mod tests {
    use super::*;

    #[test]
    fn the_holders_of_a_lock_are_found() {
        let locks = "\
1: FLOCK  ADVISORY  WRITE 21202 fe:00:10977470 0 EOF
1: -> FLOCK  ADVISORY  WRITE 21203 fe:00:10977470 0 EOF
2: POSIX  ADVISORY  READ 7 fe:00:10977470 0 EOF
3: FLOCK  ADVISORY  READ 8 fe:01:10977470 0 EOF
4: FLOCK  ADVISORY  READ 9 fe:00:10977470 0 EOF
5: FLOCK  ADVISORY  READ -1 fe:00:10977470 0 EOF
";
        let place = place(65_024, 10_977_470);
        assert_eq!(place, "fe:00:10977470");
        let found: Vec<u32> = holders(locks, &place).collect();
        assert_eq!(found, [21_202, 9]);
        assert_eq!(holders("", &place).count(), 0);
    }
}
