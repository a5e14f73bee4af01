//! Who may read and write a file, kept so that a save lets nobody in.

use std::fs::{self, File, Metadata};
use std::io;
use std::os::unix::fs::{MetadataExt, PermissionsExt, fchown};

/// The bits of owner, group and others.
const ALL_BITS: u32 = 0o777;
/// To read and to write, for all three.
const DATA_BITS: u32 = 0o666;
/// The owner's, who can give them to himself anyway.
const OWNER_BITS: u32 = 0o600;
/// The user who may do everything.
const ROOT: u32 = 0;
/// The bits of one of the three.
const CLASS_BITS: u32 = 0o7;

/// The owner, the group and the mode of a file.
#[derive(Clone, Copy, Debug, PartialEq, Eq)]
pub struct Permissions {
    uid: u32,
    gid: u32,
    mode: u32,
}

/// To whom a new file is given.
#[derive(Clone, Copy, Debug, PartialEq, Eq)]
pub enum Access {
    /// It stays its maker's alone.
    Own,
    /// As the user's mask has it: there is nothing yet that it could be like.
    Usual,
    /// It gets these.
    Like(Permissions),
}

impl Permissions {
    /// Those of a file.
    pub fn of(metadata: &Metadata) -> Permissions {
        Permissions {
            uid: metadata.uid(),
            gid: metadata.gid(),
            mode: metadata.mode() & ALL_BITS,
        }
    }

    /// Whether the word of a file's owner is taken: he is this user, the system's, or the owner
    /// of one of these.
    pub fn is_trusted(self, beside: &[Permissions]) -> bool {
        let own = own_uid() == Some(self.uid);
        own || self.uid == ROOT || beside.iter().any(|other| other.uid == self.uid)
    }

    /// Gives a file that this process has made to the owner and the group. A process that may
    /// not do so keeps it, and then nobody gets more than he had: where the group is another,
    /// the people of both groups and all others get what group and others had in common.
    fn give(self, file: &File) -> io::Result<()> {
        let given = fchown(file, Some(self.uid), Some(self.gid))
            .or_else(|_| fchown(file, None, Some(self.gid)));
        let mode = match given {
            Ok(()) => self.mode,
            Err(_) => self.without_group(),
        };
        file.set_permissions(fs::Permissions::from_mode(mode))
    }

    fn without_group(self) -> u32 {
        let common = (self.mode >> 3) & self.mode & CLASS_BITS;
        self.mode & !(CLASS_BITS << 3 | CLASS_BITS) | common << 3 | common
    }
}

impl Access {
    /// For a file that holds what all of these hold: nobody may read it who may not read each
    /// of them. Where owners or groups differ, it stays its maker's alone.
    pub fn strictest(all: &[Permissions]) -> Access {
        let Some(first) = all.first() else {
            return Access::Own;
        };
        let same = |other: &Permissions| (other.uid, other.gid) == (first.uid, first.gid);
        if !all.iter().all(same) {
            return Access::Own;
        }
        let mode = all.iter().fold(DATA_BITS, |mode, other| mode & other.mode);
        Access::Like(Permissions {
            mode: mode | OWNER_BITS,
            ..*first
        })
    }

    /// Whether a file that is there lets in nobody whom this does not let in. This process may
    /// read whatever is to be kept from others.
    pub fn holds(self, file: Permissions) -> bool {
        let own = own_uid() == Some(file.uid);
        match self {
            Access::Like(like) if file.gid == like.gid && (own || file.uid == like.uid) => {
                file.mode & !like.mode == 0
            }
            _ => own && file.mode & !OWNER_BITS == 0,
        }
    }

    /// The mode that it is made with; whoever else is let in is let in when it is given.
    pub fn first_mode(self) -> u32 {
        match self {
            Access::Usual => DATA_BITS,
            Access::Own | Access::Like(_) => OWNER_BITS,
        }
    }

    /// Gives a file that this process has made.
    pub fn give(self, file: &File) -> io::Result<()> {
        match self {
            Access::Own | Access::Usual => Ok(()),
            Access::Like(permissions) => permissions.give(file),
        }
    }
}

/// The user that this process acts as, where the system tells.
fn own_uid() -> Option<u32> {
    Some(fs::metadata("/proc/self").ok()?.uid())
}

#[cfg(test)]
mod tests {
    use super::*;

    fn permissions(uid: u32, gid: u32, mode: u32) -> Permissions {
        Permissions { uid, gid, mode }
    }

    #[test]
    fn the_strictest_lets_in_whom_all_let_in() {
        let all = [0o664, 0o644, 0o640].map(|mode| permissions(5, 6, mode));
        assert_eq!(
            Access::strictest(&all),
            Access::Like(permissions(5, 6, 0o640))
        );
        let unread = [0o444, 0o400].map(|mode| permissions(5, 6, mode));
        assert_eq!(
            Access::strictest(&unread),
            Access::Like(permissions(5, 6, 0o600))
        );
    }

    #[test]
    fn two_owners_or_groups_have_nothing_in_common() {
        for other in [permissions(5, 7, 0o644), permissions(4, 6, 0o644)] {
            let all = [permissions(5, 6, 0o644), other];
            assert_eq!(Access::strictest(&all), Access::Own);
        }
        assert_eq!(Access::strictest(&[]), Access::Own);
    }

    #[test]
    fn a_file_of_others_is_not_held() {
        let like = Access::Like(permissions(5, 6, 0o640));
        let own = own_uid().expect("a user");
        for (file, held) in [
            (permissions(5, 6, 0o640), true),
            (permissions(5, 6, 0o600), true),
            (permissions(5, 6, 0o644), false),
            (permissions(5, 6, 0o660), false),
            (permissions(5, 7, 0o600), false),
            (permissions(own + 1, 6, 0o600), false),
            (permissions(own, 6, 0o640), true),
            (permissions(own, 7, 0o640), false),
            (permissions(own, 7, 0o600), true),
        ] {
            assert_eq!(like.holds(file), held, "{file:?}");
        }
        assert!(Access::Own.holds(permissions(own, 7, 0o600)));
        assert!(!Access::Own.holds(permissions(own, 7, 0o640)));
    }

    #[test]
    fn nobody_gains_by_another_group() {
        for (mode, without) in [
            (0o644, 0o644),
            (0o640, 0o600),
            (0o604, 0o600),
            (0o664, 0o644),
            (0o777, 0o777),
        ] {
            assert_eq!(permissions(5, 6, mode).without_group(), without);
        }
    }
}
