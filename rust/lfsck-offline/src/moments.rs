//! Whether the tables are of one moment, by what the log knows.

use crate::history::{Entry, digests};
use crate::tables::Together;

/// What to say of tables of which some are as before the last entry of the log and some as it
/// left them; none where they are of one moment, or of one that the log does not know.
pub fn two_moments<Of: Together>(entry: &Entry, tables: &Of) -> Option<String> {
    let [mut before, mut after] = [Vec::new(), Vec::new()];
    for (at, digest) in digests(tables).iter().enumerate() {
        let file = Of::ALL[at].file();
        match (*digest == entry.before[at], *digest == entry.after[at]) {
            (true, false) => before.push(file),
            (false, true) => after.push(file),
            _ => (),
        }
    }
    if before.is_empty() || after.is_empty() {
        return None;
    }
    let (before, after) = (before.join(" and "), after.join(" and "));
    let (what, when) = (entry.what(), &entry.when);
    Some(format!(
        "the tables are of two moments: {before} as before the {what} of {when}, \
         {after} as after it"
    ))
}

#[cfg(test)]
mod tests {
    use super::*;
    use crate::history::{Conversion, Deed, Group};
    use crate::names::Names;
    use crate::narrow;
    use crate::tables::Tables;

    #[test]
    fn tables_of_two_moments_are_told() {
        let old = Tables {
            parents: vec![0; numbers::parent::BYTES],
            objects: vec![0; 46],
            reserve: vec![1; 16],
        };
        let mut new = old.clone();
        new.parents[1] = 1;
        new.objects[1] = 1;
        let undoes = "long ago".to_string();
        let of = Group::Files;
        let entry = Entry::new(Deed::Undo { undoes, of }, &old, &new);
        assert_eq!(two_moments(&entry, &old), None);
        assert_eq!(two_moments(&entry, &new), None);
        let mut both = old.clone();
        both.parents = new.parents.clone();
        let words = two_moments(&entry, &both).expect("two moments");
        assert!(
            words.contains("objects.tbl as before the undo of"),
            "{words}"
        );
        assert!(words.contains("parents.tbl as after it"), "{words}");
        both.objects[1] = 2;
        assert_eq!(two_moments(&entry, &both), None);
    }

    /// A conversion changes one table, so no two can be of two moments by it.
    #[test]
    fn a_conversion_makes_one_moment_of_each() {
        let old = Tables {
            parents: vec![0; narrow::BYTES],
            objects: vec![0; 46],
            reserve: vec![1; 16],
        };
        let mut new = old.clone();
        new.parents = narrow::widened(&old.parents);
        let deed = Deed::Conversion(Conversion::of_rows(1));
        let entry = Entry::new(deed, &old, &new);
        assert_eq!(Entry::parse(entry.line().trim_end()), Some(entry.clone()));
        assert_eq!(two_moments(&entry, &old), None);
        assert_eq!(two_moments(&entry, &new), None);
        new.objects[1] = 1;
        assert_eq!(two_moments(&entry, &new), None);
    }

    #[test]
    fn names_of_two_moments_are_told() {
        let old = Names {
            entries: vec![0; 293],
            children: vec![0; 4130],
        };
        let mut new = old.clone();
        new.entries[1] = 1;
        new.children[1] = 1;
        let undoes = "long ago".to_string();
        let of = Group::Names;
        let entry = Entry::new(Deed::Undo { undoes, of }, &old, &new);
        assert_eq!(two_moments(&entry, &old), None);
        assert_eq!(two_moments(&entry, &new), None);
        let mut both = old.clone();
        both.children = new.children.clone();
        let words = two_moments(&entry, &both).expect("two moments");
        let expected = "entries.tbl as before the undo of";
        assert!(words.contains(expected), "{words}");
        assert!(words.contains("children.tbl as after it"), "{words}");
    }
}
