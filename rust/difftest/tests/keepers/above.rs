//! Classes beside keepers, both asked of the library: what is above the search goes by it.

use difftest::tables::{TINY, describe, random_tables, to_bytes};
use difftest::{Coverage, Random};
use numbers::call::{CLASS, KEEPER};
use reference::class::Class;
use reference::fid::Fid;
use reference::position::Position;
use reference::tables::Tables;

const TABLES: usize = 40_000;

/// A slot is MULTIPLE exactly where the keeper of what it names is another one, and an object KEPT
/// exactly where it has a keeper.
#[test]
fn classes_go_by_the_keeper() {
    let mut random = Random::for_test("classes beside keepers");
    let mut seen = Coverage::of(
        "classes beside keepers",
        ["hole", "keeper", "other slot", "kept", "not kept"],
    );
    for _ in 0..TABLES {
        let tables = random_tables(TINY, &mut random);
        let (parents, objects) = to_bytes(&tables, &mut random);
        for position in Position::all(&tables) {
            let Some(fid) = fid_at(&tables, position) else {
                continue;
            };
            let class = class(&parents, &objects, position);
            let keeper = fid.map(|fid| keeper(&parents, &objects, fid));
            let expected = judge(position, keeper);
            let is_so = match expected {
                "hole" => class == Class::Hole.number(),
                "keeper" => class != Class::Multiple.number() && class != Class::Hole.number(),
                "other slot" => class == Class::Multiple.number(),
                "kept" => class == Class::Kept.number(),
                _ => class != Class::Kept.number(),
            };
            assert!(
                is_so,
                "{position:?} is of class {class}, {expected}, in {}",
                describe(&parents, &objects)
            );
            seen.met(expected);
        }
    }
    seen.require(1000);
}

/// The FID that a slot names, none in a hole, or that an object has. Headers and unused rows, the
/// outer none, have nothing to ask for.
fn fid_at(tables: &Tables, position: Position) -> Option<Option<Fid>> {
    match position {
        Position::Slot { row, slot } => {
            let file = tables.parents[row].as_ref()?;
            Some(file.layout.slots[slot].map(|stripe| stripe.object))
        }
        Position::Object { row } => Some(Some(tables.objects[row].as_ref()?.fid)),
        Position::Header { .. } | Position::End => None,
    }
}

/// What a position must be by the keeper of the FID there.
fn judge(position: Position, keeper: Option<[u64; KEEPER]>) -> &'static str {
    let [stage, row, part] = position.to_numbers();
    match keeper {
        None => "hole",
        Some([1, at, slot, _]) if stage == 1 && [at, slot + 1] == [row, part] => "keeper",
        Some(_) if stage == 1 => "other slot",
        Some([1, ..]) => "kept",
        Some(_) => "not kept",
    }
}

fn class(parents: &[u8], objects: &[u8], position: Position) -> u64 {
    let mut out = [99; CLASS];
    let answer = lfsck_sys::class(parents, objects, position.to_numbers(), &mut out);
    assert_eq!(answer, 0);
    out[0]
}

fn keeper(parents: &[u8], objects: &[u8], fid: Fid) -> [u64; KEEPER] {
    let mut out = [99; KEEPER];
    let answer = lfsck_sys::keeper(parents, objects, fid.sequence, fid.id.into(), &mut out);
    assert_eq!(answer, 0);
    out
}
