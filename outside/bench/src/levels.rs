//! Steps of two levels, beside two counted steps of the library: a small first-level
//! table before each of the tables.

use crate::counted::{with_tallies, Old};
use crate::measure::{time, Buffers, Calls, Item, Shared};
use crate::rows::{Row, What};
use crate::steps::{old_tables, Family};
use crate::tables::{tables, Tables};
use bridge::LentLevel;
use common::PCIDS;
use std::hint::black_box;
use std::rc::Rc;

/// The records of the first level; of as many as the second has, if these are fewer.
pub const FIRST: usize = 176;

/// The families that are measured: a creation, events that drop some records, one that
/// drops all, and one without a scope.
const FAMILIES: [&str; 6] = [
    "creation",
    "INVVPID 0",
    "INVLPG",
    "EPT violation",
    "VMXOFF",
    "reset",
];

/// The tables of both levels, which calls take in turn.
struct Both {
    first: Vec<Old>,
    second: Vec<Old>,
}

impl Both {
    /// As many pairs as there are second tables.
    fn pairs(&self) -> impl Iterator<Item = (&Old, &Old)> {
        self.first.iter().cycle().zip(&self.second)
    }
}

/// The families among these.
pub fn families(all: Vec<Family>) -> Vec<Family> {
    let mut all = all;
    all.retain(|family| FAMILIES.contains(&family.name));
    all
}

/// A family on second tables of one shape and size. The buffers are those of the first
/// level and those of the second.
pub fn item(
    family: &Family,
    second: &Tables,
    buffers: &Buffers,
    others: &Buffers,
) -> Result<Item, String> {
    let width = second.shape.linear_width();
    let first = tables(second.shape, FIRST.min(second.records));
    let both = Rc::new(Both {
        first: with_tallies(width, old_tables(family, &first))?,
        second: with_tallies(width, old_tables(family, second))?,
    });
    agree(family, &both, buffers, others)?;
    let bytes = both.second.iter().map(|old| old.table.len()).max();
    let [ours, theirs, copied] = buffers.0.clone();
    let [ours_too, theirs_too, copied_too] = others.0.clone();
    Ok(Item {
        row: Row {
            what: What::Levels,
            family: family.name.to_string(),
            table: second.shape.name().to_string(),
            records: second.records,
            bytes: bytes.unwrap_or(0),
            events: 1,
            times: [f64::INFINITY; 3],
        },
        calls: [
            two_levels(family, both.clone(), [ours, ours_too]),
            two_steps(family, both.clone(), [theirs, theirs_too]),
            copies(both, [copied, copied_too]),
        ],
    })
}

fn lent<'a>(old: &'a Old, pcids: &'a mut [u16], new: &'a mut [u8]) -> LentLevel<'a> {
    LentLevel {
        kinds: old.kinds,
        pcids,
        table: &old.table,
        new,
    }
}

fn two_levels(family: &Family, both: Rc<Both>, new: [Shared; 2]) -> Calls {
    let context = bridge::flat(&family.context);
    let event = family.event.clone();
    let (mut pcids, mut others) = (vec![0; PCIDS], vec![0; PCIDS]);
    Box::new(move || {
        let [mut one, mut two] = [new[0].borrow_mut(), new[1].borrow_mut()];
        time(both.second.len(), || {
            for (first, second) in both.pairs() {
                first.put(&mut pcids);
                second.put(&mut others);
                black_box(bridge::step_levels_lent(
                    black_box(&context),
                    &event,
                    lent(first, &mut pcids, &mut one),
                    lent(second, &mut others, &mut two),
                ));
            }
        })
    })
}

fn two_steps(family: &Family, both: Rc<Both>, new: [Shared; 2]) -> Calls {
    let context = bridge::flat(&family.context);
    let event = family.event.clone();
    let (mut pcids, mut others) = (vec![0; PCIDS], vec![0; PCIDS]);
    Box::new(move || {
        let [mut one, mut two] = [new[0].borrow_mut(), new[1].borrow_mut()];
        time(both.second.len(), || {
            for (first, second) in both.pairs() {
                first.put(&mut pcids);
                second.put(&mut others);
                for (old, pcids, new) in [
                    (first, &mut pcids, &mut one),
                    (second, &mut others, &mut two),
                ] {
                    black_box(bridge::counted_step_lent(
                        black_box(&context),
                        &old.kinds,
                        pcids,
                        &old.table,
                        &event,
                        new,
                    ));
                }
            }
        })
    })
}

/// A plain copy of both tables.
fn copies(both: Rc<Both>, new: [Shared; 2]) -> Calls {
    Box::new(move || {
        let [mut one, mut two] = [new[0].borrow_mut(), new[1].borrow_mut()];
        time(both.second.len(), || {
            for (first, second) in both.pairs() {
                for (old, new) in [(first, &mut one), (second, &mut two)] {
                    new[..old.table.len()].copy_from_slice(black_box(&old.table));
                    black_box(&mut new[..]);
                }
            }
        })
    })
}

/// The two do the same, and the event is accepted, each time that the tables are taken
/// in turn.
fn agree(family: &Family, both: &Both, buffers: &Buffers, others: &Buffers) -> Result<(), String> {
    let context = bridge::flat(&family.context);
    let [mut ours, mut theirs] = [0, 1].map(|nth: usize| {
        let new = [&buffers.0[nth], &others.0[nth]].map(|own| own.borrow_mut());
        (new, [vec![0; PCIDS], vec![0; PCIDS]])
    });
    for (first, second) in both.pairs() {
        for lists in [&mut ours.1, &mut theirs.1] {
            first.put(&mut lists[0]);
            second.put(&mut lists[1]);
        }
        let ([one, two], [pcids, others]) = &mut ours;
        let event = &family.event;
        let (one, two) = (lent(first, pcids, one), lent(second, others, two));
        let got = bridge::step_levels_lent(&context, event, one, two);
        for (nth, old) in [first, second].into_iter().enumerate() {
            let (new, pcids) = (&mut theirs.0[nth], &mut theirs.1[nth]);
            let (kinds, table) = (&old.kinds, &old.table);
            let (due, rows) = bridge::counted_step_lent(&context, kinds, pcids, table, event, new);
            let after = &got.levels[nth];
            let same = got.answer == due.answer
                && got.context == due.context
                && (after.length, after.dropped) == (due.length, due.dropped)
                && after.kinds == rows
                && ours.1[nth] == *pcids
                && ours.0[nth][..due.length] == new[..due.length];
            if !same || due.answer != 0 {
                let name = family.name;
                return Err(format!(
                    "{name}: two levels give {got:?}, a counted step {due:?}"
                ));
            }
        }
    }
    Ok(())
}
