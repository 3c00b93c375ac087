//! Counted steps: each family of events on each table, with its tally.

use crate::measure::{plain_copy, time, Buffers, Calls, Item, Shared};
use crate::rows::{Row, What};
use crate::steps::{old_tables, Family};
use crate::tables::Tables;
use common::PCIDS;
use model::{tuned, Kinds, LinearWidth};
use std::collections::BTreeSet;
use std::hint::black_box;
use std::rc::Rc;

/// A table and the tally that matches it.
pub struct Old {
    pub table: Vec<u8>,
    pub kinds: Kinds,
    /// The counts of all PCIDs that the calls of one item ever change; the
    /// others are 0.
    pcids: Vec<(usize, u16)>,
}

impl Old {
    /// Makes a list that an earlier call has changed match this table: a few
    /// counts, so that it takes next to no time.
    #[inline(always)]
    pub fn put(&self, list: &mut [u16]) {
        for (pcid, count) in &self.pcids {
            list[*pcid] = *count;
        }
    }
}

/// Tables with their tallies.
pub fn with_tallies(linear_width: u64, tables: Vec<Vec<u8>>) -> Result<Vec<Old>, String> {
    let width = LinearWidth::of(linear_width);
    let count = |table| model::count(width, table).map_err(|answer| format!("answer {answer}"));
    let tallies: Result<Vec<_>, String> = tables.iter().map(|table| count(table)).collect();
    let tallies = tallies?;
    // PCID 0 is that of a creation.
    let mut used = BTreeSet::from([0]);
    for tally in &tallies {
        used.extend((0..PCIDS).filter(|pcid| tally.pcids[*pcid] > 0));
    }
    let old = |(table, tally): (Vec<u8>, model::Tally)| Old {
        table,
        kinds: tally.kinds,
        pcids: used
            .iter()
            .map(|pcid| (*pcid, tally.pcids[*pcid]))
            .collect(),
    };
    Ok(tables.into_iter().zip(tallies).map(old).collect())
}

/// A family on tables of one shape and size.
pub fn item(family: &Family, tables: &Tables, buffers: &Buffers) -> Result<Item, String> {
    let plain = Rc::new(old_tables(family, tables));
    let olds = Rc::new(with_tallies(tables.shape.linear_width(), plain.to_vec())?);
    agree(family, &olds, buffers)?;
    let bytes = plain.iter().map(Vec::len).max();
    let [ours, theirs, copied] = buffers.0.clone();
    Ok(Item {
        row: Row {
            what: What::Counted,
            family: family.name.to_string(),
            table: tables.shape.name().to_string(),
            records: tables.records,
            bytes: bytes.unwrap_or(0),
            events: 1,
            times: [f64::INFINITY; 3],
        },
        calls: [
            library(family, olds.clone(), ours),
            tuned_model(family, olds, theirs),
            plain_copy(plain, copied),
        ],
    })
}

fn library(family: &Family, olds: Rc<Vec<Old>>, new: Shared) -> Calls {
    let context = bridge::flat(&family.context);
    let event = family.event.clone();
    let mut pcids = vec![0; PCIDS];
    Box::new(move || {
        let mut new = new.borrow_mut();
        time(olds.len(), || {
            for old in olds.iter() {
                old.put(&mut pcids);
                black_box(bridge::counted_step_lent(
                    black_box(&context),
                    &old.kinds,
                    &mut pcids,
                    &old.table,
                    &event,
                    &mut new,
                ));
            }
        })
    })
}

fn tuned_model(family: &Family, olds: Rc<Vec<Old>>, new: Shared) -> Calls {
    let context = family.context;
    let event = family.event.clone();
    let mut pcids = vec![0; PCIDS];
    Box::new(move || {
        let mut new = new.borrow_mut();
        time(olds.len(), || {
            for old in olds.iter() {
                old.put(&mut pcids);
                black_box(tuned::counted_step(
                    black_box(&context),
                    old.kinds,
                    &mut pcids,
                    &old.table,
                    &event,
                    &mut new,
                ));
            }
        })
    })
}

/// The two do the same, and the event is accepted, each time that the tables
/// are taken in turn.
fn agree(family: &Family, olds: &[Old], buffers: &Buffers) -> Result<(), String> {
    let mut ours = buffers.0[0].borrow_mut();
    let mut theirs = buffers.0[1].borrow_mut();
    let context = bridge::flat(&family.context);
    let (mut our_pcids, mut their_pcids) = (vec![0; PCIDS], vec![0; PCIDS]);
    for old in olds.iter().chain(olds) {
        old.put(&mut our_pcids);
        let (got, got_kinds) = bridge::counted_step_lent(
            &context,
            &old.kinds,
            &mut our_pcids,
            &old.table,
            &family.event,
            &mut ours,
        );
        old.put(&mut their_pcids);
        let (due, due_kinds) = tuned::counted_step(
            &family.context,
            old.kinds,
            &mut their_pcids,
            &old.table,
            &family.event,
            &mut theirs,
        );
        let got = bridge::of_flat(&got);
        let new = ours[..got.length] == theirs[..due.length];
        let tally = got_kinds == due_kinds && our_pcids == their_pcids;
        if got != due || !new || !tally || due.answer != 0 {
            let name = family.name;
            return Err(format!(
                "{name}: the library gives {got:?} and {got_kinds:?}, \
                 the model {due:?} and {due_kinds:?}"
            ));
        }
    }
    Ok(())
}
