//! The converter of 48-bit tables.

use crate::measure::{plain_copy, time, Buffers, Calls, Item, Shared};
use crate::rows::{Row, What};
use crate::tables::{starts, Tables};
use common::TABLE_LIMIT;
use model::tuned;
use std::hint::black_box;
use std::rc::Rc;

/// The conversion of tables of one shape and size; the fullest have fewer
/// records, so that the results are no longer than a table may be.
pub fn item(tables: &Tables, buffers: &Buffers) -> Result<Item, String> {
    let mut olds = tables.all.clone();
    for table in &mut olds {
        shorten(table);
    }
    agree(&olds, buffers)?;
    let width = tables.shape.linear_width();
    let records = olds.iter().map(|table| starts(width, table).len()).max();
    let bytes = olds.iter().map(Vec::len).max();
    let olds = Rc::new(olds);
    let [ours, theirs, copied] = buffers.0.clone();
    Ok(Item {
        row: Row {
            what: What::Widen,
            family: "to 57 bits".to_string(),
            table: tables.shape.name().to_string(),
            records: records.unwrap_or(0),
            bytes: bytes.unwrap_or(0),
            events: 1,
            times: [f64::INFINITY; 3],
        },
        calls: [
            library(olds.clone(), ours),
            tuned_model(olds.clone(), theirs),
            plain_copy(olds, copied),
        ],
    })
}

/// Takes out the last records, until the result is short enough.
fn shorten(table: &mut Vec<u8>) {
    let mut starts = starts(48, table);
    while generate::result_length(table) > TABLE_LIMIT {
        table.truncate(starts.pop().unwrap_or(0));
    }
}

fn library(olds: Rc<Vec<Vec<u8>>>, new: Shared) -> Calls {
    Box::new(move || {
        let mut new = new.borrow_mut();
        time(olds.len(), || {
            for old in olds.iter() {
                black_box(bridge::widen(black_box(old), &mut new));
            }
        })
    })
}

fn tuned_model(olds: Rc<Vec<Vec<u8>>>, new: Shared) -> Calls {
    Box::new(move || {
        let mut new = new.borrow_mut();
        time(olds.len(), || {
            for old in olds.iter() {
                black_box(tuned::widen(black_box(old), &mut new));
            }
        })
    })
}

/// The two do the same, and the table is accepted.
fn agree(olds: &[Vec<u8>], buffers: &Buffers) -> Result<(), String> {
    let mut ours = buffers.0[0].borrow_mut();
    let mut theirs = buffers.0[1].borrow_mut();
    for old in olds {
        let got = bridge::widen(old, &mut ours);
        let due = tuned::widen(old, &mut theirs);
        let new = ours[..got.length] == theirs[..due.length];
        if got != due || !new || due.answer != 0 {
            return Err(format!(
                "to 57 bits: the library gives {got:?}, the model {due:?}"
            ));
        }
    }
    Ok(())
}
