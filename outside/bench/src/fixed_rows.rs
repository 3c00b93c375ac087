//! Tables as fixed rows, and rows as tables.

use crate::measure::{plain_copy, time, Buffers, Calls, Item, Shared};
use crate::rows::{Row, What};
use crate::tables::Tables;
use model::{tuned, Converted};
use std::hint::black_box;
use std::rc::Rc;

type Call = fn(u64, &[u8], &mut [u8]) -> Converted;

/// The two calls: their name, the library's and the tuned model's.
const CALLS: [(&str, Call, Call); 2] = [
    ("export", bridge::export, tuned::export),
    ("import", bridge::import, tuned::import),
];

/// The export of tables of one shape and size, and the import of their rows. Each
/// buffer has room for the rows.
pub fn items(tables: &Tables, buffers: &Buffers) -> Result<[Item; 2], String> {
    let rows = tables.all.iter().map(|table| generate::rows_of(table));
    let inputs = [Rc::new(tables.all.clone()), Rc::new(rows.collect())];
    let [export, import] = CALLS;
    Ok([
        item(tables, export, inputs[0].clone(), buffers)?,
        item(tables, import, inputs[1].clone(), buffers)?,
    ])
}

fn item(
    tables: &Tables,
    (name, ours, theirs): (&str, Call, Call),
    inputs: Rc<Vec<Vec<u8>>>,
    buffers: &Buffers,
) -> Result<Item, String> {
    let width = tables.shape.linear_width();
    agree(name, [ours, theirs], width, &inputs, buffers)?;
    let bytes = inputs.iter().map(Vec::len).max();
    let [first, second, third] = buffers.0.clone();
    Ok(Item {
        row: Row {
            what: What::FixedRows,
            family: name.to_string(),
            table: tables.shape.name().to_string(),
            records: tables.records,
            bytes: bytes.unwrap_or(0),
            events: 1,
            times: [f64::INFINITY; 3],
        },
        calls: [
            calls(ours, width, inputs.clone(), first),
            calls(theirs, width, inputs.clone(), second),
            plain_copy(inputs, third),
        ],
    })
}

fn calls(call: Call, width: u64, inputs: Rc<Vec<Vec<u8>>>, output: Shared) -> Calls {
    Box::new(move || {
        let mut output = output.borrow_mut();
        time(inputs.len(), || {
            for input in inputs.iter() {
                black_box(call(width, black_box(input), &mut output));
            }
        })
    })
}

/// The two do the same, and the call is accepted.
fn agree(
    name: &str,
    [ours, theirs]: [Call; 2],
    width: u64,
    inputs: &[Vec<u8>],
    buffers: &Buffers,
) -> Result<(), String> {
    let mut own = buffers.0[0].borrow_mut();
    let mut other = buffers.0[1].borrow_mut();
    for input in inputs {
        let got = ours(width, input, &mut own);
        let due = theirs(width, input, &mut other);
        let same = own[..got.length] == other[..due.length];
        if got != due || !same || due.answer != 0 {
            return Err(format!(
                "{name}: the library gives {got:?}, the model {due:?}"
            ));
        }
    }
    Ok(())
}
