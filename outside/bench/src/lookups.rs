//! Lookups that find the first record, the last one or none.

use crate::measure::{plain_copy, time, Buffers, Calls, Item};
use crate::rows::{Row, What};
use crate::tables::{guest, Shape, Tables, EP4TA};
use common::{sibling, Record};
use model::{tuned, Address, Context, LinearWidth};
use std::hint::black_box;
use std::rc::Rc;

/// A page that no other record covers.
const PAGE: u64 = 0xBCD_E000;

/// Where the record is that is looked up.
#[derive(Clone, Copy)]
pub enum Where {
    First,
    Last,
    Nowhere,
}

pub const PLACES: [(Where, &str); 3] = [
    (Where::First, "first"),
    (Where::Last, "last"),
    (Where::Nowhere, "none"),
];

/// The context of a lookup, and a record that it finds: kind 4 with EPT not
/// in use, kind 6 (10 at 57 bits) with EPT in use, and kind 5 for a
/// guest-physical address.
fn wanted(shape: Shape, address: Address) -> (Context, Vec<u8>) {
    let (kind, ept) = match (shape, address) {
        (Shape::Mixed | Shape::Wide, Address::Linear(_)) => (6, Some(EP4TA)),
        (Shape::Mixed | Shape::Wide, Address::GuestPhysical(_)) => (5, Some(EP4TA)),
        _ => (4, None),
    };
    let linear_width = shape.linear_width();
    let record = Record {
        kind: sibling(linear_width, kind),
        vpid: 5,
        pcid: 0,
        global: 0,
        span: 1,
        page: PAGE,
        frame: 7,
        ep4ta: EP4TA,
    };
    let context = Context {
        linear_width,
        ..guest(5, ept)
    };
    (context, record.bytes())
}

/// The table with one record changed for the one that is looked up.
fn with(width: LinearWidth, table: &[u8], record: &[u8], place: Where) -> Vec<u8> {
    let records = model::mapping::records(width, table).unwrap_or_default();
    let chosen = match place {
        Where::First => records.first(),
        Where::Last => records.last(),
        Where::Nowhere => None,
    };
    let mut bytes = table.to_vec();
    if let Some((range, _)) = chosen {
        bytes.splice(range.clone(), record.iter().copied());
    }
    bytes
}

/// A lookup in tables of one shape and size; None if they have no record to
/// be found.
pub fn item(
    tables: &Tables,
    address: fn(u64) -> Address,
    (place, name): (Where, &str),
    buffers: &Buffers,
) -> Result<Option<Item>, String> {
    let address = address(PAGE << 12);
    let (context, record) = wanted(tables.shape, address);
    if tables.records == 0 && !matches!(place, Where::Nowhere) {
        return Ok(None);
    }
    let tables_with = |table: &Vec<u8>| with(context.linear(), table, &record, place);
    let all = tables.all.iter().map(tables_with);
    let limit = tables.shape.limit();
    let all: Vec<Vec<u8>> = all.filter(|table| table.len() <= limit).collect();
    agree(&context, &all, address, place)?;
    let sort = match address {
        Address::Linear(_) => "linear",
        Address::GuestPhysical(_) => "guest-physical",
    };
    let all = Rc::new(all);
    Ok(Some(Item {
        row: Row {
            what: What::Lookup,
            family: format!("{sort}, {name}"),
            table: tables.shape.name().to_string(),
            records: tables.records,
            bytes: all.iter().map(Vec::len).max().unwrap_or(0),
            events: 1,
            times: [f64::INFINITY; 3],
        },
        calls: [
            library(&context, all.clone(), address),
            tuned_model(context, all.clone(), address),
            plain_copy(all, buffers.0[2].clone()),
        ],
    }))
}

fn library(context: &Context, all: Rc<Vec<Vec<u8>>>, address: Address) -> Calls {
    let context = bridge::flat(context);
    Box::new(move || {
        time(all.len(), || {
            for table in all.iter() {
                black_box(bridge::lookup_flat(black_box(&context), table, address, 0));
            }
        })
    })
}

fn tuned_model(context: Context, all: Rc<Vec<Vec<u8>>>, address: Address) -> Calls {
    Box::new(move || {
        time(all.len(), || {
            for table in all.iter() {
                black_box(tuned::lookup(black_box(&context), table, address, 0));
            }
        })
    })
}

/// The two find the same, and what was put there.
fn agree(context: &Context, all: &[Vec<u8>], address: Address, place: Where) -> Result<(), String> {
    let found = matches!(place, Where::First | Where::Last);
    for table in all {
        let due = tuned::lookup(context, table, address, 0);
        let got = bridge::lookup(context, table, address, 0);
        if got != due || due.1.is_some() != found {
            return Err(format!(
                "lookup: the library gives {got:?}, the model {due:?}"
            ));
        }
    }
    Ok(())
}
