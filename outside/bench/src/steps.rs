//! Steps without a tally: each family of events on each table.

use crate::measure::{plain_copy, time, Buffers, Calls, Item, Shared};
use crate::rows::{Row, What};
use crate::tables::{at, guest, starts, Tables, EP4TA, PAGE};
use common::{encode, is_mapping_kind, sibling};
use model::{tuned, Context, Place};
use std::hint::black_box;
use std::rc::Rc;

/// A family of events: one event, and the context it comes in.
pub struct Family {
    pub name: &'static str,
    pub context: Context,
    pub event: Vec<u8>,
}

fn invvpid(kind: u64) -> Vec<u8> {
    encode(16, &[kind, 5, PAGE << 12])
}

fn invept(kind: u64) -> Vec<u8> {
    encode(17, &[kind, EP4TA << 12 | 0x1E, 0])
}

/// PCID 0, which is current.
fn invpcid(kind: u64) -> Vec<u8> {
    encode(26, &[kind, 0, PAGE << 12])
}

fn entry(vpid: u64) -> Vec<u8> {
    let enabled = u64::from(vpid != 0);
    encode(20, &[enabled, vpid, 0, 0, 0, 0])
}

/// The few families that are measured at 57 bits too.
const WIDE: [&str; 4] = ["creation", "INVVPID 0", "INVLPG", "EPT violation"];

pub fn wide_families() -> Vec<Family> {
    let mut families = families();
    families.retain(|family| WIDE.contains(&family.name));
    for family in &mut families {
        family.context.linear_width = 57;
        if is_mapping_kind(family.event[0]) {
            family.event = encode(sibling(57, 4), &[0, 0, 1, 0, 7]);
        }
    }
    families
}

/// All families, at 48 bits.
pub fn families() -> Vec<Family> {
    let root = at(Place::Root);
    let outside = at(Place::Outside);
    let of = |name, context, event| Family {
        name,
        context,
        event,
    };
    let address = PAGE << 12;
    let violation = encode(19, &[address, 1, address]);
    // VPID 0, PCID 0: can be created in root.
    let creation = encode(4, &[0, 0, 1, 0, 7]);
    vec![
        of("creation", root, creation),
        of("INVVPID 0", root, invvpid(0)),
        of("INVVPID 1", root, invvpid(1)),
        of("INVVPID 2", root, invvpid(2)),
        of("INVVPID 3", root, invvpid(3)),
        of("INVEPT 1", root, invept(1)),
        of("INVEPT 2", root, invept(2)),
        of("INVLPG", root, encode(18, &[address])),
        of("INVPCID 0", root, invpcid(0)),
        of("INVPCID 1", root, invpcid(1)),
        of("INVPCID 2", root, invpcid(2)),
        of("INVPCID 3", root, invpcid(3)),
        of("MOV to CR3", root, encode(27, &[1])),
        of("EPT violation", guest(5, Some(EP4TA)), violation),
        of("entry, VPIDs off", root, entry(0)),
        of("entry, VPID 5", root, entry(5)),
        of("exit, VPIDs off", guest(0, None), encode(21, &[0])),
        of("exit, VPID 5", guest(5, None), encode(21, &[0])),
        of("VMXON", outside, encode(22, &[])),
        of("VMXOFF", root, encode(23, &[])),
        of("new PCID", root, encode(24, &[1, 0])),
        of("reset", root, encode(25, &[])),
    ]
}

/// A family on tables of one shape and size.
pub fn item(family: &Family, tables: &Tables, buffers: &Buffers) -> Result<Item, String> {
    let olds = Rc::new(old_tables(family, tables));
    agree(family, &olds, buffers)?;
    let bytes = olds.iter().map(Vec::len).max();
    let [ours, theirs, copied] = buffers.0.clone();
    Ok(Item {
        row: Row {
            what: What::Step,
            family: family.name.to_string(),
            table: tables.shape.name().to_string(),
            records: tables.records,
            bytes: bytes.unwrap_or(0),
            events: 1,
            times: [f64::INFINITY; 3],
        },
        calls: [
            library(family, olds.clone(), ours),
            tuned_model(family, olds.clone(), theirs),
            plain_copy(olds, copied),
        ],
    })
}

/// The old tables: a creation on the fullest ones finds one record fewer.
pub fn old_tables(family: &Family, tables: &Tables) -> Vec<Vec<u8>> {
    let mut olds = tables.all.clone();
    let (width, limit) = (tables.shape.linear_width(), tables.shape.limit());
    for table in &mut olds {
        if is_mapping_kind(family.event[0]) && table.len() + family.event.len() > limit {
            table.truncate(starts(width, table).last().copied().unwrap_or(0));
        }
    }
    olds
}

fn library(family: &Family, olds: Rc<Vec<Vec<u8>>>, new: Shared) -> Calls {
    let context = bridge::flat(&family.context);
    let event = family.event.clone();
    Box::new(move || {
        let mut new = new.borrow_mut();
        time(olds.len(), || {
            for old in olds.iter() {
                black_box(bridge::plain_step_flat(
                    black_box(&context),
                    old,
                    &event,
                    &mut new,
                ));
            }
        })
    })
}

fn tuned_model(family: &Family, olds: Rc<Vec<Vec<u8>>>, new: Shared) -> Calls {
    let context = family.context;
    let event = family.event.clone();
    Box::new(move || {
        let mut new = new.borrow_mut();
        time(olds.len(), || {
            for old in olds.iter() {
                black_box(tuned::step(black_box(&context), old, &event, &mut new));
            }
        })
    })
}

/// The two do the same, and the event is accepted.
fn agree(family: &Family, olds: &[Vec<u8>], buffers: &Buffers) -> Result<(), String> {
    let mut ours = buffers.0[0].borrow_mut();
    let mut theirs = buffers.0[1].borrow_mut();
    for old in olds {
        let got = bridge::plain_step(&family.context, old, &family.event, &mut ours);
        let due = tuned::step(&family.context, old, &family.event, &mut theirs);
        let new = ours[..got.length] == theirs[..due.length];
        if got != due || !new || due.answer != 0 {
            let name = family.name;
            return Err(format!(
                "{name}: the library gives {got:?}, the model {due:?}"
            ));
        }
    }
    Ok(())
}
