//! Events, records, answers, reasons and contexts in words: those of the text form
//! of logs, and of the documents.

use common::{canonical, field, hex};
use convert::forms::Form;
use skuldrefn::{Context, Place, Reason};

/// How many bytes are shown of an event that has no line.
const SHOWN: usize = 32;

/// An event or a record as a line of the text form; where the names cannot say
/// it, its bytes.
pub fn event(linear_width: u64, bytes: &[u8]) -> String {
    if let Some(line) = convert::line(linear_width, bytes) {
        return line;
    }
    let shown = hex(&bytes[..bytes.len().min(SHOWN)]);
    if bytes.len() > SHOWN {
        return format!("raw {shown} .. ({} bytes)", bytes.len());
    }
    format!("raw {shown}")
}

/// The name of a known kind.
pub fn kind(linear_width: u64, kind: u8) -> &'static str {
    Form::of_kind(linear_width, kind).map_or("", |form| form.name)
}

/// What was answered to an event, in words, with why it has no line where it has
/// none.
pub fn answered(linear_width: u64, event: &[u8], number: u64, rule: u64) -> String {
    match convert::fault(linear_width, event) {
        Some(fault) => format!("{}; {fault}", answer(number, rule)),
        None => answer(number, rule),
    }
}

/// An answer in words, with the rule that an EPTP breaks.
pub fn answer(number: u64, rule: u64) -> String {
    let words = match (number, rule) {
        (0, _) => return "accepted".to_string(),
        (1, _) => "a context field is out of its range",
        (2, _) => "the table is longer than 47,104 bytes",
        (3, _) => "the table is not whole, valid records",
        (4, _) => "not exactly one valid record",
        (5, _) => "#UD",
        (6, _) => "the event causes a VM exit",
        (7, _) => "#GP(0)",
        (8, 0) => "VMfail, invalid operand",
        (8, _) => "VMfail, invalid operand, bad EPTP",
        (9, _) => "the event has no place here",
        (10, 0) => "the VM entry fails, VPID 0",
        (10, _) => "the VM entry fails, bad EPTP",
        (11, _) => "a mapping that cannot be created here",
        (12, _) => "no room in the table",
        (13, _) => "the tally is not that of the table",
        _ => "an unknown answer",
    };
    let broken = match rule {
        0 => return format!("refused with {number}: {words}"),
        1 => "memory type",
        2 => "walk length",
        3 => "accessed and dirty",
        4 => "bits 11:7",
        5 => "bits above the width",
        _ => "an unknown rule",
    };
    format!("refused with {number}: {words}: {broken}")
}

/// Why an event drops a mapping or leaves it.
pub fn reason(reason: Reason) -> &'static str {
    match reason {
        Reason::Refused { .. } => "step refused",
        Reason::NoScope => "event without a scope",
        Reason::NotCanonical => "address not canonical",
        Reason::WrongKind => "wrong kind",
        Reason::WrongVpid => "wrong VPID",
        Reason::WrongPcid => "wrong PCID",
        Reason::WrongEp4ta => "wrong EP4TA",
        Reason::NotCovering => "does not cover the address",
        Reason::SparedAsGlobal => "spared as global",
        Reason::InScope => "in scope",
    }
}

/// A context, but for what no event changes.
pub fn context(context: &Context) -> String {
    let place = match context.place {
        Place::Outside => "outside VMX".to_string(),
        Place::Root => "root".to_string(),
        Place::Guest { vpid, ept } => {
            let vpid = or_off((vpid != 0).then_some(vpid));
            format!("guest vpid={vpid} ep4ta={}", or_off(ept))
        }
    };
    format!("{place} pcid={:#x} cpl={:#x}", context.pcid, context.cpl)
}

fn or_off(number: Option<u64>) -> String {
    match number {
        Some(number) => format!("{number:#x}"),
        None => "off".to_string(),
    }
}

/// Whether records of a kind lead to a frame and not to a paging structure.
pub fn is_translation(kind: u8) -> bool {
    matches!(kind, 1..=3 | 7 | 8)
}

/// The fields of a record that say where it belongs and leads.
#[derive(Clone, Copy, Debug, PartialEq, Eq)]
pub struct Fields {
    pub kind: u8,
    pub vpid: Option<u64>,
    pub ep4ta: Option<u64>,
    pub span: u64,
    pub page: u64,
    /// The frame or the structure.
    pub frame: u64,
}

impl Fields {
    /// Those of a valid record.
    pub fn of(record: &[u8]) -> Fields {
        let nth = |nth| field(record, nth).unwrap_or(0);
        let kind = record[0];
        let (vpid, ep4ta, span) = match kind {
            2 | 5 => (None, Some(nth(0)), 1),
            3 | 8 => (Some(nth(0)), Some(nth(6)), 3),
            6 | 10 => (Some(nth(0)), Some(nth(5)), 2),
            4 | 9 => (Some(nth(0)), None, 2),
            _ => (Some(nth(0)), None, 3),
        };
        Fields {
            kind,
            vpid,
            ep4ta,
            span: nth(span),
            page: nth(span + 1),
            frame: nth(span + 2),
        }
    }

    pub fn is_guest_physical(&self) -> bool {
        matches!(self.kind, 2 | 5)
    }

    /// The first address that the record covers.
    pub fn address(&self, linear_width: u64) -> skuldrefn::Address {
        if self.is_guest_physical() {
            skuldrefn::Address::GuestPhysical(self.page << 12)
        } else {
            skuldrefn::Address::Linear(canonical(linear_width, self.page << 12))
        }
    }

    /// Whose mapping it is, by its tags.
    pub fn group(&self) -> String {
        let tags = [("VPID", self.vpid), ("EP4TA", self.ep4ta)];
        let tags = tags.iter().filter_map(|(name, tag)| Some((name, (*tag)?)));
        let tags: Vec<String> = tags.map(|(name, tag)| format!("{name} {tag:#x}")).collect();
        tags.join(", ")
    }
}

#[cfg(test)]
mod tests {
    use super::Fields;
    use common::Record;

    #[test]
    fn fields_of_every_kind() {
        for kind in 1..=10 {
            let record = Record {
                kind,
                vpid: 5,
                pcid: 1,
                global: 0,
                span: 2,
                page: 0x40000,
                frame: 7,
                ep4ta: 9,
            };
            let fields = Fields::of(&record.bytes());
            let place = (fields.span, fields.page, fields.frame);
            assert_eq!((fields.kind, place), (kind, (2, 0x40000, 7)));
            let due = match kind {
                1 | 4 | 7 | 9 => "VPID 0x5",
                2 | 5 => "EP4TA 0x9",
                _ => "VPID 0x5, EP4TA 0x9",
            };
            assert_eq!(fields.group(), due, "{kind}");
        }
    }
}
