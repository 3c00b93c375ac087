//! The events of document 01 and of Asks 5 and 12 of document 02 as names and
//! fields, in the order of their bytes.

use common::{canonical, kinds, PAGES, WIDE_PAGES};
use std::fmt::Write;

/// An event: its kind byte, its name and its fields.
pub struct Form {
    pub kind: u8,
    pub name: &'static str,
    pub fields: &'static [Field],
}

/// A field: so many bytes, little-endian.
pub struct Field {
    pub name: &'static str,
    pub bytes: usize,
    pub rule: Rule,
    /// A flag byte goes before it. With flag 0 the field is written `off`
    /// and its bytes are zero.
    pub optional: bool,
}

/// What a field may hold, so that the event is valid.
#[derive(Clone, Copy, PartialEq, Eq)]
pub enum Rule {
    /// Whatever fits in its bytes.
    Any,
    /// From the first number to the second.
    Between(u64, u64),
    /// Below this number, and a multiple of 2^(9s) with s the span before it.
    Page(u64),
    /// An address that is canonical at the log's linear width.
    Canonical,
    /// Zero; such a field is not written at all.
    Zero,
}

const fn field(name: &'static str, bytes: usize, rule: Rule) -> Field {
    Field {
        name,
        bytes,
        rule,
        optional: false,
    }
}

const fn optional(name: &'static str, bytes: usize, rule: Rule) -> Field {
    Field {
        name,
        bytes,
        rule,
        optional: true,
    }
}

const VPID: Field = field("vpid", 2, Rule::Any);
const PCID: Field = field("pcid", 2, Rule::Between(0, 0xFFF));
const CPL: Field = field("cpl", 1, Rule::Between(0, 3));
const GLOBAL: Field = field("global", 1, Rule::Between(0, 1));
const SPAN: Field = field("span", 1, Rule::Between(0, 2));
const STRUCTURE_SPAN: Field = field("span", 1, Rule::Between(1, 3));
const WIDE_STRUCTURE_SPAN: Field = field("span", 1, Rule::Between(1, 4));
const PAGE: Field = field("page", 5, Rule::Page(PAGES));
const WIDE_PAGE: Field = field("page", 6, Rule::Page(WIDE_PAGES));
const FRAME: Field = field("frame", 5, Rule::Any);
const STRUCTURE: Field = field("structure", 5, Rule::Any);
const EP4TA: Field = field("ep4ta", 5, Rule::Any);
const TYPE: Field = field("type", 8, Rule::Any);
const ADDRESS: Field = field("address", 8, Rule::Any);

/// Every kind of event, of either linear width.
pub const FORMS: [Form; 22] = [
    Form {
        kind: 1,
        name: "linear",
        fields: &[VPID, PCID, GLOBAL, SPAN, PAGE, FRAME],
    },
    Form {
        kind: 2,
        name: "guest-physical",
        fields: &[EP4TA, SPAN, PAGE, FRAME],
    },
    Form {
        kind: 3,
        name: "combined",
        fields: &[VPID, PCID, GLOBAL, SPAN, PAGE, FRAME, EP4TA],
    },
    Form {
        kind: 4,
        name: "linear-structure",
        fields: &[VPID, PCID, STRUCTURE_SPAN, PAGE, STRUCTURE],
    },
    Form {
        kind: 5,
        name: "guest-physical-structure",
        fields: &[EP4TA, STRUCTURE_SPAN, PAGE, STRUCTURE],
    },
    Form {
        kind: 6,
        name: "combined-structure",
        fields: &[VPID, PCID, STRUCTURE_SPAN, PAGE, STRUCTURE, EP4TA],
    },
    Form {
        kind: 7,
        name: "linear-57",
        fields: &[VPID, PCID, GLOBAL, SPAN, WIDE_PAGE, FRAME],
    },
    Form {
        kind: 8,
        name: "combined-57",
        fields: &[VPID, PCID, GLOBAL, SPAN, WIDE_PAGE, FRAME, EP4TA],
    },
    Form {
        kind: 9,
        name: "linear-structure-57",
        fields: &[VPID, PCID, WIDE_STRUCTURE_SPAN, WIDE_PAGE, STRUCTURE],
    },
    Form {
        kind: 10,
        name: "combined-structure-57",
        fields: &[VPID, PCID, WIDE_STRUCTURE_SPAN, WIDE_PAGE, STRUCTURE, EP4TA],
    },
    Form {
        kind: 16,
        name: "invvpid",
        fields: &[
            TYPE,
            VPID,
            field("descriptor bits 63:16", 6, Rule::Zero),
            ADDRESS,
        ],
    },
    Form {
        kind: 17,
        name: "invept",
        fields: &[
            TYPE,
            field("eptp", 8, Rule::Any),
            field("descriptor bits 127:64", 8, Rule::Zero),
        ],
    },
    Form {
        kind: 18,
        name: "invlpg",
        fields: &[ADDRESS],
    },
    Form {
        kind: 19,
        name: "ept-violation",
        fields: &[
            field("gpa", 8, Rule::Between(0, (1 << 48) - 1)),
            optional("linear", 8, Rule::Canonical),
        ],
    },
    Form {
        kind: 20,
        name: "entry",
        fields: &[
            optional("vpid", 2, Rule::Any),
            optional("ept", 8, Rule::Any),
            PCID,
            CPL,
        ],
    },
    Form {
        kind: 21,
        name: "exit",
        fields: &[PCID],
    },
    Form {
        kind: 22,
        name: "vmxon",
        fields: &[],
    },
    Form {
        kind: 23,
        name: "vmxoff",
        fields: &[],
    },
    Form {
        kind: 24,
        name: "switch",
        fields: &[PCID, CPL],
    },
    Form {
        kind: 25,
        name: "reset",
        fields: &[],
    },
    Form {
        kind: 26,
        name: "invpcid",
        fields: &[
            TYPE,
            PCID,
            field("descriptor bits 63:16", 6, Rule::Zero),
            ADDRESS,
        ],
    },
    Form {
        kind: 27,
        name: "mov-to-cr3",
        fields: &[PCID],
    },
];

impl Form {
    /// None for a kind that is unknown at this linear width.
    pub fn of_kind(linear_width: u64, kind: u8) -> Option<&'static Form> {
        let known = kinds(linear_width).contains(&kind);
        FORMS.iter().find(|form| known && form.kind == kind)
    }

    pub fn of_name(name: &str) -> Option<&'static Form> {
        FORMS.iter().find(|form| form.name == name)
    }

    /// The event's length with its kind byte.
    pub fn length(&self) -> usize {
        let body: usize = self
            .fields
            .iter()
            .map(|field| field.bytes + usize::from(field.optional))
            .sum();
        1 + body
    }

    /// The fields that are written in the text.
    pub fn written(&self) -> impl Iterator<Item = &'static Field> {
        self.fields.iter().filter(|field| field.rule != Rule::Zero)
    }
}

impl Field {
    /// Whether the field may hold a number in a log of this linear width; if
    /// not, why. `before` is the number of the field before it.
    pub fn check(&self, linear_width: u64, number: u64, before: u64) -> Result<(), String> {
        let name = self.name;
        match self.rule {
            Rule::Any => self.at_most(number, u64::MAX >> (64 - 8 * self.bytes)),
            Rule::Between(least, most) => {
                if number < least {
                    return Err(format!(
                        "{name} is {number:#x} and must be at least {least:#x}"
                    ));
                }
                self.at_most(number, most)
            }
            Rule::Page(limit) => {
                self.at_most(number, limit - 1)?;
                let pages = 1 << (9 * before);
                if !number.is_multiple_of(pages) {
                    return Err(format!(
                        "{name} is {number:#x} and must be a multiple of {pages:#x} with span \
                         {before:#x}"
                    ));
                }
                Ok(())
            }
            Rule::Canonical => {
                if number != canonical(linear_width, number) {
                    return Err(format!(
                        "{name} is {number:#x} and must be a canonical address"
                    ));
                }
                Ok(())
            }
            Rule::Zero => {
                if number != 0 {
                    return Err(format!("{name} are {number:#x} and must be zero"));
                }
                Ok(())
            }
        }
    }

    fn at_most(&self, number: u64, most: u64) -> Result<(), String> {
        if number > most {
            let name = self.name;
            return Err(format!(
                "{name} is {number:#x} and must be at most {most:#x}"
            ));
        }
        Ok(())
    }
}

/// The names and their fields, for a user.
pub fn names() -> String {
    let mut text = String::new();
    for form in &FORMS {
        let _ = write!(text, "  {}", form.name);
        for field in form.written() {
            let off = if field.optional { "|off" } else { "" };
            let _ = write!(text, " {}=0x..{off}", field.name);
        }
        text.push('\n');
    }
    text.push_str("  raw .. .. ..\n");
    text
}
