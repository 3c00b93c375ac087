//! What a walk answers, in words.

use skuldrefn::{Context, Ending, Spot, Walk};

/// A record as a line of a log's text and as bytes, or the first ground met; and
/// the entries read.
pub fn text(context: &Context, address: u64, walk: &Walk) -> String {
    let read = match walk.read {
        1 => "1 entry read".to_string(),
        read => format!("{read} entries read"),
    };
    match walk.ending {
        Ending::Translated(record) => {
            let bytes = record.map(|byte| format!("{byte:02x}")).join(" ");
            let line = convert::line(48, &record).unwrap_or_else(|| format!("raw {bytes}"));
            format!("{line}\n{bytes}\n{read}\n")
        }
        ground => format!("{}; {read}\n", in_words(context, address, &ground)),
    }
}

fn in_words(context: &Context, address: u64, ground: &Ending) -> String {
    match ground {
        Ending::Translated(_) => "translated".to_string(),
        Ending::ContextOutOfRange => format!("context out of range: {}", out_of_range(context)),
        Ending::BadEptp(rule) => format!("bad EPTP: rule {rule}, {}", rule_in_words(*rule)),
        Ending::NotCanonical => {
            format!("not canonical: bits 63:47 of the address {address:#x} are not all equal")
        }
        Ending::Absent(at) => format!("absent: {}", entry(at)),
        Ending::Outside(at) => format!("outside the image: {}", entry(at)),
        Ending::TooHigh(at) => {
            let (goal, address) = (goal(at), at.address);
            format!("too high: guest-physical address {address:#x} for {goal} is 2^48 or more")
        }
    }
}

/// Which entry is meant, by its physical address.
fn entry(at: &Spot) -> String {
    let (level, address) = (at.ept_level, at.address);
    match level {
        0 => format!("{} at {address:#x}", goal(at)),
        _ => format!(
            "EPT entry of level {level} at {address:#x}, on the way to {}",
            goal(at)
        ),
    }
}

/// What a guest-physical address is needed for.
fn goal(at: &Spot) -> String {
    match at.guest_level {
        0 => "the final page".to_string(),
        level => format!("the guest's entry of level {level}"),
    }
}

/// The numbers of the context that the words may set.
fn out_of_range(context: &Context) -> String {
    let (width, pcid) = (context.width, context.pcid);
    if !(36..=52).contains(&width) {
        format!("the width is 36 to 52, not {width}")
    } else {
        format!("a PCID is at most 4095, not {pcid}")
    }
}

/// Document 02, Ask 6.
fn rule_in_words(rule: u64) -> &'static str {
    match rule {
        1 => "the memory type, bits 2:0, is none that the capability has",
        2 => "bits 5:3 are not 3, or the capability lacks the walk of four levels",
        3 => "bit 6 is set, and the capability lacks accessed and dirty flags",
        4 => "bits 11:7 are not 0",
        _ => "bits from the physical width on are not 0",
    }
}
