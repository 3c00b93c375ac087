//! What to say of results that differ.

use bridge::FlatContext;
use model::Kinds;

/// The fields in which two contexts differ.
pub fn context_differences(got: &FlatContext, due: &FlatContext) -> Vec<String> {
    let fields = [
        ("capability", got.capability, due.capability),
        ("width", got.width, due.width),
        ("linear width", got.linear_width, due.linear_width),
        ("PCID", got.pcid, due.pcid),
        ("CPL", got.cpl, due.cpl),
        ("place", got.place, due.place),
        ("VPID", got.vpid, due.vpid),
        ("EPT", got.ept, due.ept),
        ("EP4TA", got.ep4ta, due.ep4ta),
    ];
    let differences = fields
        .iter()
        .filter(|(_, got, due)| got != due)
        .map(|(name, got, due)| format!("{name} is {got:#x} and should be {due:#x}"));
    differences.collect()
}

/// The counts in which two tallies' rows differ.
pub fn kinds_differences(got: &Kinds, due: &Kinds) -> Vec<String> {
    let mut differences = Vec::new();
    for (row, (got, due)) in got.iter().zip(due).enumerate() {
        for (span, (got, due)) in got.iter().zip(due).enumerate() {
            if got != due {
                let name = format!("the count of kind {} and span {span}", row + 1);
                differences.push(format!("{name} is {got} and should be {due}"));
            }
        }
    }
    differences
}

/// What to say of a number that is not the one due.
pub fn difference(name: &str, got: u64, due: u64) -> Option<String> {
    (got != due).then(|| format!("{name} is {got} and should be {due}"))
}

/// An error if there is any difference.
pub fn all_same(differences: Vec<String>) -> Result<(), String> {
    if differences.is_empty() {
        return Ok(());
    }
    Err(differences.join("; "))
}
