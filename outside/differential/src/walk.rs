//! The library's walk of a guest's tables against the model's.

use crate::case::parts;
use crate::expected;
use crate::reached::Reached;
use crate::text::{context, image, numbers};
use bridge::FlatContext;
use generate::image_entries;
use model::walk::Ending;
use std::fmt;

/// The inputs of one walk.
#[derive(Clone, Debug, PartialEq, Eq)]
pub struct WalkCase {
    pub context: FlatContext,
    pub image: Vec<u8>,
    pub root: u64,
    pub eptp: u64,
    pub vpid: u16,
    pub address: u64,
}

/// Bytes past the image, all set, so that an entry read there would be present.
const BEYOND: [u8; 64] = [0xFF; 64];

impl WalkCase {
    pub fn check(&self, reached: &mut Reached) -> Result<(), String> {
        // The library gets a copy, so that a write to it shows.
        let lent = [&self.image[..], &BEYOND].concat();
        let image = &lent[..self.image.len()];
        let (due, spans) = expected::walk(self);
        let (context, vpid) = (&self.context, self.vpid);
        let got = bridge::walk_flat(context, image, self.root, self.eptp, vpid, self.address);
        if bridge::walk(&got) != Some(due) {
            return Err(format!("the walk is {got:x?} and should be {due:x?}"));
        }
        if *image != self.image || lent[self.image.len()..] != BEYOND {
            return Err("the image was written to".to_string());
        }
        reached.walk(self.context.linear_width, self.image.len(), &due, spans);
        Ok(())
    }

    /// With some entries gone, or with an image that ends with the last of them.
    pub fn smaller(&self) -> Vec<WalkCase> {
        let entries = image_entries(&self.image);
        let mut cases = Vec::new();
        for part in parts(entries.len()) {
            let mut case = self.clone();
            for (at, _) in &entries[part] {
                case.image[*at..]
                    .iter_mut()
                    .take(8)
                    .for_each(|byte| *byte = 0);
            }
            cases.push(case);
        }
        let end = entries.last().map_or(0, |(at, _)| at + 8);
        if end < self.image.len() {
            let mut case = self.clone();
            case.image.truncate(end);
            cases.push(case);
        }
        cases
    }
}

/// The number of an ending, as the C interface has it.
pub fn number(ending: &Ending) -> usize {
    match ending {
        Ending::Translated(_) => 0,
        Ending::ContextOutOfRange => 1,
        Ending::BadEptp(_) => 2,
        Ending::NotCanonical => 3,
        Ending::Absent(_) => 4,
        Ending::TooHigh(_) => 5,
        Ending::Outside(_) => 6,
    }
}

impl fmt::Display for WalkCase {
    fn fmt(&self, f: &mut fmt::Formatter) -> fmt::Result {
        writeln!(f, "case walk")?;
        writeln!(f, "{}", context(&self.context))?;
        writeln!(f, "{}", image(&self.image))?;
        writeln!(f, "{}", numbers("root", &[self.root]))?;
        writeln!(f, "{}", numbers("eptp", &[self.eptp]))?;
        writeln!(f, "{}", numbers("vpid", &[self.vpid.into()]))?;
        write!(f, "{}", numbers("address", &[self.address]))
    }
}
