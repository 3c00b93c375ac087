//! Tallies to hand in with a table (document 02, Ask 7): the one that matches
//! it, and others that are wrong in some way.

use crate::record::span_field;
use crate::table::boundaries;
use crate::Rng;
use common::{field, is_mapping_kind, sibling, PCIDS, TABLE_LIMIT};
use model::{Kinds, Tally};
use std::collections::BTreeMap;
use std::fmt;

/// A tally of which only the counts of PCIDs that are not 0 are kept.
#[derive(Clone, Debug, PartialEq, Eq)]
pub struct SparseTally {
    pub kinds: Kinds,
    /// The length of the list of PCIDs' counts.
    pub length: usize,
    /// Those counts in the list that are not 0, by their places.
    pub pcids: BTreeMap<usize, u16>,
}

impl fmt::Display for SparseTally {
    fn fmt(&self, f: &mut fmt::Formatter) -> fmt::Result {
        let SparseTally {
            kinds,
            length,
            pcids,
        } = self;
        write!(f, "{kinds:?}, of {length} PCIDs {pcids:?}")
    }
}

impl SparseTally {
    /// Every count 0.
    pub fn empty() -> SparseTally {
        SparseTally {
            kinds: Kinds::default(),
            length: PCIDS,
            pcids: BTreeMap::new(),
        }
    }

    /// The tally that matches a table, by the layouts alone. Of bytes that are
    /// no table it counts what it can, and of too many none.
    pub fn of(table: &[u8]) -> SparseTally {
        let mut tally = SparseTally::empty();
        if table.len() <= TABLE_LIMIT {
            for ends in boundaries(table).windows(2) {
                tally.add(&table[ends[0]..ends[1]]);
            }
        }
        tally
    }

    /// One record more, if it has a row, a span and a PCID to count under.
    fn add(&mut self, record: &[u8]) {
        let kind = record[0];
        if !is_mapping_kind(kind) {
            return;
        }
        let row = usize::from(sibling(48, kind)) - 1;
        let span = field(record, span_field(kind)).map_or(usize::MAX, |span| span as usize);
        if let Some(count) = self.kinds[row].get_mut(span) {
            *count += 1;
        }
        if let Some(pcid) = field(record, 1).filter(|_| kind != 2 && kind != 5) {
            let pcid = pcid as usize;
            if pcid < self.length {
                self.set(pcid, self.at(pcid) + 1);
            }
        }
    }

    /// The count of a PCID.
    pub fn at(&self, pcid: usize) -> u16 {
        self.pcids.get(&pcid).copied().unwrap_or(0)
    }

    /// Changes the count of a PCID.
    pub fn set(&mut self, pcid: usize, count: u16) {
        if count == 0 {
            self.pcids.remove(&pcid);
        } else {
            self.pcids.insert(pcid, count);
        }
    }

    /// With every count.
    pub fn tally(&self) -> Tally {
        let mut pcids = vec![0; self.length];
        for (pcid, count) in &self.pcids {
            pcids[*pcid] = *count;
        }
        Tally {
            kinds: self.kinds,
            pcids,
        }
    }

    /// With one cell of the rows changed.
    fn with_cell(&self, (row, span): (usize, usize), change: impl Fn(u16) -> u16) -> SparseTally {
        let mut tally = self.clone();
        let cell = &mut tally.kinds[row][span];
        *cell = change(*cell);
        tally
    }

    /// With the count of one PCID changed.
    fn with_pcid(&self, pcid: usize, change: impl Fn(u16) -> u16) -> SparseTally {
        let mut tally = self.clone();
        tally.set(pcid, change(self.at(pcid)));
        tally
    }

    /// With one moved from one PCID to another.
    fn moved(&self, from: usize, to: usize) -> SparseTally {
        self.with_pcid(from, down).with_pcid(to, up)
    }

    fn with_rows_swapped(&self, one: usize, other: usize) -> SparseTally {
        let mut tally = self.clone();
        tally.kinds.swap(one, other);
        tally
    }

    fn with_spans_swapped(&self, row: usize, one: usize, other: usize) -> SparseTally {
        let mut tally = self.clone();
        tally.kinds[row].swap(one, other);
        tally
    }

    /// With a list of another length, cut or with more of 0.
    fn with_length(&self, length: usize) -> SparseTally {
        let mut tally = self.clone();
        tally.length = length;
        tally.pcids.retain(|pcid, _| *pcid < length);
        tally
    }
}

/// One more; 0 after the largest.
fn up(count: u16) -> u16 {
    count.wrapping_add(1)
}

/// One less; the largest after 0.
fn down(count: u16) -> u16 {
    count.wrapping_sub(1)
}

/// Lengths that no list of PCIDs has.
const BAD_LENGTHS: [usize; 6] = [0, 1, PCIDS - 1, PCIDS + 1, PCIDS / 2, 2 * PCIDS];

fn cell(rng: &mut Rng) -> (usize, usize) {
    (rng.below(6), rng.below(5))
}

/// A PCID: often one that is counted, or one at either end.
fn pcid(rng: &mut Rng, tally: &SparseTally) -> usize {
    let counted = tally.pcids.len();
    match rng.below(4) {
        0 | 1 if counted > 0 => {
            let nth = rng.below(counted);
            tally.pcids.keys().nth(nth).copied().unwrap_or(0)
        }
        2 => rng.pick(&[0, PCIDS - 1]),
        _ => rng.below(PCIDS),
    }
}

/// A tally that is wrong in one way, or nearly always so.
pub fn wrong_tally(rng: &mut Rng, right: &SparseTally) -> SparseTally {
    let by_one = rng.pick(&[up as fn(u16) -> u16, down]);
    let any = rng.number() as u16;
    let other = rng.pick(&[u16::MAX, 1 << 15, any]);
    let (one_cell, one_pcid) = (cell(rng), pcid(rng, right));
    match rng.below(12) {
        0..=2 => right.with_cell(one_cell, by_one),
        3 => right.with_cell(one_cell, |_| other),
        4 | 5 => right.with_pcid(one_pcid, by_one),
        6 => right.with_pcid(one_pcid, |_| other),
        7 => right.moved(one_pcid, pcid(rng, right)),
        8 => right.with_rows_swapped(one_cell.0, rng.below(6)),
        9 => right.with_spans_swapped(one_cell.0, one_cell.1, rng.below(5)),
        10 => right.with_length(rng.pick(&BAD_LENGTHS)),
        // As of a table with one record more or fewer.
        _ => right
            .with_cell(one_cell, by_one)
            .with_pcid(one_pcid, by_one),
    }
}

/// The tally that goes with a table: mostly the one that matches.
pub fn tally(rng: &mut Rng, table: &[u8]) -> SparseTally {
    let right = SparseTally::of(table);
    if rng.one_in(6) {
        wrong_tally(rng, &right)
    } else {
        right
    }
}

/// The one that matches, and all that differ from it in one of these ways:
/// each count of a kind and span by one either way and as large as can be, and
/// so some PCIDs, those at the ends and those counted among them; one moved
/// between two of these; two rows or two spans swapped; a list of another
/// length.
pub fn near_tallies(rng: &mut Rng, right: &SparseTally) -> Vec<SparseTally> {
    let mut near = vec![right.clone()];
    let changes = [up, down, |_| u16::MAX];
    for row in 0..6 {
        for span in 0..5 {
            near.extend(changes.map(|change| right.with_cell((row, span), change)));
        }
        for other in 0..row {
            near.push(right.with_rows_swapped(row, other));
        }
        let (one, other) = (rng.below(5), rng.below(5));
        near.push(right.with_spans_swapped(row, one, other));
    }
    let mut pcids = vec![0, 1, PCIDS - 2, PCIDS - 1];
    pcids.extend(right.pcids.keys().take(6));
    pcids.extend((0..4).map(|_| rng.below(PCIDS)));
    for pcid in &pcids {
        near.extend(changes.map(|change| right.with_pcid(*pcid, change)));
        near.push(right.moved(*pcid, rng.pick(&pcids)));
    }
    near.extend(BAD_LENGTHS.map(|length| right.with_length(length)));
    near
}
