//! Tallies: the step that carries one, and the fresh count of a table.

use crate::context::Context;
use crate::raw::{self, FlatContext, FlatStep, Kinds};
use crate::{known_step, Step, PCIDS};

/// How many records a table has, by kind and span, and by PCID.
///
/// It stands beside its table. With an empty table it starts as
/// [`Tally::new`], with a stored one as [`count`] gives it; each accepted
/// [`step`] then makes it that of the new table.
///
/// ```
/// use skuldrefn::{count, step, Context, Tally};
///
/// // Outside VMX, VPID 0 and PCID 0: a linear translation, span 0.
/// let created = [1, 0, 0, 0, 0, 0, 0, 0x45, 0x23, 1, 0, 0, 0xDE, 0xBC, 0x0A, 0, 0];
/// let context = Context::program();
/// let mut table = [0; 17];
/// let mut tally = Tally::new();
/// assert_eq!(step(&context, &mut tally, &[], &created, &mut table).answer, 0);
/// assert_eq!((tally.records(), tally.count_of(1, 0)), (1, Some(1)));
/// assert_eq!(tally.pcids[0], 1);
///
/// // A tally of another table is refused, and stays as it is.
/// let mut wrong = Tally::new();
/// let reset = [25];
/// assert_eq!(step(&context, &mut wrong, &table, &reset, &mut [0; 17]).answer, 13);
/// assert_eq!(wrong, Tally::new());
///
/// // So it is counted afresh.
/// wrong = count(context.linear_width, &table).expect("a valid table");
/// assert_eq!(wrong, tally);
/// assert_eq!(step(&context, &mut wrong, &table, &reset, &mut [0; 17]).answer, 0);
/// assert_eq!(wrong, Tally::new());
/// ```
#[derive(Clone, Debug, PartialEq, Eq)]
pub struct Tally {
    pub kinds: Kinds,
    /// How many records of kinds 1, 3, 4 and 6, and of 7 to 10, each PCID has;
    /// a global one counts under its own. With another length than [`PCIDS`]
    /// the tally matches no table.
    pub pcids: Vec<u16>,
}

impl Tally {
    /// The tally of an empty table: every count is 0.
    pub fn new() -> Tally {
        Tally {
            kinds: Kinds::default(),
            pcids: vec![0; PCIDS],
        }
    }

    /// How many records the table has: the sum of the thirty counts by kind
    /// and span.
    pub fn records(&self) -> u64 {
        let counts = self.kinds.rows.iter().flat_map(|row| row.spans);
        counts.map(u64::from).sum()
    }

    /// How many records of a kind, 1 to 10, have a span, 0 to 4; None for other
    /// numbers. Kinds 7, 8, 9 and 10 are counted in the rows of 1, 3, 4 and 6,
    /// so either of two such kinds gives the same count.
    ///
    /// ```
    /// use skuldrefn::Tally;
    ///
    /// let mut tally = Tally::new();
    /// tally.kinds.rows[2].spans[1] = 5;
    /// assert_eq!(tally.count_of(3, 1), Some(5));
    /// assert_eq!(tally.count_of(8, 1), Some(5));
    /// assert_eq!(tally.count_of(3, 5), None);
    /// assert_eq!(tally.records(), 5);
    /// ```
    pub fn count_of(&self, kind: u8, span: u8) -> Option<u16> {
        let row = match kind {
            1..=6 => kind - 1,
            7 => 0,
            8 => 2,
            9 => 3,
            10 => 5,
            _ => return None,
        };
        let spans = &self.kinds.rows[usize::from(row)].spans;
        spans.get(usize::from(span)).copied()
    }
}

impl Default for Tally {
    fn default() -> Tally {
        Tally::new()
    }
}

/// One event on a context, a table and the tally of that table. The new table
/// is written to the start of `new`, and the bytes past it stay; the tally
/// becomes that of the new table. A refusal writes nothing and leaves the
/// tally. A tally that is not that of `table` is answered 13, which goes after
/// 4 and before 5.
///
/// # Panics
/// If the library hands back what its contract rules out.
pub fn step(
    context: &Context,
    tally: &mut Tally,
    table: &[u8],
    event: &[u8],
    new: &mut [u8],
) -> Step {
    known_step(&step_flat(&context.into(), tally, table, event, new))
}

/// One step with a tally, on a flat context.
pub fn step_flat(
    context: &FlatContext,
    tally: &mut Tally,
    table: &[u8],
    event: &[u8],
    new: &mut [u8],
) -> FlatStep {
    // SAFETY: each pointer is good for its length during the call, `new` and
    // the PCIDs' counts are borrowed alone, and the library keeps nothing.
    let step = unsafe {
        raw::skuldrefn_step(
            *context,
            tally.kinds,
            tally.pcids.as_mut_ptr(),
            tally.pcids.len(),
            table.as_ptr(),
            table.len(),
            event.as_ptr(),
            event.len(),
            new.as_mut_ptr(),
            new.len(),
        )
    };
    tally.kinds = step.kinds;
    FlatStep {
        answer: step.answer,
        rule: step.rule,
        context: step.context,
        length: step.length,
        dropped: step.dropped,
    }
}

/// The tally of a table, counted afresh, or the answer of a table that is
/// refused: 2 where it is too long, 3 where it is not whole, valid records of
/// the linear width. Any linear width but 57 is read as 48.
pub fn count(linear_width: u64, table: &[u8]) -> Result<Tally, u64> {
    let mut tally = Tally::new();
    // SAFETY: each pointer is good for its length during the call, the PCIDs'
    // counts are borrowed alone, and the library keeps nothing.
    let counted = unsafe {
        raw::skuldrefn_count(
            linear_width,
            table.as_ptr(),
            table.len(),
            tally.pcids.as_mut_ptr(),
            tally.pcids.len(),
        )
    };
    tally.kinds = counted.kinds;
    match counted.answer {
        0 => Ok(tally),
        answer => Err(answer),
    }
}
