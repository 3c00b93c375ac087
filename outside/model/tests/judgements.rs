//! Judgements of claimed tables against a slow definition, on random inputs. A
//! failure prints the seed and the case.

use generate::{case, hex, removal, Rng};
use model::mapping::records;
use model::{judge_claim, step, Context, Judgement, LinearWidth, TABLE_LIMIT};

const SEED: u64 = 20_260_101;

/// The length of the longest part that two lists of records have in common, in the
/// order of both: a row for each of ours, and no record taken at its first match.
fn in_common(ours: &[&[u8]], theirs: &[&[u8]]) -> usize {
    let mut row = vec![0; theirs.len() + 1];
    for our in ours {
        let above = row.clone();
        for (at, their) in theirs.iter().enumerate() {
            row[at + 1] = if our == their {
                above[at] + 1
            } else {
                row[at].max(above[at + 1])
            };
        }
    }
    row[theirs.len()]
}

/// The records of a valid table.
fn parts(width: LinearWidth, table: &[u8]) -> Vec<&[u8]> {
    let records = records(width, table).expect("a valid table");
    records.into_iter().map(|(at, _)| &table[at]).collect()
}

/// What the papers say of a claim after an accepted step: it is accepted if all
/// its records are an in-order part of those left; else the first one is named
/// with which the claim up to it is no such part any more.
fn judged_slowly(width: LinearWidth, left: &[u8], claim: &[u8]) -> Judgement {
    if claim.len() > TABLE_LIMIT || records(width, claim).is_none() {
        return Judgement::Malformed;
    }
    let (left, claimed) = (parts(width, left), parts(width, claim));
    let is_part = |count: usize| in_common(&claimed[..count], &left) == count;
    match (1..=claimed.len()).find(|count| !is_part(*count)) {
        None => Judgement::Accepted,
        Some(count) => Judgement::Unmatched {
            position: claimed[..count - 1].iter().map(|part| part.len()).sum(),
        },
    }
}

/// Judgements of any step, those of full tables left out for their length.
#[test]
fn judgements() {
    println!("seed {SEED}");
    let mut rng = Rng::new(SEED);
    let mut reached = [0; 4];
    for number in 0..30_000 {
        let case = case(&mut rng);
        if case.table.len() > 1_000 {
            continue;
        }
        let (context, table, event) = (&case.context, &case.table, &case.event);
        let mut new = vec![0; TABLE_LIMIT];
        let step = step(context, table, event, &mut new);
        let left = match step.answer {
            0 => &new[..step.length],
            _ => table,
        };
        let claim = generate::claim(&mut rng, context, table, left);
        if claim.len() > 1_000 && claim.len() <= TABLE_LIMIT {
            continue;
        }
        let due = match step.answer {
            0 => judged_slowly(context.linear(), left, &claim),
            answer => Judgement::Refused {
                answer,
                rule: step.rule,
            },
        };
        let got = judge_claim(context, table, event, &claim);
        assert_eq!(
            got,
            due,
            "seed {SEED}, case {number}\n{case}\nclaim: {}",
            hex(&claim)
        );
        // What the step leaves is accepted, and so is any part of it.
        if step.answer == 0 {
            for claim in [left.to_vec(), removal(&mut rng, left)] {
                let own = judge_claim(context, table, event, &claim);
                assert_eq!(own, Judgement::Accepted, "{case}");
            }
        }
        reached[match got {
            Judgement::Accepted => 0,
            Judgement::Refused { .. } => 1,
            Judgement::Malformed => 2,
            Judgement::Unmatched { .. } => 3,
        }] += 1;
    }
    println!("judgements reached: {reached:?}");
    assert!(reached.iter().all(|count| *count > 1_000));
}

/// Claims and tables of three records over and over, so that most records have
/// many matches.
#[test]
fn judgements_with_many_matches() {
    println!("seed {SEED}");
    let mut rng = Rng::new(SEED);
    let (mut accepted, mut behind) = (0, 0);
    for number in 0..20_000 {
        let context = Context::after_reset(model::PROGRAM_CAPABILITY, 52, [48, 57][number % 2]);
        let pool: Vec<Vec<u8>> = (0..3)
            .map(|_| generate::table(&mut rng, &context, 1))
            .collect();
        let mut any = |most: usize| -> Vec<u8> {
            let count = rng.below(most);
            (0..count)
                .flat_map(|_| pool[rng.below(pool.len())].clone())
                .collect()
        };
        let (table, claim) = (any(16), any(8));
        // PCID 1, which drops nothing.
        let got = judge_claim(&context, &table, &[24, 1, 0, 0], &claim);
        let due = judged_slowly(context.linear(), &table, &claim);
        let shown = || format!("{}, claim {}", hex(&table), hex(&claim));
        assert_eq!(got, due, "seed {SEED}, case {number}, {}", shown());
        accepted += usize::from(got == Judgement::Accepted);
        behind += usize::from(matches!(got, Judgement::Unmatched { position } if position > 40));
    }
    println!("{accepted} accepted, {behind} unmatched behind others");
    assert!(accepted > 2_000 && behind > 2_000);
}
