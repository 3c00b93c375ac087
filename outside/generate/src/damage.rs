//! Bytes that are damaged, and events of any sort.

use crate::bounds::near;
use crate::event::event;
use crate::record::other_width;
use crate::Rng;
use common::{field, set_field};
use model::Context;

/// Damages bytes: a bit or a byte changed, a part cut, something added.
pub fn damage(rng: &mut Rng, bytes: &mut Vec<u8>) {
    if bytes.is_empty() {
        bytes.push(rng.number() as u8);
        return;
    }
    let at = rng.below(bytes.len());
    match rng.below(8) {
        0 => bytes[at] ^= 1 << rng.below(8),
        1 => bytes[at] = rng.number() as u8,
        2 => bytes[0] = rng.pick(&[0, 1, 4, 7, 8, 10, 11, 15, 28, 29, 128, 255]),
        3 => bytes.truncate(at),
        4 => bytes.truncate(bytes.len() - 1),
        5 => bytes.push(rng.number() as u8),
        6 => bytes.extend_from_within(..),
        _ => {
            bytes.remove(at);
        }
    }
}

/// An event of any sort: valid, near-valid, of the other width, damaged or
/// random bytes.
pub fn any_event(rng: &mut Rng, context: &Context) -> Vec<u8> {
    let mut bytes = event(rng, context);
    match rng.below(20) {
        0..=3 => near(rng, &bytes),
        4 => {
            damage(rng, &mut bytes);
            bytes
        }
        5 => {
            let count = rng.below(40);
            rng.bytes(count)
        }
        6 | 7 => other_width(&bytes).unwrap_or(bytes),
        _ => bytes,
    }
}

/// A whole EPT violation with a linear address that is not canonical, at one
/// width or at both; None for other bytes.
fn odd_violation(rng: &mut Rng, event: &[u8]) -> Option<Vec<u8>> {
    let mut bytes = event.to_vec();
    let address = field(event, 2).filter(|_| event[0] == 19)?;
    set_field(&mut bytes, 1, 1);
    set_field(
        &mut bytes,
        2,
        address ^ 1 << rng.pick(&[47, 48, 55, 56, 63]),
    );
    Some(bytes)
}

/// An event damaged, with one field changed, or of the other width.
pub fn spoiled(rng: &mut Rng, event: &[u8]) -> Vec<u8> {
    if rng.one_in(3) {
        if let Some(other) = other_width(event).or_else(|| odd_violation(rng, event)) {
            return other;
        }
    }
    let mut bytes = event.to_vec();
    if bytes.len() > 1 && rng.one_in(2) {
        bytes = near(rng, &bytes);
    } else {
        damage(rng, &mut bytes);
    }
    bytes
}
