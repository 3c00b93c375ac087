//! Looking up.

use crate::common::*;
use model::{lookup, tuned, usable, Address, Context};

/// The kinds usable of one record of each kind.
fn kinds_usable(context: &Context, address: Address, f: impl Fn(&mut M)) -> Vec<u64> {
    let mut table = Vec::new();
    let mut starts = Vec::new();
    for kind in 1..=6 {
        let mut mapping = m(kind);
        f(&mut mapping);
        starts.push(table.len());
        table.extend(mapping.bytes());
    }
    let places = usable(context, &table, address);
    for k in 0..7 {
        let expected = (0, places.get(k as usize).cloned());
        assert_eq!(lookup(context, &table, address, k), expected);
        assert_eq!(tuned::lookup(context, &table, address, k), expected);
    }
    let kind = |start| starts.iter().position(|own| *own == start).unwrap() as u64 + 1;
    places.iter().map(|place| kind(place.start)).collect()
}

#[test]
fn r6_1_structure_caches_are_usable() {
    let linear = Address::Linear(0);
    assert_eq!(kinds_usable(&guest(5, None), linear, |_| ()), [1, 4]);
    assert_eq!(kinds_usable(&ept_guest(), linear, |_| ()), [3, 6]);
    let physical = Address::GuestPhysical(0);
    assert_eq!(kinds_usable(&ept_guest(), physical, |_| ()), [2, 5]);
    assert_eq!(kinds_usable(&guest(5, None), physical, |_| ()), []);
    assert_eq!(kinds_usable(&root(), physical, |_| ()), []);
    let own = |m: &mut M| {
        m.vpid = 0;
        m.pcid = 0;
    };
    assert_eq!(kinds_usable(&root(), linear, own), [1, 4]);
    assert_eq!(kinds_usable(&outside(), linear, own), [1, 4]);
}

#[test]
fn r6_2_lookups_need_the_current_ep4ta() {
    let linear = Address::Linear(0);
    for global in [0, 1] {
        let other = |mapping: &mut M| {
            mapping.ep4ta = 9;
            mapping.global = global;
        };
        assert_eq!(kinds_usable(&ept_guest(), linear, other), []);
    }
    let other_pcid = |global| {
        move |mapping: &mut M| {
            mapping.pcid = 2;
            mapping.global = global;
        }
    };
    assert_eq!(kinds_usable(&ept_guest(), linear, other_pcid(0)), []);
    assert_eq!(kinds_usable(&ept_guest(), linear, other_pcid(1)), [3]);
    assert_eq!(kinds_usable(&guest(5, None), linear, other_pcid(1)), [1]);
    let other_vpid = |m: &mut M| {
        m.vpid = 6;
        m.global = 1;
    };
    assert_eq!(kinds_usable(&ept_guest(), linear, other_vpid), []);
}

#[test]
fn r6_3_guest_physical_lookups() {
    let other_tags = |m: &mut M| {
        m.vpid = 9;
        m.pcid = 9;
    };
    for cpl in 0..=3 {
        let context = with_cpl(ept_guest(), cpl);
        let physical = Address::GuestPhysical(0);
        assert_eq!(kinds_usable(&context, physical, other_tags), [2, 5]);
        assert_eq!(kinds_usable(&context, Address::Linear(0), |_| ()), [3, 6]);
    }
    for address in [1 << 48, 1 << 63] {
        let far = Address::GuestPhysical(address);
        assert_eq!(kinds_usable(&ept_guest(), far, |_| ()), []);
    }
    // Guest-physical addresses need not be canonical.
    let upper = |m: &mut M| m.page = 1 << 35;
    let address = Address::GuestPhysical(1 << 47);
    assert_eq!(kinds_usable(&ept_guest(), address, upper), [2, 5]);
    assert_eq!(kinds_usable(&ept_guest(), Address::Linear(ODD), upper), []);
    let canonical = Address::Linear(0xFFFF_8000_0000_0000);
    assert_eq!(kinds_usable(&ept_guest(), canonical, upper), [3, 6]);
}

#[test]
fn r6_4_lookup_answers() {
    let table = [A, A, A].concat();
    let context = guest(5, None);
    let address = Address::Linear(0x1234_5678);
    for (k, expected) in [
        (0, Some(0..17)),
        (1, Some(17..34)),
        (2, Some(34..51)),
        (3, None),
        (1 << 32, None),
        (u64::MAX, None),
    ] {
        assert_eq!(lookup(&context, &table, address, k), (0, expected.clone()));
        assert_eq!(tuned::lookup(&context, &table, address, k), (0, expected));
    }
    assert_eq!(lookup(&context, &table[..50], address, 0), (3, None));
}
