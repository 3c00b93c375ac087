//! Replays.

use crate::common::*;
use model::{print, replay, tuned, LOG_LIMIT, TABLE_LIMIT};

fn printed(log: &[u8]) -> String {
    let plain = replay(log);
    let (mut old, mut new) = (vec![0; TABLE_LIMIT], vec![0; TABLE_LIMIT]);
    let mut lines = Vec::new();
    let whole = tuned::replay(&outside(), log, &mut old, &mut new, |line| lines.push(line));
    assert_eq!(plain, whole.then_some(lines));
    print(plain.as_deref())
}

#[test]
fn r8_1_where_a_replay_ends() {
    assert_eq!(printed(&[22, 7, 22]), "1 0 0 0\n2 4 0 0\n");
    for kind in [0, 7, 8, 9, 10, 11, 15, 28, 255] {
        let log = [&m_outside(1)[..], &[kind], &[0; 40]].concat();
        assert_eq!(printed(&log), "1 0 0 17\n2 4 0 17\n");
    }
    // A bad field takes the kind's whole length and goes on.
    let log = [switch(4_096, 0), VMXON.to_vec()].concat();
    assert_eq!(printed(&log), "1 4 0 0\n2 0 0 0\n");
    // A cut record ends it even if its fields so far are bad.
    assert_eq!(printed(&switch(4_096, 0)[..3]), "1 4 0 0\n");
}

#[test]
fn r8_2_short_logs() {
    assert_eq!(printed(&[]), "");
    assert_eq!(printed(&[16]), "1 4 0 0\n");
    assert_eq!(printed(&[22, 23, 25]), "1 0 0 0\n2 0 0 0\n3 0 0 0\n");
}

#[test]
fn r8_3_the_log_limit() {
    let at_limit = vec![25; LOG_LIMIT];
    let lines = printed(&at_limit);
    assert_eq!(lines.lines().count(), LOG_LIMIT);
    assert!(lines.ends_with("65536 0 0 0\n"));
    assert_eq!(printed(&vec![25; LOG_LIMIT + 1]), "too long\n");
    assert_eq!(printed(&vec![7; LOG_LIMIT + 1]), "too long\n");
    assert_eq!(printed(&vec![7; LOG_LIMIT]), "1 4 0 0\n");
}

#[test]
fn r8_6_a_full_table_in_mid_log() {
    let record = m_outside(4);
    let mut log = record.repeat(2_944);
    log.extend(&record); // 12
    log.extend(invlpg(ODD)); // has nothing in scope
    log.extend(invlpg(1 << 30)); // drops all, though none covers it
    log.extend(&record);
    let lines = printed(&log);
    let last: Vec<&str> = lines.lines().skip(2_943).collect();
    assert_eq!(
        last,
        [
            "2944 0 0 47104",
            "2945 12 0 47104",
            "2946 0 0 47104",
            "2947 0 2944 0",
            "2948 0 0 16"
        ]
    );
}

#[test]
fn r8_every_truncation() {
    let events = [
        VMXON.to_vec(),
        m_outside(1),
        m_outside(4),
        entry(1, 5, 1, EPTP, 1, 0),
        m(2).bytes(),
        m(3).bytes(),
        m(5).bytes(),
        m(6).bytes(),
        violation(0, 1, 0),
        switch(1, 0),
        invlpg(0),
        invpcid(0, 1, 0),
        mov_to_cr3(2),
        exit(0),
        invvpid(2, 0, 0),
        invept(2, 0, 0),
        VMXOFF.to_vec(),
        RESET.to_vec(),
    ];
    let log = events.concat();
    let whole = printed(&log);
    assert!(whole
        .lines()
        .all(|line| line.split(' ').nth(1) == Some("0")));
    let whole: Vec<&str> = whole.lines().collect();
    let mut ends = vec![0];
    for event in &events {
        ends.push(ends[ends.len() - 1] + event.len());
    }
    for cut in 0..=log.len() {
        let lines = printed(&log[..cut]);
        let lines: Vec<&str> = lines.lines().collect();
        let complete = ends.iter().filter(|end| **end <= cut).count() - 1;
        assert_eq!(lines[..complete], whole[..complete]);
        if ends.contains(&cut) {
            assert_eq!(lines.len(), complete);
        } else {
            assert_eq!(lines.len(), complete + 1);
            assert_eq!(lines[complete].split(' ').nth(1), Some("4"));
        }
    }
}
