//! Text to log and back, for good texts, bad texts and any bytes.

use common::{hex, kinds, KINDS, LINEAR_WIDTHS};
use convert::forms::{Form, FORMS};
use convert::{assemble, bad_record, disassemble, row_fault, BadRecord};
use generate::{events, log, near_events, Rng};
use model::event::Event;
use model::mapping::{records, Mapping};
use model::LinearWidth;

const SEED: u64 = 5;

/// Document 01's example and one event of each other kind.
const ALL_KINDS: &str = "\
vmxon
entry vpid=0x5 ept=off pcid=0x1 cpl=0x0
linear vpid=0x5 pcid=0x1 global=0x0 span=0x0 page=0x12345 frame=0xabcde
exit pcid=0x0
invvpid type=0x1 vpid=0x5 address=0x0
guest-physical ep4ta=0x1234567 span=0x0 page=0x10 frame=0x20
combined vpid=0x5 pcid=0x1 global=0x1 span=0x2 page=0x40000 frame=0xabcde ep4ta=0xffffffffff
linear-structure vpid=0xffff pcid=0xfff span=0x1 page=0x12200 structure=0x1
guest-physical-structure ep4ta=0x1234567 span=0x3 page=0xff8000000 structure=0x2
combined-structure vpid=0x0 pcid=0x0 span=0x2 page=0x40000 structure=0x3 ep4ta=0x1
invept type=0x1 eptp=0x123456701e
invlpg address=0xffff800000000000
ept-violation gpa=0xffffffffffff linear=0xffffffffffffffff
ept-violation gpa=0x0 linear=off
entry vpid=off ept=0x123456705e pcid=0xfff cpl=0x3
switch pcid=0x2 cpl=0x3
reset
vmxoff
invpcid type=0x3 pcid=0xfff address=0xffff800000000000
mov-to-cr3 pcid=0xfff
";

/// The names of 57-bit logs.
const ALL_WIDE_KINDS: &str = "\
linear-57 vpid=0x5 pcid=0x1 global=0x0 span=0x0 page=0x100000012345 frame=0xabcde
combined-57 vpid=0x5 pcid=0x1 global=0x1 span=0x2 page=0x1fffffc40000 frame=0xabcde ep4ta=0xffffffffff
linear-structure-57 vpid=0xffff pcid=0xfff span=0x4 page=0x1ff000000000 structure=0x1
combined-structure-57 vpid=0x0 pcid=0x0 span=0x1 page=0x200 structure=0x3 ep4ta=0x1
ept-violation gpa=0xffffffffffff linear=0xff00000000000000
guest-physical ep4ta=0x1234567 span=0x0 page=0x10 frame=0x20
";

/// The text of a log without its comments.
fn bare(text: &str) -> String {
    let lines = text.lines().map(|line| line.split('#').next().unwrap());
    let lines = lines.map(str::trim).filter(|line| !line.is_empty());
    lines.map(|line| format!("{line}\n")).collect()
}

/// Disassembles, and checks that it assembles to the same log, at both linear
/// widths. Hands back the text at 48 bits.
fn there_and_back(log: &[u8]) -> String {
    at_width(57, log);
    at_width(48, log)
}

/// The same at one linear width.
fn at_width(linear_width: u64, log: &[u8]) -> String {
    let text = disassemble(linear_width, log);
    let again = assemble(text.as_bytes()).expect("a disassembled text is good");
    assert_eq!(again, log, "{}\n{text}", hex(log));
    text
}

#[test]
fn names_go_both_ways() {
    let log = assemble(ALL_KINDS.as_bytes()).unwrap();
    assert_eq!(bare(&there_and_back(&log)), ALL_KINDS);
    let log = assemble(ALL_WIDE_KINDS.as_bytes()).unwrap();
    assert_eq!(bare(&at_width(57, &log)), ALL_WIDE_KINDS);
    for form in &FORMS {
        let mut lines = ALL_KINDS.lines().chain(ALL_WIDE_KINDS.lines());
        let name = format!("{} ", form.name);
        assert!(lines.any(|line| format!("{line} ").starts_with(&name)));
    }
}

#[test]
fn the_papers_bytes_at_57_bits() {
    let log = assemble(ALL_WIDE_KINDS.as_bytes()).unwrap();
    let expected = "07 05 00 01 00 00 00 45 23 01 00 00 10 de bc 0a 00 00 \
         08 05 00 01 00 01 02 00 00 c4 ff ff 1f de bc 0a 00 00 ff ff ff ff ff \
         09 ff ff ff 0f 04 00 00 00 00 f0 1f 01 00 00 00 00 \
         0a 00 00 00 00 01 00 02 00 00 00 00 03 00 00 00 00 01 00 00 00 00";
    assert_eq!(hex(&log[..80]), expected);
}

/// Kinds of the other width are written as unknown ones.
#[test]
fn the_other_width_is_unknown() {
    for (linear_width, name, kind) in [
        (48, "linear-57", 7),
        (48, "combined-structure-57", 10),
        (57, "linear", 1),
        (57, "combined-structure", 6),
    ] {
        let texts = [ALL_KINDS, ALL_WIDE_KINDS].concat();
        let mut lines = texts.lines();
        let line = lines.find(|line| line.starts_with(&format!("{name} ")));
        let event = assemble(line.expect(name).as_bytes()).unwrap();
        let log = [&[22], &event[..], &[25]].concat();
        let text = at_width(linear_width, &log);
        let rest = hex(&log[1..]);
        let expected = format!(
            "vmxon  # event 1 at byte 0\n\
             raw {rest}  # event 2 at byte 1: unknown kind {kind:#x}, \
             one of {}-bit linear addresses, a replay ends here\n",
            105 - linear_width
        );
        assert_eq!(text, format!("# {} bytes\n{expected}", log.len()));
        let own = at_width(105 - linear_width, &log);
        assert!(own.contains(&format!("\n{name} ")), "{own}");
        assert!(own.contains("\nreset  # event 3"), "{own}");
    }
    // An address that is canonical at 57 bits alone.
    let log = assemble(b"ept-violation gpa=0x0 linear=0x800000000000").unwrap();
    assert!(at_width(57, &log).contains("\nept-violation gpa=0x0 linear=0x800000000000 "));
    let text = at_width(48, &log);
    assert!(
        text.ends_with(
            ": ept-violation, but linear is 0x800000000000 and must be a canonical address\n"
        ),
        "{text}"
    );
}

#[test]
fn the_papers_bytes() {
    let log = assemble(ALL_KINDS.as_bytes()).unwrap();
    let expected = "16 14 01 05 00 00 00 00 00 00 00 00 00 00 01 00 00 \
         01 05 00 01 00 00 00 45 23 01 00 00 de bc 0a 00 00 \
         15 00 00 10 01 00 00 00 00 00 00 00 05 00 00 00 00 00 00 00 \
         00 00 00 00 00 00 00 00 \
         02 67 45 23 01 00 00 10 00 00 00 00 20 00 00 00 00";
    assert_eq!(hex(&log[..79]), expected);
}

#[test]
fn lengths_agree_with_the_model() {
    for linear_width in LINEAR_WIDTHS {
        for kind in 0..=255 {
            let form = Form::of_kind(linear_width, kind);
            assert_eq!(
                form.map(|form| form.length()),
                model::event::length(LinearWidth::of(linear_width), kind),
                "kind {kind}"
            );
        }
    }
}

#[test]
fn comments_blanks_and_order() {
    let text = "# a log\n\n  vmxon # on\r\n\tswitch cpl=0x3   pcid=0x0Aa#x\nraw 16 1718\nraw FF";
    let log = assemble(text.as_bytes()).unwrap();
    assert_eq!(hex(&log), "16 18 aa 00 03 16 17 18 ff");
    assert_eq!(assemble(b"").unwrap(), []);
    assert_eq!(assemble(b"#").unwrap(), []);
    assert_eq!(disassemble(48, &[]), "# 0 bytes\n");
}

#[test]
fn comments_hold_any_bytes() {
    let every: Vec<u8> = (0..=255).filter(|byte| *byte != b'\n').collect();
    let text = [b"vmxon #", &every[..], b"\n#\xFF\xFE\nreset"].concat();
    assert_eq!(assemble(&text), Ok(vec![22, 25]));
    let error = assemble(b"vmxon\nvmx\xFF # \xFF").expect_err("not a name");
    assert_eq!(error.to_string(), "line 2: not UTF-8 text");
}

#[test]
fn a_byte_order_mark_is_skipped() {
    assert_eq!(assemble(b"\xEF\xBB\xBFvmxon\n"), Ok(vec![22]));
    assert_eq!(assemble(b"\xEF\xBB\xBF"), Ok(vec![]));
    // At the start of the text alone.
    assert!(assemble(b"vmxon\n\xEF\xBB\xBFvmxon\n").is_err());
    assert!(assemble(b"\xEF\xBBvmxon\n").is_err());
}

#[test]
fn errors_name_the_line_and_the_word() {
    for (text, expected) in [
        ("vmxon\nvmxof\n", "line 2: unknown event 'vmxof'"),
        ("\n\n VMXON", "line 3: unknown event 'VMXON'"),
        ("vmxon now", "line 1: vmxon: 'now' is not name=value"),
        ("exit", "line 1: exit: field 'pcid' is missing"),
        ("exit vpid=0x0", "line 1: exit: unknown field 'vpid'"),
        (
            "exit pcid=0x0 pcid=0x0",
            "line 1: exit: field 'pcid' is given twice",
        ),
        (
            "exit pcid=10",
            "line 1: exit: 'pcid=10': a value is hexadecimal with 0x, as 0x1f",
        ),
        (
            "exit pcid=0x",
            "line 1: exit: 'pcid=0x': a value is hexadecimal with 0x, as 0x1f",
        ),
        (
            "exit pcid=0x+1",
            "line 1: exit: 'pcid=0x+1': a value is hexadecimal with 0x, as 0x1f",
        ),
        (
            "exit pcid=off",
            "line 1: exit: 'pcid=off': a value is hexadecimal with 0x, as 0x1f",
        ),
        (
            "exit pcid=0x1000",
            "line 1: exit: 'pcid=0x1000': pcid is 0x1000 and must be at most 0xfff (raw can write what is out of range)",
        ),
        (
            "invvpid type=0x1 vpid=0x10000 address=0x0",
            "line 1: invvpid: 'vpid=0x10000': vpid is 0x10000 and must be at most 0xffff (raw can write what is out of range)",
        ),
        (
            "invlpg address=0x10000000000000000",
            "line 1: invlpg: 'address=0x10000000000000000': more than 64 bits",
        ),
        (
            "linear vpid=0x0 pcid=0x0 global=0x0 span=0x1 page=0x12201 frame=0x0",
            "line 1: linear: 'page=0x12201': page is 0x12201 and must be a multiple of 0x200 with span 0x1 (raw can write what is out of range)",
        ),
        (
            "linear-structure vpid=0x0 pcid=0x0 span=0x0 page=0x0 structure=0x0",
            "line 1: linear-structure: 'span=0x0': span is 0x0 and must be at least 0x1 (raw can write what is out of range)",
        ),
        (
            "ept-violation gpa=0x0 linear=0x100000000000000",
            "line 1: ept-violation: 'linear=0x100000000000000': linear is 0x100000000000000 and must be a canonical address (raw can write what is out of range)",
        ),
        (
            "linear vpid=0x0 pcid=0x0 global=0x0 span=0x0 page=0x1000000000 frame=0x0",
            "line 1: linear: 'page=0x1000000000': page is 0x1000000000 and must be at most 0xfffffffff (raw can write what is out of range)",
        ),
        (
            "linear-57 vpid=0x0 pcid=0x0 global=0x0 span=0x0 page=0x200000000000 frame=0x0",
            "line 1: linear-57: 'page=0x200000000000': page is 0x200000000000 and must be at most 0x1fffffffffff (raw can write what is out of range)",
        ),
        (
            "linear-structure-57 vpid=0x0 pcid=0x0 span=0x5 page=0x0 structure=0x0",
            "line 1: linear-structure-57: 'span=0x5': span is 0x5 and must be at most 0x4 (raw can write what is out of range)",
        ),
        (
            "linear-structure-57 vpid=0x0 pcid=0x0 span=0x4 page=0x8000000 structure=0x0",
            "line 1: linear-structure-57: 'page=0x8000000': page is 0x8000000 and must be a multiple of 0x1000000000 with span 0x4 (raw can write what is out of range)",
        ),
        ("raw", "line 1: raw: there are no bytes"),
        ("raw 1", "line 1: raw: '1' has an odd number of digits"),
        (
            "raw 0x10",
            "line 1: raw: '0x10' is not pairs of hexadecimal digits",
        ),
        (
            "raw gg",
            "line 1: raw: 'gg' is not pairs of hexadecimal digits",
        ),
        ("raw ää", "line 1: raw: 'ää' is not pairs of hexadecimal digits"),
    ] {
        let error = assemble(text.as_bytes()).expect_err(text);
        assert_eq!(error.to_string(), expected);
    }
    let error = assemble(b"vmxon\n\xFF\xFE").unwrap_err();
    assert_eq!(error.to_string(), "line 2: not UTF-8 text");
    let long = "x".repeat(100_000);
    let error = assemble(long.as_bytes()).unwrap_err();
    assert_eq!(
        error.to_string(),
        format!("line 1: unknown event '{}..'", "x".repeat(40))
    );
}

#[test]
fn what_the_names_cannot_say_is_raw() {
    for (bytes, reason) in [
        (
            vec![24, 0, 0x10, 0],
            "switch, but pcid is 0x1000 and must be at most 0xfff",
        ),
        (
            vec![24, 0, 0, 4],
            "switch, but cpl is 0x4 and must be at most 0x3",
        ),
        (
            vec![27, 0, 0x10],
            "mov-to-cr3, but pcid is 0x1000 and must be at most 0xfff",
        ),
        (
            [&[16, 2], &[0; 9][..], &[1], &[0; 13]].concat(),
            "invvpid, but descriptor bits 63:16 are 0x1 and must be zero",
        ),
        (
            [&[17, 2], &[0; 15][..], &[1], &[0; 7]].concat(),
            "invept, but descriptor bits 127:64 are 0x1 and must be zero",
        ),
        (
            [&[26, 2], &[0; 8][..], &[0x10], &[0; 14]].concat(),
            "invpcid, but pcid is 0x1000 and must be at most 0xfff",
        ),
        (
            [&[26, 2], &[0; 14][..], &[1], &[0; 8]].concat(),
            "invpcid, but descriptor bits 63:16 are 0x10000000000 and must be zero",
        ),
        (
            [&[20, 0, 5], &[0; 13][..]].concat(),
            "entry, but vpid is off and not zero",
        ),
        (
            [&[20, 2], &[0; 14][..]].concat(),
            "entry, but the flag of vpid is 0x2 and must be at most 0x1",
        ),
        (vec![0], "unknown kind 0x0, a replay ends here"),
        (
            vec![16, 1, 0],
            "invvpid cut to 3 of 25 bytes, a replay ends here",
        ),
    ] {
        let log = [&[22], &bytes[..]].concat();
        let text = there_and_back(&log);
        let expected = format!("raw {}  # event 2 at byte 1: {reason}", hex(&bytes));
        assert_eq!(text.lines().last(), Some(&expected[..]));
    }
}

#[test]
fn any_bytes_go_there_and_back() {
    println!("seed {SEED}");
    let mut rng = Rng::new(SEED);
    for _ in 0..5_000 {
        let count = rng.below(200);
        let mut bytes = rng.bytes(count);
        if rng.one_in(2) && !bytes.is_empty() {
            bytes[0] = rng.pick(&KINDS);
        }
        there_and_back(&bytes);
    }
    for length in [65_535, 65_536, 65_537, 100_000] {
        there_and_back(&rng.bytes(length));
        let text = there_and_back(&vec![25; length]);
        assert_eq!(text.contains("too long"), length > 65_536);
    }
}

#[test]
fn logs_go_there_and_back() {
    println!("seed {SEED}");
    let mut rng = Rng::new(SEED);
    for _ in 0..500 {
        let length = rng.below(2_000);
        for width in LINEAR_WIDTHS {
            there_and_back(&log(&mut rng, width, length));
            there_and_back(&events(&mut rng, width, 20).concat());
        }
    }
}

#[test]
fn every_truncation_goes_there_and_back() {
    for text in [ALL_KINDS, ALL_WIDE_KINDS] {
        let log = assemble(text.as_bytes()).unwrap();
        for end in 0..=log.len() {
            there_and_back(&log[..end]);
        }
    }
}

#[test]
fn names_are_for_valid_events_alone() {
    // Each event one field away from a valid one: written by name exactly if
    // it is valid and holds no bits that the names leave out.
    println!("seed {SEED}");
    let mut rng = Rng::new(SEED);
    let (mut named, mut raw) = (0, 0);
    for _ in 0..30 {
        let context = generate::context(&mut rng);
        let width = context.linear_width;
        for kind in KINDS {
            let event = generate::event_of_kind(&mut rng, &context, kind);
            for near in near_events(&event).into_iter().chain([event]) {
                let text = at_width(width, &near);
                let by_name = !bare(&text).starts_with("raw");
                let valid = Event::decode(LinearWidth::of(width), &near).is_some();
                assert_eq!(by_name, valid && !holds_more(&near), "{}", hex(&near));
                assert!(!by_name || kinds(width).contains(&kind));
                named += usize::from(by_name);
                raw += usize::from(!by_name);
            }
        }
    }
    println!("{named} by name, {raw} raw");
    assert!(named > 10_000 && raw > 1_000);
}

/// Whether an event holds bits that the names leave out.
fn holds_more(event: &[u8]) -> bool {
    let set = |part: &[u8]| part.iter().any(|byte| *byte != 0);
    match event[0] {
        16 => set(&event[11..17]),
        26 => event[10] & 0xF0 != 0 || set(&event[11..17]),
        17 => set(&event[17..25]),
        19 => event[9] == 0 && set(&event[10..18]),
        20 => event[1] == 0 && set(&event[2..4]) || event[4] == 0 && set(&event[5..13]),
        _ => false,
    }
}

/// One whole, valid event has a line; nothing else has.
#[test]
fn the_line_of_one_event() {
    let created = [
        1, 5, 0, 1, 0, 0, 0, 0x45, 0x23, 1, 0, 0, 0xDE, 0xBC, 0x0A, 0, 0,
    ];
    let due = "linear vpid=0x5 pcid=0x1 global=0x0 span=0x0 page=0x12345 frame=0xabcde";
    assert_eq!(convert::line(48, &created).as_deref(), Some(due));
    assert_eq!(convert::line(57, &created), None);
    assert_eq!(convert::line(48, &created[..16]), None);
    assert_eq!(convert::line(48, &[&created[..], &[0]].concat()), None);
    let mut global = created;
    global[5] = 2;
    assert_eq!(convert::line(48, &global), None);
    assert_eq!(convert::line(48, &[]), None);
    assert_eq!(convert::line(48, &[0]), None);
}

/// The first bad record of bytes, with the model as its judge.
fn first_bad(linear_width: u64, table: &[u8]) -> Option<BadRecord> {
    let width = LinearWidth::of(linear_width);
    bad_record(linear_width, table, |record| {
        Mapping::decode(width, record).is_some()
    })
}

#[test]
fn a_bad_record() {
    let good = "linear vpid=0x5 pcid=0x1 global=0x0 span=0x0 page=0x12345 frame=0xabcde";
    let good = assemble(good.as_bytes()).expect("a record");
    let bad = |number, byte, why: &str| {
        let why = why.to_string();
        Some(BadRecord { number, byte, why })
    };
    let mut global = good.clone();
    global[5] = 2;
    for (table, due) in [
        (vec![], None),
        (good.repeat(3), None),
        (
            [&good[..], &global, &[0]].concat(),
            bad(2, 17, "linear, but global is 0x2 and must be at most 0x1"),
        ),
        (
            [&good.repeat(2)[..], &good[..16]].concat(),
            bad(3, 34, "linear cut to 16 of 17 bytes"),
        ),
        (
            vec![7; 40],
            bad(1, 0, "unknown kind 0x7, one of 57-bit linear addresses"),
        ),
        // A whole, valid event that is no mapping's.
        (
            [&good[..], &[22], &good].concat(),
            bad(2, 17, "kind 0x16 is no mapping's"),
        ),
    ] {
        assert_eq!(first_bad(48, &table), due);
    }
}

/// There is a bad record exactly if the model finds no table, and all before it are
/// one.
#[test]
fn bad_records_of_any_tables() {
    println!("seed {SEED}");
    let mut rng = Rng::new(SEED);
    let mut found = 0;
    for _ in 0..20_000 {
        let context = generate::context(&mut rng);
        let table = generate::any_table(&mut rng, &context);
        for linear_width in LINEAR_WIDTHS {
            let width = LinearWidth::of(linear_width);
            let bad = first_bad(linear_width, &table);
            assert_eq!(bad.is_none(), records(width, &table).is_some());
            let Some(bad) = bad else {
                continue;
            };
            let before = records(width, &table[..bad.byte]).expect("a table");
            assert_eq!(before.len() + 1, bad.number);
            assert!(!bad.why.is_empty());
            found += 1;
        }
    }
    assert!(found > 1_000, "{found}");
}

/// A row has a fault exactly if the model does not import it. The words of each are in
/// `../rows/tests/program.rs`.
#[test]
fn faults_of_rows() {
    println!("seed {SEED}");
    let mut rng = Rng::new(SEED);
    let mut reached = [0; 2];
    for _ in 0..100 {
        let context = generate::context(&mut rng);
        for kind in KINDS.into_iter().filter(|kind| *kind <= 10) {
            let record = generate::event_of_kind(&mut rng, &context, kind);
            let row = generate::rows_of(&record);
            for row in [generate::near_imports(&row), vec![row]].concat() {
                for width in LINEAR_WIDTHS {
                    let fault = row_fault(width, &row);
                    let imported = model::import(width, &row, &mut [0; 23]);
                    assert_eq!(fault.is_none(), imported.answer == 0, "{fault:?}");
                    reached[usize::from(fault.is_none())] += 1;
                }
            }
        }
    }
    println!("faults and good rows: {reached:?}");
    assert!(reached.iter().all(|count| *count > 10_000));
}
