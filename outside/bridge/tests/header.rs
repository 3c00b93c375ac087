//! The header and the example in C, built with `cc` if there is one.

use common::{FIXED_ROW_FIELDS, KINDS, LINEAR_WIDTHS};
use model::{LinearWidth, Reason};
use skuldrefn::raw::{Converted, Counted, CountedStep, FlatWalk};
use skuldrefn::{FlatFinished, FlatJudgement, FlatLevel, FlatLevelStep, FlatTaken};
use skuldrefn::{LevelPart, Reader};
use std::env::temp_dir;
use std::fs;
use std::mem::{offset_of, size_of};
use std::path::{Path, PathBuf};
use std::process::{id, Command, Output};

const PRINTED: &str = "\
1 0 0 0
2 0 0 0
3 0 0 17
12345678h: the record just created
records of PCID 1: 1
at 57 bits: 18 bytes
as a row: page 12345h, frame abcdeh
4 0 0 17
INVVPID: takes the record
a table that keeps it: unmatched at byte 0
5 0 1 0
in fragments: 5 events
two levels: the record is in the second alone
walk: ending 0, 24 entries read
";

/// The output of a program; None if there is no such program.
fn run(program: &Path, words: &[&str]) -> Option<Output> {
    Command::new(program).args(words).output().ok()
}

fn folder() -> PathBuf {
    Path::new(env!("CARGO_MANIFEST_DIR")).join("../c")
}

/// A file that is removed in the end.
struct Temporary(PathBuf);

impl Temporary {
    fn new(name: &str) -> Temporary {
        Temporary(temp_dir().join(format!("skuldrefn-{}-{name}", id())))
    }
}

impl Drop for Temporary {
    fn drop(&mut self) {
        // It may never have been made.
        let _ = fs::remove_file(&self.0);
    }
}

/// What a program in C prints, built with every warning an error; it must end
/// well. None if there is no `cc`.
fn printed(name: &str, source: &Path) -> Option<String> {
    let cc = Path::new("cc");
    if run(cc, &["--version"]).is_none() {
        println!("there is no cc; nothing was built");
        return None;
    }
    let program = Temporary::new(name);
    let include = format!("-I{}", folder().display());
    let library = Path::new(skuldrefn::LIBRARY).join("libskuldrefn.a");
    let built = Command::new(cc)
        .args([
            "-std=c99",
            "-Wall",
            "-Wextra",
            "-Werror",
            "-pedantic",
            "-O2",
        ])
        .arg(include)
        .arg(source)
        .arg(library)
        .arg("-o")
        .arg(&program.0)
        .output()
        .expect("cc starts");
    let said = String::from_utf8_lossy(&built.stderr);
    assert!(built.status.success(), "{said}");
    let output = run(&program.0, &[]).expect("the program starts");
    assert!(output.status.success());
    Some(String::from_utf8_lossy(&output.stdout).into_owned())
}

#[test]
fn the_example_runs() {
    if let Some(printed) = printed("example", &folder().join("example.c")) {
        assert_eq!(printed, PRINTED);
    }
}

/// Steps with a tally in one struct, right and wrong, and prints each answer
/// with the tally's count of the record; then the sizes of the structs.
const TALLY: &str = r#"
#include "skuldrefn.h"
#include <stdio.h>

static const uint8_t record[17] = {1, 0, 0, 7, 0, 0, 2};
static const uint8_t to_pcid_7[4] = {24, 7, 0, 0};
static const uint8_t reset[1] = {25};
static uint8_t table[17], other[17];

static void say(skuldrefn_step_result step, const skuldrefn_tally *tally)
{
    printf("%d %d %d, %d %d\n", (int)step.answer, (int)step.length, (int)step.dropped,
        tally->kinds.rows[0].spans[2], tally->pcids[7]);
}

int main(void)
{
    skuldrefn_context context = {
        SKULDREFN_PROGRAM_CAPABILITY, SKULDREFN_PROGRAM_WIDTH, SKULDREFN_PROGRAM_LINEAR_WIDTH,
        0, 0, SKULDREFN_OUTSIDE, 0, 0, 0};
    skuldrefn_tally tally = {0};
    skuldrefn_tally wrong = {0};
    skuldrefn_step_result step;

    step = skuldrefn_step_tally(context, &tally, NULL, 0, to_pcid_7, 4, table, 17);
    say(step, &tally);
    context = step.context;
    say(skuldrefn_step_tally(context, &tally, NULL, 0, record, 17, table, 16), &tally);
    say(skuldrefn_step_tally(context, &tally, NULL, 0, record, 17, table, 17), &tally);
    say(skuldrefn_step_tally(context, &wrong, table, 17, reset, 1, other, 17), &wrong);
    say(skuldrefn_plain_step(context, table, 17, reset, 1, other, 17), &wrong);
    for (int i = 0; i < 3; i++) {
        static const struct { uint64_t width; size_t length; } counts[3] = {
            {48, 16}, {48, 17}, {57, 17}};
        uint64_t answer = skuldrefn_count_tally(counts[i].width, table, counts[i].length, &wrong);
        printf("%d, %d %d\n", (int)answer, wrong.kinds.rows[0].spans[2], wrong.pcids[7]);
    }
    say(skuldrefn_step_tally(context, &wrong, table, 17, reset, 1, other, 17), &wrong);
    printf("%zu %zu %zu %zu %zu\n", sizeof(skuldrefn_row), sizeof(skuldrefn_kinds),
        sizeof(skuldrefn_counted_step), offsetof(skuldrefn_counted_step, kinds),
        sizeof(skuldrefn_counted));
    return 0;
}
"#;

#[test]
fn a_tally_in_c() {
    let source = Temporary::new("tally.c");
    fs::write(&source.0, TALLY).expect("a file");
    let Some(printed) = printed("tally", &source.0) else {
        return;
    };
    let (steps, sizes) = printed.trim_end().rsplit_once('\n').expect("lines");
    let due = [
        "0 0 0, 0 0",
        // No room; then it is created.
        "12 0 0, 0 0",
        "0 17 0, 1 1",
        // The tally of an empty table; the plain step asks for none.
        "13 0 0, 0 0",
        "0 0 1, 0 0",
        // A cut table, the table, and the table at the other width.
        "3, 0 0",
        "0, 1 1",
        "3, 1 1",
        "0 0 1, 0 0",
    ];
    assert_eq!(steps.lines().collect::<Vec<_>>(), due);
    let due = [
        size_of::<skuldrefn::Row>(),
        size_of::<skuldrefn::Kinds>(),
        size_of::<CountedStep>(),
        offset_of!(CountedStep, kinds),
        size_of::<Counted>(),
    ];
    assert_eq!(sizes, due.map(|size| size.to_string()).join(" "));
}

/// Judges claims after a creation and prints the four numbers of each; then the
/// sizes.
const CLAIMS: &str = r#"
#include "skuldrefn.h"
#include <stdio.h>

static const uint8_t records[34] = {1, 0, 0, 0, 0, 0, 2, [17] = 1, 0, 0, 0, 0, 1, 2};
static const uint8_t vmxoff[1] = {23};

int main(void)
{
    skuldrefn_context context = {
        SKULDREFN_PROGRAM_CAPABILITY, SKULDREFN_PROGRAM_WIDTH, SKULDREFN_PROGRAM_LINEAR_WIDTH,
        0, 0, SKULDREFN_OUTSIDE, 0, 0, 0};
    const uint8_t *first = records, *second = records + 17;
    const struct { const uint8_t *table, *event, *claim; size_t lengths[3]; } cases[6] = {
        {first, second, records, {17, 17, 34}},
        {first, second, second, {17, 17, 17}},
        {second, first, records, {17, 17, 34}},
        {NULL, second, records, {0, 17, 34}},
        {first, second, records, {17, 17, 33}},
        {first, vmxoff, records, {17, 1, 33}},
    };
    for (int i = 0; i < 6; i++) {
        skuldrefn_judgement judged = skuldrefn_judge(
            context, cases[i].table, cases[i].lengths[0], cases[i].event, cases[i].lengths[1],
            cases[i].claim, cases[i].lengths[2]);
        printf("%d %d %d %d\n", (int)judged.number, (int)judged.answer, (int)judged.rule,
            (int)judged.position);
    }
    printf("%zu %zu\n", sizeof(skuldrefn_judgement), offsetof(skuldrefn_judgement, position));
    return 0;
}
"#;

#[test]
fn claims_in_c() {
    let source = Temporary::new("claims.c");
    fs::write(&source.0, CLAIMS).expect("a file");
    let Some(printed) = printed("claims", &source.0) else {
        return;
    };
    let due = [
        // Both records, and the created one alone.
        "0 0 0 0", "0 0 0 0",
        // In the other order, and with one that was not there.
        "3 0 0 17", "3 0 0 0",
        // Cut; and VMXOFF outside VMX, where the claim is not looked at.
        "2 0 0 0", "1 5 0 0", "32 24",
    ];
    assert_eq!(printed.lines().collect::<Vec<_>>(), due);
    let size = size_of::<FlatJudgement>();
    assert_eq!((size, offset_of!(FlatJudgement, position)), (32, 24));
}

/// Steps two levels and looks up in both, and prints what each reports; then the
/// sizes.
const LEVELS: &str = r#"
#include "skuldrefn.h"
#include <stdio.h>

static const uint8_t record[17] = {1, 0, 0, 0, 0, 0, 2};
static const uint8_t reset[1] = {25};
static uint8_t small[2][17], large[2][40];

int main(void)
{
    skuldrefn_context context = {
        SKULDREFN_PROGRAM_CAPABILITY, SKULDREFN_PROGRAM_WIDTH, SKULDREFN_PROGRAM_LINEAR_WIDTH,
        0, 0, SKULDREFN_OUTSIDE, 0, 0, 0};
    static skuldrefn_tally first, second;
    const struct { const uint8_t *event; size_t length, tables[2], rooms[2]; } cases[4] = {
        {record, 17, {0, 0}, {17, 16}},
        {record, 17, {0, 0}, {17, 40}},
        {record, 17, {17, 17}, {17, 40}},
        {reset, 1, {17, 17}, {17, 40}},
    };
    for (int i = 0; i < 4; i++) {
        int now = i < 2 ? 0 : 1;
        skuldrefn_level_step step = skuldrefn_step_levels_tally(
            context, cases[i].event, cases[i].length,
            &first, small[1 - now], cases[i].tables[0], small[now], cases[i].rooms[0],
            &second, large[1 - now], cases[i].tables[1], large[now], cases[i].rooms[1]);
        printf("%d %d, %d %d, %d %d, %d %d\n", (int)step.answer, (int)step.rule,
            (int)step.first.length, (int)step.first.dropped, (int)step.second.length,
            (int)step.second.dropped, first.kinds.rows[0].spans[2], second.pcids[0]);
        for (size_t tables = 0; i == 1 && tables < 4; tables++) {
            skuldrefn_level_part part = skuldrefn_lookup_levels(
                context, small[0], tables & 1 ? 17 : 0, large[0], tables & 2 ? 17 : 16, 0);
            printf("%d %d %d %d\n", (int)part.answer, (int)part.level, (int)part.start,
                (int)part.length);
        }
    }
    printf("%zu %zu %zu %zu\n", sizeof(skuldrefn_level), sizeof(skuldrefn_level_step),
        offsetof(skuldrefn_level_step, second), sizeof(skuldrefn_level_part));
    return 0;
}
"#;

#[test]
fn two_levels_in_c() {
    let source = Temporary::new("levels.c");
    fs::write(&source.0, LEVELS).expect("a file");
    let Some(printed) = printed("levels", &source.0) else {
        return;
    };
    let (calls, sizes) = printed.trim_end().rsplit_once('\n').expect("lines");
    let due = [
        // No room at the second level, then it is created at both.
        "12 0, 0 0, 0 0, 0 0",
        "0 0, 17 0, 17 0, 1 1",
        // The second table cut, with nothing in the first and with the record; then
        // the record in the second, and in both.
        "3 0 0 0",
        "3 0 0 0",
        "0 2 0 17",
        "0 1 0 17",
        // Again: no room at the first level. A reset.
        "12 0, 0 0, 0 0, 1 1",
        "0 0, 0 1, 0 1, 0 0",
    ];
    assert_eq!(calls.lines().collect::<Vec<_>>(), due);
    let due = [
        size_of::<FlatLevel>(),
        size_of::<FlatLevelStep>(),
        offset_of!(FlatLevelStep, second),
        size_of::<LevelPart>(),
    ];
    assert_eq!(sizes, due.map(|size| size.to_string()).join(" "));
}

/// Takes a log in fragments and prints each event, then what a finish call and
/// readers that ignore report; then the sizes.
const READERS: &str = r#"
#include "skuldrefn.h"
#include <stdio.h>
#include <string.h>

/* VMXON, an INVLPG, an unknown kind and a reset. */
static const uint8_t log_bytes[12] = {22, 18, 0, 16, 0, 0, 0, 0, 0, 0, 255, 25};
static uint8_t table[17];

static void say(const skuldrefn_reader *reader)
{
    printf("line %d, ignoring %d, held %d\n", (int)reader->line, (int)reader->ignoring,
        (int)reader->length);
}

int main(void)
{
    skuldrefn_context context = {
        SKULDREFN_PROGRAM_CAPABILITY, SKULDREFN_PROGRAM_WIDTH, SKULDREFN_PROGRAM_LINEAR_WIDTH,
        0, 0, SKULDREFN_OUTSIDE, 0, 0, 0};
    static const size_t lengths[6] = {3, 2, 0, 12, 12, 12};
    skuldrefn_tally tally = {0};
    skuldrefn_reader reader = {0};
    skuldrefn_step_result step = {0};
    skuldrefn_finished end;
    size_t at = 0, taken = 0;

    for (int i = 0; i < 6; i++) {
        size_t length = sizeof log_bytes - at < lengths[i] ? sizeof log_bytes - at : lengths[i];
        int finished = skuldrefn_take_tally(&reader, context, &tally, NULL, 0, log_bytes + at,
            length, &taken, table, 17, &step);
        printf("%d of %d taken, %d, answer %d; ", (int)taken, (int)length, finished, (int)step.answer);
        say(&reader);
        at += taken;
    }
    end = skuldrefn_finish(reader, context, NULL, 0);
    printf("%d %d, %d\n", (int)end.finished, (int)end.answer,
        memcmp(&end.reader, &reader, sizeof reader));
    reader = skuldrefn_reset_reader(reader);
    say(&reader);
    skuldrefn_take_tally(&reader, context, &tally, NULL, 0, log_bytes + 1, 8, &taken, table, 17, &step);
    say(&reader);
    end = skuldrefn_finish(reader, context, NULL, 0);
    printf("%d %d; ", (int)end.finished, (int)end.answer);
    say(&end.reader);
    /* A width that is none, a table that is none, and nothing held. */
    context.width = 35;
    printf("%d ", (int)skuldrefn_finish(reader, context, NULL, 0).answer);
    context.width = 52;
    printf("%d ", (int)skuldrefn_finish(reader, context, log_bytes, 12).answer);
    reader.length = 0;
    printf("%d\n", (int)skuldrefn_finish(reader, context, NULL, 0).finished);
    printf("%zu %zu %zu %zu %zu %zu\n", sizeof(skuldrefn_reader), sizeof(skuldrefn_taken),
        offsetof(skuldrefn_taken, step), offsetof(skuldrefn_taken, kinds),
        sizeof(skuldrefn_finished), offsetof(skuldrefn_finished, answer));
    return 0;
}
"#;

#[test]
fn readers_in_c() {
    let source = Temporary::new("readers.c");
    fs::write(&source.0, READERS).expect("a file");
    let Some(printed) = printed("readers", &source.0) else {
        return;
    };
    let (calls, sizes) = printed.trim_end().rsplit_once('\n').expect("lines");
    let due = [
        "1 of 3 taken, 1, answer 0; line 1, ignoring 0, held 0",
        "2 of 2 taken, 0, answer 0; line 1, ignoring 0, held 2",
        "0 of 0 taken, 0, answer 0; line 1, ignoring 0, held 2",
        "7 of 9 taken, 1, answer 0; line 2, ignoring 0, held 0",
        "1 of 2 taken, 1, answer 4; line 3, ignoring 1, held 0",
        // Ignored, and so is the finish call.
        "1 of 1 taken, 0, answer 4; line 3, ignoring 1, held 0",
        "0 0, 0",
        "line 3, ignoring 0, held 0",
        // All of an INVLPG but its last byte.
        "line 3, ignoring 0, held 8",
        "1 4; line 4, ignoring 1, held 0",
        "1 3 0",
    ];
    assert_eq!(calls.lines().collect::<Vec<_>>(), due);
    let due = [
        size_of::<Reader>(),
        size_of::<FlatTaken>(),
        offset_of!(FlatTaken, step),
        offset_of!(FlatTaken, kinds),
        size_of::<FlatFinished>(),
        offset_of!(FlatFinished, answer),
    ];
    assert_eq!(sizes, due.map(|size| size.to_string()).join(" "));
    let held = "#define SKULDREFN_HELD 24";
    assert!(header().lines().any(|line| line == held));
}

#[test]
fn the_header_names_every_judgement() {
    let header = header();
    let names = ["ACCEPTED", "REFUSED", "MALFORMED", "UNMATCHED"];
    for (number, name) in names.into_iter().enumerate() {
        let line = format!("    SKULDREFN_CLAIM_{name} = {number}");
        let found = header.lines().find_map(|own| own.strip_prefix(&line));
        assert!(
            found.is_some_and(|rest| rest.starts_with([',', ' '])),
            "{line}"
        );
    }
}

/// Walks with a VPID of all sixteen bits, and prints the bytes of the record, a
/// ground of each sort, and where the fields of the struct are.
const WALK: &str = r#"
#include "skuldrefn.h"
#include <inttypes.h>
#include <stdio.h>

static uint8_t image[16] = {7, 0, 0, 0, 0, 0, 0, 0, 7, 0x10};

static void say(skuldrefn_context context, uint64_t root, uint64_t eptp, uint64_t address, size_t length)
{
    skuldrefn_walked walk = skuldrefn_walk(context, image, length, root, eptp, 65535, address);
    printf("%" PRIu64 " %" PRIu64 " %" PRIu64 " %" PRIu64 " %" PRIx64 " %" PRIu64 ":",
        walk.ending, walk.rule, walk.guest_level, walk.ept_level, walk.address, walk.read);
    for (size_t i = 0; i < sizeof walk.record; i++) {
        printf(" %x", walk.record[i]);
    }
    printf("\n");
}

int main(void)
{
    skuldrefn_context context = {
        SKULDREFN_PROGRAM_CAPABILITY, SKULDREFN_PROGRAM_WIDTH, SKULDREFN_PROGRAM_LINEAR_WIDTH,
        4095, 0, SKULDREFN_OUTSIDE, 0, 0, 0};

    say(context, 0, 0x1E, 0x1678, 16);
    context.place = 3;
    say(context, 0, 0x1E, 0x1678, 16);
    context.place = SKULDREFN_OUTSIDE;
    say(context, 0, 0x9E, 0x1678, 16);
    say(context, 0, 0x1E, UINT64_C(1) << 47, 16);
    say(context, UINT64_C(1) << 63, 0x1E, 0x1678, 16);
    say(context, 0, 0x1E, 0x1678, 15);
    image[8] = 0;
    say(context, 0, 0x1E, 0x1678, 16);
    say(context, 0, 0x1E, 0x1678, 0);
    printf("%zu %zu %zu\n", sizeof(skuldrefn_walked), offsetof(skuldrefn_walked, read),
        offsetof(skuldrefn_walked, record));
    return 0;
}
"#;

#[test]
fn a_walk_in_c() {
    let source = Temporary::new("walk.c");
    fs::write(&source.0, WALK).expect("a file");
    let Some(printed) = printed("walk", &source.0) else {
        return;
    };
    let (walks, sizes) = printed.trim_end().rsplit_once('\n').expect("lines");
    let nothing = " 0".repeat(22);
    let due = [
        // Page 1 to frame 1 for VPID FFFFh and PCID FFFh, EP4TA 0.
        "0 0 0 0 0 24: 3 ff ff ff f 0 0 1 0 0 0 0 1 0 0 0 0 0 0 0 0 0".to_string(),
        format!("1 0 0 0 0 0:{nothing}"),
        // Bit 7 of the EPTP.
        format!("2 4 0 0 0 0:{nothing}"),
        format!("3 0 0 0 0 0:{nothing}"),
        format!("5 0 4 0 8000000000000000 0:{nothing}"),
        // The guest's entry of level 1 lacks a byte; then it is absent.
        format!("6 0 1 0 8 19:{nothing}"),
        format!("4 0 1 0 8 20:{nothing}"),
        format!("6 0 4 4 0 0:{nothing}"),
    ];
    assert_eq!(walks.lines().collect::<Vec<_>>(), due);
    let due = [
        size_of::<FlatWalk>(),
        offset_of!(FlatWalk, read),
        offset_of!(FlatWalk, record),
    ];
    assert_eq!(sizes, due.map(|size| size.to_string()).join(" "));
}

/// Exports two records with every field of theirs, prints the rows, and imports them;
/// then a refusal of each sort and where the fields of the structs are.
const ROWS: &str = r#"
#include "skuldrefn.h"
#include <inttypes.h>
#include <stdio.h>
#include <string.h>

static const uint8_t table[45] = {
    8, 5, 6, 2, 1, 1, 2, 0, 0, 4, 0, 0, 0x1F, 1, 2, 3, 4, 0x85, 6, 7, 8, 9, 0x8A,
    10, 0xFF, 0xFF, 0xFF, 0xF, 4, 0, 0, 0, 0, 0x10, 0, 0x11, 0x12, 0x13, 0x14, 0x95, 0x16, 0x17, 0x18, 0x19, 0x9A};
static skuldrefn_fixed_row rows[3];
static uint8_t again[47];

static void say(skuldrefn_converted converted)
{
    printf("%d %d %d\n", (int)converted.answer, (int)converted.row, (int)converted.length);
}

int main(void)
{
    const uint8_t *bytes = (const uint8_t *)rows;

    memset(again, 0xA5, sizeof again);
    say(skuldrefn_export(57, table, 45, (uint8_t *)rows, 63));
    say(skuldrefn_export(57, table, 45, (uint8_t *)rows, sizeof rows));
    for (int i = 0; i < 3; i++) {
        printf("%d %d %d %d %x %x %" PRIx64 " %" PRIx64 " %" PRIx64 "\n", rows[i].kind, rows[i].span,
            rows[i].global, rows[i].zero, rows[i].vpid, rows[i].pcid, rows[i].page, rows[i].frame,
            rows[i].ep4ta);
    }
    say(skuldrefn_import(57, bytes, 64, again, 44));
    say(skuldrefn_import(57, bytes, 64, again, sizeof again));
    printf("%d %x %x\n", memcmp(again, table, 45), again[45], again[46]);
    say(skuldrefn_import(57, bytes, sizeof rows, again, 0));
    say(skuldrefn_import(57, bytes, 65, again, 0));
    say(skuldrefn_import(48, bytes, 64, again, 0));
    say(skuldrefn_import(49, bytes, 65, again, 0));
    say(skuldrefn_export(48, table, 45, NULL, 0));
    say(skuldrefn_export(56, table, 45, NULL, 0));
    say(skuldrefn_import(48, NULL, 0, NULL, 0));
    printf("%zu %zu %zu %zu %zu %zu %zu %zu %zu %zu\n", sizeof(skuldrefn_fixed_row),
        offsetof(skuldrefn_fixed_row, kind), offsetof(skuldrefn_fixed_row, span),
        offsetof(skuldrefn_fixed_row, global), offsetof(skuldrefn_fixed_row, zero),
        offsetof(skuldrefn_fixed_row, vpid), offsetof(skuldrefn_fixed_row, pcid),
        offsetof(skuldrefn_fixed_row, page), offsetof(skuldrefn_fixed_row, frame),
        offsetof(skuldrefn_fixed_row, ep4ta));
    printf("%zu %zu %zu\n", sizeof(skuldrefn_converted), offsetof(skuldrefn_converted, row),
        offsetof(skuldrefn_converted, length));
    return 0;
}
"#;

#[test]
fn rows_in_c() {
    let source = Temporary::new("rows.c");
    fs::write(&source.0, ROWS).expect("a file");
    let Some(printed) = printed("rows", &source.0) else {
        return;
    };
    let due = [
        // A byte short; then both rows, and nothing behind them.
        "12 0 0",
        "0 0 64",
        "8 2 1 0 605 102 1f0000040000 8504030201 8a09080706",
        "10 4 0 0 ffff fff 1000000000 9514131211 9a19181716",
        "0 0 0 0 0 0 0 0 0",
        "12 0 0",
        "0 0 45",
        "0 a5 a5",
        // The third row is no record's; a bad length; kinds of the other width, and a
        // width that is none.
        "4 3 0",
        "4 0 0",
        "4 1 0",
        "1 0 0",
        "3 0 0",
        "1 0 0",
        "0 0 0",
        "32 0 1 2 3 4 6 8 16 24",
        "24 8 16",
    ];
    assert_eq!(printed.lines().collect::<Vec<_>>(), due);
    let offsets = (offset_of!(Converted, row), offset_of!(Converted, length));
    assert_eq!((size_of::<Converted>(), offsets), (24, (8, 16)));
}

/// Where the fields of a fixed row are, in the comments of its struct.
#[test]
fn the_header_has_the_layout_of_a_fixed_row() {
    let header = header();
    let (before, _) = header.split_once("} skuldrefn_fixed_row;").expect("it");
    let (_, fields) = before.rsplit_once("typedef struct {\n").expect("it");
    let lines: Vec<&str> = fields.lines().collect();
    assert_eq!(lines.len(), FIXED_ROW_FIELDS.len());
    for (line, (name, place)) in lines.into_iter().zip(FIXED_ROW_FIELDS) {
        let sort = format!("uint{}_t {name}; ", 8 * place.len());
        let rest = line.trim().strip_prefix(&sort).expect(line);
        let rest = rest.trim_start().strip_prefix("/* ").expect(line);
        let start: String = rest.chars().take_while(char::is_ascii_digit).collect();
        assert_eq!(start, place.start.to_string(), "{line}");
    }
}

fn header() -> String {
    fs::read_to_string(folder().join("skuldrefn.h")).expect("the header")
}

/// The numbers in the header are those of the papers.
#[test]
fn the_header_names_every_answer() {
    let header = header();
    for answer in 0..=13 {
        let number = format!("= {answer}, ");
        let last = format!("= {answer} ");
        assert!(
            header.contains(&number) || header.contains(&last),
            "{answer}"
        );
    }
}

#[test]
fn the_header_has_the_limits_and_the_programs_numbers() {
    let header = header();
    for (name, number) in [
        ("TABLE_LIMIT", model::TABLE_LIMIT.to_string()),
        ("LOG_LIMIT", model::LOG_LIMIT.to_string()),
        ("PCIDS", "4096".to_string()),
        ("ROW", common::ROW.to_string()),
        ("FIXED_ROW", model::rows::ROW.to_string()),
        (
            "PROGRAM_CAPABILITY",
            format!("UINT64_C({:#X})", model::PROGRAM_CAPABILITY).replace("0X", "0x"),
        ),
        ("PROGRAM_WIDTH", model::PROGRAM_WIDTH.to_string()),
        (
            "PROGRAM_LINEAR_WIDTH",
            model::PROGRAM_LINEAR_WIDTH.to_string(),
        ),
        ("EVENT_LIMIT", longest().to_string()),
    ] {
        let line = format!("#define SKULDREFN_{name} {number}\n");
        assert!(header.contains(&line), "{line}");
    }
    assert_eq!(skuldrefn::TABLE_LIMIT, model::TABLE_LIMIT);
    assert_eq!(skuldrefn::LOG_LIMIT, model::LOG_LIMIT);
    assert_eq!(skuldrefn::PCIDS, 4_096);
    assert_eq!(skuldrefn::ROW, common::ROW);
    assert_eq!(skuldrefn::FIXED_ROW, model::rows::ROW);
    assert_eq!(skuldrefn::PCIDS, model::PCIDS);
    assert_eq!(skuldrefn::PROGRAM_CAPABILITY, model::PROGRAM_CAPABILITY);
    assert_eq!(skuldrefn::PROGRAM_WIDTH, model::PROGRAM_WIDTH);
    assert_eq!(skuldrefn::PROGRAM_LINEAR_WIDTH, model::PROGRAM_LINEAR_WIDTH);
}

/// The length of an event of a kind, at the width at which it is known.
fn length(kind: u8) -> Option<usize> {
    let both = LINEAR_WIDTHS.map(LinearWidth::of);
    both.iter()
        .find_map(|width| model::event::length(*width, kind))
}

fn longest() -> usize {
    let lengths = KINDS.map(length);
    lengths.into_iter().flatten().max().expect("a kind")
}

/// Each kind has a line: its number, its length, and where each field starts.
#[test]
fn the_header_has_every_layout() {
    let header = header();
    let mut found = 0;
    for line in header.lines() {
        let Some((name, rest)) = line.trim().split_once(" = ") else {
            continue;
        };
        if !name.starts_with("SKULDREFN_KIND_") {
            continue;
        }
        let (kind, layout) = rest.split_once(" /* ").expect("a layout");
        let kind: u8 = kind.trim_end_matches(',').parse().expect("a kind");
        let layout = layout.trim_end_matches(" */");
        let (length, fields) = layout.split_once(": ").unwrap_or((layout, ""));
        let due: usize = length.parse().expect("a length");
        assert_eq!(Some(due), self::length(kind), "{line}");
        let starts: Vec<usize> = fields
            .split(", ")
            .filter(|field| !field.is_empty())
            .map(|field| field.rsplit(' ').next().expect("a start").parse())
            .collect::<Result<_, _>>()
            .expect("starts");
        let mut start = 1;
        let mut due = Vec::new();
        for size in common::sizes(kind).expect("a kind") {
            due.push(start);
            start += size;
        }
        assert_eq!(starts, due, "{line}");
        found += 1;
    }
    assert_eq!(found, KINDS.len());
}

/// The library tells the length of every kind, at every linear width.
#[test]
fn lengths() {
    let widths = [0, 47, 48, 49, 56, 57, 58, (1 << 32) + 57, 57 << 8, u64::MAX];
    for linear_width in widths {
        let width = LinearWidth::of(linear_width);
        for kind in 0..=255 {
            let due = model::event::length(width, kind).unwrap_or(0);
            for rest in [0, 1, 30] {
                let log = [&[kind][..], &vec![0xA5; rest]].concat();
                let got = skuldrefn::event_length(linear_width, &log);
                assert_eq!(got, due, "kind {kind} at {linear_width:#x}");
            }
        }
        assert_eq!(skuldrefn::event_length(linear_width, &[]), 0);
    }
}

/// The context's fields in the header, in the order of the wrapper's.
#[test]
fn the_header_has_the_contexts_fields() {
    let header = header();
    let (_, rest) = header
        .split_once("typedef struct {\n    uint64_t capability;")
        .expect("it");
    let (fields, _) = rest.split_once("} skuldrefn_context;").expect("it");
    let names: Vec<&str> = fields
        .lines()
        .filter_map(|line| line.trim().strip_prefix("uint64_t "))
        .filter_map(|line| line.split(';').next())
        .collect();
    let due = [
        "width",
        "linear_width",
        "pcid",
        "cpl",
        "place",
        "vpid",
        "ept",
        "ep4ta",
    ];
    assert_eq!(names, due);
    let size = std::mem::size_of::<skuldrefn::FlatContext>();
    assert_eq!(size, 8 * (1 + due.len()));
}

/// Six rows of five counts of two bytes, with nothing between them.
#[test]
fn the_shape_of_a_tally() {
    assert_eq!(std::mem::size_of::<skuldrefn::Row>(), 2 * 5);
    assert_eq!(std::mem::size_of::<skuldrefn::Kinds>(), 2 * 5 * 6);
    let tally = skuldrefn::Tally::new();
    assert_eq!(tally.kinds, skuldrefn::Kinds::default());
    assert_eq!(tally.pcids, vec![0; model::PCIDS]);
}

#[test]
fn the_header_names_every_reason() {
    let header = header();
    for (name, reason) in [
        ("REFUSED", Reason::refused(4)),
        ("NO_SCOPE", Reason::NoScope),
        ("NOT_CANONICAL", Reason::NotCanonical),
        ("WRONG_KIND", Reason::WrongKind),
        ("WRONG_VPID", Reason::WrongVpid),
        ("WRONG_PCID", Reason::WrongPcid),
        ("WRONG_EP4TA", Reason::WrongEp4ta),
        ("NOT_COVERING", Reason::NotCovering),
        ("SPARED_AS_GLOBAL", Reason::SparedAsGlobal),
        ("IN_SCOPE", Reason::InScope),
    ] {
        let line = format!("    SKULDREFN_{name} = {}", reason.number());
        let found = header.lines().find_map(|own| own.strip_prefix(&line));
        assert!(
            found.is_some_and(|rest| rest.starts_with([',', ' '])),
            "{line}"
        );
    }
}

/// The rules of an EPTP, in document 02's order.
#[test]
fn the_header_names_every_rule() {
    let header = header();
    let names = [
        "MEMORY_TYPE",
        "WALK_LENGTH",
        "ACCESSED_AND_DIRTY",
        "BITS_11_7",
        "ABOVE_WIDTH",
    ];
    for (number, name) in (1..).zip(names) {
        let line = format!("    SKULDREFN_RULE_{name} = {number}");
        assert!(header.lines().any(|own| own.starts_with(&line)), "{line}");
    }
}

/// The endings of a walk, in document 02's order.
#[test]
fn the_header_names_every_ending_of_a_walk() {
    let header = header();
    let names = [
        "TRANSLATED",
        "BAD_CONTEXT",
        "BAD_EPTP",
        "NOT_CANONICAL",
        "ABSENT",
        "TOO_HIGH",
        "OUTSIDE",
    ];
    for (number, name) in names.into_iter().enumerate() {
        let line = format!("    SKULDREFN_WALK_{name} = {number}");
        assert!(header.lines().any(|own| own.starts_with(&line)), "{line}");
    }
}
