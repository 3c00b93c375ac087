/*
 * Document 01's five events as a log, which is cut into its events, one step
 * each, with a tally; a lookup, a fresh count, a conversion, a fixed row, a reason
 * and two claims between them. Then the same log in fragments, two levels of TLB, and
 * in the end a walk of page tables.
 *
 *     cc -I outside/c outside/c/example.c target/staticlib/libskuldrefn.a
 */
#include "skuldrefn.h"

#include <inttypes.h>
#include <stdio.h>
#include <string.h>

static const uint8_t log_bytes[] = {
    /* VMXON. */
    22,
    /* VM entry: VPID 5, EPT off, PCID 1, CPL 0. */
    20, 1, 5, 0, 0, 0, 0, 0, 0, 0, 0, 0, 0, 1, 0, 0,
    /* The linear translation of page 12345h for VPID 5 and PCID 1 was created. */
    1, 5, 0, 1, 0, 0, 0, 0x45, 0x23, 1, 0, 0, 0xDE, 0xBC, 0x0A, 0, 0,
    /* VM exit to PCID 0. */
    21, 0, 0,
    /* INVVPID type 1, VPID 5. */
    16, 1, 0, 0, 0, 0, 0, 0, 0, 5, 0, 0, 0, 0, 0, 0, 0, 0, 0, 0, 0, 0, 0, 0, 0,
};

/* Answer, dropped and length of the table, as document 01 has them. */
static const uint64_t expected[][3] = {{0, 0, 0}, {0, 0, 0}, {0, 0, 17}, {0, 0, 17}, {0, 1, 0}};

/* Two buffers hold the table in force in turn. */
static uint8_t buffers[2][SKULDREFN_TABLE_LIMIT];

/* The tally of the table in force, at first that of an empty one; and a fresh count. */
static skuldrefn_tally tally = {0};
static skuldrefn_tally fresh = {0};

/* A table for 57-bit linear addresses. */
static uint8_t wide[SKULDREFN_TABLE_LIMIT];

/* The record just created as a fixed row, and that row as a table again. */
static skuldrefn_fixed_row row;
static uint8_t again[SKULDREFN_TABLE_LIMIT];

/*
 * One table that all levels share, the guest's and EPT's: entry 0 points at itself,
 * entry 1 at page 3, and entry 3 at page ABCDEh.
 */
static const uint8_t image[32] = {
    7, 0, 0, 0, 0, 0, 0, 0, 7, 0x30, 0, 0, 0, 0, 0, 0,
    0, 0, 0, 0, 0, 0, 0, 0, 7, 0xE0, 0xCD, 0xAB, 0, 0, 0, 0,
};

/* The combined translation of page 1 for VPID 5 and PCID 0, to frame ABCDEh. */
static const uint8_t translation[22] = {3, 5, 0, 0, 0, 0, 0, 1, 0, 0, 0, 0, 0xDE, 0xBC, 0x0A};

int main(void)
{
    skuldrefn_context context = {
        SKULDREFN_PROGRAM_CAPABILITY, SKULDREFN_PROGRAM_WIDTH, SKULDREFN_PROGRAM_LINEAR_WIDTH,
        0, 0, SKULDREFN_OUTSIDE, 0, 0, 0};
    const uint8_t *event = log_bytes;
    const uint8_t *end = log_bytes + sizeof log_bytes;
    const uint8_t *created = NULL;
    size_t created_length = 0;
    size_t length = 0;
    int in_force = 0;
    int wrong = 0;

    for (size_t i = 0; event < end; i++) {
        size_t left = (size_t)(end - event);
        size_t event_length = skuldrefn_event_length(context.linear_width, event, left);
        int is_last = event_length == 0 || event_length > left;
        if (is_last) {
            event_length = left;
        }

        if (created != NULL && *event == SKULDREFN_KIND_INVVPID) {
            /* What this event will do with the record, and why. */
            skuldrefn_reason why = skuldrefn_explain(
                context, created, created_length, event, event_length);
            int taken = why.reason == SKULDREFN_IN_SCOPE && why.answer == 0;
            printf("INVVPID: %s the record\n", taken ? "takes" : "leaves");
            wrong |= !taken;

            /* Another simulator may not keep it, and an empty table is lawful. */
            skuldrefn_judgement kept = skuldrefn_judge(
                context, buffers[in_force], length, event, event_length, created, created_length);
            skuldrefn_judgement none = skuldrefn_judge(
                context, buffers[in_force], length, event, event_length, NULL, 0);
            printf("a table that keeps it: unmatched at byte %zu\n", kept.position);
            wrong |= kept.number != SKULDREFN_CLAIM_UNMATCHED || kept.position != 0
                || none.number != SKULDREFN_CLAIM_ACCEPTED;
        }

        skuldrefn_step_result step = skuldrefn_step_tally(
            context, &tally, buffers[in_force], length,
            event, event_length,
            buffers[1 - in_force], sizeof buffers[0]);
        if (step.answer == SKULDREFN_ACCEPTED) {
            context = step.context;
            length = step.length;
            in_force = 1 - in_force;
        }
        printf("%zu %" PRIu64 " %zu %zu\n", i + 1, step.answer, step.dropped, length);
        wrong |= is_last || i >= sizeof expected / sizeof expected[0];
        if (!wrong) {
            wrong |= step.answer != expected[i][0] || step.dropped != expected[i][1] || length != expected[i][2];
        }

        if (*event == SKULDREFN_KIND_LINEAR) {
            /* The guest may use the new translation at 12345678h. */
            skuldrefn_part part = skuldrefn_lookup_linear(
                context, buffers[in_force], length, UINT64_C(0x12345678), 0);
            created = event;
            created_length = event_length;
            int found = part.answer == 0 && part.length == created_length
                && memcmp(buffers[in_force] + part.start, created, created_length) == 0;
            printf("12345678h: %s\n", found ? "the record just created" : "nothing");
            wrong |= !found;

            /* The step has counted it, as a fresh count does. */
            uint64_t counted = skuldrefn_count_tally(
                context.linear_width, buffers[in_force], length, &fresh);
            printf("records of PCID 1: %u\n", (unsigned)tally.pcids[1]);
            wrong |= counted != SKULDREFN_ACCEPTED || memcmp(&tally, &fresh, sizeof tally) != 0
                || tally.pcids[1] != 1;

            /* The same table for a guest with 57-bit linear addresses. */
            skuldrefn_widened widened = skuldrefn_widen(
                buffers[in_force], length, wide, sizeof wide);
            printf("at 57 bits: %zu bytes\n", widened.length);
            wrong |= widened.answer != SKULDREFN_ACCEPTED || wide[0] != SKULDREFN_KIND_LINEAR_57;

            /* The same table as a viewer reads it, and back. */
            skuldrefn_converted exported = skuldrefn_export(
                context.linear_width, buffers[in_force], length, (uint8_t *)&row, sizeof row);
            skuldrefn_converted imported = skuldrefn_import(
                context.linear_width, (const uint8_t *)&row, sizeof row, again, sizeof again);
            printf("as a row: page %" PRIx64 "h, frame %" PRIx64 "h\n", row.page, row.frame);
            wrong |= exported.answer != SKULDREFN_ACCEPTED || exported.length != sizeof row
                || imported.answer != SKULDREFN_ACCEPTED || imported.length != length
                || memcmp(again, buffers[in_force], length) != 0;
        }
        event += event_length;
    }

    /* INVVPID took the record, and the step took it off. */
    wrong |= tally.pcids[1] != 0 || tally.kinds.rows[SKULDREFN_KIND_LINEAR - 1].spans[0] != 0;

    /* The same log, as it might arrive over a serial line: ten bytes at a time. */
    skuldrefn_context now = {
        SKULDREFN_PROGRAM_CAPABILITY, SKULDREFN_PROGRAM_WIDTH, SKULDREFN_PROGRAM_LINEAR_WIDTH,
        0, 0, SKULDREFN_OUTSIDE, 0, 0, 0};
    skuldrefn_reader reader = {0};
    memset(&fresh, 0, sizeof fresh);
    length = 0;
    for (size_t at = 0; at < sizeof log_bytes;) {
        size_t left = 10 - at % 10 < sizeof log_bytes - at ? 10 - at % 10 : sizeof log_bytes - at;
        size_t taken = 0;
        skuldrefn_step_result step;
        int finished = skuldrefn_take_tally(
            &reader, now, &fresh, buffers[in_force], length, log_bytes + at, left, &taken,
            buffers[1 - in_force], sizeof buffers[0], &step);
        at += taken;
        if (finished && step.answer == SKULDREFN_ACCEPTED) {
            now = step.context;
            length = step.length;
            in_force = 1 - in_force;
        }
    }
    skuldrefn_finished finished = skuldrefn_finish(reader, now, buffers[in_force], length);
    printf("in fragments: %" PRIu64 " events\n", reader.line);
    wrong |= finished.finished != 0 || reader.line != 5 || length != 0
        || memcmp(&now, &context, sizeof now) != 0 || memcmp(&fresh, &tally, sizeof fresh) != 0;

    /* Two levels: VPID 5's translation is created in both, and the small one drops it. */
    static uint8_t small[17];
    static skuldrefn_tally small_tally = {0};
    skuldrefn_context guest = now;
    guest.place = SKULDREFN_GUEST;
    guest.vpid = 5;
    guest.pcid = 1;
    skuldrefn_level_step both = skuldrefn_step_levels_tally(
        guest, created, created_length,
        &small_tally, NULL, 0, small, sizeof small,
        &fresh, NULL, 0, wide, sizeof wide);
    skuldrefn_level_part part = skuldrefn_lookup_levels(
        guest, small, 0, wide, both.second.length, UINT64_C(0x12345678));
    int in_second = both.answer == SKULDREFN_ACCEPTED && both.first.length == sizeof small
        && part.level == 2 && part.length == created_length;
    printf("two levels: the record is %s\n", in_second ? "in the second alone" : "not found");
    wrong |= !in_second;

    /* What may be cached of 1678h: the guest's table has page 3 there, and EPT's frame ABCDEh for it. */
    skuldrefn_walked walk = skuldrefn_walk(
        context, image, sizeof image, 0, UINT64_C(0x1E), 5, UINT64_C(0x1678));
    printf("walk: ending %" PRIu64 ", %" PRIu64 " entries read\n", walk.ending, walk.read);
    wrong |= walk.ending != SKULDREFN_WALK_TRANSLATED || walk.read != 24
        || memcmp(walk.record, translation, sizeof translation) != 0;
    return wrong;
}
