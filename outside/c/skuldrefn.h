/*
 * skuldrefn.h: the proved model of the translations that a processor caches
 * under VMX, for programs in C.
 *
 * Link with libskuldrefn.a (x86-64 Linux); `./skuldrefn library` builds it and
 * says where it is. Besides it only the C library is needed.
 *
 * Ownership. Every buffer is the caller's. A function reads and writes it
 * during the call only, within the length that comes with it, and keeps
 * nothing: no pointer, no copy, no state. Nothing is allocated. So calls from
 * several threads do not disturb each other if their buffers do not.
 *
 * Buffers that are written (new_table, pcids, second_new, second_pcids, first,
 * second and rows of skuldrefn_replay, rows of skuldrefn_export and the table of
 * skuldrefn_import) may overlap no other buffer of the same call. A pointer may be
 * null if its length is 0. Any other pointer must be good for its length. Bytes need
 * no alignment; pcids is aligned as uint16_t is, and its length is the number of
 * counts.
 *
 * Every other input is answered: any number in any field or count, any bytes in
 * a table, a record, an event, a log, a fragment, rows or an image, and any length of a
 * buffer.
 *
 * What the model does, rule by rule, is in docs/MODEL.md. A record or an event
 * is one byte of kind, then a body whose fields and length the kind fixes;
 * numbers are little-endian, and nothing is between the fields. A table is
 * mapping records end to end, a log is events end to end. The layouts are below,
 * with the kinds.
 */
#ifndef SKULDREFN_H
#define SKULDREFN_H

#include <stddef.h>
#include <stdint.h>

#ifdef __cplusplus
extern "C" {
#endif

/* The longest table, in bytes. */
#define SKULDREFN_TABLE_LIMIT 47104

/* The longest event, in bytes. */
#define SKULDREFN_EVENT_LIMIT 25

/* The most bytes of an unfinished event that a reader holds. */
#define SKULDREFN_HELD 24

/* How many PCIDs there are, and so how many counts a tally has for them. */
#define SKULDREFN_PCIDS 4096

/* The bytes of one row that skuldrefn_replay writes. */
#define SKULDREFN_ROW 24

/* The bytes of one fixed row, of skuldrefn_export and skuldrefn_import. */
#define SKULDREFN_FIXED_ROW 32

/*
 * What the replay program has: its IA32_VMX_EPT_VPID_CAP, bits 6, 8, 14, 20,
 * 21, 25, 26, 32 and 40 to 43; its physical width N; its linear width; and the
 * longest log that it reads, in bytes. The functions below take any capability,
 * widths and length.
 */
#define SKULDREFN_PROGRAM_CAPABILITY UINT64_C(0xF0106304140)
#define SKULDREFN_PROGRAM_WIDTH 52
#define SKULDREFN_PROGRAM_LINEAR_WIDTH 48
#define SKULDREFN_LOG_LIMIT 65536

/*
 * The kinds of mapping records. As an event such a record says that this mapping
 * was created. In each comment: the length with the kind byte, then the fields in
 * their order, each with the byte at which it starts, from 0; a field ends where
 * the next one starts.
 *
 * VPID and PCID have 2 bytes (the PCID is at most 4,095), global 1 (0 or 1), span 1
 * (0 to 2 for kinds 1 to 3, 1 to 3 for kinds 4 to 6), page 5 (bits 47 to 12 of the
 * address, a multiple of 2^(9 span)), frame and structure 5 (any), EP4TA 5 (bits 51
 * to 12 of the EPTP).
 *
 * Kinds 7, 8, 9 and 10 are kinds 1, 3, 4 and 6 for linear addresses of 57 bits, and
 * all that is said of those holds of them; their page has 6 bytes (bits 56 to 12 of
 * the address), and kinds 9 and 10 may have span 4. At linear width 48 they are
 * refused, and at 57 kinds 1, 3, 4 and 6 are: answer 3 in a table, 4 as an event.
 * Kinds 2 and 5 are the same at both.
 */
enum {
    SKULDREFN_KIND_LINEAR = 1, /* 17: VPID 1, PCID 3, global 5, span 6, page 7, frame 12 */
    SKULDREFN_KIND_GUEST_PHYSICAL = 2, /* 17: EP4TA 1, span 6, page 7, frame 12 */
    SKULDREFN_KIND_COMBINED = 3, /* 22: VPID 1, PCID 3, global 5, span 6, page 7, frame 12, EP4TA 17 */
    SKULDREFN_KIND_LINEAR_STRUCTURE = 4, /* 16: VPID 1, PCID 3, span 5, page 6, structure 11 */
    SKULDREFN_KIND_GUEST_PHYSICAL_STRUCTURE = 5, /* 17: EP4TA 1, span 6, page 7, structure 12 */
    SKULDREFN_KIND_COMBINED_STRUCTURE = 6, /* 21: VPID 1, PCID 3, span 5, page 6, structure 11, EP4TA 16 */
    SKULDREFN_KIND_LINEAR_57 = 7, /* 18: VPID 1, PCID 3, global 5, span 6, page 7, frame 13 */
    SKULDREFN_KIND_COMBINED_57 = 8, /* 23: VPID 1, PCID 3, global 5, span 6, page 7, frame 13, EP4TA 18 */
    SKULDREFN_KIND_LINEAR_STRUCTURE_57 = 9, /* 17: VPID 1, PCID 3, span 5, page 6, structure 12 */
    SKULDREFN_KIND_COMBINED_STRUCTURE_57 = 10 /* 22: VPID 1, PCID 3, span 5, page 6, structure 12, EP4TA 17 */
};

/*
 * The kinds of the other events. Types, addresses, EPTPs and descriptor halves
 * have 8 bytes, VPID and PCID 2, CPL and flags 1. The low half of INVVPID's
 * descriptor is the VPID, that of INVPCID's the PCID, and the high half of both
 * the address; the low half of INVEPT's descriptor is the EPTP, its high half 0.
 *
 * Kind 24 invalidates nothing, as MOV to CR3 with bit 63 set. Kind 27 is MOV to CR3
 * with that bit clear, which drops the mappings of the current VPID and the new
 * PCID, except global ones.
 */
enum {
    SKULDREFN_KIND_INVVPID = 16, /* 25: type 1, low half 9, high half 17 */
    SKULDREFN_KIND_INVEPT = 17, /* 25: type 1, low half 9, high half 17 */
    SKULDREFN_KIND_INVLPG = 18, /* 9: linear address 1 */
    SKULDREFN_KIND_EPT_VIOLATION = 19, /* 18: guest-physical address 1, linear flag 9, linear address 10 */
    SKULDREFN_KIND_VM_ENTRY = 20, /* 16: VPIDs enabled 1, VPID 2, EPT enabled 4, EPTP 5, PCID 13, CPL 15 */
    SKULDREFN_KIND_VM_EXIT = 21, /* 3: host PCID 1 */
    SKULDREFN_KIND_VMXON = 22, /* 1 */
    SKULDREFN_KIND_VMXOFF = 23, /* 1 */
    SKULDREFN_KIND_NEW_PCID = 24, /* 4: PCID 1, CPL 3 */
    SKULDREFN_KIND_RESET = 25, /* 1 */
    SKULDREFN_KIND_INVPCID = 26, /* 25: type 1, low half 9, high half 17 */
    SKULDREFN_KIND_MOV_TO_CR3 = 27 /* 3: PCID 1 */
};

/*
 * The answers. The lowest number that applies is given, and only then; but 13 goes
 * after 4 and before 5. skuldrefn_step, skuldrefn_step_levels and skuldrefn_take give 0
 * to 13, skuldrefn_plain_step 0 to 12, skuldrefn_finish 1 to 4 (0 where it reports
 * nothing), skuldrefn_count 0, 2, 3 or 13, a lookup 0 to 3, skuldrefn_widen 0, 2, 3 or
 * 12, skuldrefn_export 0, 1, 2, 3 or 12, skuldrefn_import 0, 1, 4 or 12. A refusal that
 * skuldrefn_explain names is 1 or 3 to 11, one that skuldrefn_judge names 1 to 12.
 */
enum {
    SKULDREFN_ACCEPTED = 0,      /* none of the others applies */
    SKULDREFN_BAD_CONTEXT = 1,   /* a context field is out of its range; or the
                                    linear width that goes with rows is */
    SKULDREFN_LONG_TABLE = 2,    /* the table is longer than 47,104 bytes */
    SKULDREFN_BAD_TABLE = 3,     /* the table is not whole, valid records */
    SKULDREFN_BAD_EVENT = 4,     /* the event is not exactly one valid record; or
                                    rows are not whole, or one is bad, for
                                    skuldrefn_import */
    SKULDREFN_UD = 5,            /* #UD: INVVPID, INVEPT, VM entry or VMXOFF
                                    outside VMX; INVVPID without capability
                                    bit 32, INVEPT without bit 20 */
    SKULDREFN_VM_EXIT = 6,       /* INVVPID, INVEPT, VM entry, VMXON or VMXOFF
                                    in a guest: it exits and does nothing */
    SKULDREFN_GP = 7,            /* #GP(0): those five, INVLPG, INVPCID or MOV
                                    to CR3 with CPL above 0; an invalid operand
                                    of INVPCID */
    SKULDREFN_VMFAIL = 8,        /* VMfail: an invalid operand of INVVPID or
                                    INVEPT */
    SKULDREFN_OUT_OF_PLACE = 9,  /* VMXON in root; VM exit not in a guest; EPT
                                    violation not in a guest with EPT */
    SKULDREFN_BAD_ENTRY = 10,    /* VM entry: VPIDs enabled with VPID 0, or EPT
                                    enabled with a bad EPTP */
    SKULDREFN_NOT_CREATABLE = 11, /* a mapping that cannot be created here */
    SKULDREFN_NO_ROOM = 12,      /* the new buffer, or 47,104, is less than the
                                    old table's length, plus the record's for
                                    a creation; or than the new table's, for
                                    skuldrefn_widen and skuldrefn_import; or
                                    the buffer is less than the rows, for
                                    skuldrefn_export */
    SKULDREFN_BAD_TALLY = 13     /* the tally is not that of the old table, or
                                    it has not 4,096 counts for PCIDs */
};

/*
 * The rules of an EPTP. With answer 8 of INVEPT and 10 of VM entry the first that
 * the EPTP breaks is told, unless another ground goes before the EPTP: the type or
 * descriptor bits 127:64 of INVEPT, the VPID of VM entry.
 */
enum {
    SKULDREFN_RULE_MEMORY_TYPE = 1,        /* bits 2:0 are 0, with capability
                                              bit 8, or 6, with bit 14 */
    SKULDREFN_RULE_WALK_LENGTH = 2,        /* bits 5:3 are 3, with bit 6 */
    SKULDREFN_RULE_ACCESSED_AND_DIRTY = 3, /* bit 6 is 0, or capability bit 21
                                              set */
    SKULDREFN_RULE_BITS_11_7 = 4,          /* they are 0 */
    SKULDREFN_RULE_ABOVE_WIDTH = 5         /* bits 63:N are 0 */
};

/* The numbers of a place. */
enum {
    SKULDREFN_OUTSIDE = 0, /* outside VMX */
    SKULDREFN_ROOT = 1,
    SKULDREFN_GUEST = 2
};

/*
 * A context: what of the processor matters besides the table. The last three
 * fields are looked at in a guest only, and ep4ta with ept 1 only. What is out
 * of its range, and a place or ept number other than those named here, is
 * answered 1.
 *
 * The linear width says which linear addresses are canonical (bits 63 to 47, or
 * 63 to 56, all equal), which bits of one are its page, and which kinds of
 * records there are. No event changes it.
 */
typedef struct {
    uint64_t capability;   /* IA32_VMX_EPT_VPID_CAP, any number */
    uint64_t width;        /* the physical width N, 36 to 52 */
    uint64_t linear_width; /* 48 or 57 */
    uint64_t pcid;         /* 0 to 4,095 */
    uint64_t cpl;          /* 0 to 3 */
    uint64_t place;        /* 0 outside VMX, 1 root, 2 guest */
    uint64_t vpid;         /* 0 to 65,535; 0 if VPIDs are not enabled */
    uint64_t ept;          /* 0 off, 1 on */
    uint64_t ep4ta;        /* below 2^40: bits 51 to 12 of the EPTP */
} skuldrefn_context;

/*
 * A tally: how many records a table has, by kind and span, and by PCID. A program
 * that watches totals reads them there, and need not walk the table.
 *
 * It is the caller's, one for each table, and skuldrefn_step carries it from the
 * old table to the new one. It starts as the tally of the table that is there: with
 * an empty table every count is 0 (skuldrefn_tally tally = {0};), and a stored table
 * is counted afresh with skuldrefn_count_tally. Whoever changes a table in another
 * way, as by taking records out, counts afresh too. skuldrefn_widen alone leaves
 * every count as it is.
 *
 * Answer 13 says that the tally is not that of the old table: some count differs,
 * which may be one that is 0 for every table, as that of kind 1 and span 3. Then
 * tallies or tables were mixed up. The table itself was found valid: count it afresh,
 * and step again.
 */

/* The records of one kind, by span, 0 to 4. */
typedef struct {
    uint16_t spans[5];
} skuldrefn_row;

/* A row for each of kinds 1 to 6; kinds 7, 8, 9 and 10 are in the rows of 1, 3, 4
   and 6. */
typedef struct {
    skuldrefn_row rows[6];
} skuldrefn_kinds;

/* The counts of a table, for skuldrefn_step_tally and skuldrefn_count_tally. */
typedef struct {
    skuldrefn_kinds kinds;
    uint16_t pcids[SKULDREFN_PCIDS]; /* by PCID: the records of kinds 1, 3, 4 and 6
                                        and of 7 to 10, global ones too */
} skuldrefn_tally;

/* What a step with a tally reports. */
typedef struct {
    uint64_t answer;           /* 0 to 13 */
    uint64_t rule;             /* the rule that the EPTP breaks, if that is the
                                  ground of answer 8 or 10, else 0 */
    skuldrefn_context context; /* the context after the event */
    size_t length;             /* the new table's length in bytes */
    size_t dropped;            /* how many records went */
    skuldrefn_kinds kinds;     /* the counts by kind and span after the event */
} skuldrefn_counted_step;

/*
 * One event on a context, a table and its tally.
 *
 * kinds, pcids, pcids_length: the tally of the old table; pcids_length is 4,096.
 * table, table_length: the old table; it is only read.
 * event, event_length: the event; it is only read.
 * new_table, new_length: where the new table is written, from the start.
 * Bytes past its length stay as they were. A buffer of 47,104 bytes is always
 * enough.
 *
 * With answer 0 the new table is in new_table[0 .. length - 1], its tally is in
 * kinds and pcids, and the context is the one after the event; fields that its place
 * lacks are 0. With any other answer nothing is written, pcids included, context and
 * kinds are handed back as they came, length and dropped are 0, and the old table
 * remains in force with its tally. rule is 0 but for a bad EPTP.
 *
 * Programs written before the tally: skuldrefn_step is now skuldrefn_plain_step
 * (Rust: step and step_flat are plain_step and plain_step_flat). Compile them anew:
 * an old object file still links, and is wrong.
 */
skuldrefn_counted_step skuldrefn_step(
    skuldrefn_context context,
    skuldrefn_kinds kinds, uint16_t *pcids, size_t pcids_length,
    const uint8_t *table, size_t table_length,
    const uint8_t *event, size_t event_length,
    uint8_t *new_table, size_t new_length);

/* What a fresh count reports. */
typedef struct {
    uint64_t answer;       /* 0, 2, 3 or 13 */
    skuldrefn_kinds kinds; /* the counts by kind and span */
} skuldrefn_counted;

/*
 * The tally of a table, counted afresh.
 *
 * linear_width: any but 57 is read as 48.
 * table, table_length: the table; it is only read.
 * pcids, pcids_length: where the counts by PCID are written; pcids_length is 4,096.
 *
 * The answer is 2 if the table is longer than 47,104 bytes; 3 if it is not whole,
 * valid records of that linear width; 13 if pcids_length is not 4,096; else 0. With
 * another answer than 0 nothing is written and all of kinds is 0.
 */
skuldrefn_counted skuldrefn_count(
    uint64_t linear_width,
    const uint8_t *table, size_t table_length,
    uint16_t *pcids, size_t pcids_length);

/* What a step reports besides the tally. */
typedef struct {
    uint64_t answer;           /* 0 to 13 */
    uint64_t rule;             /* as in skuldrefn_counted_step, and so are the
                                  others */
    skuldrefn_context context;
    size_t length;
    size_t dropped;
} skuldrefn_step_result;

/*
 * The same step without a tally: there is no answer 13, and all else is as with the
 * tally of the old table.
 */
skuldrefn_step_result skuldrefn_plain_step(
    skuldrefn_context context,
    const uint8_t *table, size_t table_length,
    const uint8_t *event, size_t event_length,
    uint8_t *new_table, size_t new_length);

/*
 * skuldrefn_step on a tally in one struct, which becomes that of the new table; a
 * refusal leaves it.
 */
static inline skuldrefn_step_result skuldrefn_step_tally(
    skuldrefn_context context, skuldrefn_tally *tally,
    const uint8_t *table, size_t table_length,
    const uint8_t *event, size_t event_length,
    uint8_t *new_table, size_t new_length)
{
    skuldrefn_counted_step counted = skuldrefn_step(
        context, tally->kinds, tally->pcids, SKULDREFN_PCIDS,
        table, table_length, event, event_length, new_table, new_length);
    skuldrefn_step_result step = {
        counted.answer, counted.rule, counted.context, counted.length, counted.dropped};
    tally->kinds = counted.kinds;
    return step;
}

/*
 * skuldrefn_count into a tally in one struct. The answer is 0, 2 or 3; a refusal
 * leaves the tally.
 */
static inline uint64_t skuldrefn_count_tally(
    uint64_t linear_width,
    const uint8_t *table, size_t table_length,
    skuldrefn_tally *tally)
{
    skuldrefn_counted counted = skuldrefn_count(
        linear_width, table, table_length, tally->pcids, SKULDREFN_PCIDS);
    if (counted.answer == SKULDREFN_ACCEPTED) {
        tally->kinds = counted.kinds;
    }
    return counted.answer;
}

/* What a lookup reports: a part of the table. */
typedef struct {
    uint64_t answer; /* 0 to 3 */
    size_t start;    /* where the record starts in the table */
    size_t length;   /* its length in bytes with its kind byte */
} skuldrefn_part;

/*
 * The k-th record, from 0, that is usable at a linear address (any number; a
 * non-canonical one has none). The record is
 * table[start .. start + length - 1]. start and length are 0 if there is no
 * such record or the answer is not 0. The table is only read.
 */
skuldrefn_part skuldrefn_lookup_linear(
    skuldrefn_context context,
    const uint8_t *table, size_t table_length,
    uint64_t address, uint64_t k);

/*
 * The same for a guest-physical address (any number; one of 2^48 or more has
 * none, and none has any with EPT not in use).
 */
skuldrefn_part skuldrefn_lookup_guest_physical(
    skuldrefn_context context,
    const uint8_t *table, size_t table_length,
    uint64_t address, uint64_t k);

/*
 * Two levels of TLB: a small first-level table before the large one. Each has its own
 * table, tally and new buffer.
 */

/* What a step of both levels reports of one. */
typedef struct {
    size_t length;         /* its new table's length in bytes */
    size_t dropped;        /* how many of its records went */
    skuldrefn_kinds kinds; /* its counts by kind and span after the event */
} skuldrefn_level;

typedef struct {
    uint64_t answer;           /* the first table's, or the second's where that is 0 */
    uint64_t rule;             /* as in skuldrefn_counted_step, of the table whose
                                  answer is given */
    skuldrefn_context context; /* the context after the event */
    skuldrefn_level first;
    skuldrefn_level second;
} skuldrefn_level_step;

/*
 * One event on a context and two tables, each as with skuldrefn_step. A creation goes
 * into both, and room is judged for each against its own buffer. A small first table
 * soon has no room (12): take records out of it, as a processor may at any time, count
 * it afresh with skuldrefn_count_tally, and step again; the second table still has
 * them.
 *
 * With answer 0 each new table is in its buffer, its tally in its kinds and pcids, and
 * the context is the one after the event. If either table's step would be refused,
 * nothing is written to either, context and both kinds are handed back as they came,
 * and all lengths and dropped counts are 0. The answer is not the lower of the two:
 * where the first would be answered 12 and the second 3, it is 12.
 *
 * event, event_length: the event, for both; it is only read.
 * kinds .. new_length: the first table, as with skuldrefn_step; second_kinds ..
 * second_new_length: the second. The four buffers that are written overlap no other.
 */
skuldrefn_level_step skuldrefn_step_levels(
    skuldrefn_context context,
    const uint8_t *event, size_t event_length,
    skuldrefn_kinds kinds, uint16_t *pcids, size_t pcids_length,
    const uint8_t *table, size_t table_length,
    uint8_t *new_table, size_t new_length,
    skuldrefn_kinds second_kinds, uint16_t *second_pcids, size_t second_pcids_length,
    const uint8_t *second_table, size_t second_table_length,
    uint8_t *second_new, size_t second_new_length);

/*
 * skuldrefn_step_levels on two tallies in one struct each, which become those of the
 * new tables; a refusal leaves both.
 */
static inline skuldrefn_level_step skuldrefn_step_levels_tally(
    skuldrefn_context context,
    const uint8_t *event, size_t event_length,
    skuldrefn_tally *tally,
    const uint8_t *table, size_t table_length,
    uint8_t *new_table, size_t new_length,
    skuldrefn_tally *second_tally,
    const uint8_t *second_table, size_t second_table_length,
    uint8_t *second_new, size_t second_new_length)
{
    skuldrefn_level_step step = skuldrefn_step_levels(
        context, event, event_length,
        tally->kinds, tally->pcids, SKULDREFN_PCIDS,
        table, table_length, new_table, new_length,
        second_tally->kinds, second_tally->pcids, SKULDREFN_PCIDS,
        second_table, second_table_length, second_new, second_new_length);
    tally->kinds = step.first.kinds;
    second_tally->kinds = step.second.kinds;
    return step;
}

/* What a lookup in both levels reports. */
typedef struct {
    uint64_t answer; /* 0 to 3: the first table's, or the second's where that is 0 */
    uint64_t level;  /* 1 or 2: the table that has the translation; 0 if none has */
    size_t start;    /* where the record starts in that table */
    size_t length;   /* its length in bytes with its kind byte */
} skuldrefn_level_part;

/*
 * The first translation (kind 1 or 3, at linear width 57 kind 7 or 8) that is usable
 * at a linear address: from the first table if it has one, else from the second.
 * Structure caches are passed over. level, start and length are 0 if there is none or
 * the answer is not 0; a second table that is refused is one such, though the first
 * may have a translation. Both tables are only read.
 */
skuldrefn_level_part skuldrefn_lookup_levels(
    skuldrefn_context context,
    const uint8_t *first, size_t first_length,
    const uint8_t *second, size_t second_length,
    uint64_t address);

/*
 * The reasons. The first that holds is given; each counts only where the event
 * tests it for that kind of record.
 */
enum {
    SKULDREFN_REFUSED = 1,       /* the step is refused */
    SKULDREFN_NO_SCOPE = 2,      /* the event has no scope: a creation, VMXON,
                                    VMXOFF, a new PCID and CPL, VM entry or VM
                                    exit with VPIDs enabled */
    SKULDREFN_NOT_CANONICAL = 3, /* INVLPG: the address is not canonical */
    SKULDREFN_WRONG_KIND = 4,    /* the event touches no record of this kind */
    SKULDREFN_WRONG_VPID = 5,
    SKULDREFN_WRONG_PCID = 6,
    SKULDREFN_WRONG_EP4TA = 7,
    SKULDREFN_NOT_COVERING = 8,  /* the record does not cover the address */
    SKULDREFN_SPARED_AS_GLOBAL = 9,
    SKULDREFN_IN_SCOPE = 10      /* the step drops the record */
};

/* Why a mapping went or stayed. */
typedef struct {
    uint64_t reason; /* 1 to 10 */
    uint64_t answer; /* with reason 1 the step's answer, else 0 */
    uint64_t rule;   /* with reason 1 the step's rule, else 0 */
} skuldrefn_reason;

/*
 * Why an event takes a record or leaves it. The step is judged with a table of
 * that record alone and a new buffer of 47,104 bytes; bytes that are not
 * exactly one valid record are answered 3. Record and event are only read.
 */
skuldrefn_reason skuldrefn_explain(
    skuldrefn_context context,
    const uint8_t *record, size_t record_length,
    const uint8_t *event, size_t event_length);

/*
 * How long the first event of a log is, by its kind: the byte of kind and the
 * body. 0 where the log has no byte or the kind is unknown, as those of the other
 * linear width are. More than log_length where the record is cut. Of the log only
 * the first byte is read. Any linear width but 57 is read as 48.
 *
 * So a log is cut into the events that skuldrefn_replay takes: each has this many
 * bytes; from an unknown kind or a cut record on, all that are left.
 */
size_t skuldrefn_event_length(uint64_t linear_width, const uint8_t *log, size_t log_length);

/* What a replay reports. */
typedef struct {
    skuldrefn_context context; /* the context in force at the end */
    size_t length;             /* the length of the table in force */
    uint64_t first;            /* 1 if the first buffer holds that table, 0 if
                                  the second does */
    size_t count;              /* the number of events replayed, which is that
                                  of the rows written */
} skuldrefn_replayed;

/*
 * A whole log of events end to end, of any length, from a reset: outside VMX,
 * PCID 0, CPL 0, an empty table.
 *
 * capability, width, linear_width: those of the context; a width out of its
 * range has every event answered 1. The log is cut as skuldrefn_event_length
 * says.
 * log, log_length: the log; it is only read.
 * first, second: two buffers for tables; one of them holds the table in force.
 * With 47,104 bytes or more each there is all the room that answer 12 allows,
 * and an event without a scope (a creation, kinds 22 to 24, a VM entry or exit
 * with VPIDs, INVLPG at an address that is not canonical) leaves the table
 * where it is, with a creation behind it. Where either has fewer, each accepted
 * event writes the table into the other buffer, and any event is answered 12
 * where that one is shorter than the table.
 * rows, rows_length: one row of 24 bytes for each event: its answer, its
 * dropped count, and the length of the table in force after it, 8 bytes each,
 * little-endian. Bytes past the last row stay as they were. 24 times
 * log_length is always enough.
 *
 * The replay ends with the log, after an unknown kind or a cut record (which
 * takes all bytes left and is answered 4, or 1 where a width is out of its
 * range), or where there is no room for another row.
 */
skuldrefn_replayed skuldrefn_replay(
    uint64_t capability, uint64_t width, uint64_t linear_width,
    const uint8_t *log, size_t log_length,
    uint8_t *first, size_t first_length,
    uint8_t *second, size_t second_length,
    uint8_t *rows, size_t rows_length);

/*
 * A reader of a log that arrives in fragments, as over a serial line. It is the
 * caller's, and starts as skuldrefn_reader reader = {0}; context, table and tally
 * stay with the caller, as with skuldrefn_step.
 *
 * A reader ignores: after an unknown kind, an answer 2 or 3 or a finish call, until
 * it is reset. So does one that holds more than 24 bytes, or bytes that begin no
 * event known at the context's linear width or complete one; no call makes such a
 * one. Any other numbers and bytes are fine, and those of held past its length are
 * not looked at.
 */
typedef struct {
    uint64_t line;     /* the number of the last event reported, 0 at the start; it
                          stops at 2^64 - 1 */
    uint64_t ignoring; /* 0 no, any other number yes */
    uint64_t length;   /* how many bytes of an unfinished event are held, at most 24 */
    uint8_t held[SKULDREFN_HELD];
} skuldrefn_reader;

/* What a call with a fragment reports. */
typedef struct {
    skuldrefn_reader reader;    /* the reader after it */
    size_t taken;               /* how many bytes of the fragment were taken */
    uint64_t finished;          /* 1 if an event was finished, else 0 */
    skuldrefn_step_result step; /* what the step of that event reports, its line being
                                   that of the reader; with finished 0 its context is
                                   as it came and its numbers are 0 */
    skuldrefn_kinds kinds;      /* the counts by kind and span after the call */
} skuldrefn_taken;

/*
 * A fragment of a log, of any length, none included, cut anywhere. The call stops
 * after the first event that it finishes, which is one step with the tally: answers,
 * buffers and tally are as with skuldrefn_step, for the bytes held and those taken.
 * The bytes that were not taken are to be handed in again. So the log's lines are
 * those of skuldrefn_replay, however it is cut and however long it is.
 *
 * Kinds are known by the context's linear width, any but 57 read as 48. An unknown
 * kind is finished after its one byte, and answered 4, or 1 to 3 where they apply.
 * A bad field is answered 4 too, and the log goes on behind it; so it does after any
 * answer but 2 and 3. Where it does not go on, reader.ignoring is not 0: that tells an
 * unknown kind from a bad field.
 *
 * If no event is finished, all of the fragment is taken: its bytes are held behind
 * those that were, and nothing else changes. A reader that ignores takes all of it
 * too, and is handed back as it came. No such call writes anything.
 */
skuldrefn_taken skuldrefn_take(
    skuldrefn_reader reader, skuldrefn_context context,
    skuldrefn_kinds kinds, uint16_t *pcids, size_t pcids_length,
    const uint8_t *table, size_t table_length,
    const uint8_t *fragment, size_t fragment_length,
    uint8_t *new_table, size_t new_length);

/*
 * skuldrefn_take on a reader and a tally that it changes; taken, which may not be
 * null, becomes the number of bytes taken. Hands back whether an event was finished;
 * if so, step is what its step reports, and else it stays.
 */
static inline int skuldrefn_take_tally(
    skuldrefn_reader *reader, skuldrefn_context context, skuldrefn_tally *tally,
    const uint8_t *table, size_t table_length,
    const uint8_t *fragment, size_t fragment_length, size_t *taken,
    uint8_t *new_table, size_t new_length, skuldrefn_step_result *step)
{
    skuldrefn_taken result = skuldrefn_take(
        *reader, context, tally->kinds, tally->pcids, SKULDREFN_PCIDS,
        table, table_length, fragment, fragment_length, new_table, new_length);
    *reader = result.reader;
    *taken = result.taken;
    tally->kinds = result.kinds;
    if (result.finished == 0) {
        return 0;
    }
    *step = result.step;
    return 1;
}

/* What a finish call reports. */
typedef struct {
    skuldrefn_reader reader; /* the reader after it */
    uint64_t finished;       /* 1 if a cut record was reported, else 0 */
    uint64_t answer;         /* its answer, else 0 */
} skuldrefn_finished;

/*
 * The end of a log. Bytes that are held are a cut record, which is the next line and
 * is answered 4, or 1 to 3 where they apply; with none held nothing is reported. The
 * reader then ignores. One that ignores already reports nothing, and is handed back
 * as it came. The table is only read.
 */
skuldrefn_finished skuldrefn_finish(
    skuldrefn_reader reader, skuldrefn_context context,
    const uint8_t *table, size_t table_length);

/*
 * A reader that goes on: held bytes are discarded and the ignoring ends. Its line and
 * the bytes of held stay, and so do context, table and tally, which the caller has.
 */
skuldrefn_reader skuldrefn_reset_reader(skuldrefn_reader reader);

/* What the converter reports. */
typedef struct {
    uint64_t answer; /* 0, 2, 3 or 12 */
    size_t length;   /* the new table's length in bytes */
} skuldrefn_widened;

/*
 * A stored table of linear width 48 as one of 57: record by record, in order,
 * kinds 1, 3, 4 and 6 become 7, 8, 9 and 10. A page of the upper half, 2^35 or
 * more, gains 2^45 - 2^36, so that it stays the page of the same address. All
 * else stays, kinds 2 and 5 whole.
 *
 * table, table_length: the old table; it is only read.
 * new_table, new_length: where the new table is written, from the start. Bytes
 * past its length stay as they were. A buffer of 47,104 bytes is always enough
 * for a table that can be converted.
 *
 * The answer is 2 if the table is longer than 47,104 bytes; 3 if it is not whole,
 * valid records of linear width 48; 12 if the new table is longer than 47,104
 * bytes or than the buffer; else 0. With another answer than 0 nothing is written
 * and the length is 0.
 */
skuldrefn_widened skuldrefn_widen(
    const uint8_t *table, size_t table_length,
    uint8_t *new_table, size_t new_length);

/*
 * A fixed row: one record of a table in 32 bytes, with each field at one place
 * whatever the kind, for a program that shows tables. In each comment: the byte at
 * which the field starts, from 0. Numbers are little-endian, so that on x86-64 this
 * struct is the row's bytes. What a kind does not use is 0: global for all but kinds
 * 1, 3, 7 and 8, VPID and PCID for 2 and 5, EP4TA for 1, 4, 7 and 9, zero always.
 */
typedef struct {
    uint8_t kind;   /* 0 */
    uint8_t span;   /* 1 */
    uint8_t global; /* 2 */
    uint8_t zero;   /* 3 */
    uint16_t vpid;  /* 4 */
    uint16_t pcid;  /* 6 */
    uint64_t page;  /* 8 */
    uint64_t frame; /* 16, or the structure */
    uint64_t ep4ta; /* 24 */
} skuldrefn_fixed_row;

/* What skuldrefn_export and skuldrefn_import report. */
typedef struct {
    uint64_t answer; /* export: 0, 1, 2, 3 or 12; import: 0, 1, 4 or 12 */
    uint64_t row;    /* of import with 4: the number, from 1, of the first bad row,
                        0 for a bad length; else 0 */
    size_t length;   /* of what was written, in bytes; 0 with a refusal */
} skuldrefn_converted;

/*
 * A table as fixed rows: one for each record, in the table's order.
 *
 * linear_width: that of the table, 48 or 57.
 * table, table_length: the table; it is only read.
 * rows, rows_length: where the rows are written, from the start. Bytes past them
 * stay as they were. 32 bytes are needed for each record; 94,208 bytes are always
 * enough.
 *
 * The answer is 1 if the linear width is neither 48 nor 57; 2 if the table is longer
 * than 47,104 bytes; 3 if it is not whole, valid records of that linear width; 12 if
 * the rows are longer than the buffer; else 0. With another answer than 0 nothing is
 * written and the length is 0.
 */
skuldrefn_converted skuldrefn_export(
    uint64_t linear_width,
    const uint8_t *table, size_t table_length,
    uint8_t *rows, size_t rows_length);

/*
 * The table of fixed rows: one record for each, in their order. No rows are an empty
 * table. What skuldrefn_export wrote gives the same table again, and what is written
 * here the same rows.
 *
 * linear_width: that of the table, 48 or 57.
 * rows, rows_length: the rows, end to end; they are only read.
 * table, table_length: where the table is written, from the start. Bytes past its
 * length stay as they were. A buffer of 47,104 bytes is always enough for rows that
 * can be imported.
 *
 * The answer is 1 if the linear width is neither 48 nor 57; 4 if rows_length is not
 * a multiple of 32, with row 0; 4 if a row names no valid record of that linear width
 * or has a bit set in what its kind does not use, with the number, from 1, of the
 * first such row; 12 if the table is longer than 47,104 bytes or than the buffer;
 * else 0. Every row is judged before the room is. With another answer than 0 nothing
 * is written and the length is 0.
 */
skuldrefn_converted skuldrefn_import(
    uint64_t linear_width,
    const uint8_t *rows, size_t rows_length,
    uint8_t *table, size_t table_length);

/* What a claimed table is judged as: accepted, or the first ground against it. */
enum {
    SKULDREFN_CLAIM_ACCEPTED = 0,  /* an in-order part of what the step leaves */
    SKULDREFN_CLAIM_REFUSED = 1,   /* the step is refused */
    SKULDREFN_CLAIM_MALFORMED = 2, /* the claim is longer than 47,104 bytes, or not
                                      whole, valid records of the context's
                                      linear width */
    SKULDREFN_CLAIM_UNMATCHED = 3  /* a claimed record cannot be matched */
};

typedef struct {
    uint64_t number;   /* SKULDREFN_CLAIM_.. */
    uint64_t answer;   /* of a refused step, 1 to 12; else 0 */
    uint64_t rule;     /* of a refused step; else 0 */
    size_t position;   /* the byte, from 0, at which the first claimed record starts
                          that cannot be matched; else 0 */
} skuldrefn_judgement;

/*
 * Judges another simulator: whether an event may leave the claimed table. It may
 * drop more than it must, so every in-order part of what the step leaves is
 * accepted, none and all of it too. Each claimed record takes the earliest equal
 * record behind the last one taken.
 *
 * table, table_length: the table before the event.
 * event, event_length: the bytes of the event.
 * claim, claim_length: the claimed table after it.
 *
 * The step is judged as with a new buffer of 47,104 bytes; it is refused with 2 or 3
 * if the table before the event is not valid. Where the step is refused the claim is
 * not looked at. All three are only read, and no buffer is needed.
 */
skuldrefn_judgement skuldrefn_judge(
    skuldrefn_context context,
    const uint8_t *table, size_t table_length,
    const uint8_t *event, size_t event_length,
    const uint8_t *claim, size_t claim_length);

/* How a walk ends: with a translation, or with the first ground met. */
enum {
    SKULDREFN_WALK_TRANSLATED = 0,
    SKULDREFN_WALK_BAD_CONTEXT = 1,   /* a context field is out of its range */
    SKULDREFN_WALK_BAD_EPTP = 2,
    SKULDREFN_WALK_NOT_CANONICAL = 3, /* the linear address, at 48 bits */
    SKULDREFN_WALK_ABSENT = 4,        /* a guest entry with bit 0 clear, an EPT entry
                                         with bits 2:0 clear */
    SKULDREFN_WALK_TOO_HIGH = 5,      /* a guest-physical address of 2^48 or more */
    SKULDREFN_WALK_OUTSIDE = 6        /* an entry that is not in the image with all
                                         of its eight bytes */
};

typedef struct {
    uint64_t ending;      /* SKULDREFN_WALK_.. */
    uint64_t rule;        /* that a bad EPTP breaks; else 0 */
    uint64_t guest_level; /* where 4, 5 or 6 was met: the level of the guest entry on
                             the way, 4 (PML4) to 1, 0 for the final address; */
    uint64_t ept_level;   /* that of the EPT entry, 4 to 1, 0 for the guest entry
                             itself and for an address that is too high; */
    uint64_t address;     /* the entry's physical address, or the guest-physical
                             address. All three are 0 with 0 to 3. */
    uint64_t read;        /* the entries read, at most 24; one outside the image is
                             not counted */
    uint8_t record[22];   /* the translation as a record of kind 3; all 0 with a
                             ground */
} skuldrefn_walked;

/*
 * Works out what the processor may cache of a linear address: walks the guest's
 * four levels, each guest-physical address through EPT's four.
 *
 * context: gives the capability and the width N, by which the EPTP is judged, and
 * the PCID of the record. All of it must be in range; place and CPL do not matter,
 * and the linear width, 48 or 57, does not either: the address is one of 48 bits.
 * image, image_length: memory from physical address 0 on; it is only read.
 * root: the guest-physical address of the guest's first table, bits 11:0 ignored; if
 * any of bits 63:48 is set, the walk ends with SKULDREFN_WALK_TOO_HIGH.
 * eptp: the EPTP; its bits 51:12 are where the first EPT table is, and the record's
 * EP4TA.
 * vpid: the record's VPID.
 * address: the linear address.
 *
 * The record is one for tables of linear width 48; at 57 a step refuses it with 4. It
 * has the smaller of the two page sizes, page and frame rounded down to
 * it, and the global mark of the last guest entry. Reserved bits and access rights
 * are not looked at, and the frame may lie outside the image.
 */
skuldrefn_walked skuldrefn_walk(
    skuldrefn_context context,
    const uint8_t *image, size_t image_length,
    uint64_t root, uint64_t eptp, uint16_t vpid, uint64_t address);

#ifdef __cplusplus
}
#endif

#endif
