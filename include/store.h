// Hrnkovida's block store, for C11 and C++11 on x86-64 Linux. The functions stand in target/staticlib/libbridge.a, which `.ci/archive` proves
// and writes; what each answers, and what it leaves of everything lent, is proved for every input. "Document 01" is the store's definition.
//
// A stripe holds n blocks of L bytes one after another: k data blocks, numbered from 0, then the redundant blocks, from k to n - 1. A layout note
// says how blocks are grouped, and so how each redundant block is made from data. A survivor is a block not marked lost; a lost block can be had back
// exactly if it has a plan, a combination of survivors that makes it.
//
//     store_note_said read = store_read(note, sizeof note);                     // read.number is 0: accepted
//     store_standing standing = {32, 0};                                        // L = 32, nothing lost
//     store_encode(read.layout, &standing, stripe, sizeof stripe);              // n x 32 bytes, the data in front
//     store_lose(read.layout, &standing, 0);
//     store_said said = store_rebuild(read.layout, &standing, stripe, sizeof stripe);
//
// What a caller owes:
// - Every pointer points to as many bytes as the length beside it says. With length 0 no byte is read or written, and the pointer may be NULL. A
//   pointer to a standing points to one store_standing.
// - What is lent for writing (a pointer without const) does not overlap anything else lent in the same call, and nothing else touches it during the
//   call. Nothing writes what is lent for reading during the call.
// Nothing more is asked: every value of every struct and number, and any bytes, are allowed and get an answer.
//
// What a caller gets:
// - A call that is accepted answers number 0, one that is refused the number of its refusal (enum store_refusal); only store_view gives no number.
//   A refusal alters nothing lent. Where more than one number applies, it is the lowest. Only a note's faults, 1 to 5, come in reading order, with
//   the offset of the record at fault.
// - The store keeps nothing between two calls, allocates nothing and has no global state: layout, standing, stripe and spare are the caller's, and
//   calls on different stripes may run in different threads.
// - The bytes that stand where a lost block was are of no account: no answer and no other byte depends on them. (store_encode ignores old marks: to
//   it no block is lost.)
#ifndef HRNKOVIDA_STORE_H
#define HRNKOVIDA_STORE_H

#include <stddef.h>
#include <stdint.h>

#ifdef __cplusplus
extern "C" {
#endif

// The bounds of document 01.
enum {
    STORE_MOST_DATA = 32,     // k, from 1
    STORE_MOST_BLOCKS = 48,   // n
    STORE_MOST_GROUPS = 16,   // groups of a layout
    STORE_MOST_NESTING = 4,   // groups on a path from top to leaf: the top is 1
    STORE_MOST_ROWS = 16,     // rows on a path from top to leaf
    STORE_MOST_LENGTH = 1024  // L, from 1
};

// The refusals, in document 01's numbers and words. Each function below lists those that it can give.
enum store_refusal {
    STORE_ACCEPTED = 0,                // no refusal
    STORE_RECORD_PAST_END = 1,         // fewer than 4 bytes remain where a record must start, or it runs past the end of its branch or note
    STORE_UNKNOWN_KIND = 2,            // kind neither 1 nor 2
    STORE_UNSOUND_RECORD = 3,          // length below 2; leaf length not 4; branch length below 3; d = 0; fewer than two members
    STORE_BYTES_AFTER = 4,             // bytes after the top record
    STORE_BOUND_PASSED = 5,            // a bound on k, n, groups, nesting or rows is passed
    STORE_UNKNOWN_LAYOUT = 6,          // a layout that no accepted note gives
    STORE_STRIPE_LENGTH = 7,           // L outside its range, or stripe not n x L bytes
    STORE_UNKNOWN_MARK = 8,            // a lost mark at n or above
    STORE_UNKNOWN_BLOCK = 9,           // block number not below n (a correction: not below k)
    STORE_NOT_LOST = 10,               // repair of, or plan for, a block not lost
    STORE_ALREADY_LOST = 11,           // correction or loss of a block already lost
    STORE_DIFFERENCE_PAST_BLOCK = 12,  // offset plus difference passes L
    STORE_SPARE_LENGTH = 13,           // spare not exactly L bytes
    STORE_NO_PLAN = 14,                // the lost block to be planned, repaired or read, or in a rebuild any lost block, has no plan
    STORE_LIMIT_NOT_NUMBER = 15,       // a price limit is not a number
    STORE_NO_PLAN_ALONE = 16           // a data block lost alone has no plan
};

// A group of a layout.
typedef struct store_group {
    uint8_t h;        // its own redundant blocks
    uint8_t d;        // its data blocks: 0 for a branch
    size_t len;       // the length that its record gives
    size_t row;       // the first of its rows: the rows of the groups round it come before
    size_t first;     // the first data block inside it
    size_t redundant; // the first of its own redundant blocks, counted from k on
    size_t size;      // the groups inside it, itself counted
    size_t count;     // the data blocks inside it, those of nested groups included
} store_group;

// A layout: its groups in the order of their headers in the note, all zero from `groups` on. It has n = k + r blocks. A layout comes from store_read,
// and may be kept and copied as any value; a value that no accepted note gives gets 6 from every call that takes a layout.
typedef struct store_layout {
    size_t groups;
    store_group list[STORE_MOST_GROUPS];
    size_t k; // data blocks
    size_t r; // redundant blocks
} store_layout;

// The standing of a stripe: L, and the set of lost blocks. Bit b of `lost`, the lowest being bit 0, is block b's mark. A caller may fill one itself:
// every value has a meaning.
typedef struct store_standing {
    size_t len; // L
    uint64_t lost;
} store_standing;

// Block b's mark in `lost`; b is below 64.
#define STORE_MARK(b) (UINT64_C(1) << (b))

// The answer of a call that may change a standing: 0 or the number of the refusal; for a rebuild's 14 the block it names, and 0 in every other case.
typedef struct store_said {
    uint8_t number;
    size_t block;
} store_said;

// The answer to a note. Accepted: number 0, offset 0, the layout. Refused: number, offset and the blank layout, all zero, which no note gives.
typedef struct store_note_said {
    uint8_t number;
    size_t offset;
    store_layout layout;
} store_note_said;

// A plan: the lost block is the sum, over i below `reads`, of coef[i] times block[i], in the field of document 01. The blocks are survivors, in
// rising order; no coefficient is 0. Entries from `reads` on are 0.
typedef struct store_plan_list {
    size_t reads;
    uint8_t block[STORE_MOST_DATA];
    uint8_t coef[STORE_MOST_DATA];
} store_plan_list;

// The answer to the question for a plan: number 0 and the plan, or the number of the refusal and the blank plan, all zero.
typedef struct store_plan_said {
    uint8_t number;
    store_plan_list plan;
} store_plan_said;

// What `slice` of a part may be.
enum store_slice {
    STORE_IN_STRIPE = 0,
    STORE_IN_SPARE = 1
};

// A part of the stripe or of the spare: `len` bytes from byte `from` on.
typedef struct store_part {
    uint8_t slice;
    size_t from;
    size_t len;
} store_part;

// Limits of a price: the most storage ratio and the most mean reads.
typedef struct store_limits {
    double storage;
    double reads;
} store_limits;

// What `verdict` of a price may be.
enum store_verdict {
    STORE_FITS = 0,
    STORE_TOO_LARGE = 1,
    STORE_TOO_MANY_READS = 2,
    STORE_PRICE_REFUSED = 3
};

// The answer to the question for a price. It fits, with storage and reads; is too large, with storage; has too many reads, with reads; or is refused,
// with the number. A figure that does not come with the verdict is 0.0, and the number is 0 unless the verdict is STORE_PRICE_REFUSED.
typedef struct store_price_said {
    uint8_t verdict;
    uint8_t number;
    double storage;
    double reads;
} store_price_said;

// Reads a note: one record, the top record, and nothing after it. A record is a two-byte length, a two-byte kind, then a body; numbers are
// little-endian. The length counts kind and body.
//   Kind 1, leaf group: one byte h, its own redundant blocks (0 or more), and one byte d, its data blocks (1 or more). Its length is 4.
//   Kind 2, branch group: one byte h, then two or more records that fill the body exactly.
// Data blocks are numbered from 0 in note order, redundant blocks from k on in the order in which their groups' headers stand in the note.
// Refused, with the offset of the record at fault:
//   1  fewer than 4 bytes remain where a record must start, or it runs past the end of its branch or note
//   2  kind neither 1 nor 2
//   3  length below 2; leaf length not 4; branch length below 3; d = 0; fewer than two members, with the offset of the branch
//   4  bytes after the top record, with the offset of the first
//   5  k passes 32, n 48, groups 16, nesting 4, or rows on a path 16
// Faults come in reading order; at one record: 4 bytes present (1), length below 2 (3), end (1), kind (2), body (3), then bounds on the running
// totals (5), then members, whose count is judged when the branch ends (3). Bytes after the top record (4) come last.
store_note_said store_read(const uint8_t *note, size_t note_len);

// Encodes: writes every redundant block from the data as lent, leaves every data byte as it was, and marks nothing lost. Old marks are ignored, and
// never give 8; L stays.
// Refused, standing and stripe left as they were:
//   6  a layout that no accepted note gives
//   7  L outside 1 to 1,024, or stripe_len not n x L
store_said store_encode(store_layout layout, store_standing *standing, uint8_t *stripe, size_t stripe_len);

// Marks a block lost, and changes nothing else. It takes no stripe.
// Refused, the standing left as it was:
//   6  a layout that no accepted note gives
//   7  L outside 1 to 1,024
//   8  a lost mark at n or above
//   9  block not below n
//  11  block already lost
store_said store_lose(store_layout layout, store_standing *standing, size_t block);

// The plan of a lost block: of all combinations of survivors that make it, the one that document 01 fixes, which looks for survivors from the block's
// own group outward. It takes no stripe and touches nothing.
// Refused:
//   6  a layout that no accepted note gives
//   7  L outside 1 to 1,024
//   8  a lost mark at n or above
//   9  block not below n
//  10  block not lost
//  14  block has no plan
store_plan_said store_plan(store_layout layout, store_standing standing, size_t block);

// Repairs a lost block: writes its L bytes by its plan and clears its mark. It touches no other byte and no other mark.
// Refused, standing and stripe left as they were:
//   6  a layout that no accepted note gives
//   7  L outside 1 to 1,024, or stripe_len not n x L
//   8  a lost mark at n or above
//   9  block not below n
//  10  block not lost
//  14  block has no plan
store_said store_repair(store_layout layout, store_standing *standing, uint8_t *stripe, size_t stripe_len, size_t block);

// Rebuilds everything: repairs all lost blocks, and ends as single repairs of every lost block, in rising block order, would. With nothing lost it
// is accepted and changes nothing.
// Refused, standing and stripe left as they were:
//   6  a layout that no accepted note gives
//   7  L outside 1 to 1,024, or stripe_len not n x L
//   8  a lost mark at n or above
//  14  a lost block has no plan; the answer names the lowest such block
store_said store_rebuild(store_layout layout, store_standing *standing, uint8_t *stripe, size_t stripe_len);

// Corrects a data block by a difference: its bytes are XORed into the block from the offset on, and each surviving redundant block that covers it
// gets coefficient times difference at the same offsets. Lost blocks are not touched, nor is any other byte. An empty difference is accepted, offset
// up to L.
// Refused, the stripe left as it was:
//   6  a layout that no accepted note gives
//   7  L outside 1 to 1,024, or stripe_len not n x L
//   8  a lost mark at n or above
//   9  block not below k
//  11  block lost
//  12  offset plus difference_len, as whole numbers, passes L
uint8_t store_correct(store_layout layout, store_standing standing, uint8_t *stripe, size_t stripe_len, size_t block, size_t offset,
                      const uint8_t *difference, size_t difference_len);

// Reading a block, the first of two calls: rebuilds a lost block into the spare; for a present block the spare is untouched. It touches neither
// stripe nor standing: the block stays lost.
// Refused, the spare left as it was:
//   6  a layout that no accepted note gives
//   7  L outside 1 to 1,024, or stripe_len not n x L
//   8  a lost mark at n or above
//   9  block not below n
//  13  spare_len not exactly L, for a present block too
//  14  block is lost and has no plan
uint8_t store_fetch(store_layout layout, store_standing standing, const uint8_t *stripe, size_t stripe_len, uint8_t *spare, size_t spare_len,
                    size_t block);

// Reading a block, the second of two calls: writes nothing and hands back the part of the stripe, or the part of the spare, that holds the block, L
// bytes: a present block where it stands, a lost one from the spare as it is, so that store_fetch for this block comes first.
// Where store_fetch would refuse, the part is empty: slice STORE_IN_SPARE, from 0, len 0. That is the refusal; the number is had from store_fetch.
store_part store_view(store_layout layout, store_standing standing, const uint8_t *stripe, size_t stripe_len, const uint8_t *spare, size_t spare_len,
                      size_t block);

// Prices a layout. Storage is n / k. Mean reads is T / k, T being the sum, over data blocks each lost alone, of the number of blocks in its plan.
// Each is one division of two small whole numbers, rounded once. Too large means storage > limit and is asked before reads; too many reads means
// reads > limit; equal fits. A limit may be infinite.
// Refused, before both limits:
//   6  a layout that no accepted note gives
//  15  a limit is not a number
//  16  a data block lost alone has no plan
store_price_said store_price(store_layout layout, store_limits limits);

#ifdef __cplusplus
}
#endif

// The archive's view of these structs. A compiler set to other sizes, or to packed structs, stops here and not in a call.
#ifdef __cplusplus
#define STORE_HOLDS(fact) static_assert(fact, #fact)
#else
#define STORE_HOLDS(fact) _Static_assert(fact, #fact)
#endif
STORE_HOLDS(sizeof(size_t) == 8);
STORE_HOLDS(sizeof(double) == 8);
STORE_HOLDS(sizeof(store_group) == 56 && offsetof(store_group, d) == 1 && offsetof(store_group, len) == 8 && offsetof(store_group, row) == 16);
STORE_HOLDS(offsetof(store_group, first) == 24 && offsetof(store_group, redundant) == 32);
STORE_HOLDS(offsetof(store_group, size) == 40 && offsetof(store_group, count) == 48);
STORE_HOLDS(sizeof(store_layout) == 920 && offsetof(store_layout, list) == 8 && offsetof(store_layout, k) == 904 && offsetof(store_layout, r) == 912);
STORE_HOLDS(sizeof(store_standing) == 16 && offsetof(store_standing, lost) == 8);
STORE_HOLDS(sizeof(store_said) == 16 && offsetof(store_said, block) == 8);
STORE_HOLDS(sizeof(store_note_said) == 936 && offsetof(store_note_said, offset) == 8 && offsetof(store_note_said, layout) == 16);
STORE_HOLDS(sizeof(store_plan_list) == 72 && offsetof(store_plan_list, block) == 8 && offsetof(store_plan_list, coef) == 40);
STORE_HOLDS(sizeof(store_plan_said) == 80 && offsetof(store_plan_said, plan) == 8);
STORE_HOLDS(sizeof(store_part) == 24 && offsetof(store_part, from) == 8 && offsetof(store_part, len) == 16);
STORE_HOLDS(sizeof(store_limits) == 16 && offsetof(store_limits, reads) == 8);
STORE_HOLDS(sizeof(store_price_said) == 24 && offsetof(store_price_said, number) == 1 && offsetof(store_price_said, storage) == 8);
STORE_HOLDS(offsetof(store_price_said, reads) == 16);
#undef STORE_HOLDS

#endif
