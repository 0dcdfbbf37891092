// A day's rest-hour records in a stripe: stored, lost in part, corrected and read meanwhile, rebuilt; and a loss that is too much. It writes what it
// does (day.out has it), and ends with 1 at anything else than what document 01 says.
#include "store.h"

#include <stdbool.h>
#include <stdio.h>
#include <stdlib.h>
#include <string.h>

enum {
    K = 4,  // data blocks
    N = 7,  // blocks
    L = 32, // bytes of a block: one record
    STRIPE = N * L
};

// The note of document 01's depot pair: two depots of two data blocks, with one redundant block each, and one more over both.
static const uint8_t NOTE[] = {
    0x0F, 0x00, 0x02, 0x00, 0x01,       // a branch: length 15, kind 2, h 1
    0x04, 0x00, 0x01, 0x00, 0x01, 0x02, // a leaf: length 4, kind 1, h 1, d 2
    0x04, 0x00, 0x01, 0x00, 0x01, 0x02, // another
};

static const char *const RECORDS[K] = {
    "crew 07, ferry, rest 22:10-06:40",
    "crew 12, ferry, rest 21:30-05:50",
    "crew 31, train, rest 20:45-05:15",
    "crew 44, train, rest 23:00-07:30",
};

// In every record the time at which the rest began stands here.
enum { BEGAN = 21, TIME = 5 };

struct day {
    store_layout layout;
    store_standing standing;
    uint8_t stripe[STRIPE];
    uint8_t spare[L];
};

static void expect(bool fact, const char *what)
{
    if (!fact) {
        fprintf(stderr, "day: not so: %s\n", what);
        exit(1);
    }
}

static store_layout read_layout(void)
{
    store_note_said said = store_read(NOTE, sizeof NOTE);
    expect(said.number == STORE_ACCEPTED, "the note is accepted");
    expect(said.layout.k == K && said.layout.k + said.layout.r == N, "4 data blocks, 7 blocks in all");
    printf("note: %zu data blocks, %zu blocks in all\n", said.layout.k, said.layout.k + said.layout.r);
    return said.layout;
}

// The tree: a group's nested groups follow it.
static void show_groups(const store_layout *layout)
{
    for (size_t g = 0; g < layout->groups; g++) {
        const store_group *group = &layout->list[g];
        printf("group %zu, %s: %zu data blocks from %zu, ", g, group->d == 0 ? "branch" : "leaf", group->count, group->first);
        printf("%u redundant from %zu, %zu nested\n", group->h, layout->k + group->redundant, group->size - 1);
    }
}

static void ask_price(const struct day *day)
{
    store_limits limits = {1.75, 2.0};
    store_price_said said = store_price(day->layout, limits);
    expect(said.verdict == STORE_FITS, "the layout fits its limits");
    printf("price: %.2f times the data stored, %.2f blocks read for a lost one\n", said.storage, said.reads);
}

// A stripe of these records, encoded.
static void encode(struct day *day, const char *const records[K])
{
    memset(day->stripe, 0, STRIPE);
    for (size_t i = 0; i < K; i++) {
        memcpy(day->stripe + i * L, records[i], L);
    }
    day->standing = (store_standing){L, 0};
    store_said said = store_encode(day->layout, &day->standing, day->stripe, STRIPE);
    expect(said.number == STORE_ACCEPTED, "the stripe is encoded");
}

// The block's bytes go with it: whatever stands there is of no account.
static void lose(struct day *day, size_t block)
{
    store_said said = store_lose(day->layout, &day->standing, block);
    expect(said.number == STORE_ACCEPTED, "a block is lost");
    memset(day->stripe + block * L, '?', L);
    printf("block %zu is lost\n", block);
}

static void show_plan(const struct day *day, size_t block)
{
    store_plan_said said = store_plan(day->layout, day->standing, block);
    expect(said.number == STORE_ACCEPTED, "the block has a plan");
    printf("plan of block %zu:", block);
    for (size_t i = 0; i < said.plan.reads; i++) {
        printf("%s %u x block %u", i == 0 ? "" : " +", said.plan.coef[i], said.plan.block[i]);
    }
    printf("\n");
}

// A correction is a difference: the old bytes XOR the new.
static void correct_time(struct day *day, size_t block, const char *began)
{
    const uint8_t *old = day->stripe + block * L + BEGAN;
    uint8_t difference[TIME];
    printf("block %zu is corrected: %.*s is now ", block, TIME, (const char *)old);
    for (size_t i = 0; i < TIME; i++) {
        difference[i] = old[i] ^ (uint8_t)began[i];
    }
    uint8_t number = store_correct(day->layout, day->standing, day->stripe, STRIPE, block, BEGAN, difference, TIME);
    expect(number == STORE_ACCEPTED, "the record is corrected");
    printf("%.*s\n", TIME, (const char *)old);
}

// Present or lost, a block is read in the same two calls; a lost one stays lost.
static void read_block(struct day *day, size_t block, const char *record)
{
    uint8_t number = store_fetch(day->layout, day->standing, day->stripe, STRIPE, day->spare, L, block);
    expect(number == STORE_ACCEPTED, "the block is fetched");
    store_part part = store_view(day->layout, day->standing, day->stripe, STRIPE, day->spare, L, block);
    expect(part.len == L, "the block is viewed");
    const uint8_t *bytes = (part.slice == STORE_IN_STRIPE ? day->stripe : day->spare) + part.from;
    expect(memcmp(bytes, record, L) == 0, "the block holds its record");
    printf("block %zu, from the %s: %.*s\n", block, part.slice == STORE_IN_STRIPE ? "stripe" : "spare", L, (const char *)bytes);
}

static void rebuild(struct day *day, const char *const records[K])
{
    store_said said = store_rebuild(day->layout, &day->standing, day->stripe, STRIPE);
    expect(said.number == STORE_ACCEPTED && day->standing.lost == 0, "every lost block is rebuilt");
    struct day fresh = {.layout = day->layout};
    encode(&fresh, records);
    expect(memcmp(day->stripe, fresh.stripe, STRIPE) == 0, "the stripe is a fresh encoding of the corrected records");
    printf("rebuilt: nothing is lost, and the stripe is a fresh encoding of the corrected records\n");
}

// Four blocks survive for four data blocks, and still give nothing: none of the three has a plan.
static void lose_too_much(struct day *day)
{
    lose(day, 0);
    lose(day, 1);
    lose(day, 5);
    struct day before = *day;
    store_said said = store_rebuild(day->layout, &day->standing, day->stripe, STRIPE);
    expect(said.number == STORE_NO_PLAN && said.block == 0, "the rebuild is refused and names block 0");
    uint8_t number = store_fetch(day->layout, day->standing, day->stripe, STRIPE, day->spare, L, 1);
    expect(number == STORE_NO_PLAN, "block 1 is not to be read");
    store_part part = store_view(day->layout, day->standing, day->stripe, STRIPE, day->spare, L, 1);
    expect(part.len == 0, "block 1 is not to be viewed");
    expect(day->standing.lost == before.standing.lost && day->standing.len == L, "the standing is as it was");
    expect(memcmp(day->stripe, before.stripe, STRIPE) == 0 && memcmp(day->spare, before.spare, L) == 0, "no byte is changed");
    printf("rebuild: refused %u, block %zu; block 1: refused %u; nothing is changed\n", said.number, said.block, number);
}

int main(void)
{
    const char *const corrected[K] = {RECORDS[0], RECORDS[1], "crew 31, train, rest 21:15-05:15", RECORDS[3]};
    struct day day = {.layout = read_layout()};
    show_groups(&day.layout);
    ask_price(&day);
    encode(&day, RECORDS);
    lose(&day, 0);
    show_plan(&day, 0);
    lose(&day, 4);
    correct_time(&day, 2, "21:15");
    lose(&day, 2);
    read_block(&day, 0, corrected[0]);
    read_block(&day, 1, corrected[1]);
    read_block(&day, 2, corrected[2]);
    rebuild(&day, corrected);
    lose_too_much(&day);
    return fflush(stdout) == 0 ? 0 : 1;
}
