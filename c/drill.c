// Runs a script of calls through the exports of store.h: reads the script from standard input and writes a line for each command, as docs/DRILL.md
// says. It parses, calls and prints, and knows nothing of the code: every answer is the store's.
//
// store.h says more of an answer than a line shows: what is blank, what is 0. Where that is not so, the line says it too, and compares with none.
#include "store.h"

#include <inttypes.h>
#include <stdbool.h>
#include <stdio.h>
#include <string.h>

enum {
    MOST_SCRIPT = 65536,
    MOST_STRIPE = 49152,
    MOST_SPARE = 2048,
    MOST_SHORT = 65535, // what a count of two bytes can say
    MOST_WHOLE = 64,    // bytes that are shown one by one
    NO_NUMERATOR = 2048 // every numerator of a price is below
};

// What is kept from command to command.
struct drill {
    store_layout layout;
    store_standing standing;
    size_t stripe_len;
    size_t spare_len;
    uint8_t stripe[MOST_STRIPE];
    uint8_t spare[MOST_SPARE];
};

// A command's numbers, and the bytes that follow them.
struct command {
    uint64_t number[2];
    const uint8_t *bytes;
    size_t count;
};

// How the commands of a letter stand in a script, and what runs them.
struct form {
    char letter;
    size_t numbers;
    size_t width;       // bytes of each number
    size_t count_width; // bytes of the count that stands before further bytes; 0: none follow
    size_t most;        // the most bytes that may follow
    void (*run)(struct drill *drill, const struct command *command);
};

// ---- printing: the fields of a line, each with the space before it

static void hold(bool fact, const char *what)
{
    if (!fact) {
        printf(" but %s", what);
    }
}

static uint64_t checksum(const uint8_t *bytes, size_t len)
{
    uint64_t sum = 1;
    for (size_t i = 0; i < len; i++) {
        sum = (sum * 257 + bytes[i]) % UINT64_C(4294967291);
    }
    return sum;
}

static void print_bytes(const uint8_t *bytes, size_t len)
{
    if (len == 0) {
        printf(" -");
    } else if (len > MOST_WHOLE) {
        printf(" #%" PRIu64, checksum(bytes, len));
    } else {
        putchar(' ');
        for (size_t i = 0; i < len; i++) {
            printf("%02x", bytes[i]);
        }
    }
}

static void print_standing(const struct drill *drill)
{
    printf(" %zu %" PRIu64, drill->standing.len, drill->standing.lost);
}

static void print_held(const struct drill *drill)
{
    print_standing(drill);
    print_bytes(drill->stripe, drill->stripe_len);
}

static void print_all(const struct drill *drill)
{
    print_held(drill);
    print_bytes(drill->spare, drill->spare_len);
}

// The answer of a call that names no block.
static void print_said(store_said said)
{
    printf(" %u", said.number);
    hold(said.block == 0, "a block named");
}

// A figure as a fraction over k, with the smallest whole numerator.
static void print_figure(double figure, size_t k)
{
    unsigned numerator = 0;
    while (numerator < NO_NUMERATOR && (double)numerator / (double)k != figure) {
        numerator++;
    }
    printf(" %u/%zu", numerator, k);
}

// ---- commands that set something

static bool blank_group(const store_group *group)
{
    return group->h == 0 && group->d == 0 && group->len == 0 && group->row == 0 && group->first == 0 && group->redundant == 0 && group->size == 0
        && group->count == 0;
}

static bool blank_layout(const store_layout *layout)
{
    bool blank = layout->groups == 0 && layout->k == 0 && layout->r == 0;
    for (size_t g = 0; g < STORE_MOST_GROUPS; g++) {
        blank = blank && blank_group(&layout->list[g]);
    }
    return blank;
}

static void run_note(struct drill *drill, const struct command *command)
{
    store_note_said said = store_read(command->bytes, command->count);
    if (said.number != STORE_ACCEPTED) {
        printf("note refused %u at %zu", said.number, said.offset);
        hold(blank_layout(&said.layout), "a layout");
        return;
    }
    drill->layout = said.layout;
    printf("note k %zu n %zu", said.layout.k, said.layout.k + said.layout.r);
    hold(said.offset == 0, "an offset");
}

// Unsigned numbers go from their largest to 0.
static void alter_group(store_group *group, size_t field)
{
    switch (field) {
    case 0: group->h++; break;
    case 1: group->d++; break;
    case 2: group->len++; break;
    case 3: group->row++; break;
    case 4: group->first++; break;
    case 5: group->redundant++; break;
    case 6: group->size++; break;
    case 7: group->count++; break;
    }
}

static void run_alter(struct drill *drill, const struct command *command)
{
    size_t field = command->number[0];
    switch (field) {
    case 0: drill->layout.groups++; break;
    case 1: drill->layout.k++; break;
    case 2: drill->layout.r++; break;
    default:
        if ((field - 3) / 8 < STORE_MOST_GROUPS) {
            alter_group(&drill->layout.list[(field - 3) / 8], (field - 3) % 8);
        }
    }
    printf("alter %zu", field);
}

static void run_standing(struct drill *drill, const struct command *command)
{
    drill->standing.len = command->number[0];
    drill->standing.lost = command->number[1];
    printf("standing");
    print_standing(drill);
}

static void run_stripe(struct drill *drill, const struct command *command)
{
    memcpy(drill->stripe, command->bytes, command->count);
    drill->stripe_len = command->count;
    printf("stripe");
    print_bytes(drill->stripe, drill->stripe_len);
}

static void run_spare(struct drill *drill, const struct command *command)
{
    memcpy(drill->spare, command->bytes, command->count);
    drill->spare_len = command->count;
    printf("spare");
    print_bytes(drill->spare, drill->spare_len);
}

static void run_junk(struct drill *drill, const struct command *command)
{
    store_standing standing = drill->standing;
    for (size_t p = 0; standing.len > 0 && p < drill->stripe_len; p++) {
        size_t block = p / standing.len;
        if (block < 64 && (standing.lost & STORE_MARK(block)) != 0) {
            drill->stripe[p] = (uint8_t)(drill->stripe[p] + command->number[0]);
        }
    }
    printf("junk");
    print_bytes(drill->stripe, drill->stripe_len);
}

// ---- calls

static void run_encode(struct drill *drill, const struct command *command)
{
    (void)command;
    store_said said = store_encode(drill->layout, &drill->standing, drill->stripe, drill->stripe_len);
    printf("encode");
    print_said(said);
    print_held(drill);
}

static void run_lose(struct drill *drill, const struct command *command)
{
    size_t block = command->number[0];
    store_said said = store_lose(drill->layout, &drill->standing, block);
    printf("lose %zu", block);
    print_said(said);
    print_standing(drill);
}

static void run_plan(struct drill *drill, const struct command *command)
{
    size_t block = command->number[0];
    store_plan_said said = store_plan(drill->layout, drill->standing, block);
    size_t reads = said.plan.reads;
    printf("plan %zu %u", block, said.number);
    hold(said.number == STORE_ACCEPTED || reads == 0, "a plan");
    for (size_t i = 0; i < STORE_MOST_DATA; i++) {
        if (i < reads) {
            printf(" %u*%u", said.plan.block[i], said.plan.coef[i]);
        } else {
            hold(said.plan.block[i] == 0 && said.plan.coef[i] == 0, "an entry not in use");
        }
    }
    hold(reads <= STORE_MOST_DATA, "more entries");
}

static void run_repair(struct drill *drill, const struct command *command)
{
    size_t block = command->number[0];
    store_said said = store_repair(drill->layout, &drill->standing, drill->stripe, drill->stripe_len, block);
    printf("repair %zu", block);
    print_said(said);
    print_held(drill);
}

static void run_rebuild(struct drill *drill, const struct command *command)
{
    (void)command;
    store_said said = store_rebuild(drill->layout, &drill->standing, drill->stripe, drill->stripe_len);
    printf("rebuild");
    if (said.number == STORE_NO_PLAN) {
        printf(" %u@%zu", said.number, said.block);
    } else {
        print_said(said);
    }
    print_held(drill);
}

static void run_correct(struct drill *drill, const struct command *command)
{
    size_t block = command->number[0];
    size_t offset = command->number[1];
    uint8_t number =
        store_correct(drill->layout, drill->standing, drill->stripe, drill->stripe_len, block, offset, command->bytes, command->count);
    printf("correct %zu %u", block, number);
    print_held(drill);
}

static void run_fetch(struct drill *drill, const struct command *command)
{
    size_t block = command->number[0];
    uint8_t number =
        store_fetch(drill->layout, drill->standing, drill->stripe, drill->stripe_len, drill->spare, drill->spare_len, block);
    printf("fetch %zu %u", block, number);
    print_all(drill);
}

static void print_part(const struct drill *drill, store_part part)
{
    bool in_stripe = part.slice == STORE_IN_STRIPE;
    const uint8_t *bytes = in_stripe ? drill->stripe : drill->spare;
    size_t len = in_stripe ? drill->stripe_len : drill->spare_len;
    if (part.slice > STORE_IN_SPARE || part.from > len || part.len > len - part.from) {
        hold(false, "a part of neither");
        return;
    }
    print_bytes(bytes + part.from, part.len);
    hold(part.len > 0 || (part.slice == STORE_IN_SPARE && part.from == 0), "an empty part elsewhere");
}

static void run_view(struct drill *drill, const struct command *command)
{
    size_t block = command->number[0];
    store_part part =
        store_view(drill->layout, drill->standing, drill->stripe, drill->stripe_len, drill->spare, drill->spare_len, block);
    printf("view %zu", block);
    print_part(drill, part);
    print_all(drill);
}

static double from_bits(uint64_t bits)
{
    double number;
    memcpy(&number, &bits, sizeof number);
    return number;
}

static void run_price(struct drill *drill, const struct command *command)
{
    store_limits limits = {from_bits(command->number[0]), from_bits(command->number[1])};
    store_price_said said = store_price(drill->layout, limits);
    size_t k = drill->layout.k;
    printf("price");
    switch (said.verdict) {
    case STORE_FITS:
        printf(" fits");
        print_figure(said.storage, k);
        print_figure(said.reads, k);
        break;
    case STORE_TOO_LARGE:
        printf(" large");
        print_figure(said.storage, k);
        hold(said.reads == 0.0, "reads");
        break;
    case STORE_TOO_MANY_READS:
        printf(" reads");
        print_figure(said.reads, k);
        hold(said.storage == 0.0, "storage");
        break;
    case STORE_PRICE_REFUSED:
        printf(" %u", said.number);
        hold(said.storage == 0.0 && said.reads == 0.0, "a figure");
        break;
    default: hold(false, "no verdict");
    }
    hold(said.verdict == STORE_PRICE_REFUSED || said.number == 0, "a number");
}

static void run_state(struct drill *drill, const struct command *command)
{
    (void)command;
    printf("state");
    print_all(drill);
}

// ---- the script

// docs/DRILL.md as a table: letter, numbers, their width, the width of a count, the most bytes it may count.
static const struct form FORMS[] = {
    {'N', 0, 0, 2, MOST_SHORT, run_note},
    {'A', 1, 1, 0, 0, run_alter},
    {'S', 2, 8, 0, 0, run_standing},
    {'B', 0, 0, 4, MOST_STRIPE, run_stripe},
    {'Q', 0, 0, 2, MOST_SPARE, run_spare},
    {'J', 1, 1, 0, 0, run_junk},
    {'E', 0, 0, 0, 0, run_encode},
    {'O', 1, 8, 0, 0, run_lose},
    {'P', 1, 8, 0, 0, run_plan},
    {'R', 1, 8, 0, 0, run_repair},
    {'U', 0, 0, 0, 0, run_rebuild},
    {'D', 2, 8, 2, MOST_SHORT, run_correct},
    {'F', 1, 8, 0, 0, run_fetch},
    {'V', 1, 8, 0, 0, run_view},
    {'C', 2, 8, 0, 0, run_price},
    {'T', 0, 0, 0, 0, run_state},
};

// The bytes of a script that are still to be read.
struct rest {
    const uint8_t *bytes;
    size_t len;
};

// The next bytes, or NULL if the script ends inside them.
static const uint8_t *take(struct rest *rest, size_t count)
{
    if (count > rest->len) {
        return NULL;
    }
    const uint8_t *part = rest->bytes;
    rest->bytes += count;
    rest->len -= count;
    return part;
}

// The next number, little-endian; false if the script ends inside it.
static bool take_number(struct rest *rest, size_t width, uint64_t *number)
{
    const uint8_t *bytes = take(rest, width);
    *number = 0;
    for (size_t i = width; bytes != NULL && i > 0; i--) {
        *number = *number << 8 | bytes[i - 1];
    }
    return bytes != NULL;
}

// The next command, and its form; NULL if it is damaged.
static const struct form *take_command(struct rest *rest, struct command *command)
{
    const struct form *form = FORMS;
    const struct form *end = FORMS + sizeof FORMS / sizeof *FORMS;
    uint64_t letter;
    uint64_t count;
    if (!take_number(rest, 1, &letter)) {
        return NULL;
    }
    while (form < end && (uint64_t)form->letter != letter) {
        form++;
    }
    if (form == end) {
        return NULL;
    }
    for (size_t i = 0; i < form->numbers; i++) {
        if (!take_number(rest, form->width, &command->number[i])) {
            return NULL;
        }
    }
    if (!take_number(rest, form->count_width, &count) || count > form->most) {
        return NULL;
    }
    command->count = count;
    command->bytes = take(rest, count);
    return command->bytes != NULL ? form : NULL;
}

static void run(const uint8_t *script, size_t len)
{
    static struct drill drill = {.standing = {1, 0}};
    struct rest rest = {script, len};
    while (rest.len > 0) {
        size_t at = len - rest.len;
        struct command command = {{0, 0}, NULL, 0};
        const struct form *form = take_command(&rest, &command);
        if (form == NULL) {
            printf("damaged at %zu\n", at);
            return;
        }
        form->run(&drill, &command);
        putchar('\n');
    }
}

int main(void)
{
    static uint8_t script[MOST_SCRIPT];
    size_t len = fread(script, 1, sizeof script, stdin);
    if (ferror(stdin)) {
        perror("drill: standard input");
        return 2;
    }
    run(script, len);
    if (fflush(stdout) != 0 || ferror(stdout)) {
        perror("drill: standard output");
        return 2;
    }
    return 0;
}
