// Times each function of the library, and its plain C body, over the same seeded inputs, and compares the
// checksums of all results.
//
//   calls COUNT ROUNDS [NAME]   a line for each function, or for the named one: name, ns of the library, ns of C, checksum
#define _POSIX_C_SOURCE 200809L

#include "plain.h"
#include <inttypes.h>
#include <stdio.h>
#include <stdlib.h>
#include <string.h>
#include <time.h>

// The number of inputs that are timed together: few enough to stay in a processor's cache.
#define BLOCK ((size_t)4096)

// The inputs, an array for each kind.
static cheri_cap_u128 *randoms, *canonicals, *lengths;
static uint64_t *bases, *requests, *addresses;
static cheri_cap_fields *fields;
static char (*texts)[32];
static cheri_cap_u128 *unsealed, *sealed, *authorities, *parents;

// A seeded generator, splitmix64.
static uint64_t next_random(void)
{
    static uint64_t state = UINT64_C(0x5eed5eed5eed5eed);
    uint64_t number = state += UINT64_C(0x9e3779b97f4a7c15);
    number = (number ^ number >> 30) * UINT64_C(0xbf58476d1ce4e5b9);
    number = (number ^ number >> 27) * UINT64_C(0x94d049bb133111eb);
    return number ^ number >> 31;
}

// A number with a random count of bits.
static uint64_t next_length(void)
{
    uint64_t number = next_random();
    return number >> next_random() % 64;
}

// Fields with the bounds that the request is granted, at an address within it.
static cheri_cap_fields next_fields(uint64_t base, uint64_t request)
{
    cheri_cap_granted set = plain_set_bounds(base, 0, request);
    uint64_t otype = next_random() & 0x3ffff;
    return (cheri_cap_fields){
        .address = base + (request != 0 ? next_random() % request : 0),
        .otype = otype <= CHERI_CAP_OTYPE_LAST_SEALING && next_random() % 2 ? (uint32_t)otype : CHERI_CAP_OTYPE_UNSEALED,
        .perms = (uint16_t)next_random(),
        .t = set.t,
        .b = set.b,
        .flag = next_random() % 2,
        .ie = set.ie,
    };
}

static void make_input(size_t i)
{
    randoms[i] = (cheri_cap_u128){next_random(), next_random()};
    lengths[i] = (cheri_cap_u128){0, next_length()};
    requests[i] = next_length();
    bases[i] = next_random();
    if (requests[i] != 0 && bases[i] > -requests[i])
        bases[i] -= requests[i];
    fields[i] = next_fields(bases[i], requests[i]);
    canonicals[i] = plain_pack(fields[i]);
    // About half of these addresses are in the window.
    unsigned exponent = plain_decode(canonicals[i].high, canonicals[i].low).exponent;
    addresses[i] = bases[i] + (next_random() >> (exponent < 50 ? 49 - exponent : 0));
    plain_write_word(randoms[i].high, randoms[i].low, texts[i]);
}

// Creates words for the rules. The authority of two in three unsealed words seals and unseals. A quarter of the parents
// are other words, and all others are the root's.
static void make_rule_input(size_t i)
{
    cheri_cap_fields own = fields[i];
    own.otype = CHERI_CAP_OTYPE_UNSEALED;
    unsealed[i] = plain_pack(own);
    authorities[i] = cheri_cap_root();
    authorities[i].low = next_random() % 0x3fff8;
    if (next_random() % 3 == 0)
        authorities[i].high &= next_random() << 48;
    own.otype = (uint32_t)(next_random() % 4 != 0 ? authorities[i].low % 0x3fff0 : next_random() % 0x3fff0);
    sealed[i] = plain_pack(own);
    parents[i] = next_random() % 4 != 0 ? cheri_cap_root() : unsealed[next_random() % (i + 1)];
}

// Allocates `count` values of a kind.
static void *allocate(size_t count, size_t size)
{
    void *made = calloc(count, size);
    if (made == NULL) {
        fputs("no memory\n", stderr);
        exit(2);
    }
    return made;
}

static void make_inputs(size_t count)
{
    randoms = allocate(count, sizeof *randoms);
    canonicals = allocate(count, sizeof *canonicals);
    lengths = allocate(count, sizeof *lengths);
    requests = allocate(count, sizeof *requests);
    bases = allocate(count, sizeof *bases);
    addresses = allocate(count, sizeof *addresses);
    fields = allocate(count, sizeof *fields);
    texts = allocate(count, sizeof *texts);
    unsealed = allocate(count, sizeof *unsealed);
    sealed = allocate(count, sizeof *sealed);
    authorities = allocate(count, sizeof *authorities);
    parents = allocate(count, sizeof *parents);
    for (size_t i = 0; i < count; i++)
        make_input(i);
    for (size_t i = 0; i < count; i++)
        make_rule_input(i);
}

static uint64_t fold_fields(cheri_cap_fields it)
{
    return it.address + it.otype + ((uint64_t)it.perms << 8) + ((uint64_t)it.t << 16) + ((uint64_t)it.b << 24)
        + ((uint64_t)it.reserved << 32) + ((uint64_t)it.flag << 40) + ((uint64_t)it.ie << 48);
}

static uint64_t fold_granted(cheri_cap_granted it)
{
    return it.base + 3 * it.top_low + it.top_high + ((uint64_t)it.t << 8) + ((uint64_t)it.b << 24) + it.exponent
        + ((uint64_t)it.ie << 40) + ((uint64_t)it.exact << 41) + ((uint64_t)it.in_range << 42);
}

static uint64_t fold_text(const char *text)
{
    uint64_t words[4];
    memcpy(words, text, sizeof words);
    return words[0] + 3 * words[1] + 5 * words[2] + 7 * words[3];
}

// Returns the checksum of the results of one body of a function, from that of the previous results.
#define LOOP(name, body, setup, result, folded)                                                                        \
    static uint64_t name##_by_##body(size_t first, size_t end, uint64_t checksum)                                      \
    {                                                                                                                  \
        for (size_t i = first; i < end; i++) {                                                                         \
            setup;                                                                                                     \
            result;                                                                                                    \
            checksum = checksum * 31 + (folded);                                                                       \
        }                                                                                                              \
        return checksum;                                                                                               \
    }

#define CALL(name, type, call, arguments, folded)                                                                      \
    LOOP(name, library, , type r = cheri_cap_##call arguments, folded)                                                 \
    LOOP(name, plain, , type r = plain_##call arguments, folded)

CALL(unpack, cheri_cap_fields, unpack, (randoms[i].high, randoms[i].low), fold_fields(r))
CALL(pack, cheri_cap_u128, pack, (fields[i]), r.high + 3 * r.low)
CALL(decode_random, cheri_cap_bounds, decode, (randoms[i].high, randoms[i].low), r.base + 3 * r.top_low + r.top_high + r.exponent)
CALL(decode_canonical, cheri_cap_bounds, decode, (canonicals[i].high, canonicals[i].low), r.base + 3 * r.top_low + r.top_high + r.exponent)
CALL(set_bounds, cheri_cap_granted, set_bounds, (bases[i], 0, requests[i]), fold_granted(r))
CALL(represents, bool, represents, (canonicals[i].high, canonicals[i].low, addresses[i]), r)
CALL(granule, uint64_t, granule, (lengths[i].high, lengths[i].low), r)
CALL(round_length, cheri_cap_u128, round_length, (lengths[i].high, lengths[i].low), r.high + 3 * r.low)
CALL(alignment_mask, uint64_t, alignment_mask, (lengths[i].high, lengths[i].low), r)
CALL(is_canonical_random, bool, is_canonical, (randoms[i].high, randoms[i].low), r)
CALL(is_canonical_canonical, bool, is_canonical, (canonicals[i].high, canonicals[i].low), r)
CALL(read_word, cheri_cap_read, read_word, (texts[i], 32), r.high + 3 * r.low + r.found)
LOOP(write_word, library, char text[32], cheri_cap_write_word(randoms[i].high, randoms[i].low, text), fold_text(text))
LOOP(write_word, plain, char text[32], plain_write_word(randoms[i].high, randoms[i].low, text), fold_text(text))
#define WORD(words) words[i].high, words[i].low
#define RULE(name, arguments) CALL(name, cheri_cap_made, name, arguments, r.high + 3 * r.low + r.refusal)
RULE(set_address, (WORD(unsealed), addresses[i]))
RULE(increment, (WORD(unsealed), addresses[i] - unsealed[i].low))
RULE(and_perms, (WORD(unsealed), (uint16_t)lengths[i].low))
RULE(set_flag, (WORD(unsealed), requests[i] % 2))
RULE(set_bounds_on, (WORD(unsealed), 0, requests[i] / 4))
RULE(seal, (WORD(unsealed), WORD(authorities)))
RULE(unseal, (WORD(sealed), WORD(authorities)))
RULE(rebuild, (WORD(parents), WORD(unsealed)))
CALL(is_subset, bool, is_subset, (WORD(unsealed), WORD(parents)), r)

// Runs a block of words in one call, and then adds the results to the checksum.
#define BLOCKWISE(name, body, type, call, words, folded)                                                               \
    static uint64_t name##_by_##body(size_t first, size_t end, uint64_t checksum)                                      \
    {                                                                                                                  \
        static type results[BLOCK];                                                                                    \
        size_t count = body##_##call words;                                                                            \
        for (size_t i = 0; i < count; i++) {                                                                           \
            type r = results[i];                                                                                       \
            checksum = checksum * 31 + (folded);                                                                       \
        }                                                                                                              \
        return checksum;                                                                                               \
    }
#define library_decode_many cheri_cap_decode_many
#define library_is_canonical_many cheri_cap_is_canonical_many
#define library_represents_many cheri_cap_represents_many
#define library_search_memory cheri_cap_search_memory
#define MANY(name, type, call, words, folded)                                                                          \
    BLOCKWISE(name, library, type, call, words, folded)                                                                \
    BLOCKWISE(name, plain, type, call, words, folded)
MANY(decode_many, cheri_cap_bounds, decode_many, (canonicals + first, end - first, results, end - first), r.base + 3 * r.top_low + r.top_high + r.exponent)
MANY(is_canonical_many_random, uint8_t, is_canonical_many, (randoms + first, end - first, results, end - first), r)
MANY(is_canonical_many, uint8_t, is_canonical_many, (canonicals + first, end - first, results, end - first), r)
MANY(represents_many, uint8_t, represents_many, (canonicals + first, end - first, addresses + first, end - first, results, end - first), r)
static const cheri_cap_query query = {.needs_permission = true, .sealed = true, .sentries = true};
static size_t next_word;
MANY(search_memory, uint64_t, search_memory, (randoms + first, end - first, false, NULL, 0, &query, results, end - first, &next_word), r)

typedef uint64_t loop(size_t first, size_t end, uint64_t checksum);

#define ROW(name) {#name, name##_by_library, name##_by_plain}

static const struct {
    const char *name;
    loop *library, *plain;
} rows[] = {
    ROW(unpack),
    ROW(pack),
    ROW(decode_random),
    ROW(decode_canonical),
    ROW(set_bounds),
    ROW(represents),
    ROW(granule),
    ROW(round_length),
    ROW(alignment_mask),
    ROW(is_canonical_random),
    ROW(is_canonical_canonical),
    ROW(decode_many),
    ROW(is_canonical_many_random),
    ROW(is_canonical_many),
    ROW(represents_many),
    ROW(search_memory),
    ROW(read_word),
    ROW(write_word),
    ROW(set_address),
    ROW(increment),
    ROW(and_perms),
    ROW(set_flag),
    ROW(set_bounds_on),
    ROW(seal),
    ROW(unseal),
    ROW(rebuild),
    ROW(is_subset),
};

static double now(void)
{
    struct timespec time;
    clock_gettime(CLOCK_MONOTONIC, &time);
    return (double)time.tv_sec * 1e9 + (double)time.tv_nsec;
}

// The nanoseconds that a body takes for the inputs of a block, and the checksum of its results.
typedef struct {
    double least, sum;
    uint64_t before, after;
} measurement;

static void measure(loop *body, size_t first, size_t end, measurement *of)
{
    double start = now();
    of->after = body(first, end, of->before);
    double taken = now() - start;
    if (taken < of->least)
        of->least = taken;
}

// Adds the minimum time of a block to the sum, and begins the next block.
static void next_block(measurement *of)
{
    of->sum += of->least;
    of->least = 1e99;
    of->before = of->after;
}

// Prints the row of a function, and returns whether the results of the two bodies are equal.
static bool compare(const char *name, loop *library_body, loop *plain_body, size_t count, size_t rounds)
{
    measurement library = {1e99, 0, 0, 0}, plain = {1e99, 0, 0, 0};
    for (size_t first = 0; first < count; first += BLOCK) {
        size_t end = first + BLOCK < count ? first + BLOCK : count;
        for (size_t round = 0; round < rounds; round++) {
            measure(library_body, first, end, &library);
            measure(plain_body, first, end, &plain);
        }
        next_block(&library);
        next_block(&plain);
    }
    bool same = library.after == plain.after;
    printf("%s %.2f %.2f %016" PRIx64 "%s\n", name, library.sum / (double)count, plain.sum / (double)count, library.after,
        same ? "" : " DIFFERS");
    return same;
}

int main(int argc, char **argv)
{
    if (argc < 3) {
        fputs("usage: calls COUNT ROUNDS [NAME]\n", stderr);
        return 2;
    }
    size_t count = strtoul(argv[1], NULL, 10), rounds = strtoul(argv[2], NULL, 10);
    make_inputs(count);
    bool same = true;
    for (size_t i = 0; i < sizeof rows / sizeof *rows; i++)
        if (argc < 4 || strcmp(argv[3], rows[i].name) == 0)
            same &= compare(rows[i].name, rows[i].library, rows[i].plain, count, rounds);
    return same ? 0 : 1;
}
