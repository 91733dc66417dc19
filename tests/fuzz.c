/*
 * The functions for C under a coverage-guided fuzzer: each result is compared with that of a plain C body (bench/plain.c), and
 * results of the header's inline functions with those of the functions of the library. tests/fuzz builds and runs it.
 */
#include <stdio.h>
#include <stdlib.h>
#include <string.h>

#include "../bench/plain.h"

#define SAME(one, other) \
    do { \
        if ((one) != (other)) { \
            fprintf(stderr, "line %d: %s is not %s\n", __LINE__, #one, #other); \
            abort(); \
        } \
    } while (0)

/* The input: two words, an address and a length. Bytes that are missing are 0. */
typedef struct input {
    uint64_t high, low, outer_high, outer_low, address, length_low, length_high;
} input;

/* Makes words that few random bytes are: canonical ones, with the bounds of a request. */
static void shape(input *it)
{
    it->length_high &= 3;
    if (it->length_high == 3) {
        it->length_high = 0;
        it->length_low >>= it->address & 63;
    }
    if (it->high & 1) {
        const cheri_cap_granted granted = plain_set_bounds(it->low, it->length_high, it->length_low);
        if (granted.in_range) {
            cheri_cap_fields fields = plain_unpack(it->high, it->low);
            fields.ie = granted.ie;
            fields.t = granted.t;
            fields.b = granted.b;
            if (it->high & 2)
                fields.reserved = 0;
            if (it->high & 4)
                fields.otype = it->high & 0x18 ? CHERI_CAP_OTYPE_UNSEALED : CHERI_CAP_OTYPE_SENTRY;
            const cheri_cap_u128 word = plain_pack(fields);
            it->high = word.high;
            it->low = word.low;
        }
    }
    if (it->outer_high & 1) {
        it->outer_high = it->high ^ (it->outer_high & UINT64_C(0xffff) << 48);
        it->outer_low = it->low;
    }
}

static void same_made(cheri_cap_made one, cheri_cap_made other)
{
    SAME(one.high, other.high);
    SAME(one.low, other.low);
    SAME(one.refusal, other.refusal);
}

static void same_fields(cheri_cap_fields one, cheri_cap_fields other)
{
    SAME(one.address, other.address);
    SAME(one.otype, other.otype);
    SAME(one.perms, other.perms);
    SAME(one.t, other.t);
    SAME(one.b, other.b);
    SAME(one.reserved, other.reserved);
    SAME(one.flag, other.flag);
    SAME(one.ie, other.ie);
}

static void same_bounds(cheri_cap_bounds one, cheri_cap_bounds other)
{
    SAME(one.base, other.base);
    SAME(one.top_high, other.top_high);
    SAME(one.top_low, other.top_low);
    SAME(one.exponent, other.exponent);
}

static void check_word(const input *it)
{
    const cheri_cap_fields fields = cheri_cap_unpack(it->high, it->low);
    const cheri_cap_bounds bounds = cheri_cap_decode(it->high, it->low);
    same_fields(fields, plain_unpack(it->high, it->low));
    const cheri_cap_u128 packed = cheri_cap_pack(fields);
    SAME(packed.high, it->high);
    SAME(packed.low, it->low);
    same_bounds(bounds, plain_decode(it->high, it->low));
    SAME(cheri_cap_exponent(it->high, it->low), bounds.exponent);
    SAME(cheri_cap_is_canonical(it->high, it->low), plain_is_canonical(it->high, it->low));
    SAME(cheri_cap_is_canonical(it->high, it->low), cheri_cap_defect(it->high, it->low) == 0);
    SAME(cheri_cap_represents(it->high, it->low, it->address), plain_represents(it->high, it->low, it->address));
    SAME(cheri_cap_is_subset(it->high, it->low, it->outer_high, it->outer_low),
         plain_is_subset(it->high, it->low, it->outer_high, it->outer_low));

    const cheri_cap_bounds there = plain_decode(it->high, it->address);
    const bool keeps = there.base == bounds.base && there.top_high == bounds.top_high && there.top_low == bounds.top_low;
    SAME(cheri_cap_keeps_bounds(it->high, it->low, it->address), keeps);
    const cheri_cap_ends window = cheri_cap_window(it->high, it->low);
    SAME(it->address - window.first <= window.last - window.first, keeps);

    char text[33] = {0}, plain[33] = {0};
    cheri_cap_write_word(it->high, it->low, text);
    plain_write_word(it->high, it->low, plain);
    SAME(memcmp(text, plain, sizeof text), 0);
    const cheri_cap_read read = cheri_cap_read_word(text, 32);
    SAME(read.found, true);
    SAME(read.high, it->high);
    SAME(read.low, it->low);
}

/* Compares the batch functions on memory, of two words at an odd address, with the plain functions on one. */
static void check_memory(const input *it)
{
    const cheri_cap_u128 words[2] = {{it->high, it->low}, {it->outer_high, it->outer_low}};
    const uint64_t addresses[2] = {it->address, it->address};
    const bool big_endian = it->length_low & 1;
    uint8_t bytes[33], canonical[2], representable[2];
    cheri_cap_bounds bounds[2];
    for (int i = 0; i < 2; i++)
        cheri_cap_word_to_bytes(words[i], bytes + 1 + 16 * i, big_endian);
    SAME(cheri_cap_decode_memory(bytes + 1, 2, big_endian, bounds, 2), 2);
    SAME(cheri_cap_is_canonical_memory(bytes + 1, 2, big_endian, canonical, 2), 2);
    SAME(cheri_cap_represents_memory(bytes + 1, 2, big_endian, addresses, 2, representable, 2), 2);
    for (int i = 0; i < 2; i++) {
        same_bounds(bounds[i], plain_decode(words[i].high, words[i].low));
        SAME(canonical[i], plain_is_canonical(words[i].high, words[i].low));
        SAME(representable[i], plain_represents(words[i].high, words[i].low, it->address));
    }
}

/* Compares a search of two words of memory at an odd address, and setting the bounds of both, with the plain functions. */
static void check_search(const input *it)
{
    const cheri_cap_u128 words[2] = {{it->high, it->low}, {it->outer_high, it->outer_low}};
    const cheri_cap_u128 lengths[2] = {{it->length_high, it->length_low}, {0, it->length_low}};
    const bool big_endian = it->length_low & 1, exact = it->length_low & 2;
    const uint64_t choice = it->outer_low;
    const uint8_t tags = choice & 3;
    const cheri_cap_query query = {
        .address = it->address, .perms = (uint16_t)(choice >> 16 & choice >> 32 & choice >> 48), .needs_permission = choice & 4,
        .needs_address = choice & 8, .needs_tag = choice & 16, .sealed = choice & 32, .sentries = choice & 64,
    };
    uint8_t bytes[33], made[33], refusals[2];
    const size_t room = choice >> 7 & 3;
    uint64_t positions[3], plain_positions[3];
    size_t next, plain_next;
    for (int i = 0; i < 2; i++)
        cheri_cap_word_to_bytes(words[i], bytes + 1 + 16 * i, big_endian);
    const size_t found = cheri_cap_search_memory(bytes + 1, 2, big_endian, &tags, 1, &query, positions, room, &next);
    SAME(found, plain_search_memory(bytes + 1, 2, big_endian, &tags, 1, &query, plain_positions, room, &plain_next));
    SAME(next, plain_next);
    for (size_t i = 0; i < found; i++)
        SAME(positions[i], plain_positions[i]);
    SAME(cheri_cap_set_bounds_memory(bytes + 1, 2, big_endian, exact, lengths, 2, made + 1, 2, refusals, 2), 2);
    for (int i = 0; i < 2; i++) {
        const cheri_cap_made plain = exact ? cheri_cap_set_bounds_exact_on(words[i].high, words[i].low, lengths[i].high, lengths[i].low)
                                           : plain_set_bounds_on(words[i].high, words[i].low, lengths[i].high, lengths[i].low);
        const cheri_cap_u128 word = cheri_cap_word_from_bytes(made + 1 + 16 * i, big_endian);
        SAME(word.high, plain.high);
        SAME(word.low, plain.low);
        SAME(refusals[i], plain.refusal);
    }
}

/* Compares the batch functions on requests with the plain functions. */
static void check_many_requests(const input *it)
{
    const cheri_cap_u128 lengths[2] = {{it->length_high, it->length_low}, {0, it->address}};
    const uint64_t bases[2] = {it->address, it->low};
    cheri_cap_granted granted[2];
    cheri_cap_u128 rounded[2];
    uint64_t masks[2];
    SAME(cheri_cap_set_bounds_many(bases, 2, lengths, 2, granted, 2), 2);
    SAME(cheri_cap_round_length_many(lengths, 2, rounded, 2), 2);
    SAME(cheri_cap_alignment_mask_many(lengths, 2, masks, 2), 2);
    for (int i = 0; i < 2; i++) {
        const cheri_cap_granted plain = plain_set_bounds(bases[i], lengths[i].high, lengths[i].low);
        const cheri_cap_u128 length = plain_round_length(lengths[i].high, lengths[i].low);
        SAME(granted[i].base, plain.base);
        SAME(granted[i].top_high, plain.top_high);
        SAME(granted[i].top_low, plain.top_low);
        SAME(granted[i].t << 16 | granted[i].b, plain.t << 16 | plain.b);
        SAME(granted[i].exponent << 3 | granted[i].ie << 2 | granted[i].exact << 1 | granted[i].in_range, plain.exponent << 3 | plain.ie << 2 | plain.exact << 1 | plain.in_range);
        SAME(rounded[i].high, length.high);
        SAME(rounded[i].low, length.low);
        SAME(masks[i], plain_alignment_mask(lengths[i].high, lengths[i].low));
    }
}

/* An array of no elements may have a null pointer. */
static void check_null(const input *it)
{
    const cheri_cap_u128 word = {it->high, it->low};
    cheri_cap_bounds bounds = {it->low, it->high, it->address, 77};
    SAME(cheri_cap_decode_many(NULL, 0, &bounds, 1), 0);
    SAME(cheri_cap_decode_many(&word, 1, NULL, 0), 0);
    SAME(cheri_cap_decode_memory(NULL, 0, it->length_low & 1, &bounds, 1), 0);
    same_bounds(bounds, (cheri_cap_bounds){it->low, it->high, it->address, 77});
    SAME(cheri_cap_represents_many(&word, 1, NULL, 0, NULL, 0), 0);
    SAME(cheri_cap_read_word(NULL, 0).found, false);
}

static void check_request(const input *it)
{
    const cheri_cap_granted granted = cheri_cap_set_bounds(it->address, it->length_high, it->length_low);
    const cheri_cap_granted plain = plain_set_bounds(it->address, it->length_high, it->length_low);
    SAME(granted.in_range, plain.in_range);
    SAME(granted.exact, plain.exact);
    SAME(granted.base, plain.base);
    SAME(granted.top_high, plain.top_high);
    SAME(granted.top_low, plain.top_low);
    SAME(granted.t, plain.t);
    SAME(granted.b, plain.b);
    SAME(granted.ie, plain.ie);
    SAME(granted.exponent, plain.exponent);
    SAME(cheri_cap_granule(it->length_high, it->length_low), plain_granule(it->length_high, it->length_low));
    SAME(cheri_cap_alignment_mask(it->length_high, it->length_low), plain_alignment_mask(it->length_high, it->length_low));
    const cheri_cap_u128 rounded = cheri_cap_round_length(it->length_high, it->length_low);
    const cheri_cap_u128 plain_rounded = plain_round_length(it->length_high, it->length_low);
    SAME(rounded.high, plain_rounded.high);
    SAME(rounded.low, plain_rounded.low);
}

static void check_rules(const input *it)
{
    const uint64_t high = it->high, low = it->low;
    same_made(cheri_cap_increment(high, low, it->address), plain_increment(high, low, it->address));
    same_made(cheri_cap_set_address(high, low, it->address), plain_increment(high, low, it->address - low));
    same_made(cheri_cap_set_bounds_on(high, low, it->length_high, it->length_low),
              plain_set_bounds_on(high, low, it->length_high, it->length_low));
    same_made(cheri_cap_seal(high, low, it->outer_high, it->outer_low), plain_seal(high, low, it->outer_high, it->outer_low));
    same_made(cheri_cap_unseal(high, low, it->outer_high, it->outer_low),
              plain_unseal(high, low, it->outer_high, it->outer_low));
    same_made(cheri_cap_rebuild(it->outer_high, it->outer_low, high, low),
              plain_rebuild(it->outer_high, it->outer_low, high, low));
    same_made(cheri_cap_set_offset(high, low, it->address),
              cheri_cap_set_address(high, low, cheri_cap_decode(high, low).base + it->address));

    const cheri_cap_made masked = cheri_cap_and_perms(high, low, (uint16_t)it->length_low);
    if (masked.refusal == 0) {
        SAME(masked.high, high & ~((uint64_t)(uint16_t)~it->length_low << 48));
        SAME(masked.low, low);
        SAME(cheri_cap_is_subset(masked.high, masked.low, high, low), true);
    }
}

static void check_texts(const uint8_t *data, size_t size)
{
    const cheri_cap_read one = cheri_cap_read_word((const char *)data, size);
    const cheri_cap_read other = plain_read_word((const char *)data, size);
    SAME(one.found, other.found);
    SAME(one.high, other.high);
    SAME(one.low, other.low);
}

int LLVMFuzzerTestOneInput(const uint8_t *data, size_t size);

int LLVMFuzzerTestOneInput(const uint8_t *data, size_t size)
{
    input it = {0};
    if (size > 0)
        check_texts(data, size);
    memcpy(&it, data, size < sizeof it ? size : sizeof it);
    shape(&it);
    check_word(&it);
    check_memory(&it);
    check_search(&it);
    check_many_requests(&it);
    check_null(&it);
    check_request(&it);
    check_rules(&it);
    return 0;
}
