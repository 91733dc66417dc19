#include "plain.h"
#include <string.h>

__extension__ typedef unsigned __int128 u128;

#define NULL_HIGH UINT64_C(0x00001ffffc018004)
#define ADDRESS_SPACE ((u128)1 << 64)

typedef struct {
    uint64_t base;
    u128 top;
    unsigned exponent;
} span;

typedef struct {
    span granted;
    uint32_t t, b;
    bool ie;
} encoding;

cheri_cap_fields plain_unpack(uint64_t high, uint64_t low)
{
    high ^= NULL_HIGH;
    return (cheri_cap_fields){
        .address = low,
        .otype = high >> 27 & 0x3ffff,
        .perms = (uint16_t)(high >> 48),
        .t = high >> 14 & 0xfff,
        .b = high & 0x3fff,
        .reserved = high >> 46 & 3,
        .flag = high >> 45 & 1,
        .ie = high >> 26 & 1,
    };
}

cheri_cap_u128 plain_pack(cheri_cap_fields fields)
{
    uint64_t high = (uint64_t)fields.perms << 48 | (uint64_t)(fields.reserved & 3) << 46 | (uint64_t)fields.flag << 45
        | (uint64_t)(fields.otype & 0x3ffff) << 27 | (uint64_t)fields.ie << 26 | (uint64_t)(fields.t & 0xfff) << 14
        | (uint64_t)(fields.b & 0x3fff);
    return (cheri_cap_u128){high ^ NULL_HIGH, fields.address};
}

// Returns the bounds of stored fields at an address: the address is moved within its window to the place of B, and the
// length is added. For exponents of at least 51 the top is T alone, which then includes bit 64.
static inline span decoded(uint32_t ie, uint32_t t, uint32_t b, uint64_t address)
{
    unsigned exponent = 0;
    if (ie) {
        exponent = (t & 7) << 3 | (b & 7);
        if (exponent > 52)
            exponent = 52;
        t &= ~7u;
        b &= ~7u;
    }
    uint32_t length = ((t - b) & 0xfff) | ie << 12;
    uint64_t first = (b >> 11) - 1;
    uint64_t section = address >> (exponent + 11);
    uint64_t base = ((section - ((section - first) & 7) + 1) << 11 | (b & 0x7ff)) << exponent;
    u128 top = (u128)base + ((uint64_t)length << exponent);
    if (exponent > 50)
        top = (u128)(b + length) << exponent & ((ADDRESS_SPACE << 1) - 1);
    return (span){base, top, exponent};
}

static inline span decoded_word(uint64_t high, uint64_t low)
{
    high ^= NULL_HIGH;
    return decoded(high >> 26 & 1, high >> 14 & 0xfff, high & 0x3fff, low);
}

static inline __attribute__((always_inline)) cheri_cap_bounds bounds_of(uint64_t high, uint64_t low)
{
    span bounds = decoded_word(high, low);
    return (cheri_cap_bounds){
        .base = bounds.base,
        .top_high = (uint64_t)(bounds.top >> 64),
        .top_low = (uint64_t)bounds.top,
        .exponent = (uint8_t)bounds.exponent,
    };
}

cheri_cap_bounds plain_decode(uint64_t high, uint64_t low)
{
    return bounds_of(high, low);
}

// Returns the power of two of the granule of [base, top).
static inline unsigned granule_power(uint64_t base, u128 top)
{
    u128 length = top - base;
    if (length < 4096)
        return 0;
    unsigned power = 66 - (unsigned)__builtin_clzll((uint64_t)(length >> 12));
    u128 low_bits = ((u128)1 << power) - 1;
    return ((top + low_bits) >> power) - (base >> power) > 1023 ? power + 1 : power;
}

static inline encoding encoded(uint64_t base, u128 top)
{
    unsigned power = granule_power(base, top);
    unsigned exponent = power > 3 ? power - 3 : 0;
    u128 low_bits = ((u128)1 << power) - 1;
    span granted = {base >> power << power, (top + low_bits) & ~low_bits, exponent};
    return (encoding){
        .granted = granted,
        .t = ((uint32_t)(granted.top >> exponent) & 0xfff) | exponent >> 3,
        .b = ((uint32_t)(granted.base >> exponent) & 0x3fff) | (exponent & 7),
        .ie = power > 0,
    };
}

cheri_cap_granted plain_set_bounds(uint64_t base, uint64_t length_high, uint64_t length_low)
{
    u128 length = (u128)length_high << 64 | length_low;
    if (length > ADDRESS_SPACE - base)
        return (cheri_cap_granted){0};
    u128 top = base + length;
    encoding set = encoded(base, top);
    return (cheri_cap_granted){
        .base = set.granted.base,
        .top_high = (uint64_t)(set.granted.top >> 64),
        .top_low = (uint64_t)set.granted.top,
        .t = (uint16_t)set.t,
        .b = (uint16_t)set.b,
        .exponent = (uint8_t)set.granted.exponent,
        .ie = set.ie,
        .exact = set.granted.base == base && set.granted.top == top,
        .in_range = true,
    };
}

// Returns whether the fields of a word store a span: one within the address space that loses no bit of B at the largest
// exponents. The bounds of any fields are encoded with the smallest exponent, so they need not be encoded again.
static inline bool is_stored(uint64_t plain, span bounds)
{
    uint32_t b = plain & 0x3fff;
    bool is_span = bounds.base <= bounds.top && bounds.top <= ADDRESS_SPACE;
    if (bounds.exponent < 51 || !is_span)
        return is_span;
    uint32_t stored = (plain >> 14 & 7) << 3 | (b & 7);
    return stored == bounds.exponent && (uint64_t)(b >> 3) >> (61 - stored) == 0;
}

static inline __attribute__((always_inline)) bool is_canonical(uint64_t high, uint64_t low)
{
    uint64_t plain = high ^ NULL_HIGH;
    uint32_t otype = plain >> 27 & 0x3ffff;
    if ((plain >> 46 & 3) != 0 || (otype > CHERI_CAP_OTYPE_LAST_SEALING && otype != CHERI_CAP_OTYPE_UNSEALED))
        return false;
    return is_stored(plain, decoded_word(high, low));
}

static inline __attribute__((always_inline)) bool represents(uint64_t high, uint64_t low, uint64_t address)
{
    span bounds = decoded_word(high, low);
    if (!is_stored(high ^ NULL_HIGH, bounds))
        return false;
    unsigned width = bounds.exponent + 11;
    uint64_t start = ((bounds.base >> width) - 1) << width;
    return (address - start) >> width < 8;
}

bool plain_is_canonical(uint64_t high, uint64_t low)
{
    return is_canonical(high, low);
}

bool plain_represents(uint64_t high, uint64_t low, uint64_t address)
{
    return represents(high, low, address);
}

// ---- Batches: the bodies above, inlined into a loop

static inline size_t least(size_t one, size_t other)
{
    return one < other ? one : other;
}

size_t plain_decode_many(const cheri_cap_u128 *words, size_t word_count, cheri_cap_bounds *bounds, size_t bounds_count)
{
    size_t count = least(word_count, bounds_count);
    for (size_t i = 0; i < count; i++)
        bounds[i] = bounds_of(words[i].high, words[i].low);
    return count;
}

size_t plain_is_canonical_many(const cheri_cap_u128 *words, size_t word_count, uint8_t *answers, size_t answer_count)
{
    size_t count = least(word_count, answer_count);
    for (size_t i = 0; i < count; i++)
        answers[i] = is_canonical(words[i].high, words[i].low);
    return count;
}

size_t plain_represents_many(const cheri_cap_u128 *words, size_t word_count, const uint64_t *addresses, size_t address_count, uint8_t *answers, size_t answer_count)
{
    size_t count = least(word_count, least(address_count, answer_count));
    for (size_t i = 0; i < count; i++)
        answers[i] = represents(words[i].high, words[i].low, addresses[i]);
    return count;
}

// Returns whether a query wants a word, except for its tag.
static inline bool is_wanted(const cheri_cap_query *query, cheri_cap_u128 word)
{
    uint16_t perms = cheri_cap_perms_of(word.high);
    if ((query->needs_permission && perms == 0) || (perms & query->perms) != query->perms)
        return false;
    bool sentry = cheri_cap_is_sentry(word.high);
    if (sentry ? !query->sentries : !query->sealed && cheri_cap_is_sealed(word.high))
        return false;
    if (!is_canonical(sentry ? cheri_cap_with_type(word.high, word.low, CHERI_CAP_OTYPE_UNSEALED).high : word.high, word.low))
        return false;
    cheri_cap_bounds bounds = bounds_of(word.high, word.low);
    return !query->needs_address || cheri_cap_bounds_hold(&bounds, query->address);
}

size_t plain_search_memory(const void *memory, size_t word_count, bool big_endian, const uint8_t *tag_bits, size_t tag_byte_count, const cheri_cap_query *query, uint64_t *positions, size_t position_count, size_t *next)
{
    size_t count = 0, i = 0, words = query->needs_tag ? least(word_count, 8 * tag_byte_count) : word_count;
    for (; i < words && count < position_count; i++) {
        bool tagged = !query->needs_tag || tag_bits[i / 8] >> i % 8 & 1;
        if (tagged && is_wanted(query, cheri_cap_word_from_bytes((const uint8_t *)memory + 16 * i, big_endian)))
            positions[count++] = i;
    }
    *next = i;
    return count;
}

uint64_t plain_granule(uint64_t length_high, uint64_t length_low)
{
    u128 length = (u128)length_high << 64 | length_low;
    return length > ADDRESS_SPACE ? 0 : (uint64_t)1 << granule_power(0, length);
}

cheri_cap_u128 plain_round_length(uint64_t length_high, uint64_t length_low)
{
    u128 length = (u128)length_high << 64 | length_low;
    if (length > ADDRESS_SPACE)
        return (cheri_cap_u128){UINT64_MAX, UINT64_MAX};
    u128 low_bits = ((u128)1 << granule_power(0, length)) - 1;
    u128 rounded = (length + low_bits) & ~low_bits;
    return (cheri_cap_u128){(uint64_t)(rounded >> 64), (uint64_t)rounded};
}

uint64_t plain_alignment_mask(uint64_t length_high, uint64_t length_low)
{
    return -plain_granule(length_high, length_low);
}

// The value of each hexadecimal digit, and for any other byte a value that eight digits do not reach.
#define NONE (UINT64_C(1) << 32)

static const uint64_t digit_values[256] = {
    NONE, NONE, NONE, NONE, NONE, NONE, NONE, NONE, NONE, NONE, NONE, NONE, NONE, NONE, NONE, NONE,
    NONE, NONE, NONE, NONE, NONE, NONE, NONE, NONE, NONE, NONE, NONE, NONE, NONE, NONE, NONE, NONE,
    NONE, NONE, NONE, NONE, NONE, NONE, NONE, NONE, NONE, NONE, NONE, NONE, NONE, NONE, NONE, NONE,
    0, 1, 2, 3, 4, 5, 6, 7, 8, 9, NONE, NONE, NONE, NONE, NONE, NONE,
    NONE, 10, 11, 12, 13, 14, 15, NONE, NONE, NONE, NONE, NONE, NONE, NONE, NONE, NONE,
    NONE, NONE, NONE, NONE, NONE, NONE, NONE, NONE, NONE, NONE, NONE, NONE, NONE, NONE, NONE, NONE,
    NONE, 10, 11, 12, 13, 14, 15, NONE, NONE, NONE, NONE, NONE, NONE, NONE, NONE, NONE,
    NONE, NONE, NONE, NONE, NONE, NONE, NONE, NONE, NONE, NONE, NONE, NONE, NONE, NONE, NONE, NONE,
    NONE, NONE, NONE, NONE, NONE, NONE, NONE, NONE, NONE, NONE, NONE, NONE, NONE, NONE, NONE, NONE,
    NONE, NONE, NONE, NONE, NONE, NONE, NONE, NONE, NONE, NONE, NONE, NONE, NONE, NONE, NONE, NONE,
    NONE, NONE, NONE, NONE, NONE, NONE, NONE, NONE, NONE, NONE, NONE, NONE, NONE, NONE, NONE, NONE,
    NONE, NONE, NONE, NONE, NONE, NONE, NONE, NONE, NONE, NONE, NONE, NONE, NONE, NONE, NONE, NONE,
    NONE, NONE, NONE, NONE, NONE, NONE, NONE, NONE, NONE, NONE, NONE, NONE, NONE, NONE, NONE, NONE,
    NONE, NONE, NONE, NONE, NONE, NONE, NONE, NONE, NONE, NONE, NONE, NONE, NONE, NONE, NONE, NONE,
    NONE, NONE, NONE, NONE, NONE, NONE, NONE, NONE, NONE, NONE, NONE, NONE, NONE, NONE, NONE, NONE,
    NONE, NONE, NONE, NONE, NONE, NONE, NONE, NONE, NONE, NONE, NONE, NONE, NONE, NONE, NONE, NONE,
};

// Returns the number of eight digits, or a larger one if a byte is not a digit.
static inline uint64_t value_of_eight(const char *text)
{
    const unsigned char *digits = (const unsigned char *)text;
    uint64_t number = digit_values[digits[0]];
    number = number << 4 | digit_values[digits[1]];
    number = number << 4 | digit_values[digits[2]];
    number = number << 4 | digit_values[digits[3]];
    number = number << 4 | digit_values[digits[4]];
    number = number << 4 | digit_values[digits[5]];
    number = number << 4 | digit_values[digits[6]];
    return number << 4 | digit_values[digits[7]];
}

cheri_cap_read plain_read_word(const char *text, size_t length)
{
    if (length != 32)
        return (cheri_cap_read){0};
    uint64_t a = value_of_eight(text), b = value_of_eight(text + 8);
    uint64_t c = value_of_eight(text + 16), d = value_of_eight(text + 24);
    if ((a | b | c | d) >= NONE)
        return (cheri_cap_read){0};
    return (cheri_cap_read){a << 32 | b, c << 32 | d, true};
}

// The two digits of each byte.
static const char byte_digits[513] =
    "000102030405060708090a0b0c0d0e0f"
    "101112131415161718191a1b1c1d1e1f"
    "202122232425262728292a2b2c2d2e2f"
    "303132333435363738393a3b3c3d3e3f"
    "404142434445464748494a4b4c4d4e4f"
    "505152535455565758595a5b5c5d5e5f"
    "606162636465666768696a6b6c6d6e6f"
    "707172737475767778797a7b7c7d7e7f"
    "808182838485868788898a8b8c8d8e8f"
    "909192939495969798999a9b9c9d9e9f"
    "a0a1a2a3a4a5a6a7a8a9aaabacadaeaf"
    "b0b1b2b3b4b5b6b7b8b9babbbcbdbebf"
    "c0c1c2c3c4c5c6c7c8c9cacbcccdcecf"
    "d0d1d2d3d4d5d6d7d8d9dadbdcdddedf"
    "e0e1e2e3e4e5e6e7e8e9eaebecedeeef"
    "f0f1f2f3f4f5f6f7f8f9fafbfcfdfeff";

static inline void write_byte(uint64_t byte, char *text)
{
    memcpy(text, byte_digits + 2 * (byte & 0xff), 2);
}

static inline void write_half(uint64_t half, char *text)
{
    write_byte(half >> 56, text);
    write_byte(half >> 48, text + 2);
    write_byte(half >> 40, text + 4);
    write_byte(half >> 32, text + 6);
    write_byte(half >> 24, text + 8);
    write_byte(half >> 16, text + 10);
    write_byte(half >> 8, text + 12);
    write_byte(half, text + 14);
}

void plain_write_word(uint64_t high, uint64_t low, char *text)
{
    write_half(high, text);
    write_half(low, text + 16);
}

// ---- The rules on words

#define BOUNDS_BITS UINT64_C(0x0000000007ffffff)
#define TYPE_BITS (UINT64_C(0x3ffff) << 27)

// Sets the bounds of the capability of a word, if there is one.
static inline bool read_bounds(uint64_t high, uint64_t low, span *bounds)
{
    uint64_t plain = high ^ NULL_HIGH;
    uint32_t otype = plain >> 27 & 0x3ffff;
    if ((plain >> 46 & 3) != 0 || (otype > CHERI_CAP_OTYPE_LAST_SEALING && otype != CHERI_CAP_OTYPE_UNSEALED))
        return false;
    *bounds = decoded_word(high, low);
    return is_stored(plain, *bounds);
}

static inline bool is_sealed(uint64_t high)
{
    return (high & TYPE_BITS) != 0;
}

static inline bool has_all(uint64_t high, uint64_t perms)
{
    return (high >> 48 & perms) == perms;
}

static inline bool is_within(const span *inner, const span *outer)
{
    return outer->base <= inner->base && inner->top <= outer->top;
}

static inline bool has_byte(const span *bounds, uint64_t byte)
{
    return bounds->base <= byte && byte < bounds->top;
}

static inline cheri_cap_made made(uint64_t high, uint64_t low)
{
    return (cheri_cap_made){high, low, 0};
}

static inline cheri_cap_made refused(uint8_t refusal)
{
    return (cheri_cap_made){0, 0, refusal};
}

static inline __attribute__((always_inline)) cheri_cap_made at_address(uint64_t high, uint64_t low, uint64_t address)
{
    span bounds;
    if (!read_bounds(high, low, &bounds))
        return refused(CHERI_CAP_REFUSAL_CANONICAL);
    if (is_sealed(high))
        return refused(CHERI_CAP_REFUSAL_SEALED);
    unsigned width = bounds.exponent + 11;
    uint64_t start = ((bounds.base >> width) - 1) << width;
    if ((address - start) >> width >= 8)
        return refused(CHERI_CAP_REFUSAL_UNREPRESENTABLE);
    return made(high, address);
}

cheri_cap_made plain_set_address(uint64_t high, uint64_t low, uint64_t address)
{
    return at_address(high, low, address);
}

cheri_cap_made plain_increment(uint64_t high, uint64_t low, uint64_t amount)
{
    return at_address(high, low, low + amount);
}

// Returns the word with the upper half `changed`, which has the same bounds and type.
static inline __attribute__((always_inline)) cheri_cap_made with_high(uint64_t high, uint64_t low, uint64_t changed)
{
    span bounds;
    if (!read_bounds(high, low, &bounds))
        return refused(CHERI_CAP_REFUSAL_CANONICAL);
    if (is_sealed(high))
        return refused(CHERI_CAP_REFUSAL_SEALED);
    return made(changed, low);
}

cheri_cap_made plain_and_perms(uint64_t high, uint64_t low, uint16_t mask)
{
    return with_high(high, low, high & ((uint64_t)mask << 48 | UINT64_C(0xffffffffffff)));
}

cheri_cap_made plain_set_flag(uint64_t high, uint64_t low, bool flag)
{
    return with_high(high, low, (high & ~(UINT64_C(1) << 45)) | (uint64_t)flag << 45);
}

cheri_cap_made plain_set_bounds_on(uint64_t high, uint64_t low, uint64_t length_high, uint64_t length_low)
{
    u128 length = (u128)length_high << 64 | length_low;
    span bounds;
    if (!read_bounds(high, low, &bounds))
        return refused(CHERI_CAP_REFUSAL_CANONICAL);
    if (is_sealed(high))
        return refused(CHERI_CAP_REFUSAL_SEALED);
    if (length > ADDRESS_SPACE || low < bounds.base || low + length > bounds.top)
        return refused(CHERI_CAP_REFUSAL_BOUNDS);
    encoding set = encoded(low, low + length);
    uint64_t stored = (uint64_t)set.ie << 26 | (uint64_t)set.t << 14 | set.b;
    return made((high & ~BOUNDS_BITS) | (stored ^ (NULL_HIGH & BOUNDS_BITS)), low);
}

cheri_cap_made plain_seal(uint64_t high, uint64_t low, uint64_t authority_high, uint64_t authority_low)
{
    span bounds, authority;
    if (!read_bounds(high, low, &bounds) || !read_bounds(authority_high, authority_low, &authority))
        return refused(CHERI_CAP_REFUSAL_CANONICAL);
    if (is_sealed(high) || is_sealed(authority_high))
        return refused(CHERI_CAP_REFUSAL_SEALED);
    if (!has_all(authority_high, CHERI_CAP_PERM_SEAL))
        return refused(CHERI_CAP_REFUSAL_PERMISSION);
    if (!has_byte(&authority, authority_low))
        return refused(CHERI_CAP_REFUSAL_BOUNDS);
    if (authority_low > CHERI_CAP_OTYPE_LAST_SEALING)
        return refused(CHERI_CAP_REFUSAL_TYPE);
    return made(high | (authority_low << 27 ^ TYPE_BITS), low);
}

cheri_cap_made plain_unseal(uint64_t high, uint64_t low, uint64_t authority_high, uint64_t authority_low)
{
    span bounds, authority;
    if (!read_bounds(high, low, &bounds) || !read_bounds(authority_high, authority_low, &authority))
        return refused(CHERI_CAP_REFUSAL_CANONICAL);
    if (!is_sealed(high))
        return refused(CHERI_CAP_REFUSAL_UNSEALED);
    if (is_sealed(authority_high))
        return refused(CHERI_CAP_REFUSAL_SEALED);
    if (!has_all(authority_high, CHERI_CAP_PERM_UNSEAL))
        return refused(CHERI_CAP_REFUSAL_PERMISSION);
    if (!has_byte(&authority, authority_low))
        return refused(CHERI_CAP_REFUSAL_BOUNDS);
    if (authority_low != ((high ^ NULL_HIGH) >> 27 & 0x3ffff))
        return refused(CHERI_CAP_REFUSAL_MISMATCH);
    uint64_t global = (uint64_t)CHERI_CAP_PERM_GLOBAL << 48;
    return made(high & ~TYPE_BITS & (authority_high | ~global), low);
}

cheri_cap_made plain_rebuild(uint64_t authority_high, uint64_t authority_low, uint64_t high, uint64_t low)
{
    span bounds, authority;
    if (!read_bounds(authority_high, authority_low, &authority))
        return refused(CHERI_CAP_REFUSAL_CANONICAL);
    if (is_sealed(authority_high))
        return refused(CHERI_CAP_REFUSAL_SEALED);
    if (!read_bounds(high, low, &bounds))
        return refused(CHERI_CAP_REFUSAL_CANONICAL);
    if (is_sealed(high) || !is_within(&bounds, &authority) || !has_all(authority_high, high >> 48))
        return refused(CHERI_CAP_REFUSAL_EXCEEDS);
    return made(high, low);
}

bool plain_is_subset(uint64_t high, uint64_t low, uint64_t outer_high, uint64_t outer_low)
{
    span inner = decoded_word(high, low), outer = decoded_word(outer_high, outer_low);
    return is_within(&inner, &outer) && has_all(outer_high, high >> 48);
}
