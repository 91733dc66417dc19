// Compares the header and the library with the conformance table, a file of rows with fifteen values, and with some
// lengths. The library did not compute the table. It is C11 and C++17.
//
//   conformance TABLE   the failures, and at the end the numbers of rows and of failures
//   conformance names   for each permission of the header a word that has it alone, its bits and its name
//   conformance refusals   the header's refusals, as scripts print them
#include <cheri_cap.h>
#include <cheri_cap.h> // a second include changes nothing
#include <inttypes.h>
#include <stdio.h>
#include <stdlib.h>
#include <string.h>

#if CHERI_CAP_RELEASE < 300
#error "the header is of an older release"
#endif

// The capacity for the words of the table, and more.
#define CAPACITY 256u
static cheri_cap_u128 words[CAPACITY];

enum { NAME, WORD, PERMS, RESERVED, FLAG, TYPE, IE, T, B, ADDRESS, EXPONENT, BASE, TOP, CANONICAL, REBUILD, COLUMNS };

static unsigned failures;

static void expect(bool holds, const char *row, const char *what)
{
    if (!holds) {
        fprintf(stderr, "%s: %s\n", row, what);
        failures++;
    }
}

// A number of up to 128 bits in hexadecimal digits, with or without 0x.
static cheri_cap_u128 hexadecimal(const char *text)
{
    cheri_cap_u128 number = {0, 0};
    for (text += strncmp(text, "0x", 2) == 0 ? 2 : 0; *text != 0; text++) {
        const char digit[] = {*text, 0};
        number.high = number.high << 4 | number.low >> 60;
        number.low = number.low << 4 | strtoull(digit, NULL, 16);
    }
    return number;
}

static bool is_number(const char *text, uint64_t high, uint64_t low)
{
    cheri_cap_u128 number = hexadecimal(text);
    return number.high == high && number.low == low;
}

static void check_fields(char **row, cheri_cap_u128 word)
{
    cheri_cap_fields fields = cheri_cap_unpack(word.high, word.low);
    cheri_cap_u128 packed = cheri_cap_pack(fields);
    expect(is_number(row[PERMS], 0, fields.perms), row[NAME], "perms");
    expect(is_number(row[RESERVED], 0, fields.reserved), row[NAME], "reserved");
    expect(is_number(row[FLAG], 0, fields.flag), row[NAME], "flag");
    expect(is_number(row[TYPE], 0, fields.otype), row[NAME], "type");
    expect(is_number(row[IE], 0, fields.ie), row[NAME], "ie");
    expect(is_number(row[T], 0, fields.t), row[NAME], "t");
    expect(is_number(row[B], 0, fields.b), row[NAME], "b");
    expect(is_number(row[ADDRESS], 0, fields.address), row[NAME], "address");
    expect(packed.high == word.high && packed.low == word.low, row[NAME], "pack");
    expect(cheri_cap_perms(word.high, word.low) == fields.perms, row[NAME], "the function of perms");
    expect(cheri_cap_otype(word.high, word.low) == fields.otype, row[NAME], "the function of type");
    expect(cheri_cap_flag(word.high, word.low) == fields.flag, row[NAME], "the function of flag");
    fields.otype |= 0xfffc0000u, fields.t |= 0xf000u, fields.b |= 0xc000u, fields.reserved |= 0xfcu;
    packed = cheri_cap_pack(fields);
    expect(packed.high == word.high && packed.low == word.low, row[NAME], "pack of fields that are too wide");
}

static void check_bounds(char **row, cheri_cap_u128 word)
{
    cheri_cap_bounds bounds = cheri_cap_decode(word.high, word.low);
    bool canonical = cheri_cap_is_canonical(word.high, word.low);
    unsigned exponent = (unsigned)strtoul(row[EXPONENT], NULL, 10);
    expect(is_number(row[BASE], 0, bounds.base), row[NAME], "base");
    expect(is_number(row[TOP], bounds.top_high, bounds.top_low), row[NAME], "top");
    expect(bounds.exponent == exponent, row[NAME], "exponent");
    expect(cheri_cap_exponent(word.high, word.low) == exponent, row[NAME], "the function of exponent");
    expect(canonical == (strcmp(row[CANONICAL], "yes") == 0), row[NAME], "canonical");
    if (!canonical)
        return;
    // The bounds of a canonical word are granted without rounding, and stored in its own fields.
    cheri_cap_fields fields = cheri_cap_unpack(word.high, word.low);
    uint64_t length = bounds.top_low - bounds.base;
    cheri_cap_granted set = cheri_cap_set_bounds(bounds.base, bounds.top_high - (bounds.top_low < bounds.base), length);
    expect(set.in_range && set.exact && set.base == bounds.base, row[NAME], "granted base");
    expect(set.top_high == bounds.top_high && set.top_low == bounds.top_low, row[NAME], "granted top");
    expect(set.exponent == bounds.exponent && set.ie == fields.ie, row[NAME], "granted exponent");
    expect(set.t == fields.t && set.b == fields.b, row[NAME], "granted fields");
    expect(cheri_cap_represents(word.high, word.low, fields.address), row[NAME], "its own address");
    expect(cheri_cap_represents(word.high, word.low, bounds.base), row[NAME], "its base as an address");
    bool is_empty = bounds.top_high == 0 && bounds.top_low == bounds.base;
    expect(cheri_cap_bounds_hold(&bounds, bounds.base) != is_empty, row[NAME], "its base held");
    expect(cheri_cap_bounds_hold(&bounds, bounds.top_low - 1) != is_empty, row[NAME], "its last byte held");
    expect(bounds.top_high || !cheri_cap_bounds_hold(&bounds, bounds.top_low), row[NAME], "its top held");
    expect(bounds.base == 0 || !cheri_cap_bounds_hold(&bounds, bounds.base - 1), row[NAME], "the byte before held");
}

// Checks that the word keeps its bounds at an address if and only if it decodes to them there.
static void check_kept_bounds(char **row, cheri_cap_u128 word)
{
    cheri_cap_bounds own = cheri_cap_decode(word.high, word.low);
    expect(cheri_cap_keeps_bounds(word.high, word.low, word.low), row[NAME], "bounds at its own address");
    for (unsigned bit = 0; bit < 64; bit++) {
        uint64_t address = word.low ^ UINT64_C(1) << bit;
        cheri_cap_bounds there = cheri_cap_decode(word.high, address);
        bool are_same = there.base == own.base && there.top_high == own.top_high && there.top_low == own.top_low;
        expect(cheri_cap_keeps_bounds(word.high, word.low, address) == are_same, row[NAME], "bounds at another address");
    }
}

// Checks the ends of the window against the addresses that keep the bounds, and the length, the granule and the defect.
static void check_measures(char **row, cheri_cap_u128 word)
{
    cheri_cap_ends window = cheri_cap_window(word.high, word.low);
    bool is_all = window.first == 0 && window.last == UINT64_MAX;
    expect(cheri_cap_keeps_bounds(word.high, word.low, window.first), row[NAME], "the window's first address");
    expect(cheri_cap_keeps_bounds(word.high, word.low, window.last), row[NAME], "the window's last address");
    expect(cheri_cap_keeps_bounds(word.high, word.low, window.first - 1) == is_all, row[NAME], "the address before the window");
    expect(cheri_cap_keeps_bounds(word.high, word.low, window.last + 1) == is_all, row[NAME], "the address after the window");
    cheri_cap_bounds bounds = cheri_cap_decode(word.high, word.low);
    cheri_cap_u128 length = cheri_cap_word_length(word.high, word.low), inline_length = cheri_cap_length(&bounds);
    expect(length.high == inline_length.high && length.low == inline_length.low, row[NAME], "length");
    uint64_t granule = cheri_cap_unpack(word.high, word.low).ie ? UINT64_C(8) << bounds.exponent : 1;
    expect(cheri_cap_word_granule(word.high, word.low) == granule, row[NAME], "granule");
    bool is_canonical = cheri_cap_defect(word.high, word.low) == CHERI_CAP_DEFECT_NONE;
    expect(is_canonical == (strcmp(row[CANONICAL], "yes") == 0), row[NAME], "defect");
}

static void check_text(char **row, cheri_cap_u128 word)
{
    char text[33] = {0};
    cheri_cap_write_word(word.high, word.low, text);
    expect(strcmp(text, row[WORD]) == 0, row[NAME], "written word");
    expect(!cheri_cap_read_word(text, 31).found, row[NAME], "31 digits read");
    uint8_t little[16], big[16];
    for (int i = 0; i < 16; i++) {
        big[i] = (uint8_t)((i < 8 ? word.high : word.low) >> (56 - 8 * (i % 8)));
        little[15 - i] = big[i];
    }
    cheri_cap_u128 one = cheri_cap_word_from_bytes(little, false), other = cheri_cap_word_from_bytes(big, true);
    expect(one.high == word.high && one.low == word.low, row[NAME], "little-endian bytes");
    expect(other.high == word.high && other.low == word.low, row[NAME], "big-endian bytes");
    uint8_t bytes[16];
    cheri_cap_word_to_bytes(word, bytes, false);
    expect(memcmp(bytes, little, 16) == 0, row[NAME], "a word's little-endian bytes");
    cheri_cap_word_to_bytes(word, bytes, true);
    expect(memcmp(bytes, big, 16) == 0, row[NAME], "a word's big-endian bytes");
}

// Compares the inline functions of the header with the library.
static void check_inline(char **row, cheri_cap_u128 word)
{
    cheri_cap_bounds bounds = cheri_cap_decode(word.high, word.low);
    cheri_cap_fields fields = cheri_cap_unpack(word.high, word.low);
    expect(cheri_cap_perms_of(word.high) == fields.perms, row[NAME], "perms from the upper half");
    expect(cheri_cap_otype_of(word.high) == fields.otype, row[NAME], "type from the upper half");
    expect(cheri_cap_is_sealed(word.high) == (strcmp(row[TYPE], "3ffff") != 0), row[NAME], "sealed");
    expect(cheri_cap_is_sentry(word.high) == (strcmp(row[TYPE], "3fffe") == 0), row[NAME], "sentry");
    cheri_cap_u128 top = cheri_cap_top(&bounds), base = {0, bounds.base}, length = cheri_cap_length(&bounds);
    expect(is_number(row[TOP], top.high, top.low), row[NAME], "top");
    expect(cheri_cap_compare(base, top) == (length.high >> 63 ? 1 : (length.high | length.low) != 0 ? -1 : 0), row[NAME], "comparison");
    expect(cheri_cap_compare(top, base) == -cheri_cap_compare(base, top), row[NAME], "comparison turned round");
    expect(cheri_cap_offset(&bounds, fields.address) + bounds.base == fields.address, row[NAME], "offset");
    if (cheri_cap_is_canonical(word.high, word.low)) {
        cheri_cap_granted set = cheri_cap_set_bounds(bounds.base, length.high, length.low);
        expect(set.in_range && set.top_high == top.high && set.top_low == top.low, row[NAME], "length");
    }
}

static bool is_word(cheri_cap_u128 word, cheri_cap_u128 wanted)
{
    return word.high == wanted.high && word.low == wanted.low;
}

// Compares each inline function that changes one field with the library's word of the changed fields.
static void check_changed(char **row, cheri_cap_u128 word)
{
    static const cheri_cap_fields others[] = {
        {0, 0, 0, 0, 0, 0, false, false},
        {UINT64_MAX, 0x3ffff, 0xffff, 0xfff, 0x3fff, 0, true, true},
        {UINT64_C(0x0123456789abcdef), CHERI_CAP_OTYPE_SENTRY, 0x8421, 0x5a3, 0x2c71, 0, true, false},
    };
    for (size_t i = 0; i < sizeof others / sizeof *others; i++) {
        const cheri_cap_fields other = others[i], fields = cheri_cap_unpack(word.high, word.low);
        cheri_cap_fields wanted = fields;
        wanted.address = other.address;
        expect(is_word(cheri_cap_with_address(word.high, word.low, other.address), cheri_cap_pack(wanted)), row[NAME], "with another address");
        wanted = fields, wanted.perms = other.perms;
        expect(is_word(cheri_cap_with_perms(word.high, word.low, other.perms), cheri_cap_pack(wanted)), row[NAME], "with other permissions");
        wanted = fields, wanted.flag = other.flag;
        expect(is_word(cheri_cap_with_flag(word.high, word.low, other.flag), cheri_cap_pack(wanted)), row[NAME], "with another flag");
        wanted = fields, wanted.otype = other.otype;
        expect(is_word(cheri_cap_with_type(word.high, word.low, other.otype), cheri_cap_pack(wanted)), row[NAME], "with another type");
        expect(is_word(cheri_cap_with_type(word.high, word.low, ~UINT64_C(0x3ffff) | other.otype), cheri_cap_pack(wanted)), row[NAME], "with a type that is too wide");
        wanted = fields, wanted.t = other.t, wanted.b = other.b, wanted.ie = other.ie;
        cheri_cap_granted set = {7, 1, 7, other.t, other.b, 7, other.ie, false, false};
        expect(is_word(cheri_cap_with_bounds(word.high, word.low, &set), cheri_cap_pack(wanted)), row[NAME], "with other bounds fields");
        set.t |= 0xf000u, set.b |= 0xc000u;
        expect(is_word(cheri_cap_with_bounds(word.high, word.low, &set), cheri_cap_pack(wanted)), row[NAME], "with bounds fields that are too wide");
    }
}

// Checks the access check on the bounds of a row, by single bytes.
static void check_accesses(char **row, cheri_cap_u128 word)
{
    static const uint64_t sizes[] = {1, 2, 8, 0x1000, UINT64_C(1) << 63, UINT64_MAX};
    const cheri_cap_bounds bounds = cheri_cap_decode(word.high, word.low);
    const uint64_t addresses[] = {0, 1, UINT64_MAX, UINT64_MAX - 7, word.low, bounds.base - 1, bounds.base, bounds.base + 1, bounds.top_low - 8, bounds.top_low - 1, bounds.top_low, bounds.top_low + 1};
    for (size_t i = 0; i < sizeof addresses / sizeof *addresses; i++) {
        const uint64_t first = addresses[i];
        const bool is_top = bounds.top_high == 0 && first == bounds.top_low && bounds.base <= first;
        expect(cheri_cap_bounds_hold_bytes(&bounds, first, 0) == (cheri_cap_bounds_hold(&bounds, first) || is_top), row[NAME], "an access of no bytes");
        for (size_t j = 0; j < sizeof sizes / sizeof *sizes; j++) {
            const uint64_t last = first + (sizes[j] - 1);
            const bool wanted = cheri_cap_bounds_hold(&bounds, first) && cheri_cap_bounds_hold(&bounds, last) && last >= first;
            expect(cheri_cap_bounds_hold_bytes(&bounds, first, sizes[j]) == wanted, row[NAME], "an access of several bytes");
        }
    }
}

// Checks the rules for which the table has the result: a canonical unsealed word is rebuilt from the root, moved to its
// own address, given its own bounds at its base, its own permissions and flag, and is sealed and unsealed.
static void check_rules(char **row, cheri_cap_u128 word)
{
    cheri_cap_u128 root = cheri_cap_root();
    cheri_cap_made made = cheri_cap_rebuild(root.high, root.low, word.high, word.low);
    expect(made.refusal == (strcmp(row[REBUILD], "made") == 0 ? 0 : strtoul(row[REBUILD], NULL, 10)), row[NAME], "rebuild");
    expect(cheri_cap_is_subset(word.high, word.low, word.high, word.low), row[NAME], "subset of itself");
    bool canonical = strcmp(row[CANONICAL], "yes") == 0;
    uint8_t refusal = !canonical ? CHERI_CAP_REFUSAL_CANONICAL : made.refusal != 0 ? CHERI_CAP_REFUSAL_SEALED : 0;
    cheri_cap_bounds bounds = cheri_cap_decode(word.high, word.low);
    cheri_cap_u128 length = cheri_cap_length(&bounds);
    cheri_cap_made same[6];
    same[0] = cheri_cap_set_address(word.high, word.low, word.low);
    same[1] = cheri_cap_increment(word.high, word.low, 0);
    same[2] = cheri_cap_and_perms(word.high, word.low, cheri_cap_perms(word.high, word.low));
    same[3] = cheri_cap_set_flag(word.high, word.low, cheri_cap_flag(word.high, word.low));
    same[4] = cheri_cap_set_address(word.high, word.low, bounds.base);
    same[5] = cheri_cap_set_bounds_exact_on(same[4].high, same[4].low, length.high, length.low);
    for (int i = 0; i < 4; i++)
        expect(same[i].refusal == refusal, row[NAME], "refusal");
    if (refusal != 0)
        return;
    same[5] = cheri_cap_set_address(same[5].high, same[5].low, word.low);
    same[4] = cheri_cap_set_offset(same[4].high, same[4].low, cheri_cap_offset(&bounds, word.low));
    expect(made.high == word.high && made.low == word.low, row[NAME], "the word rebuilt");
    for (int i = 0; i < 6; i++)
        expect(same[i].refusal == 0 && same[i].high == word.high && same[i].low == word.low, row[NAME], "the same word made");
    cheri_cap_made sealed = cheri_cap_seal(word.high, word.low, root.high, 7);
    expect(sealed.refusal == 0 && cheri_cap_otype_of(sealed.high) == 7, row[NAME], "sealed by the root at 7");
    cheri_cap_made unsealed = cheri_cap_unseal(sealed.high, sealed.low, root.high, 7);
    expect(unsealed.refusal == 0 && unsealed.high == word.high && unsealed.low == word.low, row[NAME], "unsealed again");
    unsealed = cheri_cap_unseal(sealed.high, sealed.low, UINT64_C(0x0200000000000000), 7);
    expect(unsealed.refusal == 0 && unsealed.high == (word.high & ~(UINT64_C(1) << 48)), row[NAME], "unsealed without GLOBAL");
    expect(cheri_cap_is_subset(word.high, word.low, root.high, root.low), row[NAME], "subset of the root");
}

// Writes the line of a word from the columns of its row.
static void check_line(char **row, cheri_cap_u128 word)
{
    char text[CHERI_CAP_LINE_SIZE], wanted[128], letters[6] = {0}, *end = letters;
    unsigned long perms = strtoul(row[PERMS], NULL, 16);
    static const struct { char letter; unsigned bit; } table[] = {
        {'r', CHERI_CAP_PERM_LOAD}, {'w', CHERI_CAP_PERM_STORE}, {'x', CHERI_CAP_PERM_EXECUTE},
        {'R', CHERI_CAP_PERM_LOAD_CAP}, {'W', CHERI_CAP_PERM_STORE_CAP},
    };
    for (size_t i = 0; i < sizeof table / sizeof *table; i++)
        if (perms & table[i].bit)
            *end++ = table[i].letter;
    const char *type = strcmp(row[TYPE], "3ffff") == 0 ? "" : strcmp(row[TYPE], "3fffe") == 0 ? "sentry" : "sealed";
    for (int tagged = 0; tagged < 2; tagged++) {
        const char *open = tagged && *type == 0 ? "" : " (", *close = tagged && *type == 0 ? "" : ")";
        const char *invalid = tagged ? "" : *type == 0 ? "invalid" : "invalid,";
        snprintf(wanted, sizeof wanted, "%s [%s,%s-%s]%s%s%s%s", row[ADDRESS], letters, row[BASE], row[TOP], open, invalid, type, close);
        memset(text, 'x', sizeof text);
        size_t length = cheri_cap_format(word.high, word.low, tagged != 0, text);
        expect(length == strlen(wanted) && memcmp(text, wanted, length + 1) == 0, row[NAME], "line");
    }
}

// Splits a line into its fifteen values, or fewer or more.
static int split(char *line, char **row)
{
    int count = 0;
    for (char *word = strtok(line, " \t\n"); word != NULL; word = strtok(NULL, " \t\n"))
        if (count++ < COLUMNS)
            row[count - 1] = word;
    return count;
}

static unsigned check_table(FILE *table)
{
    char line[512], *row[COLUMNS];
    unsigned rows = 0;
    while (fgets(line, sizeof line, table) != NULL) {
        if (split(line, row) != COLUMNS)
            continue;
        cheri_cap_read word = cheri_cap_read_word(row[WORD], strlen(row[WORD]));
        if (!word.found) {
            expect(rows == 0 && strcmp(row[WORD], "word") == 0, row[NAME], "no word");
            continue;
        }
        cheri_cap_u128 halves = {word.high, word.low};
        check_fields(row, halves);
        check_bounds(row, halves);
        check_kept_bounds(row, halves);
        check_measures(row, halves);
        check_text(row, halves);
        check_inline(row, halves);
        check_changed(row, halves);
        check_accesses(row, halves);
        check_rules(row, halves);
        check_line(row, halves);
        if (rows < CAPACITY)
            words[rows] = halves;
        rows++;
    }
    return rows;
}

// Checks the batch functions on all words of the table, with one array that is one element shorter: each result equals
// that of the function for one word.
static void check_many(size_t count)
{
    static cheri_cap_bounds bounds[CAPACITY];
    static uint64_t addresses[CAPACITY];
    uint8_t canonical[CAPACITY], representable[CAPACITY];
    memset(canonical, 7, sizeof canonical);
    memset(representable, 7, sizeof representable);
    bounds[count - 1].exponent = 77;
    for (size_t i = 0; i < count; i++)
        addresses[i] = words[i].low ^ UINT64_C(1) << i % 64;
    expect(cheri_cap_decode_many(words, count, bounds, count - 1) == count - 1, "many words", "the number of decoded words");
    expect(cheri_cap_is_canonical_many(words, count, canonical, count - 1) == count - 1, "many words", "the number of results on canonical words");
    expect(cheri_cap_represents_many(words, count, addresses, count - 1, representable, count) == count - 1, "many words", "the number of results on addresses");
    for (size_t i = 0; i < count - 1; i++) {
        cheri_cap_bounds alone = cheri_cap_decode(words[i].high, words[i].low);
        expect(bounds[i].base == alone.base && bounds[i].exponent == alone.exponent, "many words", "base and exponent");
        expect(bounds[i].top_high == alone.top_high && bounds[i].top_low == alone.top_low, "many words", "top");
        expect(canonical[i] == cheri_cap_is_canonical(words[i].high, words[i].low), "many words", "canonical");
        expect(representable[i] == cheri_cap_represents(words[i].high, words[i].low, addresses[i]), "many words", "representable");
    }
    expect(bounds[count - 1].exponent == 77 && canonical[count - 1] == 7 && representable[count - 1] == 7, "many words", "the element after the results");
    expect(cheri_cap_decode_many(words, 0, bounds, count) == 0, "many words", "no words");
    expect(cheri_cap_decode_many(NULL, 0, bounds, count) == 0 && cheri_cap_decode_many(words, count, NULL, 0) == 0, "many words", "null for no words or bounds");
    expect(cheri_cap_is_canonical_many(NULL, 0, canonical, count) == 0 && cheri_cap_is_canonical_many(words, count, NULL, 0) == 0, "many words", "null for no words or results");
    expect(cheri_cap_represents_many(NULL, 0, NULL, 0, NULL, 0) == 0 && cheri_cap_represents_many(words, count, NULL, 0, representable, count) == 0, "many words", "null for no addresses");
    expect(!cheri_cap_read_word(NULL, 0).found, "text", "null for no text");
}

// Checks the batch functions on memory that begins at an odd address, with the words of the table in either byte order. Each
// result equals that of the function for one word, and one array is one element shorter.
static void check_memory(size_t count, bool big_endian)
{
    static uint8_t bytes[1 + 16 * CAPACITY];
    static cheri_cap_bounds bounds[CAPACITY];
    static uint64_t addresses[CAPACITY];
    uint8_t *memory = bytes + 1;
    uint8_t canonical[CAPACITY], representable[CAPACITY];
    memset(canonical, 7, sizeof canonical);
    memset(representable, 7, sizeof representable);
    bounds[count - 1].exponent = 77;
    for (size_t i = 0; i < count; i++) {
        cheri_cap_word_to_bytes(words[i], memory + 16 * i, big_endian);
        addresses[i] = words[i].low ^ UINT64_C(1) << i % 64;
    }
    expect(cheri_cap_decode_memory(memory, count, big_endian, bounds, count - 1) == count - 1, "memory", "the number of decoded words");
    expect(cheri_cap_is_canonical_memory(memory, count, big_endian, canonical, count - 1) == count - 1, "memory", "the number of results on canonical words");
    expect(cheri_cap_represents_memory(memory, count, big_endian, addresses, count - 1, representable, count) == count - 1, "memory", "the number of results on addresses");
    for (size_t i = 0; i < count - 1; i++) {
        cheri_cap_bounds alone = cheri_cap_decode(words[i].high, words[i].low);
        expect(bounds[i].base == alone.base && bounds[i].exponent == alone.exponent, "memory", "base and exponent");
        expect(bounds[i].top_high == alone.top_high && bounds[i].top_low == alone.top_low, "memory", "top");
        expect(canonical[i] == cheri_cap_is_canonical(words[i].high, words[i].low), "memory", "canonical");
        expect(representable[i] == cheri_cap_represents(words[i].high, words[i].low, addresses[i]), "memory", "representable");
    }
    expect(bounds[count - 1].exponent == 77 && canonical[count - 1] == 7 && representable[count - 1] == 7, "memory", "the element after the results");
    expect(cheri_cap_decode_memory(memory, 0, big_endian, bounds, count) == 0, "memory", "no words");
    expect(cheri_cap_decode_memory(NULL, 0, big_endian, bounds, count) == 0 && cheri_cap_decode_memory(memory, count, big_endian, NULL, 0) == 0, "memory", "null for no words or bounds");
    expect(cheri_cap_is_canonical_memory(NULL, 0, big_endian, canonical, count) == 0 && cheri_cap_is_canonical_memory(memory, count, big_endian, NULL, 0) == 0, "memory", "null for no words or results");
    expect(cheri_cap_represents_memory(NULL, 0, big_endian, NULL, 0, NULL, 0) == 0 && cheri_cap_represents_memory(memory, count, big_endian, NULL, 0, representable, count) == 0, "memory", "null for no addresses");
}

// Returns whether a query wants a word, by the functions for one word.
static bool is_wanted(const cheri_cap_query *query, cheri_cap_u128 word, bool tagged)
{
    const bool sentry = cheri_cap_is_sentry(word.high);
    const cheri_cap_u128 own = sentry ? cheri_cap_with_type(word.high, word.low, CHERI_CAP_OTYPE_UNSEALED) : word;
    const cheri_cap_bounds bounds = cheri_cap_decode(word.high, word.low);
    const uint16_t perms = cheri_cap_perms(word.high, word.low);
    return cheri_cap_is_canonical(own.high, own.low) && (!query->needs_tag || tagged)
        && (sentry ? query->sentries : query->sealed || !cheri_cap_is_sealed(word.high))
        && (perms & query->perms) == query->perms && (!query->needs_permission || perms != 0)
        && (!query->needs_address || cheri_cap_bounds_hold(&bounds, query->address));
}

// Checks searches of memory at an odd address: for each query, calls for three positions at a time find the words that the
// functions for one word want. The words come from the table, and each also as a sentry. Every third has a tag.
static void check_search(size_t count, bool big_endian)
{
    static uint8_t bytes[1 + 32 * CAPACITY];
    uint8_t *memory = bytes + 1, tags[CAPACITY / 4 + 1] = {0};
    cheri_cap_u128 all[2 * CAPACITY];
    size_t total = 0;
    for (size_t i = 0; i < 2 * count; i++) {
        const cheri_cap_u128 word = words[i / 2];
        all[i] = i % 2 == 0 ? word : cheri_cap_with_type(word.high, word.low, CHERI_CAP_OTYPE_SENTRY);
        cheri_cap_word_to_bytes(all[i], memory + 16 * i, big_endian);
        if (i % 3 == 0)
            tags[i / 8] = (uint8_t)(tags[i / 8] | 1u << i % 8);
    }
    for (unsigned bits = 0; bits < 64; bits++) {
        const uint16_t perms = (bits & 32) != 0 ? (uint16_t)CHERI_CAP_PERM_LOAD : (uint16_t)0;
        const cheri_cap_query query = {
            words[bits % count].low, perms, (bits & 16) != 0, (bits & 8) != 0, (bits & 4) != 0, (bits & 2) != 0, (bits & 1) != 0};
        size_t from = 0;
        while (from < 2 * count) {
            // a call for a part of the memory has the tags from its first word on: the part begins at a multiple of eight
            const size_t start = from / 8 * 8, part = 2 * count - start < 32 ? 2 * count - start : 32;
            uint64_t positions[4] = {77, 77, 77, 77};
            size_t next = 77, found = cheri_cap_search_memory(
                memory + 16 * start, part, big_endian, tags + start / 8, (part + 7) / 8, &query, positions, 3, &next);
            size_t wanted = 0, i = 0;
            for (; i < part && wanted < 3; i++)
                if (is_wanted(&query, all[start + i], (tags[(start + i) / 8] >> (start + i) % 8 & 1) != 0))
                    expect(wanted < found && positions[wanted++] == i, "search", "the position of a word");
            expect(found == wanted && next == i, "search", "the number of positions, and the next word");
            expect(found == 3 || positions[found] == 77, "search", "the element after the positions");
            total += found;
            from = start + (next < 8 ? 8 : next);
        }
    }
    expect(total > 100, "search", "some words");
    const cheri_cap_query query = {0, 0, false, false, false, true, true}, tagged = {0, 0, false, false, true, true, true};
    uint64_t position;
    size_t next = 77;
    expect(cheri_cap_search_memory(NULL, 0, big_endian, NULL, 0, &query, &position, 1, &next) == 0 && next == 0, "search", "null for no memory");
    expect(cheri_cap_search_memory(memory, 9, big_endian, NULL, 0, &query, NULL, 0, &next) == 0 && next == 0, "search", "null for no positions");
    expect(cheri_cap_search_memory(memory, 9, big_endian, NULL, 0, &tagged, &position, 1, &next) == 0 && next == 0, "search", "null for no tags");
    memset(memory, 0, 32);
    expect(cheri_cap_search_memory(memory, 2, big_endian, NULL, 0, &query, &position, 1, &next) == 1 && position == 0 && next == 1, "search", "null words, without tags");
}

static bool same_granted(cheri_cap_granted one, cheri_cap_granted other)
{
    return one.base == other.base && one.top_high == other.top_high && one.top_low == other.top_low && one.t == other.t && one.b == other.b
        && one.exponent == other.exponent && one.ie == other.ie && one.exact == other.exact && one.in_range == other.in_range;
}

// Checks the batch functions on requests, and on bounds of words in memory: each result equals that of the function for one,
// and one array is one element shorter.
static void check_requests_of_many(size_t count, bool big_endian)
{
    static uint64_t bases[CAPACITY], masks[CAPACITY];
    static cheri_cap_u128 lengths[CAPACITY], rounded[CAPACITY];
    static cheri_cap_granted granted[CAPACITY];
    static uint8_t bytes[1 + 16 * CAPACITY], bytes_made[1 + 16 * CAPACITY];
    uint8_t *memory = bytes + 1, *made = bytes_made + 1, refusals[CAPACITY];
    size_t refused = 0;
    for (size_t i = 0; i < count; i++) {
        bases[i] = words[i].low;
        lengths[i].high = i % 7 == 6;
        lengths[i].low = words[i].high >> i % 64;
        cheri_cap_word_to_bytes(words[i], memory + 16 * i, big_endian);
    }
    memset(granted, 1, sizeof granted);
    memset(rounded, 77, sizeof rounded);
    memset(masks, 77, sizeof masks);
    expect(cheri_cap_set_bounds_many(bases, count, lengths, count - 1, granted, count) == count - 1, "many requests", "the number of granted bounds");
    expect(cheri_cap_round_length_many(lengths, count, rounded, count - 1) == count - 1, "many requests", "the number of lengths");
    expect(cheri_cap_alignment_mask_many(lengths, count - 1, masks, count) == count - 1, "many requests", "the number of masks");
    for (size_t i = 0; i < count - 1; i++) {
        const cheri_cap_u128 length = cheri_cap_round_length(lengths[i].high, lengths[i].low);
        expect(same_granted(granted[i], cheri_cap_set_bounds(bases[i], lengths[i].high, lengths[i].low)), "many requests", "granted bounds");
        expect(rounded[i].high == length.high && rounded[i].low == length.low, "many requests", "a length");
        expect(masks[i] == cheri_cap_alignment_mask(lengths[i].high, lengths[i].low), "many requests", "a mask");
    }
    const uint64_t kept = UINT64_C(0x4d4d4d4d4d4d4d4d); // eight bytes 77
    expect(granted[count - 1].t == 0x101 && rounded[count - 1].low == kept && masks[count - 1] == kept, "many requests", "the element after the results");
    expect(cheri_cap_set_bounds_many(NULL, 0, NULL, 0, granted, count) == 0 && cheri_cap_set_bounds_many(bases, count, lengths, count, NULL, 0) == 0, "many requests", "null for no bases or bounds");
    expect(cheri_cap_round_length_many(NULL, 0, rounded, count) == 0 && cheri_cap_round_length_many(lengths, count, NULL, 0) == 0, "many requests", "null for no lengths");
    expect(cheri_cap_alignment_mask_many(NULL, 0, masks, count) == 0 && cheri_cap_alignment_mask_many(lengths, count, NULL, 0) == 0, "many requests", "null for no masks");
    for (int exact = 0; exact < 2; exact++) {
        memset(made, 7, 16 * count);
        memset(refusals, 77, sizeof refusals);
        for (size_t i = 0; i < count; i++) { // mostly lengths within the bounds
            lengths[i].high = 0;
            lengths[i].low = i % 5 * 1001;
        }
        expect(cheri_cap_set_bounds_memory(memory, count, big_endian, exact != 0, lengths, count, made, count, refusals, count - 1) == count - 1, "memory", "the number of words made");
        for (size_t i = 0; i < count - 1; i++) {
            const cheri_cap_made alone = exact ? cheri_cap_set_bounds_exact_on(words[i].high, words[i].low, 0, lengths[i].low) : cheri_cap_set_bounds_on(words[i].high, words[i].low, 0, lengths[i].low);
            const cheri_cap_u128 word = cheri_cap_word_from_bytes(made + 16 * i, big_endian);
            expect(word.high == alone.high && word.low == alone.low && refusals[i] == alone.refusal, "memory", "a word with bounds");
            refused += alone.refusal != 0;
        }
        expect(made[16 * (count - 1)] == 7 && made[16 * count - 1] == 7 && refusals[count - 1] == 77, "memory", "the element after the results");
    }
    expect(refused > 0 && refused < 2 * (count - 1), "memory", "some words and some refusals");
    expect(cheri_cap_set_bounds_memory(NULL, 0, big_endian, false, lengths, count, NULL, 0, NULL, 0) == 0, "memory", "null for no words to set bounds on");
}

// Checks the offsets and the accesses that the rows do not have.
static void check_offsets(void)
{
    const cheri_cap_u128 word = {UINT64_C(0xffff000004819004), 0x1000}; // [0x1000, 0x1200)
    cheri_cap_made made = cheri_cap_set_offset(word.high, 0x1123, 0x1ff);
    expect(made.refusal == 0 && made.high == word.high && made.low == 0x11ff, "an offset", "counted from the base");
    made = cheri_cap_set_offset(word.high, word.low, UINT64_C(0) - 0x1000);
    expect(made.refusal == CHERI_CAP_REFUSAL_UNREPRESENTABLE, "an offset below the window", "unrepresentable");
    made = cheri_cap_set_offset(cheri_cap_with_type(word.high, word.low, 5).high, word.low, 0);
    expect(made.refusal == CHERI_CAP_REFUSAL_SEALED, "an offset", "in a sealed word");
    const cheri_cap_bounds all = {0, 1, 0, 52}, last = {UINT64_C(0xffffffffffffff00), 1, 0, 0}, above = {16, 1, 32, 0};
    expect(cheri_cap_bounds_hold_bytes(&all, 0, UINT64_MAX) && cheri_cap_bounds_hold_bytes(&all, 1, UINT64_MAX), "all addresses", "an access up to 2^64");
    expect(!cheri_cap_bounds_hold_bytes(&all, 2, UINT64_MAX) && !cheri_cap_bounds_hold_bytes(&last, UINT64_MAX, 2), "all addresses", "an access that wraps around");
    expect(cheri_cap_bounds_hold_bytes(&last, UINT64_C(0xffffffffffffff00), 0x100), "the last bytes", "an access of them");
    expect(!cheri_cap_bounds_hold_bytes(&above, UINT64_MAX, 18), "a top above 2^64", "an access that wraps around");
}

// Checks comparisons of numbers whose upper halves are not 0.
static void check_comparisons(void)
{
    const cheri_cap_u128 one = {1, 5}, other = {1, 6}, above = {2, 0};
    expect(cheri_cap_compare(one, one) == 0, "a comparison", "with itself");
    expect(cheri_cap_compare(one, other) < 0 && cheri_cap_compare(other, one) > 0, "a comparison", "of the lower halves");
    expect(cheri_cap_compare(other, above) < 0 && cheri_cap_compare(above, other) > 0, "a comparison", "of the upper halves");
}

static void check_lengths(void)
{
    static const struct { const char *length, *rounded, *granule, *mask; } rows[] = {
        {"0x0", "0x0", "0x1", "0xffffffffffffffff"},
        {"0xfff", "0xfff", "0x1", "0xffffffffffffffff"},
        {"0x1000", "0x1000", "0x8", "0xfffffffffffffff8"},
        {"0x1ff8", "0x1ff8", "0x8", "0xfffffffffffffff8"},
        {"0x1ff9", "0x2000", "0x10", "0xfffffffffffffff0"},
        {"0x1fff", "0x2000", "0x10", "0xfffffffffffffff0"},
        {"0x10000000000000000", "0x10000000000000000", "0x80000000000000", "0xff80000000000000"},
        {"0x10000000000000001", "0xffffffffffffffffffffffffffffffff", "0x0", "0x0"},
    };
    for (size_t i = 0; i < sizeof rows / sizeof *rows; i++) {
        cheri_cap_u128 length = hexadecimal(rows[i].length), rounded = cheri_cap_round_length(length.high, length.low);
        expect(is_number(rows[i].rounded, rounded.high, rounded.low), rows[i].length, "representable length");
        expect(is_number(rows[i].granule, 0, cheri_cap_granule(length.high, length.low)), rows[i].length, "granule");
        expect(is_number(rows[i].mask, 0, cheri_cap_alignment_mask(length.high, length.low)), rows[i].length, "mask");
    }
}

static void check_requests(void)
{
    cheri_cap_granted set = cheri_cap_set_bounds(1, 0, 8184);
    expect(set.in_range && !set.exact && set.base == 0 && set.top_low == 0x2000, "8184 bytes from 1", "granted");
    cheri_cap_excess lost = cheri_cap_lost(1, 0, 8184);
    expect(lost.in_range && lost.before == 1 && lost.after == 7, "8184 bytes from 1", "lost");
    lost = cheri_cap_lost(UINT64_MAX, 0, 1);
    expect(lost.in_range && lost.before == 0 && lost.after == 0, "the last byte", "lost");
    lost = cheri_cap_lost(1, 1, 0);
    expect(!lost.in_range && lost.before == 0 && lost.after == 0, "2^64 bytes from 1", "lost");
    set = cheri_cap_set_bounds(1, 0, UINT64_MAX);
    expect(set.in_range && set.top_high == 1 && set.top_low == 0, "all bytes from 1", "granted");
    set = cheri_cap_set_bounds(1, 1, 0);
    expect(!set.in_range && set.top_high == 0 && set.top_low == 0 && set.t == 0 && set.b == 0, "2^64 bytes from 1", "refused");
    set = cheri_cap_set_bounds(0, 0, UINT64_C(1) << 61);
    cheri_cap_fields fields = {0, CHERI_CAP_OTYPE_UNSEALED, 0xffff, set.t, set.b, 0, false, set.ie};
    cheri_cap_u128 word = cheri_cap_pack(fields);
    expect(cheri_cap_represents(word.high, word.low, UINT64_C(0x6fffffffffffffff)), "2^61 bytes", "the window's last address");
    expect(!cheri_cap_represents(word.high, word.low, UINT64_C(0x7000000000000000)), "2^61 bytes", "the address after it");
    expect(cheri_cap_represents(word.high, word.low, UINT64_C(0xf000000000000000)), "2^61 bytes", "the window's first address");
    expect(!cheri_cap_represents(word.high, word.low, UINT64_C(0xefffffffffffffff)), "2^61 bytes", "the address before it");
    expect(cheri_cap_keeps_bounds(word.high, word.low, UINT64_C(0x6fffffffffffffff)), "2^61 bytes", "kept at the window's last address");
    expect(!cheri_cap_keeps_bounds(word.high, word.low, UINT64_C(0x7000000000000000)), "2^61 bytes", "kept at the address after it");
    // The word with exponent field 53 stores no bounds, and keeps those that it decodes to at every address.
    word.high = UINT64_C(0xffff000000000001);
    expect(!cheri_cap_represents(word.high, 0, 0), "exponent 53", "its own address");
    expect(cheri_cap_keeps_bounds(word.high, 0, UINT64_MAX), "exponent 53", "kept at the last address");
}

// Checks the types that a word of the root's bounds may have: those that sealing gives, and unsealed.
static void check_types(void)
{
    static const struct { uint32_t otype; bool canonical; } rows[] = {
        {0, true},
        {CHERI_CAP_OTYPE_LAST_SEALING, true},
        {CHERI_CAP_OTYPE_LAST_SEALING + 1, false},
        {CHERI_CAP_OTYPE_UNSEALED - 1, false},
        {CHERI_CAP_OTYPE_UNSEALED, true},
    };
    cheri_cap_u128 null = cheri_cap_null();
    expect(null.high == 0 && null.low == 0, "null", "all zeros");
    cheri_cap_fields fields = cheri_cap_unpack(null.high, null.low);
    expect(fields.otype == CHERI_CAP_OTYPE_UNSEALED, "null", "unsealed");
    for (size_t i = 0; i < sizeof rows / sizeof *rows; i++) {
        fields.otype = rows[i].otype;
        cheri_cap_u128 word = cheri_cap_pack(fields);
        expect(cheri_cap_otype(word.high, word.low) == rows[i].otype, "a type", "its 18 bits");
        expect(cheri_cap_is_canonical(word.high, word.low) == rows[i].canonical, "a type", "canonical");
    }
}

#define PERMISSIONS(OF) \
    OF(GLOBAL) OF(EXECUTE) OF(LOAD) OF(STORE) OF(LOAD_CAP) OF(STORE_CAP) OF(STORE_LOCAL_CAP) OF(SEAL) \
    OF(CINVOKE) OF(UNSEAL) OF(SYSTEM_REGS) OF(SET_CID) OF(USER0) OF(USER1) OF(USER2) OF(USER3)

// Prints the code and the name of each refusal of a rule.
static int print_refusals(void)
{
    for (unsigned refusal = 0; refusal < 256; refusal++) {
        const char *name = cheri_cap_refusal_name((uint8_t)refusal);
        if (*name != 0)
            printf("error %u %s\n", refusal, name);
    }
    return 0;
}

static int print_names(void)
{
#define ROW(NAME) {#NAME, CHERI_CAP_PERM_##NAME},
    static const struct { const char *name; uint16_t perms; } rows[] = {PERMISSIONS(ROW)};
    for (size_t i = 0; i < sizeof rows / sizeof *rows; i++) {
        cheri_cap_fields fields = cheri_cap_unpack(0, 0);
        fields.perms = rows[i].perms;
        cheri_cap_u128 word = cheri_cap_pack(fields);
        printf("%016" PRIx64 "%016" PRIx64 " %04x %s\n", word.high, word.low, (unsigned)rows[i].perms, rows[i].name);
    }
    return 0;
}

int main(int argc, char **argv)
{
    if (argc == 2 && strcmp(argv[1], "names") == 0)
        return print_names();
    if (argc == 2 && strcmp(argv[1], "refusals") == 0)
        return print_refusals();
    FILE *table = argc == 2 ? fopen(argv[1], "r") : NULL;
    if (table == NULL) {
        fputs("usage: conformance TABLE | names | refusals\n", stderr);
        return 2;
    }
    expect(cheri_cap_version() == CHERI_CAP_VERSION, "version", "header and library");
    unsigned rows = check_table(table);
    expect(rows >= 24, argv[1], "too few rows");
    check_many(rows < CAPACITY ? rows : CAPACITY);
    check_memory(rows < CAPACITY ? rows : CAPACITY, false);
    check_memory(rows < CAPACITY ? rows : CAPACITY, true);
    check_search(rows < CAPACITY ? rows : CAPACITY, false);
    check_search(rows < CAPACITY ? rows : CAPACITY, true);
    check_requests_of_many(rows < CAPACITY ? rows : CAPACITY, false);
    check_requests_of_many(rows < CAPACITY ? rows : CAPACITY, true);
    check_comparisons();
    check_lengths();
    check_offsets();
    check_requests();
    check_types();
    printf("%u rows, %u failures\n", rows, failures);
    return failures != 0;
}
