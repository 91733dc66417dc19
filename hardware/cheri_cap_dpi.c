// The wrappers that cheri_cap_dpi.sv imports: a word of SystemVerilog is an array of 32-bit parts, the lowest first. Made by dpi.py.
#include <stdint.h>
#include <string.h>
#include <svdpi.h>
#include <cheri_cap.h>

#define HALF(vector, n) ((uint64_t)(vector)[2 * (n) + 1] << 32 | (vector)[2 * (n)])
#define HALVES(vector) HALF(vector, 1), HALF(vector, 0)
#define TOP_HALVES(vector) ((uint64_t)(vector)[2] & 1), HALF(vector, 0)

static inline void store_word(svBitVecVal *to, uint64_t high, uint64_t low)
{
    to[0] = (svBitVecVal)low;
    to[1] = (svBitVecVal)(low >> 32);
    to[2] = (svBitVecVal)high;
    to[3] = (svBitVecVal)(high >> 32);
}

static inline void store_top(svBitVecVal *to, uint64_t high, uint64_t low)
{
    to[0] = (svBitVecVal)low;
    to[1] = (svBitVecVal)(low >> 32);
    to[2] = (svBitVecVal)(high & 1);
}

#ifdef __cplusplus
extern "C" {
#endif

unsigned int cheri_cap_dpi_version(void);
unsigned int cheri_cap_dpi_version(void)
{
    return cheri_cap_version();
}

void cheri_cap_dpi_unpack(const svBitVecVal *word, unsigned short *perms, unsigned char *reserved, unsigned char *flag, unsigned int *otype, unsigned char *ie, unsigned short *t, unsigned short *b, unsigned long long *address);
void cheri_cap_dpi_unpack(const svBitVecVal *word, unsigned short *perms, unsigned char *reserved, unsigned char *flag, unsigned int *otype, unsigned char *ie, unsigned short *t, unsigned short *b, unsigned long long *address)
{
    cheri_cap_fields r = cheri_cap_unpack(HALVES(word));
    *perms = r.perms;
    *reserved = r.reserved;
    *flag = r.flag;
    *otype = r.otype;
    *ie = r.ie;
    *t = r.t;
    *b = r.b;
    *address = r.address;
}

unsigned short cheri_cap_dpi_perms(const svBitVecVal *word);
unsigned short cheri_cap_dpi_perms(const svBitVecVal *word)
{
    return cheri_cap_perms(HALVES(word));
}

unsigned int cheri_cap_dpi_otype(const svBitVecVal *word);
unsigned int cheri_cap_dpi_otype(const svBitVecVal *word)
{
    return cheri_cap_otype(HALVES(word));
}

unsigned char cheri_cap_dpi_flag(const svBitVecVal *word);
unsigned char cheri_cap_dpi_flag(const svBitVecVal *word)
{
    return cheri_cap_flag(HALVES(word));
}

void cheri_cap_dpi_pack(unsigned short perms, unsigned char reserved, unsigned char flag, unsigned int otype, unsigned char ie, unsigned short t, unsigned short b, unsigned long long address, svBitVecVal *word);
void cheri_cap_dpi_pack(unsigned short perms, unsigned char reserved, unsigned char flag, unsigned int otype, unsigned char ie, unsigned short t, unsigned short b, unsigned long long address, svBitVecVal *word)
{
    cheri_cap_fields f;
    f.perms = perms;
    f.reserved = reserved;
    f.flag = flag != 0;
    f.otype = otype;
    f.ie = ie != 0;
    f.t = t;
    f.b = b;
    f.address = address;
    cheri_cap_u128 r = cheri_cap_pack(f);
    store_word(word, r.high, r.low);
}

unsigned char cheri_cap_dpi_is_canonical(const svBitVecVal *word);
unsigned char cheri_cap_dpi_is_canonical(const svBitVecVal *word)
{
    return cheri_cap_is_canonical(HALVES(word));
}

unsigned char cheri_cap_dpi_defect(const svBitVecVal *word);
unsigned char cheri_cap_dpi_defect(const svBitVecVal *word)
{
    return cheri_cap_defect(HALVES(word));
}

void cheri_cap_dpi_decode(const svBitVecVal *word, unsigned char *exponent, unsigned long long *base, svBitVecVal *top);
void cheri_cap_dpi_decode(const svBitVecVal *word, unsigned char *exponent, unsigned long long *base, svBitVecVal *top)
{
    cheri_cap_bounds r = cheri_cap_decode(HALVES(word));
    *exponent = r.exponent;
    *base = r.base;
    store_top(top, r.top_high, r.top_low);
}

unsigned char cheri_cap_dpi_exponent(const svBitVecVal *word);
unsigned char cheri_cap_dpi_exponent(const svBitVecVal *word)
{
    return cheri_cap_exponent(HALVES(word));
}

void cheri_cap_dpi_word_length(const svBitVecVal *word, svBitVecVal *length);
void cheri_cap_dpi_word_length(const svBitVecVal *word, svBitVecVal *length)
{
    cheri_cap_u128 r = cheri_cap_word_length(HALVES(word));
    store_word(length, r.high, r.low);
}

unsigned long long cheri_cap_dpi_word_granule(const svBitVecVal *word);
unsigned long long cheri_cap_dpi_word_granule(const svBitVecVal *word)
{
    return cheri_cap_word_granule(HALVES(word));
}

void cheri_cap_dpi_set_bounds(unsigned long long base, const svBitVecVal *length, unsigned char *in_range, unsigned char *exact, unsigned char *ie, unsigned short *t, unsigned short *b, unsigned char *exponent, unsigned long long *granted_base, svBitVecVal *granted_top);
void cheri_cap_dpi_set_bounds(unsigned long long base, const svBitVecVal *length, unsigned char *in_range, unsigned char *exact, unsigned char *ie, unsigned short *t, unsigned short *b, unsigned char *exponent, unsigned long long *granted_base, svBitVecVal *granted_top)
{
    cheri_cap_granted r = cheri_cap_set_bounds(base, TOP_HALVES(length));
    *in_range = r.in_range;
    *exact = r.exact;
    *ie = r.ie;
    *t = r.t;
    *b = r.b;
    *exponent = r.exponent;
    *granted_base = r.base;
    store_top(granted_top, r.top_high, r.top_low);
}

void cheri_cap_dpi_lost(unsigned long long base, const svBitVecVal *length, unsigned char *in_range, unsigned long long *lost_before, unsigned long long *lost_after);
void cheri_cap_dpi_lost(unsigned long long base, const svBitVecVal *length, unsigned char *in_range, unsigned long long *lost_before, unsigned long long *lost_after)
{
    cheri_cap_excess r = cheri_cap_lost(base, TOP_HALVES(length));
    *in_range = r.in_range;
    *lost_before = r.before;
    *lost_after = r.after;
}

unsigned char cheri_cap_dpi_represents(const svBitVecVal *word, unsigned long long address);
unsigned char cheri_cap_dpi_represents(const svBitVecVal *word, unsigned long long address)
{
    return cheri_cap_represents(HALVES(word), address);
}

unsigned char cheri_cap_dpi_keeps_bounds(const svBitVecVal *word, unsigned long long address);
unsigned char cheri_cap_dpi_keeps_bounds(const svBitVecVal *word, unsigned long long address)
{
    return cheri_cap_keeps_bounds(HALVES(word), address);
}

void cheri_cap_dpi_window(const svBitVecVal *word, unsigned long long *first, unsigned long long *last);
void cheri_cap_dpi_window(const svBitVecVal *word, unsigned long long *first, unsigned long long *last)
{
    cheri_cap_ends r = cheri_cap_window(HALVES(word));
    *first = r.first;
    *last = r.last;
}

unsigned long long cheri_cap_dpi_granule(const svBitVecVal *length);
unsigned long long cheri_cap_dpi_granule(const svBitVecVal *length)
{
    return cheri_cap_granule(TOP_HALVES(length));
}

void cheri_cap_dpi_round_length(const svBitVecVal *length, svBitVecVal *rounded);
void cheri_cap_dpi_round_length(const svBitVecVal *length, svBitVecVal *rounded)
{
    cheri_cap_u128 r = cheri_cap_round_length(TOP_HALVES(length));
    store_top(rounded, r.high, r.low);
}

unsigned long long cheri_cap_dpi_alignment_mask(const svBitVecVal *length);
unsigned long long cheri_cap_dpi_alignment_mask(const svBitVecVal *length)
{
    return cheri_cap_alignment_mask(TOP_HALVES(length));
}

unsigned char cheri_cap_dpi_read_word(const char *text, svBitVecVal *word);
unsigned char cheri_cap_dpi_read_word(const char *text, svBitVecVal *word)
{
    cheri_cap_read r = cheri_cap_read_word(text, strlen(text));
    store_word(word, r.high, r.low);
    return r.found;
}

const char *cheri_cap_dpi_write_word(const svBitVecVal *word);
const char *cheri_cap_dpi_write_word(const svBitVecVal *word)
{
    static char text[33];
    cheri_cap_write_word(HALVES(word), text);
    return text;
}

const char *cheri_cap_dpi_format(const svBitVecVal *word, unsigned char tag);
const char *cheri_cap_dpi_format(const svBitVecVal *word, unsigned char tag)
{
    static char text[CHERI_CAP_LINE_SIZE];
    cheri_cap_format(HALVES(word), tag != 0, text);
    return text;
}

unsigned char cheri_cap_dpi_set_address(const svBitVecVal *word, unsigned long long address, svBitVecVal *result);
unsigned char cheri_cap_dpi_set_address(const svBitVecVal *word, unsigned long long address, svBitVecVal *result)
{
    cheri_cap_made r = cheri_cap_set_address(HALVES(word), address);
    store_word(result, r.high, r.low);
    return r.refusal;
}

unsigned char cheri_cap_dpi_increment(const svBitVecVal *word, unsigned long long amount, svBitVecVal *result);
unsigned char cheri_cap_dpi_increment(const svBitVecVal *word, unsigned long long amount, svBitVecVal *result)
{
    cheri_cap_made r = cheri_cap_increment(HALVES(word), amount);
    store_word(result, r.high, r.low);
    return r.refusal;
}

unsigned char cheri_cap_dpi_set_bounds_on(const svBitVecVal *word, const svBitVecVal *length, svBitVecVal *result);
unsigned char cheri_cap_dpi_set_bounds_on(const svBitVecVal *word, const svBitVecVal *length, svBitVecVal *result)
{
    cheri_cap_made r = cheri_cap_set_bounds_on(HALVES(word), HALVES(length));
    store_word(result, r.high, r.low);
    return r.refusal;
}

unsigned char cheri_cap_dpi_set_bounds_exact_on(const svBitVecVal *word, const svBitVecVal *length, svBitVecVal *result);
unsigned char cheri_cap_dpi_set_bounds_exact_on(const svBitVecVal *word, const svBitVecVal *length, svBitVecVal *result)
{
    cheri_cap_made r = cheri_cap_set_bounds_exact_on(HALVES(word), HALVES(length));
    store_word(result, r.high, r.low);
    return r.refusal;
}

unsigned char cheri_cap_dpi_and_perms(const svBitVecVal *word, unsigned short mask, svBitVecVal *result);
unsigned char cheri_cap_dpi_and_perms(const svBitVecVal *word, unsigned short mask, svBitVecVal *result)
{
    cheri_cap_made r = cheri_cap_and_perms(HALVES(word), mask);
    store_word(result, r.high, r.low);
    return r.refusal;
}

unsigned char cheri_cap_dpi_set_flag(const svBitVecVal *word, unsigned char flag, svBitVecVal *result);
unsigned char cheri_cap_dpi_set_flag(const svBitVecVal *word, unsigned char flag, svBitVecVal *result)
{
    cheri_cap_made r = cheri_cap_set_flag(HALVES(word), flag != 0);
    store_word(result, r.high, r.low);
    return r.refusal;
}

unsigned char cheri_cap_dpi_seal(const svBitVecVal *word, const svBitVecVal *authority, svBitVecVal *result);
unsigned char cheri_cap_dpi_seal(const svBitVecVal *word, const svBitVecVal *authority, svBitVecVal *result)
{
    cheri_cap_made r = cheri_cap_seal(HALVES(word), HALVES(authority));
    store_word(result, r.high, r.low);
    return r.refusal;
}

unsigned char cheri_cap_dpi_unseal(const svBitVecVal *word, const svBitVecVal *authority, svBitVecVal *result);
unsigned char cheri_cap_dpi_unseal(const svBitVecVal *word, const svBitVecVal *authority, svBitVecVal *result)
{
    cheri_cap_made r = cheri_cap_unseal(HALVES(word), HALVES(authority));
    store_word(result, r.high, r.low);
    return r.refusal;
}

unsigned char cheri_cap_dpi_rebuild(const svBitVecVal *authority, const svBitVecVal *word, svBitVecVal *result);
unsigned char cheri_cap_dpi_rebuild(const svBitVecVal *authority, const svBitVecVal *word, svBitVecVal *result)
{
    cheri_cap_made r = cheri_cap_rebuild(HALVES(authority), HALVES(word));
    store_word(result, r.high, r.low);
    return r.refusal;
}

unsigned char cheri_cap_dpi_is_subset(const svBitVecVal *word, const svBitVecVal *outer);
unsigned char cheri_cap_dpi_is_subset(const svBitVecVal *word, const svBitVecVal *outer)
{
    return cheri_cap_is_subset(HALVES(word), HALVES(outer));
}

const char *cheri_cap_dpi_refusal_name(unsigned char refusal);
const char *cheri_cap_dpi_refusal_name(unsigned char refusal)
{
    return cheri_cap_refusal_name(refusal);
}

unsigned char cheri_cap_dpi_set_offset(const svBitVecVal *word, unsigned long long offset, svBitVecVal *result);
unsigned char cheri_cap_dpi_set_offset(const svBitVecVal *word, unsigned long long offset, svBitVecVal *result)
{
    cheri_cap_made r = cheri_cap_set_offset(HALVES(word), offset);
    store_word(result, r.high, r.low);
    return r.refusal;
}

void cheri_cap_dpi_with_address(const svBitVecVal *word, unsigned long long address, svBitVecVal *result);
void cheri_cap_dpi_with_address(const svBitVecVal *word, unsigned long long address, svBitVecVal *result)
{
    cheri_cap_u128 r = cheri_cap_with_address(HALVES(word), address);
    store_word(result, r.high, r.low);
}

void cheri_cap_dpi_with_perms(const svBitVecVal *word, unsigned short perms, svBitVecVal *result);
void cheri_cap_dpi_with_perms(const svBitVecVal *word, unsigned short perms, svBitVecVal *result)
{
    cheri_cap_u128 r = cheri_cap_with_perms(HALVES(word), perms);
    store_word(result, r.high, r.low);
}

void cheri_cap_dpi_with_flag(const svBitVecVal *word, unsigned char flag, svBitVecVal *result);
void cheri_cap_dpi_with_flag(const svBitVecVal *word, unsigned char flag, svBitVecVal *result)
{
    cheri_cap_u128 r = cheri_cap_with_flag(HALVES(word), flag != 0);
    store_word(result, r.high, r.low);
}

void cheri_cap_dpi_with_type(const svBitVecVal *word, unsigned long long otype, svBitVecVal *result);
void cheri_cap_dpi_with_type(const svBitVecVal *word, unsigned long long otype, svBitVecVal *result)
{
    cheri_cap_u128 r = cheri_cap_with_type(HALVES(word), otype);
    store_word(result, r.high, r.low);
}

void cheri_cap_dpi_with_bounds(const svBitVecVal *word, unsigned char ie, unsigned short t, unsigned short b, svBitVecVal *result);
void cheri_cap_dpi_with_bounds(const svBitVecVal *word, unsigned char ie, unsigned short t, unsigned short b, svBitVecVal *result)
{
    cheri_cap_granted g;
    memset(&g, 0, sizeof g);
    g.ie = ie != 0;
    g.t = t;
    g.b = b;
    cheri_cap_u128 r = cheri_cap_with_bounds(HALVES(word), &g);
    store_word(result, r.high, r.low);
}

#ifdef __cplusplus
}
#endif
