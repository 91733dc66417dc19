/*
 * cheri_cap.h: the functions of Sorrelgable for C11 and C++17.
 *
 * CHERI Concentrate, the compressed 128-bit capabilities of CHERI-RISC-V for 64-bit addresses
 * (CHERI ISA version 9): fields, decoding, setting bounds, representable addresses and lengths,
 * canonical words, and the rules by which one capability is derived from another, on words.
 *
 * The library libcheri_cap has the functions, static or shared. A checkout builds the
 * static one as crates/cc_ffi/out/libcc_ffi.a. Each function is proved to return what its contract
 * in crates/cc_ffi says, and the comments here say the same in words. The inline functions at the
 * end are plain C and tested. Most are proved as machine code too (docs/PROVED.md, "Trusted"). Not
 * proved are cheri_cap_refusal_name, those with names that end in an underscore, and an order of
 * bytes that the compiler does not know.
 *
 * Version: CHERI_CAP_VERSION is the version of this header, and cheri_cap_version() returns that of
 * the library. They are equal if the two belong together. CHERI_CAP_RELEASE is the release that the
 * header came with, which `#if` can compare.
 *
 * Words: a word has 128 bits and is passed as two halves. `high` has its bits 127 to 64, with the
 * permissions at the top; `low` has its bits 63 to 0, the address. In memory, a little-endian
 * processor has the low half first, and a big-endian one the high half: see
 * cheri_cap_word_from_bytes, and for many words cheri_cap_decode_memory. A word is in its memory
 * form: null is all zeros.
 *
 * Units: addresses, bases, tops, lengths and granules are bytes. Bounds are [base, top): the top is
 * the address after the last byte. A top or a length may be 2^64, which needs 65 bits, so these
 * have two halves too: for 2^64 the high half is 1 and the low half is 0.
 *
 * Ranges: each function accepts every value of its parameters' types, except invalid pointers and
 * invalid `bool`s. Its comment says what it returns for values out of range.
 *
 * Pointers, of the three text functions and the batch functions: the pointer to an array may be
 * null if its count or its length is 0, as that of an empty std::vector may be, and no other pointer
 * may. An array has as many elements as its count says, and its size is at most PTRDIFF_MAX bytes. It
 * must be aligned for its element type: to 8 bytes for uint64_t and the structs. `memory` and `made`
 * have 16 bytes for each word of their count, at any address. Arrays that a function reads may
 * overlap each other. An array, or `next`, that a function writes must not overlap anything else
 * that the call reads or writes.
 *
 * Booleans: a `bool` must be 0 or 1, as C and C++ create it, also in a struct. If the bytes of a
 * struct come from a file or a socket, check them first: any other value is undefined behavior, in
 * C as in the library.
 *
 * Threads: no function has state, allocates, blocks, or calls another library. Any number of
 * threads may call any of them at the same time, and so may a signal handler. Concurrent calls may
 * read the same arrays; none may write an array that another reads or writes.
 */
#ifndef CHERI_CAP_H
#define CHERI_CAP_H

#include <stdbool.h>
#include <stddef.h>
#include <stdint.h>
#include <string.h>

#ifdef __cplusplus
#define CHERI_CAP_CAST_(type, value) static_cast<type>(value)
extern "C" {
#else
#define CHERI_CAP_CAST_(type, value) ((type)(value))
#endif

#ifdef __GNUC__
#pragma GCC diagnostic push
#pragma GCC diagnostic ignored "-Wpadded"
#endif

/* The version of this header. */
#define CHERI_CAP_VERSION 1u

/*
 * The release of this header: 10000 * major + 100 * minor + patch, so 400 for 0.4.0.
 *
 * New in 400 are this macro, cheri_cap_decode_memory, cheri_cap_is_canonical_memory,
 * cheri_cap_represents_memory, cheri_cap_keeps_bounds, cheri_cap_window, cheri_cap_defect,
 * cheri_cap_word_length, cheri_cap_word_granule, cheri_cap_lost, cheri_cap_bounds_hold_bytes,
 * cheri_cap_set_offset, cheri_cap_with_*, cheri_cap_search_memory, cheri_cap_set_bounds_many,
 * cheri_cap_round_length_many, cheri_cap_alignment_mask_many and cheri_cap_set_bounds_memory. All
 * other functions are in 0.3.0 too, whose header does not define this macro.
 */
#define CHERI_CAP_RELEASE 400

/*
 * Attributes of the functions below. To change one, define it before the include, empty or not.
 *
 * CHERI_CAP_CONST: the result depends only on the values of the arguments, and the call has no
 * effect, so that a compiler may move or merge calls.
 * CHERI_CAP_PURE: the result also depends on the memory that a pointer leads to.
 * CHERI_CAP_NODISCARD: the compiler warns of a call whose result is not used.
 * CHERI_CAP_NOEXCEPT: the function throws no exception.
 */
#ifndef CHERI_CAP_CONST
#ifdef __GNUC__
#define CHERI_CAP_CONST __attribute__((__const__))
#else
#define CHERI_CAP_CONST
#endif
#endif

#ifndef CHERI_CAP_PURE
#ifdef __GNUC__
#define CHERI_CAP_PURE __attribute__((__pure__))
#else
#define CHERI_CAP_PURE
#endif
#endif

#ifndef CHERI_CAP_NODISCARD
#if defined __cplusplus && __cplusplus >= 201703L
#define CHERI_CAP_NODISCARD [[nodiscard]]
#elif defined __GNUC__
#define CHERI_CAP_NODISCARD __attribute__((__warn_unused_result__))
#else
#define CHERI_CAP_NODISCARD
#endif
#endif

#ifndef CHERI_CAP_NOEXCEPT
#if defined __cplusplus && __cplusplus >= 201103L
#define CHERI_CAP_NOEXCEPT noexcept
#else
#define CHERI_CAP_NOEXCEPT
#endif
#endif

/* CHERI_CAP_CONSTEXPR: in C++17, the inline function can be evaluated by the compiler. */
#ifndef CHERI_CAP_CONSTEXPR
#if defined __cplusplus && __cplusplus >= 201703L
#define CHERI_CAP_CONSTEXPR constexpr
#else
#define CHERI_CAP_CONSTEXPR
#endif
#endif

/* The permissions, as bits of `perms`. */
#define CHERI_CAP_PERM_GLOBAL 0x0001u
#define CHERI_CAP_PERM_EXECUTE 0x0002u
#define CHERI_CAP_PERM_LOAD 0x0004u
#define CHERI_CAP_PERM_STORE 0x0008u
#define CHERI_CAP_PERM_LOAD_CAP 0x0010u
#define CHERI_CAP_PERM_STORE_CAP 0x0020u
#define CHERI_CAP_PERM_STORE_LOCAL_CAP 0x0040u
#define CHERI_CAP_PERM_SEAL 0x0080u
#define CHERI_CAP_PERM_CINVOKE 0x0100u
#define CHERI_CAP_PERM_UNSEAL 0x0200u
#define CHERI_CAP_PERM_SYSTEM_REGS 0x0400u
#define CHERI_CAP_PERM_SET_CID 0x0800u
#define CHERI_CAP_PERM_USER0 0x1000u
#define CHERI_CAP_PERM_USER1 0x2000u
#define CHERI_CAP_PERM_USER2 0x4000u
#define CHERI_CAP_PERM_USER3 0x8000u

/*
 * Object types. Sealing gives the types from 0 to CHERI_CAP_OTYPE_LAST_SEALING. The types between
 * this one and CHERI_CAP_OTYPE_UNSEALED are reserved.
 */
#define CHERI_CAP_OTYPE_LAST_SEALING 0x3ffefu
#define CHERI_CAP_OTYPE_SENTRY 0x3fffeu /* a sealed entry, such as each return address of CheriBSD; reserved */
#define CHERI_CAP_OTYPE_UNSEALED 0x3ffffu

/*
 * The reasons why a word is not canonical, as results of cheri_cap_defect, which returns the first
 * that applies, and CHERI_CAP_DEFECT_NONE for a canonical word.
 */
#define CHERI_CAP_DEFECT_NONE 0u
#define CHERI_CAP_DEFECT_RESERVED_BITS 1u /* a reserved bit is set */
#define CHERI_CAP_DEFECT_TYPE 2u          /* the type is reserved: 0x3fff0 to 0x3fffe */
#define CHERI_CAP_DEFECT_ORDER 3u         /* the top is below the base */
#define CHERI_CAP_DEFECT_TOP 4u           /* the top is above 2^64 */
#define CHERI_CAP_DEFECT_FIELDS 5u        /* its bounds fields are not the ones that setting these bounds stores */

/*
 * The reasons for which a rule returns no word, as values of `refusal` in cheri_cap_made. 0 means
 * that it returned one. cheri_cap_refusal_name returns the name of each, which scripts of cheri-cap
 * print.
 */
#define CHERI_CAP_REFUSAL_SEALED 7u           /* a capability that must be unsealed is sealed */
#define CHERI_CAP_REFUSAL_UNSEALED 8u         /* a capability that must be sealed is unsealed */
#define CHERI_CAP_REFUSAL_BOUNDS 9u           /* a request, or the authority's address, is not within the bounds */
#define CHERI_CAP_REFUSAL_INEXACT 10u         /* the bounds cannot be stored without rounding */
#define CHERI_CAP_REFUSAL_UNREPRESENTABLE 11u /* at this address the word would decode to other bounds */
#define CHERI_CAP_REFUSAL_PERMISSION 12u      /* the authority lacks SEAL or UNSEAL */
#define CHERI_CAP_REFUSAL_TYPE 13u            /* the authority's address is not a type that sealing may give */
#define CHERI_CAP_REFUSAL_MISMATCH 14u        /* the authority's address is not the type of the sealed word */
#define CHERI_CAP_REFUSAL_CANONICAL 15u       /* the word, or the authority's, is not canonical */
#define CHERI_CAP_REFUSAL_EXCEEDS 16u         /* the word grants more than its authority, or is sealed */

/* A number of 128 bits: high * 2^64 + low. */
typedef struct cheri_cap_u128 {
    uint64_t high;
    uint64_t low;
} cheri_cap_u128;

/* The fields of a word, with the exclusive-or of the null capability removed. */
typedef struct cheri_cap_fields {
    uint64_t address;
    uint32_t otype;   /* the object type, 18 bits */
    uint16_t perms;   /* the permissions, 16 bits */
    uint16_t t;       /* the T field as stored, 12 bits */
    uint16_t b;       /* the B field as stored, 14 bits */
    uint8_t reserved; /* 2 bits, zero in every capability */
    bool flag;        /* whether code runs in capability mode */
    bool ie;          /* the internal exponent: the low three bits of t and b hold the exponent */
} cheri_cap_fields;

/* The bounds and the exponent of a word. */
typedef struct cheri_cap_bounds {
    uint64_t base;
    uint64_t top_high; /* 0 or 1 */
    uint64_t top_low;
    uint8_t exponent; /* 0 to 52 */
} cheri_cap_bounds;

/* The bounds that a request is granted, and the fields that store them. */
typedef struct cheri_cap_granted {
    uint64_t base;
    uint64_t top_high; /* 0 or 1 */
    uint64_t top_low;
    uint16_t t;
    uint16_t b;
    uint8_t exponent; /* 0 to 52 */
    bool ie;
    bool exact;    /* the request was granted without rounding */
    bool in_range; /* the request ends at 2^64 or below */
} cheri_cap_granted;

/*
 * The window of a word: the addresses from `first` up to `last`, through 2^64 - 1 to 0 if `last` is
 * below `first`.
 */
typedef struct cheri_cap_ends {
    uint64_t first;
    uint64_t last;
} cheri_cap_ends;

/* The numbers of bytes that a request is granted before and after the requested ones. */
typedef struct cheri_cap_excess {
    uint64_t before;
    uint64_t after;
    bool in_range; /* the request ends at 2^64 or below */
} cheri_cap_excess;

/* The word that was read from a text, if `found`. */
typedef struct cheri_cap_read {
    uint64_t high;
    uint64_t low;
    bool found;
} cheri_cap_read;

/* The result of a rule: a word, or the reason for which there is none. */
typedef struct cheri_cap_made {
    uint64_t high; /* 0 if there is no word */
    uint64_t low;
    uint8_t refusal; /* 0 if there is a word, otherwise one of CHERI_CAP_REFUSAL_* */
} cheri_cap_made;

/* The words that cheri_cap_search_memory finds, of those that can have a tag. */
typedef struct cheri_cap_query {
    uint64_t address;      /* the bounds must contain the byte here, if `needs_address` */
    uint16_t perms;        /* the permissions that a word must have, all of them, or 0 */
    bool needs_permission; /* a word must have some permission */
    bool needs_address;
    bool needs_tag; /* the bit of a word must be set */
    bool sealed;    /* sealed words are found, except sentries */
    bool sentries;  /* sentries are found */
} cheri_cap_query;

/* ---- The library */

/* Returns the version of the library. */
CHERI_CAP_NODISCARD CHERI_CAP_CONST
uint32_t cheri_cap_version(void) CHERI_CAP_NOEXCEPT;

/* Returns the fields of a word. Every word has fields. */
CHERI_CAP_NODISCARD CHERI_CAP_CONST
cheri_cap_fields cheri_cap_unpack(uint64_t high, uint64_t low) CHERI_CAP_NOEXCEPT;

/* Returns the permissions of a word. Every word has them. */
CHERI_CAP_NODISCARD CHERI_CAP_CONST
uint16_t cheri_cap_perms(uint64_t high, uint64_t low) CHERI_CAP_NOEXCEPT;

/* Returns the object type of a word. Every word has one. */
CHERI_CAP_NODISCARD CHERI_CAP_CONST
uint32_t cheri_cap_otype(uint64_t high, uint64_t low) CHERI_CAP_NOEXCEPT;

/* Returns the flag of a word. Every word has one. */
CHERI_CAP_NODISCARD CHERI_CAP_CONST
bool cheri_cap_flag(uint64_t high, uint64_t low) CHERI_CAP_NOEXCEPT;

/*
 * Returns the word of these fields. Bits beyond the width of a field are ignored. For the fields that
 * cheri_cap_unpack returned for a word, the result is this word again.
 */
CHERI_CAP_NODISCARD CHERI_CAP_CONST
cheri_cap_u128 cheri_cap_pack(cheri_cap_fields fields) CHERI_CAP_NOEXCEPT;

/*
 * Returns whether the word is canonical: whether a derivation of this library can return it, sealed
 * or not.
 *
 * Sentries and words of the other reserved types, 0x3fff0 to 0x3fffe, decode like every word, and
 * are not canonical.
 */
CHERI_CAP_NODISCARD CHERI_CAP_CONST
bool cheri_cap_is_canonical(uint64_t high, uint64_t low) CHERI_CAP_NOEXCEPT;

/*
 * Returns CHERI_CAP_DEFECT_NONE, 0, if the word is canonical, and otherwise the first reason why it is
 * not, one of CHERI_CAP_DEFECT_*.
 */
CHERI_CAP_NODISCARD CHERI_CAP_CONST
uint8_t cheri_cap_defect(uint64_t high, uint64_t low) CHERI_CAP_NOEXCEPT;

/*
 * Returns the base, the top and the exponent of a word. Every word decodes.
 *
 * If the word is not canonical, the top may be below the base, or above 2^64 (but below 2^65).
 */
CHERI_CAP_NODISCARD CHERI_CAP_CONST
cheri_cap_bounds cheri_cap_decode(uint64_t high, uint64_t low) CHERI_CAP_NOEXCEPT;

/* Returns the exponent of a word, 0 to 52. Every word has one. */
CHERI_CAP_NODISCARD CHERI_CAP_CONST
uint8_t cheri_cap_exponent(uint64_t high, uint64_t low) CHERI_CAP_NOEXCEPT;

/*
 * Returns the number of bytes in the bounds of any word: the top minus the base, modulo 2^128 if the
 * top is below the base.
 */
CHERI_CAP_NODISCARD CHERI_CAP_CONST
cheri_cap_u128 cheri_cap_word_length(uint64_t high, uint64_t low) CHERI_CAP_NOEXCEPT;

/*
 * Returns the granule of any word in bytes: the unit in which its bounds fields store the ends of
 * bounds. It is 1 if IE is clear, otherwise 2^(exponent + 3).
 */
CHERI_CAP_NODISCARD CHERI_CAP_CONST
uint64_t cheri_cap_word_granule(uint64_t high, uint64_t low) CHERI_CAP_NOEXCEPT;

/*
 * Returns the bounds that a request for [base, base + length) is granted: the tightest that any
 * word can store and that cover the request. The instruction, which takes a word and returns one, is
 * cheri_cap_set_bounds_on.
 *
 * If base + length is above 2^64, `in_range` is false and every other field is zero: no capability
 * has bounds that end above 2^64. (A word that is not canonical can decode to such bounds.)
 */
CHERI_CAP_NODISCARD CHERI_CAP_CONST
cheri_cap_granted cheri_cap_set_bounds(uint64_t base, uint64_t length_high, uint64_t length_low) CHERI_CAP_NOEXCEPT;

/*
 * Returns the numbers of bytes that the bounds of cheri_cap_set_bounds have before and after the
 * requested ones. They are lost to other objects, and are less than a granule at each end.
 *
 * If base + length is above 2^64, `in_range` is false and the numbers are 0.
 */
CHERI_CAP_NODISCARD CHERI_CAP_CONST
cheri_cap_excess cheri_cap_lost(uint64_t base, uint64_t length_high, uint64_t length_low) CHERI_CAP_NOEXCEPT;

/*
 * Returns whether the address is representable for the bounds of the word: whether a capability
 * that stores its bounds as this word does could have this address.
 *
 * Returns false for a word that does not store its bounds as setting bounds stores them. For any
 * other word, returns whether the word with this address as its low half decodes to the same
 * bounds. The permissions, the reserved bits, the flag and the type are ignored.
 */
CHERI_CAP_NODISCARD CHERI_CAP_CONST
bool cheri_cap_represents(uint64_t high, uint64_t low, uint64_t address) CHERI_CAP_NOEXCEPT;

/*
 * Returns whether the word with this address in place of its own decodes to the same bounds, for
 * every word, canonical or not.
 *
 * It does if and only if the address is in the window of the decoded bounds, as every address is at
 * exponents of at least 50. For a word that stores its bounds as setting bounds stores them, such as
 * a canonical one, it returns the same as cheri_cap_represents.
 */
CHERI_CAP_NODISCARD CHERI_CAP_CONST
bool cheri_cap_keeps_bounds(uint64_t high, uint64_t low, uint64_t address) CHERI_CAP_NOEXCEPT;

/*
 * Returns the first and the last address of the window of a word, for every word, canonical or not:
 * of the addresses for which cheri_cap_keeps_bounds returns true.
 *
 * They are those from the first up to the last, through 2^64 - 1 and on from 0 if the last is below
 * the first. At exponents of at least 50, the window is every address: from 0 to 2^64 - 1.
 */
CHERI_CAP_NODISCARD CHERI_CAP_CONST
cheri_cap_ends cheri_cap_window(uint64_t high, uint64_t low) CHERI_CAP_NOEXCEPT;

/*
 * Batch functions. Each writes the result of cheri_cap_decode, cheri_cap_is_canonical or
 * cheri_cap_represents for each word, at the same position as the word, and returns the number of
 * words for which it did so.
 *
 * cheri_cap_represents_many uses the address at that position. Each yes or no is a byte, 1 for true
 * and 0 for false. Each array has its own count: if they differ, the smallest of them applies, and
 * the results past it do not change.
 *
 * Pointers: the pointer to an array of count 0 may be null, and no other. Words, bounds and
 * addresses must be aligned to 8 bytes. The results must not overlap what is read, but words and
 * addresses may overlap each other. The previous contents of the results do not matter.
 */
size_t cheri_cap_decode_many(
    const cheri_cap_u128 *words, size_t word_count, cheri_cap_bounds *bounds, size_t bounds_count) CHERI_CAP_NOEXCEPT;
size_t cheri_cap_is_canonical_many(
    const cheri_cap_u128 *words, size_t word_count, uint8_t *answers, size_t answer_count) CHERI_CAP_NOEXCEPT;
size_t cheri_cap_represents_many(
    const cheri_cap_u128 *words, size_t word_count, const uint64_t *addresses, size_t address_count, uint8_t *answers,
    size_t answer_count) CHERI_CAP_NOEXCEPT;

/*
 * Batch functions on memory. Each does what its namesake, such as cheri_cap_decode_many, does, for
 * the words of memory, 16 bytes each and one after the other, in the byte order of the memory: the
 * low half first unless `big_endian`. Each word is read like cheri_cap_word_from_bytes reads it.
 *
 * Pointers: as of cheri_cap_decode_many, but `memory` may have any alignment. It has
 * 16 * word_count bytes.
 */
size_t cheri_cap_decode_memory(
    const void *memory, size_t word_count, bool big_endian, cheri_cap_bounds *bounds,
    size_t bounds_count) CHERI_CAP_NOEXCEPT;
size_t cheri_cap_is_canonical_memory(
    const void *memory, size_t word_count, bool big_endian, uint8_t *answers, size_t answer_count) CHERI_CAP_NOEXCEPT;
size_t cheri_cap_represents_memory(
    const void *memory, size_t word_count, bool big_endian, const uint64_t *addresses, size_t address_count,
    uint8_t *answers, size_t answer_count) CHERI_CAP_NOEXCEPT;

/*
 * Searches the words of memory for those that can have a tag and that the query wants: writes their
 * positions, in increasing order, until `positions` is full, and returns their number.
 *
 * `next` gets the position of the first word that was not examined: the word after the one whose
 * position was the last to fit, the number of words that can be examined, or 0 if `position_count` is
 * 0. A call with the words from there on continues: its positions count from 0 again, and its
 * `tag_bits` begin with the bit of its first word.
 *
 * A word can have a tag if it is canonical, or a sentry: its type is CHERI_CAP_OTYPE_SENTRY, and it
 * is canonical with CHERI_CAP_OTYPE_UNSEALED in its place. Null and each integer below 2^64 are
 * canonical too, with no permission. So a search without tags should set `needs_permission`, and even
 * then other bytes may be found: 22 in 100 random words are canonical.
 *
 * If the query needs a tag, bit i % 8 of tag_bits[i / 8] is the tag of word i, the lowest bit being
 * bit 0, and only words that have a bit are examined. If not, `tag_bits` is not read. It may be null if
 * its count is 0.
 *
 * Pointers: `query` and `next` must not be null. The others are like those of cheri_cap_decode_memory.
 */
size_t cheri_cap_search_memory(
    const void *memory, size_t word_count, bool big_endian, const uint8_t *tag_bits, size_t tag_byte_count,
    const cheri_cap_query *query, uint64_t *positions, size_t position_count, size_t *next) CHERI_CAP_NOEXCEPT;

/*
 * Batch functions on requests. Each writes the result of cheri_cap_set_bounds, cheri_cap_round_length
 * or cheri_cap_alignment_mask for the length at each position, and returns the number of results.
 *
 * cheri_cap_set_bounds_many uses the base at that position.
 *
 * Pointers and counts: as those of cheri_cap_decode_many.
 */
size_t cheri_cap_set_bounds_many(
    const uint64_t *bases, size_t base_count, const cheri_cap_u128 *lengths, size_t length_count,
    cheri_cap_granted *granted, size_t granted_count) CHERI_CAP_NOEXCEPT;
size_t cheri_cap_round_length_many(
    const cheri_cap_u128 *lengths, size_t length_count, cheri_cap_u128 *rounded,
    size_t rounded_count) CHERI_CAP_NOEXCEPT;
size_t cheri_cap_alignment_mask_many(
    const cheri_cap_u128 *lengths, size_t length_count, uint64_t *masks, size_t mask_count) CHERI_CAP_NOEXCEPT;

/*
 * Sets the bounds of each word of memory to the length at its position, and returns the number of
 * results.
 *
 * It is done by cheri_cap_set_bounds_on, or if `exact` by cheri_cap_set_bounds_exact_on. `made` gets the
 * word, 16 bytes in the byte order of the memory, and `refusals` 0; or 16 zero bytes and the refusal.
 *
 * Pointers and counts: as those of cheri_cap_decode_memory.
 */
size_t cheri_cap_set_bounds_memory(
    const void *memory, size_t word_count, bool big_endian, bool exact, const cheri_cap_u128 *lengths,
    size_t length_count, void *made, size_t made_count, uint8_t *refusals, size_t refusal_count) CHERI_CAP_NOEXCEPT;

/*
 * Returns the granule of a length in bytes: the unit in which the bounds of that many bytes from
 * address 0 are stored.
 *
 * It is 1 below 4096 bytes, otherwise a power of two from 8 to 2^55. It is 0 for a length above
 * 2^64.
 */
CHERI_CAP_NODISCARD CHERI_CAP_CONST
uint64_t cheri_cap_granule(uint64_t length_high, uint64_t length_low) CHERI_CAP_NOEXCEPT;

/*
 * CRRL: returns the representable length, which is the length rounded up to a multiple of its
 * granule, at most 2^64. No exact bounds of at least `length` bytes are shorter.
 *
 * Both halves are all ones for a length above 2^64.
 */
CHERI_CAP_NODISCARD CHERI_CAP_CONST
cheri_cap_u128 cheri_cap_round_length(uint64_t length_high, uint64_t length_low) CHERI_CAP_NOEXCEPT;

/*
 * CRAM: returns the representable alignment mask. An address "and" the mask is the address rounded
 * down to a multiple of the granule.
 *
 * The mask is 0 for a length above 2^64.
 */
CHERI_CAP_NODISCARD CHERI_CAP_CONST
uint64_t cheri_cap_alignment_mask(uint64_t length_high, uint64_t length_low) CHERI_CAP_NOEXCEPT;

/*
 * Reads a word from `length` bytes of text: 32 hexadecimal digits of either case and nothing else.
 *
 * For any other text `found` is false and the halves are 0.
 *
 * Pointers: `text` may be null for length 0. `length` bytes of it are read, at most PTRDIFF_MAX. It
 * needs no terminating NUL.
 */
CHERI_CAP_NODISCARD CHERI_CAP_PURE
cheri_cap_read cheri_cap_read_word(const char *text, size_t length) CHERI_CAP_NOEXCEPT;

/*
 * Writes the 32 hexadecimal digits of a word, in lower case, and no terminating NUL.
 *
 * Pointers: `text` must not be null. 32 bytes of it are written.
 */
void cheri_cap_write_word(uint64_t high, uint64_t low, char *text /* 32 bytes */) CHERI_CAP_NOEXCEPT;

/* Buffer size for the one-line form of any word, including the terminating NUL. */
#define CHERI_CAP_LINE_SIZE 96

/*
 * Writes the one-line form of a word and a terminating NUL, and returns the number of bytes before
 * that NUL.
 *
 * The form is CheriBSD's `%#p`, such as "0x10070 [rwxRW,0x10070-0x12070]": the address,
 * then in brackets the letters of the permissions, the base and the top. LOAD is r, STORE w,
 * EXECUTE x, LOAD_CAP R, STORE_CAP W; the other permissions have no letter. " (sentry)" follows for
 * a sentry, and " (sealed)" for any other type except unsealed, including reserved ones. If
 * `tagged` is false, " (invalid)", " (invalid,sentry)" or " (invalid,sealed)" follows.
 *
 * Every word has a line, canonical or not, by the bounds that it decodes to. The top may be
 * 0x10000000000000000 (2^64). The top of a word that is not canonical may be above 2^64, or below the
 * base. Null without its tag is "0x0 [,0x0-0x10000000000000000] (invalid)".
 *
 * Pointers: `text` must not be null. All CHERI_CAP_LINE_SIZE bytes of it are written: from the end
 * of the line on they are zero bytes.
 */
size_t cheri_cap_format(
    uint64_t high, uint64_t low, bool tagged, char *text /* CHERI_CAP_LINE_SIZE bytes */) CHERI_CAP_NOEXCEPT;

/* ---- The rules of derivation, on words */

/*
 * Each rule accepts any words, and returns the derived word, with refusal 0. If it refuses, it
 * returns no word, and the first of the listed refusals that applies: they are in the order of the
 * checks. CANONICAL comes first if a word is not canonical, and so for every sentry.
 * (cheri_cap_rebuild checks the authority before the word.)
 *
 * A word that a rule returns is canonical, and a subset of the word that it was derived from, as
 * cheri_cap_is_subset compares words. For cheri_cap_rebuild, this is the authority's word. So the
 * word after any number of rules is a subset of the first one.
 *
 * Tags: no function takes or returns one, except the mark of cheri_cap_format. The part after
 * "Tags:" says which tags must be set for the result to have one. If one of them is not set, or if
 * the rule refuses, the result has no tag.
 *
 * Without the checks: if a rule refuses, an instruction may still write a word, without its tag. The
 * part after "Without the checks:" names the function that returns the word with the field changed,
 * whatever the checks say. The ISA text says whether an instruction writes this word, writes another
 * one, or traps.
 *
 * The name of an instruction says which function is for it. Agreement with any instruction is
 * neither proved nor tested here: docs/EMBEDDING.md, "Emulators", lists the places to compare with
 * an ISA text.
 *
 * CSealEntry, CInvoke, CCSeal, CCopyType and jumps have no function here. The word with another
 * type, such as that of a sentry or an unsealed one, is cheri_cap_with_type.
 */

/*
 * CSetAddr: returns the word with another address and the same bounds.
 *
 * Refusals: CANONICAL; SEALED; UNREPRESENTABLE.
 * Tags: the word's.
 * Without the checks: cheri_cap_with_address.
 */
CHERI_CAP_NODISCARD CHERI_CAP_CONST
cheri_cap_made cheri_cap_set_address(uint64_t high, uint64_t low, uint64_t address) CHERI_CAP_NOEXCEPT;

/*
 * CIncOffset: returns the word with `amount` added to its address, modulo 2^64.
 *
 * Refusals: CANONICAL; SEALED; UNREPRESENTABLE.
 * Tags: the word's.
 * Without the checks: cheri_cap_with_address of the sum.
 */
CHERI_CAP_NODISCARD CHERI_CAP_CONST
cheri_cap_made cheri_cap_increment(uint64_t high, uint64_t low, uint64_t amount) CHERI_CAP_NOEXCEPT;

/*
 * CSetBounds: returns the word with the bounds of `length` bytes from its address.
 *
 * Bounds that cannot be stored exactly are rounded outward, but never beyond the word's own bounds.
 * The address, the permissions, the flag and the type do not change. Any length may be requested;
 * one above 2^64 is out of bounds.
 *
 * Refusals: CANONICAL; SEALED; BOUNDS.
 * Tags: the word's.
 * Without the checks: cheri_cap_with_bounds of cheri_cap_set_bounds, if that is in range.
 */
CHERI_CAP_NODISCARD CHERI_CAP_CONST
cheri_cap_made cheri_cap_set_bounds_on(
    uint64_t high, uint64_t low, uint64_t length_high, uint64_t length_low) CHERI_CAP_NOEXCEPT;

/*
 * CSetBoundsExact: returns the word with the bounds of `length` bytes from its address, never
 * rounded.
 *
 * The address does not change. Any length may be requested; one above 2^64 is out of bounds.
 *
 * Refusals: CANONICAL; SEALED; BOUNDS; INEXACT.
 * Tags: the word's.
 * Without the checks: cheri_cap_with_bounds of cheri_cap_set_bounds, if that is in range.
 */
CHERI_CAP_NODISCARD CHERI_CAP_CONST
cheri_cap_made cheri_cap_set_bounds_exact_on(
    uint64_t high, uint64_t low, uint64_t length_high, uint64_t length_low) CHERI_CAP_NOEXCEPT;

/*
 * CAndPerm: returns the word with only those of its permissions that are also in the mask.
 *
 * Refusals: CANONICAL; SEALED.
 * Tags: the word's.
 * Without the checks: cheri_cap_with_perms of the word's permissions "and" the mask.
 */
CHERI_CAP_NODISCARD CHERI_CAP_CONST
cheri_cap_made cheri_cap_and_perms(uint64_t high, uint64_t low, uint16_t mask) CHERI_CAP_NOEXCEPT;

/*
 * CSetFlags: returns the word with this flag.
 *
 * Refusals: CANONICAL; SEALED.
 * Tags: the word's.
 * Without the checks: cheri_cap_with_flag.
 */
CHERI_CAP_NODISCARD CHERI_CAP_CONST
cheri_cap_made cheri_cap_set_flag(uint64_t high, uint64_t low, bool flag) CHERI_CAP_NOEXCEPT;

/*
 * CSeal: returns the word sealed, with the authority's address as its type.
 *
 * Refusals: CANONICAL (either word); SEALED (either word); PERMISSION unless the authority has
 * SEAL; BOUNDS unless its address is in its bounds; TYPE if its address is above
 * CHERI_CAP_OTYPE_LAST_SEALING.
 * Tags: the word's and the authority's.
 * Without the checks: cheri_cap_with_type of the authority's address.
 */
CHERI_CAP_NODISCARD CHERI_CAP_CONST
cheri_cap_made cheri_cap_seal(
    uint64_t high, uint64_t low, uint64_t authority_high, uint64_t authority_low) CHERI_CAP_NOEXCEPT;

/*
 * CUnseal: returns the sealed word unsealed.
 *
 * It keeps GLOBAL only if the word and the authority both have it; all other permissions stay.
 *
 * Refusals: CANONICAL (either word); UNSEALED if the word is not sealed; SEALED if the authority
 * is; PERMISSION unless the authority has UNSEAL; BOUNDS unless its address is in its bounds;
 * MISMATCH unless its address is the word's type.
 * Tags: the word's and the authority's.
 * Without the checks: cheri_cap_with_type of CHERI_CAP_OTYPE_UNSEALED, and cheri_cap_with_perms for
 * GLOBAL.
 */
CHERI_CAP_NODISCARD CHERI_CAP_CONST
cheri_cap_made cheri_cap_unseal(
    uint64_t high, uint64_t low, uint64_t authority_high, uint64_t authority_low) CHERI_CAP_NOEXCEPT;

/*
 * CBuildCap: returns the word again if its capability grants no more than the authority.
 *
 * The authority is the first argument. The word's own tag does not matter: the rule is for words
 * that have none.
 *
 * Refusals: CANONICAL (the authority's word); SEALED (the authority); CANONICAL (the word); EXCEEDS
 * if the word is sealed, its bounds are not within the authority's, or it has a permission that the
 * authority lacks.
 * Tags: the authority's alone.
 * Without the checks: the word.
 */
CHERI_CAP_NODISCARD CHERI_CAP_CONST
cheri_cap_made cheri_cap_rebuild(
    uint64_t authority_high, uint64_t authority_low, uint64_t high, uint64_t low) CHERI_CAP_NOEXCEPT;

/*
 * CTestSubset: returns whether the word grants no more than the outer word.
 *
 * Its base must be at or above the outer base, its top at or below the outer top, and the outer
 * word must have all its permissions. Any two words are compared by the bounds that they decode to.
 * Types, flags and reserved bits are ignored.
 * Tags: none is compared. A caller who needs equal tags compares them too.
 */
CHERI_CAP_NODISCARD CHERI_CAP_CONST
bool cheri_cap_is_subset(uint64_t high, uint64_t low, uint64_t outer_high, uint64_t outer_low) CHERI_CAP_NOEXCEPT;

/* ---- Plain C over the library, without contracts */

/*
 * The upper half of the null mask: the upper half of a word is the upper half of the layout of its
 * fields, exclusive-or this mask.
 */
#define CHERI_CAP_NULL_MASK_HIGH UINT64_C(0x00001ffffc018004)

/* Returns the null word, all zeros. */
CHERI_CAP_NODISCARD CHERI_CAP_CONSTEXPR
static inline cheri_cap_u128 cheri_cap_null(void) CHERI_CAP_NOEXCEPT
{
    cheri_cap_u128 word = {0, 0};
    return word;
}

/* Returns the word of the root: every permission over every address, at address 0. */
CHERI_CAP_NODISCARD CHERI_CAP_CONSTEXPR
static inline cheri_cap_u128 cheri_cap_root(void) CHERI_CAP_NOEXCEPT
{
    cheri_cap_u128 word = {UINT64_C(0xffff000000000000), 0};
    return word;
}

/* Returns the permissions of a word from its upper half, as cheri_cap_perms does, but inline. */
CHERI_CAP_NODISCARD CHERI_CAP_CONSTEXPR
static inline uint16_t cheri_cap_perms_of(uint64_t high) CHERI_CAP_NOEXCEPT
{
    return CHERI_CAP_CAST_(uint16_t, high >> 48);
}

/* Returns the object type of a word from its upper half, as cheri_cap_otype does, but inline. */
CHERI_CAP_NODISCARD CHERI_CAP_CONSTEXPR
static inline uint32_t cheri_cap_otype_of(uint64_t high) CHERI_CAP_NOEXCEPT
{
    return CHERI_CAP_CAST_(uint32_t, (high ^ CHERI_CAP_NULL_MASK_HIGH) >> 27) & 0x3ffffu;
}

/*
 * CGetSealed: returns whether the type is any but unsealed: sealed, a sentry, or another reserved
 * type.
 */
CHERI_CAP_NODISCARD CHERI_CAP_CONSTEXPR
static inline bool cheri_cap_is_sealed(uint64_t high) CHERI_CAP_NOEXCEPT
{
    return cheri_cap_otype_of(high) != CHERI_CAP_OTYPE_UNSEALED;
}

/* Returns whether the type is CHERI_CAP_OTYPE_SENTRY. */
CHERI_CAP_NODISCARD CHERI_CAP_CONSTEXPR
static inline bool cheri_cap_is_sentry(uint64_t high) CHERI_CAP_NOEXCEPT
{
    return cheri_cap_otype_of(high) == CHERI_CAP_OTYPE_SENTRY;
}

/*
 * Compares two numbers in halves, such as tops. Returns a negative number if the one is below the
 * other, 0 if they are equal, and a positive number if the one is above the other.
 */
CHERI_CAP_NODISCARD CHERI_CAP_CONSTEXPR
static inline int cheri_cap_compare(cheri_cap_u128 one, cheri_cap_u128 other) CHERI_CAP_NOEXCEPT
{
    if (one.high != other.high)
        return one.high < other.high ? -1 : 1;
    return (one.low > other.low) - (one.low < other.low);
}

/* Returns the top of bounds. `bounds` must not be null. */
CHERI_CAP_NODISCARD CHERI_CAP_CONSTEXPR
static inline cheri_cap_u128 cheri_cap_top(const cheri_cap_bounds *bounds) CHERI_CAP_NOEXCEPT
{
    cheri_cap_u128 top = {bounds->top_high, bounds->top_low};
    return top;
}

/*
 * Returns the length of bounds in bytes: the top minus the base, modulo 2^128 if the top is below
 * the base.
 *
 * `bounds` must not be null. For a length of 2^64 the high half is 1 and the low half is 0, and what
 * CGetLen writes into a register of 64 bits is for its ISA text to say.
 */
CHERI_CAP_NODISCARD CHERI_CAP_CONSTEXPR
static inline cheri_cap_u128 cheri_cap_length(const cheri_cap_bounds *bounds) CHERI_CAP_NOEXCEPT
{
    cheri_cap_u128 length = {bounds->top_high - (bounds->top_low < bounds->base), bounds->top_low - bounds->base};
    return length;
}

/*
 * CGetOffset: returns the offset of an address in bounds, in bytes, modulo 2^64. `bounds` must not
 * be null.
 */
CHERI_CAP_NODISCARD CHERI_CAP_CONSTEXPR
static inline uint64_t cheri_cap_offset(const cheri_cap_bounds *bounds, uint64_t address) CHERI_CAP_NOEXCEPT
{
    return address - bounds->base;
}

/* Returns a half with its bytes in reverse order. */
CHERI_CAP_NODISCARD CHERI_CAP_CONSTEXPR
static inline uint64_t cheri_cap_swapped(uint64_t half) CHERI_CAP_NOEXCEPT
{
    half = (half & UINT64_C(0x00ff00ff00ff00ff)) << 8 | (half >> 8 & UINT64_C(0x00ff00ff00ff00ff));
    half = (half & UINT64_C(0x0000ffff0000ffff)) << 16 | (half >> 16 & UINT64_C(0x0000ffff0000ffff));
    return half << 32 | half >> 32;
}

/* Returns whether this processor is big-endian. */
CHERI_CAP_NODISCARD
static inline bool cheri_cap_is_big_endian(void) CHERI_CAP_NOEXCEPT
{
    const uint16_t one = 1;
    uint8_t first;
    memcpy(&first, &one, 1);
    return first == 0;
}

/*
 * Returns the word of 16 bytes of memory, in the byte order of the memory. `bytes` must not be
 * null.
 */
CHERI_CAP_NODISCARD
static inline cheri_cap_u128 cheri_cap_word_from_bytes(const uint8_t bytes[16], bool big_endian) CHERI_CAP_NOEXCEPT
{
    uint64_t halves[2];
    cheri_cap_u128 word;
    memcpy(halves, bytes, sizeof halves);
    word.high = halves[big_endian ? 0 : 1];
    word.low = halves[big_endian ? 1 : 0];
    if (big_endian != cheri_cap_is_big_endian()) {
        word.high = cheri_cap_swapped(word.high);
        word.low = cheri_cap_swapped(word.low);
    }
    return word;
}

/*
 * Writes a word as 16 bytes of memory, in the byte order of the memory. `bytes` must not be null.
 */
static inline void cheri_cap_word_to_bytes(cheri_cap_u128 word, uint8_t bytes[16], bool big_endian) CHERI_CAP_NOEXCEPT
{
    uint64_t halves[2];
    if (big_endian != cheri_cap_is_big_endian()) {
        word.high = cheri_cap_swapped(word.high);
        word.low = cheri_cap_swapped(word.low);
    }
    halves[big_endian ? 0 : 1] = word.high;
    halves[big_endian ? 1 : 0] = word.low;
    memcpy(bytes, halves, sizeof halves);
}

/*
 * Returns the name of a refusal, one token in lower case. It is an empty string for 0 and for a
 * number that no rule returns.
 */
CHERI_CAP_NODISCARD
static inline const char *cheri_cap_refusal_name(uint8_t refusal) CHERI_CAP_NOEXCEPT
{
    static const char *const names[] = {
        "sealed", "unsealed", "bounds", "inexact", "unrepresentable", "permission", "type", "mismatch", "canonical", "exceeds",
    };
    return refusal >= 7 && refusal <= 16 ? names[refusal - 7] : "";
}

/*
 * Returns whether the bounds contain the byte at the address. `bounds` must not be null.
 *
 * For an access of several bytes, call cheri_cap_bounds_hold_bytes.
 */
CHERI_CAP_NODISCARD CHERI_CAP_CONSTEXPR
static inline bool cheri_cap_bounds_hold(const cheri_cap_bounds *bounds, uint64_t address) CHERI_CAP_NOEXCEPT
{
    return bounds->base <= address && (bounds->top_high != 0 || address < bounds->top_low);
}

/*
 * Returns whether the bounds contain an access of `size` bytes from the address: whether the base
 * is at most the address, and address + size at most the top.
 *
 * Returns false if an access would wrap around past address 2^64 - 1, whatever the top is. With a
 * size of 0, the address may be the top. `bounds` must not be null.
 */
CHERI_CAP_NODISCARD CHERI_CAP_CONSTEXPR
static inline bool cheri_cap_bounds_hold_bytes(
    const cheri_cap_bounds *bounds, uint64_t address, uint64_t size) CHERI_CAP_NOEXCEPT
{
    if (bounds->base > address)
        return false;
    if (size > UINT64_MAX - address) /* the access ends at 2^64 or wraps around */
        return size - 1 == UINT64_MAX - address && bounds->top_high != 0;
    return bounds->top_high != 0 || address + size <= bounds->top_low;
}

/*
 * CSetOffset: returns the word with its base plus `offset`, modulo 2^64, as its address.
 *
 * Refusals: CANONICAL; SEALED; UNREPRESENTABLE.
 * Tags: the word's.
 * Without the checks: cheri_cap_with_address of the sum.
 */
CHERI_CAP_NODISCARD
static inline cheri_cap_made cheri_cap_set_offset(uint64_t high, uint64_t low, uint64_t offset) CHERI_CAP_NOEXCEPT
{
    return cheri_cap_set_address(high, low, cheri_cap_decode(high, low).base + offset);
}

/*
 * The functions cheri_cap_with_* return a word with one field changed, and check nothing. They
 * accept every word, and all other bits stay. The result may decode to other bounds or grant more
 * than the word did, so it has no tag. An exception is the type of a sentry, if an ISA text says
 * that an instruction keeps the tag: CHERI_CAP_OTYPE_SENTRY for CSealEntry, and
 * CHERI_CAP_OTYPE_UNSEALED for a jump through one.
 */

/* Returns the word with this address. */
CHERI_CAP_NODISCARD CHERI_CAP_CONSTEXPR
static inline cheri_cap_u128 cheri_cap_with_address(uint64_t high, uint64_t low, uint64_t address) CHERI_CAP_NOEXCEPT
{
    cheri_cap_u128 word = {high, address};
    (void)low;
    return word;
}

/* Returns the word with these permissions. */
CHERI_CAP_NODISCARD CHERI_CAP_CONSTEXPR
static inline cheri_cap_u128 cheri_cap_with_perms(uint64_t high, uint64_t low, uint16_t perms) CHERI_CAP_NOEXCEPT
{
    cheri_cap_u128 word = {(high & UINT64_C(0x0000ffffffffffff)) | CHERI_CAP_CAST_(uint64_t, perms) << 48, low};
    return word;
}

/* Returns the word with this flag. */
CHERI_CAP_NODISCARD CHERI_CAP_CONSTEXPR
static inline cheri_cap_u128 cheri_cap_with_flag(uint64_t high, uint64_t low, bool flag) CHERI_CAP_NOEXCEPT
{
    cheri_cap_u128 word = {(high & ~(UINT64_C(1) << 45)) | CHERI_CAP_CAST_(uint64_t, flag) << 45, low};
    return word;
}

/* Returns the word with this object type. Bits above the low 18 are ignored. */
CHERI_CAP_NODISCARD CHERI_CAP_CONSTEXPR
static inline cheri_cap_u128 cheri_cap_with_type(uint64_t high, uint64_t low, uint64_t otype) CHERI_CAP_NOEXCEPT
{
    const uint64_t mask = UINT64_C(0x3ffff) << 27;
    cheri_cap_u128 word = {(high & ~mask) | (((otype & 0x3ffffu) << 27 ^ CHERI_CAP_NULL_MASK_HIGH) & mask), low};
    return word;
}

/*
 * Returns the word with the bounds fields `t`, `b` and `ie` of a granted request, by their low 12,
 * 14 and 1 bits. The other members are ignored.
 *
 * The request should be for bytes from the word's address: at a distant address, the same fields
 * may decode to other bounds. If `in_range` is false there are no fields to store: an emulator whose
 * ISA text has them for a request past 2^64 puts them into a cheri_cap_granted. `granted` must not
 * be null.
 */
CHERI_CAP_NODISCARD CHERI_CAP_CONSTEXPR
static inline cheri_cap_u128 cheri_cap_with_bounds(
    uint64_t high, uint64_t low, const cheri_cap_granted *granted) CHERI_CAP_NOEXCEPT
{
    const uint64_t mask = UINT64_C(0x7ffffff), t = granted->t & 0xfffu, b = granted->b & 0x3fffu;
    const uint64_t fields = CHERI_CAP_CAST_(uint64_t, granted->ie) << 26 | t << 14 | b;
    cheri_cap_u128 word = {(high & ~mask) | ((fields ^ CHERI_CAP_NULL_MASK_HIGH) & mask), low};
    return word;
}

/*
 * Null for an empty array. The functions of the library have references to their arrays, and no
 * reference is null. So each call of a batch function or of cheri_cap_read_word is a call of the
 * function below that has its name and an underscore. It returns the result for an empty array
 * itself, and calls the library for any other. A program that finds a function of the library by its
 * name, as dlsym does, must not pass null.
 */
static inline size_t cheri_cap_decode_many_(
    const cheri_cap_u128 *words, size_t word_count, cheri_cap_bounds *bounds, size_t bounds_count) CHERI_CAP_NOEXCEPT
{
    return word_count == 0 || bounds_count == 0 ? 0 : cheri_cap_decode_many(words, word_count, bounds, bounds_count);
}

static inline size_t cheri_cap_is_canonical_many_(
    const cheri_cap_u128 *words, size_t word_count, uint8_t *answers, size_t answer_count) CHERI_CAP_NOEXCEPT
{
    return word_count == 0 || answer_count == 0 ? 0 : cheri_cap_is_canonical_many(words, word_count, answers, answer_count);
}

static inline size_t cheri_cap_represents_many_(
    const cheri_cap_u128 *words, size_t word_count, const uint64_t *addresses, size_t address_count, uint8_t *answers,
    size_t answer_count) CHERI_CAP_NOEXCEPT
{
    return word_count == 0 || address_count == 0 || answer_count == 0
        ? 0
        : cheri_cap_represents_many(words, word_count, addresses, address_count, answers, answer_count);
}

static inline size_t cheri_cap_decode_memory_(
    const void *memory, size_t word_count, bool big_endian, cheri_cap_bounds *bounds,
    size_t bounds_count) CHERI_CAP_NOEXCEPT
{
    return word_count == 0 || bounds_count == 0
        ? 0
        : cheri_cap_decode_memory(memory, word_count, big_endian, bounds, bounds_count);
}

static inline size_t cheri_cap_is_canonical_memory_(
    const void *memory, size_t word_count, bool big_endian, uint8_t *answers, size_t answer_count) CHERI_CAP_NOEXCEPT
{
    return word_count == 0 || answer_count == 0
        ? 0
        : cheri_cap_is_canonical_memory(memory, word_count, big_endian, answers, answer_count);
}

static inline size_t cheri_cap_represents_memory_(
    const void *memory, size_t word_count, bool big_endian, const uint64_t *addresses, size_t address_count,
    uint8_t *answers, size_t answer_count) CHERI_CAP_NOEXCEPT
{
    return word_count == 0 || address_count == 0 || answer_count == 0
        ? 0
        : cheri_cap_represents_memory(memory, word_count, big_endian, addresses, address_count, answers, answer_count);
}

static inline size_t cheri_cap_search_memory_(
    const void *memory, size_t word_count, bool big_endian, const uint8_t *tag_bits, size_t tag_byte_count,
    const cheri_cap_query *query, uint64_t *positions, size_t position_count, size_t *next) CHERI_CAP_NOEXCEPT
{
    *next = 0;
    if (word_count == 0 || position_count == 0 || (query->needs_tag && tag_byte_count == 0))
        return 0;
    if (tag_byte_count == 0)
        tag_bits = CHERI_CAP_CAST_(const uint8_t *, memory);
    return cheri_cap_search_memory(
        memory, word_count, big_endian, tag_bits, tag_byte_count, query, positions, position_count, next);
}

static inline size_t cheri_cap_set_bounds_many_(
    const uint64_t *bases, size_t base_count, const cheri_cap_u128 *lengths, size_t length_count,
    cheri_cap_granted *granted, size_t granted_count) CHERI_CAP_NOEXCEPT
{
    return base_count == 0 || length_count == 0 || granted_count == 0
        ? 0
        : cheri_cap_set_bounds_many(bases, base_count, lengths, length_count, granted, granted_count);
}

static inline size_t cheri_cap_round_length_many_(
    const cheri_cap_u128 *lengths, size_t length_count, cheri_cap_u128 *rounded, size_t rounded_count) CHERI_CAP_NOEXCEPT
{
    return length_count == 0 || rounded_count == 0
        ? 0
        : cheri_cap_round_length_many(lengths, length_count, rounded, rounded_count);
}

static inline size_t cheri_cap_alignment_mask_many_(
    const cheri_cap_u128 *lengths, size_t length_count, uint64_t *masks, size_t mask_count) CHERI_CAP_NOEXCEPT
{
    return length_count == 0 || mask_count == 0
        ? 0
        : cheri_cap_alignment_mask_many(lengths, length_count, masks, mask_count);
}

static inline size_t cheri_cap_set_bounds_memory_(
    const void *memory, size_t word_count, bool big_endian, bool exact, const cheri_cap_u128 *lengths,
    size_t length_count, void *made, size_t made_count, uint8_t *refusals, size_t refusal_count) CHERI_CAP_NOEXCEPT
{
    return word_count == 0 || length_count == 0 || made_count == 0 || refusal_count == 0
        ? 0
        : cheri_cap_set_bounds_memory(
            memory, word_count, big_endian, exact, lengths, length_count, made, made_count, refusals, refusal_count);
}

CHERI_CAP_NODISCARD CHERI_CAP_PURE
static inline cheri_cap_read cheri_cap_read_word_(const char *text, size_t length) CHERI_CAP_NOEXCEPT
{
    cheri_cap_read none = {0, 0, false};
    return length == 0 ? none : cheri_cap_read_word(text, length);
}

#define cheri_cap_decode_many cheri_cap_decode_many_
#define cheri_cap_is_canonical_many cheri_cap_is_canonical_many_
#define cheri_cap_represents_many cheri_cap_represents_many_
#define cheri_cap_decode_memory cheri_cap_decode_memory_
#define cheri_cap_is_canonical_memory cheri_cap_is_canonical_memory_
#define cheri_cap_represents_memory cheri_cap_represents_memory_
#define cheri_cap_search_memory cheri_cap_search_memory_
#define cheri_cap_set_bounds_many cheri_cap_set_bounds_many_
#define cheri_cap_round_length_many cheri_cap_round_length_many_
#define cheri_cap_alignment_mask_many cheri_cap_alignment_mask_many_
#define cheri_cap_set_bounds_memory cheri_cap_set_bounds_memory_
#define cheri_cap_read_word cheri_cap_read_word_

#ifdef __GNUC__
#pragma GCC diagnostic pop
#endif

#ifdef __cplusplus
}
#endif

#endif
