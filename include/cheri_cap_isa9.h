/*
 * cheri_cap_isa9.h: the capability instructions of CHERI-RISC-V, ISA version 9, one function for each. C11 and C++17.
 *
 * A register is a word and its tag, cheri_isa9_cap. A function has the name of its instruction in lower case, takes the
 * operands in the order of the instruction, and returns what the instruction writes. If a check fails, that is the word
 * that the instruction writes without a tag. An instruction that traps returns its cause.
 *
 * This is plain C over the functions of cheri_cap.h, which no proof covers. It is written without the text of the
 * ISA, UCAM-CL-TR-987, at hand. "Compare:" names what the author of an emulator must compare with that text.
 *
 * Tags: "Tag:" says when a result has a tag. It holds for each tagged word that is canonical or a sentry, as it is if
 * each tag comes from these functions, from the root, and from memory that holds what they returned. Compare: from
 * another tagged word, such as one of broken memory, the rules of the library give no tag, as if it were sealed.
 *
 * Register 0: where an instruction reads the default data capability in place of it, the caller passes that. So do
 * CBuildCap, CFromPtr and CTestSubset for cs1, and CToPtr for cs2.
 */
#ifndef CHERI_CAP_ISA9_H
#define CHERI_CAP_ISA9_H

#include "cheri_cap.h"

#ifdef __cplusplus
extern "C" {
#endif

#ifdef __GNUC__
#pragma GCC diagnostic push
#pragma GCC diagnostic ignored "-Wpadded"
#endif

/*
 * Defined as 1 before the include: a tagged word is taken to be canonical or a sentry, and the functions on addresses,
 * permissions, flags and types do not check that. They compute "Tag:" by cheri_cap_keeps_bounds and cheri_cap_decode, in
 * place of the rules of the library, which takes less time. For such words each returns the same in both ways.
 * CSetBounds and CBuildCap call the rules in both ways, since most of their time is for the bounds.
 */
#ifndef CHERI_ISA9_TRUST_TAGS
#define CHERI_ISA9_TRUST_TAGS 0
#endif

/*
 * Defined as 1 before the include: CIncOffset, CSetOffset and CFromPtr also clear the tag if cheri_isa9_is_fast returns
 * false, as it does for some representable addresses. Otherwise their check is exact, as that of CSetAddr is.
 */
#ifndef CHERI_ISA9_FAST_CHECK
#define CHERI_ISA9_FAST_CHECK 0
#endif

#define CHERI_ISA9_INLINE_ CHERI_CAP_NODISCARD static inline

/* The causes of a trap. 0 means that there is none. */
#define CHERI_ISA9_LENGTH 0x01u
#define CHERI_ISA9_TAG 0x02u
#define CHERI_ISA9_SEAL 0x03u
#define CHERI_ISA9_TYPE 0x04u
#define CHERI_ISA9_PERMIT_EXECUTE 0x11u
#define CHERI_ISA9_PERMIT_LOAD 0x12u
#define CHERI_ISA9_PERMIT_STORE 0x13u
#define CHERI_ISA9_PERMIT_STORE_CAP 0x15u
#define CHERI_ISA9_PERMIT_STORE_LOCAL_CAP 0x16u
#define CHERI_ISA9_PERMIT_CINVOKE 0x19u

/* A word and its tag. */
typedef struct cheri_isa9_cap {
    cheri_cap_u128 word;
    bool tag;
} cheri_isa9_cap;

/* The result of a jump. After a trap, only the cause and the operand count, and nothing is written. */
typedef struct cheri_isa9_jump {
    cheri_isa9_cap pcc;  /* the next one, with the next instruction as its address */
    cheri_isa9_cap also; /* the link of CJALR, for cd; the data of CInvoke, for register 31 */
    uint8_t cause;       /* 0, or the cause of the trap */
    uint8_t operand;     /* 1 or 2: the source register that the cause is about */
} cheri_isa9_jump;

/* ---- Registers */

/* Returns a word with this tag. */
CHERI_ISA9_INLINE_ cheri_isa9_cap cheri_isa9_of(cheri_cap_u128 word, bool tag) CHERI_CAP_NOEXCEPT
{
    cheri_isa9_cap cap = {word, tag};
    return cap;
}

/* Returns the register of an integer: null with this address. */
CHERI_ISA9_INLINE_ cheri_isa9_cap cheri_isa9_integer(uint64_t number) CHERI_CAP_NOEXCEPT
{
    return cheri_isa9_of(cheri_cap_with_address(0, 0, number), false);
}

/* Returns the root with its tag. */
CHERI_ISA9_INLINE_ cheri_isa9_cap cheri_isa9_root(void) CHERI_CAP_NOEXCEPT
{
    return cheri_isa9_of(cheri_cap_root(), true);
}

/* Returns the word of a rule with this tag, or the other word without a tag if the rule refused. */
CHERI_ISA9_INLINE_ cheri_isa9_cap cheri_isa9_made(cheri_cap_made made, bool tag, cheri_cap_u128 other) CHERI_CAP_NOEXCEPT
{
    if (made.refusal == 0) {
        other.high = made.high;
        other.low = made.low;
    }
    return cheri_isa9_of(other, tag && made.refusal == 0);
}

/* Returns another word, with the tag of a capability if that is unsealed. */
CHERI_ISA9_INLINE_ cheri_isa9_cap cheri_isa9_unsealed(cheri_isa9_cap cap, cheri_cap_u128 word) CHERI_CAP_NOEXCEPT
{
    return cheri_isa9_of(word, cap.tag && !cheri_cap_is_sealed(cap.word.high));
}

/* Returns a capability with this type, and with its tag if `keeps`. */
CHERI_ISA9_INLINE_ cheri_isa9_cap cheri_isa9_typed(cheri_isa9_cap cap, uint64_t otype, bool keeps) CHERI_CAP_NOEXCEPT
{
    return cheri_isa9_of(cheri_cap_with_type(cap.word.high, cap.word.low, otype), cap.tag && keeps);
}

/* Returns the bounds of a capability. */
CHERI_ISA9_INLINE_ cheri_cap_bounds cheri_isa9_bounds(cheri_isa9_cap cap) CHERI_CAP_NOEXCEPT
{
    return cheri_cap_decode(cap.word.high, cap.word.low);
}

/* Returns whether a capability has all permissions of the mask. */
CHERI_ISA9_INLINE_ bool cheri_isa9_has(cheri_isa9_cap cap, unsigned perms) CHERI_CAP_NOEXCEPT
{
    return (cheri_cap_perms_of(cap.word.high) & perms) == perms;
}

/* Returns whether the type is one that sealing does not give, such as unsealed. Compare: which types these are. */
CHERI_ISA9_INLINE_ bool cheri_isa9_has_reserved_type(cheri_isa9_cap cap) CHERI_CAP_NOEXCEPT
{
    return cheri_cap_otype_of(cap.word.high) > CHERI_CAP_OTYPE_LAST_SEALING;
}

/* Returns permissions as registers have them: those of hardware at bits 0 to 11, those of users at 15 to 18. */
CHERI_ISA9_INLINE_ uint64_t cheri_isa9_perms_to_register(uint16_t perms) CHERI_CAP_NOEXCEPT
{
    return (perms & 0xfffu) | CHERI_CAP_CAST_(uint64_t, perms >> 12) << 15;
}

/* Returns the permissions of a register, whose other bits are ignored. */
CHERI_ISA9_INLINE_ uint16_t cheri_isa9_perms_from_register(uint64_t number) CHERI_CAP_NOEXCEPT
{
    return CHERI_CAP_CAST_(uint16_t, (number & 0xfffu) | (number >> 15 & 0xfu) << 12);
}

/* ---- Instructions that read a capability */

/* CGetPerm: the permissions, by cheri_isa9_perms_to_register. */
CHERI_ISA9_INLINE_ uint64_t cheri_isa9_cgetperm(cheri_isa9_cap cs1) CHERI_CAP_NOEXCEPT
{
    return cheri_isa9_perms_to_register(cheri_cap_perms_of(cs1.word.high));
}

/* CGetType: the type. A reserved one is extended by its sign: -1 for unsealed, -2 for a sentry. */
CHERI_ISA9_INLINE_ uint64_t cheri_isa9_cgettype(cheri_isa9_cap cs1) CHERI_CAP_NOEXCEPT
{
    const uint64_t otype = cheri_cap_otype_of(cs1.word.high);
    return cheri_isa9_has_reserved_type(cs1) ? otype | ~UINT64_C(0x3ffff) : otype;
}

/* CGetBase: the base. */
CHERI_ISA9_INLINE_ uint64_t cheri_isa9_cgetbase(cheri_isa9_cap cs1) CHERI_CAP_NOEXCEPT
{
    return cheri_isa9_bounds(cs1).base;
}

/* CGetTop: the top, at most 2^64 - 1. Compare: whether your version has this instruction, and its limit. */
CHERI_ISA9_INLINE_ uint64_t cheri_isa9_cgettop(cheri_isa9_cap cs1) CHERI_CAP_NOEXCEPT
{
    const cheri_cap_bounds bounds = cheri_isa9_bounds(cs1);
    return bounds.top_high != 0 ? UINT64_MAX : bounds.top_low;
}

/* CGetLen: the length, at most 2^64 - 1, which is also that of a top below the base. */
CHERI_ISA9_INLINE_ uint64_t cheri_isa9_cgetlen(cheri_isa9_cap cs1) CHERI_CAP_NOEXCEPT
{
    const cheri_cap_u128 length = cheri_cap_word_length(cs1.word.high, cs1.word.low);
    return length.high != 0 ? UINT64_MAX : length.low;
}

/* CGetTag: the tag. */
CHERI_ISA9_INLINE_ uint64_t cheri_isa9_cgettag(cheri_isa9_cap cs1) CHERI_CAP_NOEXCEPT
{
    return cs1.tag;
}

/* CGetSealed: whether the type is any but unsealed. */
CHERI_ISA9_INLINE_ uint64_t cheri_isa9_cgetsealed(cheri_isa9_cap cs1) CHERI_CAP_NOEXCEPT
{
    return cheri_cap_is_sealed(cs1.word.high);
}

/* CGetOffset: the address minus the base, modulo 2^64. */
CHERI_ISA9_INLINE_ uint64_t cheri_isa9_cgetoffset(cheri_isa9_cap cs1) CHERI_CAP_NOEXCEPT
{
    return cs1.word.low - cheri_isa9_bounds(cs1).base;
}

/* CGetFlags: the flag. */
CHERI_ISA9_INLINE_ uint64_t cheri_isa9_cgetflags(cheri_isa9_cap cs1) CHERI_CAP_NOEXCEPT
{
    return cs1.word.high >> 45 & 1;
}

/* CGetAddr: the address. */
CHERI_ISA9_INLINE_ uint64_t cheri_isa9_cgetaddr(cheri_isa9_cap cs1) CHERI_CAP_NOEXCEPT
{
    return cs1.word.low;
}

/* CGetHigh: the upper half, in its form in memory. Compare: whether your version has CGetHigh and CSetHigh. */
CHERI_ISA9_INLINE_ uint64_t cheri_isa9_cgethigh(cheri_isa9_cap cs1) CHERI_CAP_NOEXCEPT
{
    return cs1.word.high;
}

/* ---- Instructions that write a capability */

/* CMove: cs1. Tag: cs1's. */
CHERI_ISA9_INLINE_ cheri_isa9_cap cheri_isa9_cmove(cheri_isa9_cap cs1) CHERI_CAP_NOEXCEPT
{
    return cs1;
}

/* CClearTag: cs1. Tag: none. */
CHERI_ISA9_INLINE_ cheri_isa9_cap cheri_isa9_ccleartag(cheri_isa9_cap cs1) CHERI_CAP_NOEXCEPT
{
    return cheri_isa9_of(cs1.word, false);
}

/* CSetHigh: cs1 with the upper half rs2, in its form in memory. Tag: none. */
CHERI_ISA9_INLINE_ cheri_isa9_cap cheri_isa9_csethigh(cheri_isa9_cap cs1, uint64_t rs2) CHERI_CAP_NOEXCEPT
{
    cs1.word.high = rs2;
    return cheri_isa9_of(cs1.word, false);
}

/* CAndPerm: cs1 with those of its permissions that rs2 has. Tag: cs1's, if it is unsealed. */
CHERI_ISA9_INLINE_ cheri_isa9_cap cheri_isa9_candperm(cheri_isa9_cap cs1, uint64_t rs2) CHERI_CAP_NOEXCEPT
{
    const uint16_t mask = cheri_isa9_perms_from_register(rs2);
    const uint16_t kept = CHERI_CAP_CAST_(uint16_t, cheri_cap_perms_of(cs1.word.high) & mask);
    const cheri_cap_u128 word = cheri_cap_with_perms(cs1.word.high, cs1.word.low, kept);
    if (CHERI_ISA9_TRUST_TAGS)
        return cheri_isa9_unsealed(cs1, word);
    return cheri_isa9_made(cheri_cap_and_perms(cs1.word.high, cs1.word.low, mask), cs1.tag, word);
}

/* CSetFlags: cs1 with bit 0 of rs2 as its flag. Tag: cs1's, if it is unsealed. */
CHERI_ISA9_INLINE_ cheri_isa9_cap cheri_isa9_csetflags(cheri_isa9_cap cs1, uint64_t rs2) CHERI_CAP_NOEXCEPT
{
    const bool flag = (rs2 & 1) != 0;
    const cheri_cap_u128 word = cheri_cap_with_flag(cs1.word.high, cs1.word.low, flag);
    if (CHERI_ISA9_TRUST_TAGS)
        return cheri_isa9_unsealed(cs1, word);
    return cheri_isa9_made(cheri_cap_set_flag(cs1.word.high, cs1.word.low, flag), cs1.tag, word);
}

/* CSetAddr: cs1 at the address rs2. Tag: cs1's, if it is unsealed and decodes to the same bounds there. */
CHERI_ISA9_INLINE_ cheri_isa9_cap cheri_isa9_csetaddr(cheri_isa9_cap cs1, uint64_t rs2) CHERI_CAP_NOEXCEPT
{
    const cheri_cap_u128 word = cheri_cap_with_address(cs1.word.high, cs1.word.low, rs2);
    if (CHERI_ISA9_TRUST_TAGS) {
        cs1.tag = cs1.tag && cheri_cap_keeps_bounds(cs1.word.high, cs1.word.low, rs2);
        return cheri_isa9_unsealed(cs1, word);
    }
    return cheri_isa9_made(cheri_cap_set_address(cs1.word.high, cs1.word.low, rs2), cs1.tag, word);
}

/* AUIPCC: the program counter at the sum that the instruction computes. Tag: that of CSetAddr. */
CHERI_ISA9_INLINE_ cheri_isa9_cap cheri_isa9_auipcc(cheri_isa9_cap pcc, uint64_t sum) CHERI_CAP_NOEXCEPT
{
    return cheri_isa9_csetaddr(pcc, sum);
}

/*
 * Returns whether the address plus `amount` passes the fast check of representable addresses, that of Woodruff et al.,
 * CHERI Concentrate (2019), which no proof covers. It adds whole units of 2^E bytes without a carry from their
 * remainders. So it refuses the last unit of the window for amounts from 0 on, and the first unit for negative amounts
 * with a carry. Each address that passes is representable.
 *
 * Compare: whether CIncOffset, CSetOffset and CFromPtr use it in your version, and CSetAddr and AUIPCC do not.
 */
CHERI_ISA9_INLINE_ bool cheri_isa9_is_fast(cheri_isa9_cap cap, uint64_t amount) CHERI_CAP_NOEXCEPT
{
    const unsigned exponent = cheri_cap_exponent(cap.word.high, cap.word.low);
    const uint64_t mask = 0x3fff, base = cap.word.high ^ CHERI_CAP_NULL_MASK_HIGH;
    const uint64_t limit = (base - 0x800) & 0x3800;               /* where the window begins, in units */
    const uint64_t left = (limit - (cap.word.low >> exponent)) & mask; /* from the address to its end */
    const uint64_t units = amount >> exponent & mask;
    if (exponent >= 50)
        return true;
    if (amount >> exponent >> 14 == 0)
        return units < ((left - 1) & mask);
    return ~amount >> exponent >> 14 == 0 && units >= left && left != 0;
}

/* Returns a capability at another address. Tag: that of CSetAddr, by the fast check too if CHERI_ISA9_FAST_CHECK is 1. */
CHERI_ISA9_INLINE_ cheri_isa9_cap cheri_isa9_moved(cheri_isa9_cap cap, uint64_t address) CHERI_CAP_NOEXCEPT
{
    const bool passes = !CHERI_ISA9_FAST_CHECK || cheri_isa9_is_fast(cap, address - cap.word.low);
    cap = cheri_isa9_csetaddr(cap, address);
    return cheri_isa9_of(cap.word, cap.tag && passes);
}

/* CIncOffset: cs1 with rs2 added to its address. CIncOffsetImm: extend the number by its sign. Tag: cheri_isa9_moved. */
CHERI_ISA9_INLINE_ cheri_isa9_cap cheri_isa9_cincoffset(cheri_isa9_cap cs1, uint64_t rs2) CHERI_CAP_NOEXCEPT
{
    return cheri_isa9_moved(cs1, cs1.word.low + rs2);
}

/* CSetOffset: cs1 at its base plus rs2. Tag: cheri_isa9_moved. */
CHERI_ISA9_INLINE_ cheri_isa9_cap cheri_isa9_csetoffset(cheri_isa9_cap cs1, uint64_t rs2) CHERI_CAP_NOEXCEPT
{
    return cheri_isa9_moved(cs1, cheri_isa9_bounds(cs1).base + rs2);
}

/*
 * Returns the bounds fields for [base, base + length), also if that ends above 2^64. Only `t`, `b`, `ie` and `exponent`
 * count. Up to 2^64 they equal those of cheri_cap_set_bounds. Compare: those of longer requests.
 *
 * A short request has the same fields 2^63 bytes further down. For a long one, all numbers are divided by 2.
 */
CHERI_ISA9_INLINE_ cheri_cap_granted cheri_isa9_fields(uint64_t base, uint64_t length) CHERI_CAP_NOEXCEPT
{
    cheri_cap_granted half;
    if (length >> 60 == 0)
        return cheri_cap_set_bounds(base & (UINT64_MAX >> 1), 0, length);
    half = cheri_cap_set_bounds(base >> 1, 0, (length >> 1) + ((base | length) & 1));
    half.exponent++;
    half.t = CHERI_CAP_CAST_(uint16_t, (half.t & 0xff8u) | half.exponent >> 3);
    half.b = CHERI_CAP_CAST_(uint16_t, (half.b & 0x3ff8u) | (half.exponent & 7u));
    return half;
}

/* Returns the word of a rule on bounds with the tag of `cap`, or `cap` with the fields of [address, address + length). */
CHERI_ISA9_INLINE_ cheri_isa9_cap cheri_isa9_bounded(cheri_isa9_cap cap, cheri_cap_made made, uint64_t length) CHERI_CAP_NOEXCEPT
{
    cheri_cap_granted fields;
    if (made.refusal == 0)
        return cheri_isa9_made(made, cap.tag, cap.word);
    fields = cheri_isa9_fields(cap.word.low, length);
    return cheri_isa9_of(cheri_cap_with_bounds(cap.word.high, cap.word.low, &fields), false);
}

/*
 * CSetBounds: cs1 with the bounds that a request for rs2 bytes from its address is granted. CSetBoundsImm: extend the
 * number by zeros. Tag: cs1's, if it is unsealed and the request is within its bounds.
 */
CHERI_ISA9_INLINE_ cheri_isa9_cap cheri_isa9_csetbounds(cheri_isa9_cap cs1, uint64_t rs2) CHERI_CAP_NOEXCEPT
{
    return cheri_isa9_bounded(cs1, cheri_cap_set_bounds_on(cs1.word.high, cs1.word.low, 0, rs2), rs2);
}

/* CSetBoundsExact: the word of CSetBounds. Tag: that of CSetBounds, if the bounds equal the request. */
CHERI_ISA9_INLINE_ cheri_isa9_cap cheri_isa9_csetboundsexact(cheri_isa9_cap cs1, uint64_t rs2) CHERI_CAP_NOEXCEPT
{
    return cheri_isa9_bounded(cs1, cheri_cap_set_bounds_exact_on(cs1.word.high, cs1.word.low, 0, rs2), rs2);
}

/* Returns whether `by` is tagged and unsealed, has the permission, and has its address in its bounds. */
CHERI_ISA9_INLINE_ bool cheri_isa9_authorizes(cheri_isa9_cap by, unsigned perm) CHERI_CAP_NOEXCEPT
{
    const cheri_cap_bounds bounds = cheri_isa9_bounds(by);
    return by.tag && !cheri_cap_is_sealed(by.word.high) && cheri_isa9_has(by, perm) &&
        cheri_cap_bounds_hold(&bounds, by.word.low);
}

/*
 * CSeal: cs1 with the address of cs2 as its type. Tag: cs1's, if it is unsealed, cs2 authorizes by SEAL
 * (cheri_isa9_authorizes), and its address is not above CHERI_CAP_OTYPE_LAST_SEALING.
 */
CHERI_ISA9_INLINE_ cheri_isa9_cap cheri_isa9_cseal(cheri_isa9_cap cs1, cheri_isa9_cap cs2) CHERI_CAP_NOEXCEPT
{
    const cheri_cap_u128 word = cheri_cap_with_type(cs1.word.high, cs1.word.low, cs2.word.low);
    if (CHERI_ISA9_TRUST_TAGS) {
        cs1.tag = cs1.tag && cs2.word.low <= CHERI_CAP_OTYPE_LAST_SEALING && cheri_isa9_authorizes(cs2, CHERI_CAP_PERM_SEAL);
        return cheri_isa9_unsealed(cs1, word);
    }
    return cheri_isa9_made(
        cheri_cap_seal(cs1.word.high, cs1.word.low, cs2.word.high, cs2.word.low), cs1.tag && cs2.tag, word);
}

/*
 * CUnseal: cs1 unsealed, without GLOBAL if cs2 lacks it. Tag: cs1's, if its type is not reserved and is the address of
 * cs2, and cs2 authorizes by UNSEAL.
 */
CHERI_ISA9_INLINE_ cheri_isa9_cap cheri_isa9_cunseal(cheri_isa9_cap cs1, cheri_isa9_cap cs2) CHERI_CAP_NOEXCEPT
{
    const unsigned lost = cheri_isa9_has(cs2, CHERI_CAP_PERM_GLOBAL) ? 0 : CHERI_CAP_PERM_GLOBAL;
    const uint16_t perms = CHERI_CAP_CAST_(uint16_t, cheri_cap_perms_of(cs1.word.high) & ~lost);
    cheri_cap_u128 word = cheri_cap_with_type(cs1.word.high, cs1.word.low, CHERI_CAP_OTYPE_UNSEALED);
    word = cheri_cap_with_perms(word.high, word.low, perms);
    if (CHERI_ISA9_TRUST_TAGS)
        return cheri_isa9_of(word, cs1.tag && !cheri_isa9_has_reserved_type(cs1) &&
                                       cs2.word.low == cheri_cap_otype_of(cs1.word.high) &&
                                       cheri_isa9_authorizes(cs2, CHERI_CAP_PERM_UNSEAL));
    return cheri_isa9_made(
        cheri_cap_unseal(cs1.word.high, cs1.word.low, cs2.word.high, cs2.word.low), cs1.tag && cs2.tag, word);
}

/*
 * CCSeal: cs1 with its tag if cs2 has no tag, its address is not in its bounds or is -1, or cs1 is sealed. Otherwise
 * that of CSeal. Compare: these conditions, and their order with those of CSeal.
 */
CHERI_ISA9_INLINE_ cheri_isa9_cap cheri_isa9_ccseal(cheri_isa9_cap cs1, cheri_isa9_cap cs2) CHERI_CAP_NOEXCEPT
{
    const cheri_cap_bounds bounds = cheri_isa9_bounds(cs2);
    if (!cs2.tag || cheri_cap_is_sealed(cs1.word.high) || cs2.word.low == UINT64_MAX ||
        !cheri_cap_bounds_hold(&bounds, cs2.word.low))
        return cs1;
    return cheri_isa9_cseal(cs1, cs2);
}

/*
 * CSealEntry: cs1 as a sentry. Tag: cs1's, if it is unsealed and has EXECUTE. Compare: whether the tag is cleared
 * without EXECUTE.
 */
CHERI_ISA9_INLINE_ cheri_isa9_cap cheri_isa9_csealentry(cheri_isa9_cap cs1) CHERI_CAP_NOEXCEPT
{
    const bool keeps = !cheri_cap_is_sealed(cs1.word.high) && cheri_isa9_has(cs1, CHERI_CAP_PERM_EXECUTE);
    return cheri_isa9_typed(cs1, CHERI_CAP_OTYPE_SENTRY, keeps);
}

/*
 * CBuildCap: cs2 unsealed, except that a sentry stays one. Tag: cs1's, if it is unsealed, cs2 is canonical once it is
 * unsealed, and its bounds and permissions are within those of cs1. cs2's own tag does not matter.
 * Compare: that a sentry stays one; the word without a tag; words of cs2 that are not canonical.
 */
CHERI_ISA9_INLINE_ cheri_isa9_cap cheri_isa9_cbuildcap(cheri_isa9_cap cs1, cheri_isa9_cap cs2) CHERI_CAP_NOEXCEPT
{
    const cheri_cap_u128 word = cheri_cap_with_type(cs2.word.high, cs2.word.low, CHERI_CAP_OTYPE_UNSEALED);
    const cheri_cap_made rule = cheri_cap_rebuild(cs1.word.high, cs1.word.low, word.high, word.low);
    const cheri_isa9_cap made = cheri_isa9_made(rule, cs1.tag, word);
    return cheri_cap_is_sentry(cs2.word.high) ? cheri_isa9_typed(made, CHERI_CAP_OTYPE_SENTRY, true) : made;
}

/*
 * CCopyType: cs1 at the type of cs2 as its address, with the tag of CSetAddr. If the type is reserved, the integer of
 * CGetType. Compare: the word for a reserved type.
 */
CHERI_ISA9_INLINE_ cheri_isa9_cap cheri_isa9_ccopytype(cheri_isa9_cap cs1, cheri_isa9_cap cs2) CHERI_CAP_NOEXCEPT
{
    const uint64_t otype = cheri_isa9_cgettype(cs2);
    return cheri_isa9_has_reserved_type(cs2) ? cheri_isa9_integer(otype) : cheri_isa9_csetaddr(cs1, otype);
}

/* ---- Pointers, comparisons, lengths */

/* CFromPtr: null if rs2 is 0, otherwise CSetOffset. */
CHERI_ISA9_INLINE_ cheri_isa9_cap cheri_isa9_cfromptr(cheri_isa9_cap cs1, uint64_t rs2) CHERI_CAP_NOEXCEPT
{
    return rs2 == 0 ? cheri_isa9_integer(0) : cheri_isa9_csetoffset(cs1, rs2);
}

/*
 * CToPtr: the address of cs1 minus the base of cs2, modulo 2^64, or 0 if cs1 has no tag.
 * Compare: whether a sealed cs1, or a cs2 without a tag, gives 0 too.
 */
CHERI_ISA9_INLINE_ uint64_t cheri_isa9_ctoptr(cheri_isa9_cap cs1, cheri_isa9_cap cs2) CHERI_CAP_NOEXCEPT
{
    return cs1.tag ? cs1.word.low - cheri_isa9_bounds(cs2).base : 0;
}

/* CSub: the address of cs1 minus that of cs2, modulo 2^64. */
CHERI_ISA9_INLINE_ uint64_t cheri_isa9_csub(cheri_isa9_cap cs1, cheri_isa9_cap cs2) CHERI_CAP_NOEXCEPT
{
    return cs1.word.low - cs2.word.low;
}

/* CTestSubset: whether the tags are equal, and cs2 has no bounds and no permissions beyond those of cs1. */
CHERI_ISA9_INLINE_ uint64_t cheri_isa9_ctestsubset(cheri_isa9_cap cs1, cheri_isa9_cap cs2) CHERI_CAP_NOEXCEPT
{
    return cs1.tag == cs2.tag && cheri_cap_is_subset(cs2.word.high, cs2.word.low, cs1.word.high, cs1.word.low);
}

/* CSetEqualExact: whether the words and the tags are equal. */
CHERI_ISA9_INLINE_ uint64_t cheri_isa9_csetequalexact(cheri_isa9_cap cs1, cheri_isa9_cap cs2) CHERI_CAP_NOEXCEPT
{
    return cs1.tag == cs2.tag && cs1.word.high == cs2.word.high && cs1.word.low == cs2.word.low;
}

/* CRRL: the representable length of rs1, modulo 2^64. */
CHERI_ISA9_INLINE_ uint64_t cheri_isa9_crrl(uint64_t rs1) CHERI_CAP_NOEXCEPT
{
    return cheri_cap_round_length(0, rs1).low;
}

/* CRAM: the alignment mask of rs1. */
CHERI_ISA9_INLINE_ uint64_t cheri_isa9_cram(uint64_t rs1) CHERI_CAP_NOEXCEPT
{
    return cheri_cap_alignment_mask(0, rs1);
}

/*
 * ---- Accesses
 *
 * Each returns 0, or the cause of the first check that fails: tag, seal, permission, length. Alignment is the caller's.
 */

/* An access of `size` bytes that needs all permissions of the mask; `cause` is the one for a lacking permission. */
CHERI_ISA9_INLINE_ unsigned cheri_isa9_access(
    cheri_isa9_cap cap, uint64_t address, uint64_t size, unsigned perms, unsigned cause) CHERI_CAP_NOEXCEPT
{
    cheri_cap_bounds bounds;
    if (!cap.tag)
        return CHERI_ISA9_TAG;
    if (cheri_cap_is_sealed(cap.word.high))
        return CHERI_ISA9_SEAL;
    if (!cheri_isa9_has(cap, perms))
        return cause;
    bounds = cheri_isa9_bounds(cap);
    return cheri_cap_bounds_hold_bytes(&bounds, address, size) ? 0 : CHERI_ISA9_LENGTH;
}

/* A load of data, or of a capability: 16 bytes, which cheri_isa9_loaded turns into the register. */
CHERI_ISA9_INLINE_ unsigned cheri_isa9_load(cheri_isa9_cap by, uint64_t address, uint64_t size) CHERI_CAP_NOEXCEPT
{
    return cheri_isa9_access(by, address, size, CHERI_CAP_PERM_LOAD, CHERI_ISA9_PERMIT_LOAD);
}

/* Returns the register of a capability that was loaded. Tag: that of the memory, if `by` has LOAD_CAP. */
CHERI_ISA9_INLINE_ cheri_isa9_cap cheri_isa9_loaded(cheri_isa9_cap by, cheri_isa9_cap memory) CHERI_CAP_NOEXCEPT
{
    return cheri_isa9_of(memory.word, memory.tag && cheri_isa9_has(by, CHERI_CAP_PERM_LOAD_CAP));
}

/* A store of data. */
CHERI_ISA9_INLINE_ unsigned cheri_isa9_store(cheri_isa9_cap by, uint64_t address, uint64_t size) CHERI_CAP_NOEXCEPT
{
    return cheri_isa9_access(by, address, size, CHERI_CAP_PERM_STORE, CHERI_ISA9_PERMIT_STORE);
}

/* A store of a capability: 16 bytes. With a tag it needs STORE_CAP too, and STORE_LOCAL_CAP if it is not GLOBAL. */
CHERI_ISA9_INLINE_ unsigned cheri_isa9_store_cap(cheri_isa9_cap by, uint64_t address, cheri_isa9_cap stored) CHERI_CAP_NOEXCEPT
{
    const unsigned local = cheri_isa9_has(stored, CHERI_CAP_PERM_GLOBAL) ? 0 : CHERI_CAP_PERM_STORE_LOCAL_CAP;
    const unsigned cause = cheri_isa9_store(by, address, 16);
    if (!stored.tag || (cause != 0 && cause != CHERI_ISA9_LENGTH))
        return cause;
    if (!cheri_isa9_has(by, CHERI_CAP_PERM_STORE_CAP))
        return CHERI_ISA9_PERMIT_STORE_CAP;
    return cheri_isa9_has(by, local) ? cause : CHERI_ISA9_PERMIT_STORE_LOCAL_CAP;
}

/* A fetch of an instruction. */
CHERI_ISA9_INLINE_ unsigned cheri_isa9_fetch(cheri_isa9_cap pcc, uint64_t address, uint64_t size) CHERI_CAP_NOEXCEPT
{
    return cheri_isa9_access(pcc, address, size, CHERI_CAP_PERM_EXECUTE, CHERI_ISA9_PERMIT_EXECUTE);
}

/*
 * ---- Jumps
 *
 * `least` is the size of the smallest instruction, 2 or 4, which must be in the bounds at the target. Bit 0 of the target
 * is cleared. Compare: the check of its alignment, which is the caller's, and older checks of the base's alignment.
 */

/* Returns a jump that traps. */
CHERI_ISA9_INLINE_ cheri_isa9_jump cheri_isa9_trap(unsigned cause, unsigned operand) CHERI_CAP_NOEXCEPT
{
    const cheri_isa9_cap none = {{0, 0}, false};
    const cheri_isa9_jump jump = {none, none, CHERI_CAP_CAST_(uint8_t, cause), CHERI_CAP_CAST_(uint8_t, operand)};
    return jump;
}

/* Returns the link that CJAL and CJALR write: the program counter at `next`, as a sentry. Tag: that of CSetAddr. */
CHERI_ISA9_INLINE_ cheri_isa9_cap cheri_isa9_link(cheri_isa9_cap pcc, uint64_t next) CHERI_CAP_NOEXCEPT
{
    return cheri_isa9_typed(cheri_isa9_csetaddr(pcc, next), CHERI_CAP_OTYPE_SENTRY, true);
}

/*
 * CJALR: jumps to cs1 plus `offset`, and links to `next`, the address after the instruction. A sentry is unsealed.
 * Compare: that a sentry with an offset is a violation of the seal.
 */
CHERI_ISA9_INLINE_ cheri_isa9_jump cheri_isa9_cjalr(
    cheri_isa9_cap pcc, uint64_t next, cheri_isa9_cap cs1, uint64_t offset, uint64_t least) CHERI_CAP_NOEXCEPT
{
    const uint64_t target = (cs1.word.low + offset) & ~UINT64_C(1);
    const bool enters = cheri_cap_is_sentry(cs1.word.high) && offset == 0;
    const cheri_isa9_cap to = enters ? cheri_isa9_typed(cs1, CHERI_CAP_OTYPE_UNSEALED, true) : cs1;
    cheri_isa9_jump jump = cheri_isa9_trap(cheri_isa9_fetch(to, target, least), 1);
    if (jump.cause == 0) {
        jump.pcc = cheri_isa9_of(cheri_cap_with_address(to.word.high, to.word.low, target), true);
        jump.also = cheri_isa9_link(pcc, next);
    }
    return jump;
}

/* CInvoke: jumps to the code cs1, with the data cs2. Both are unsealed. Compare: the order of the checks. */
CHERI_ISA9_INLINE_ cheri_isa9_jump cheri_isa9_cinvoke(cheri_isa9_cap cs1, cheri_isa9_cap cs2, uint64_t least) CHERI_CAP_NOEXCEPT
{
    const uint64_t target = cs1.word.low & ~UINT64_C(1);
    const cheri_isa9_cap code = cheri_isa9_typed(cs1, CHERI_CAP_OTYPE_UNSEALED, true);
    cheri_isa9_jump jump;
    if (!cs1.tag || !cs2.tag)
        return cheri_isa9_trap(CHERI_ISA9_TAG, cs1.tag ? 2 : 1);
    if (cheri_isa9_has_reserved_type(cs1) || cheri_isa9_has_reserved_type(cs2))
        return cheri_isa9_trap(CHERI_ISA9_SEAL, cheri_isa9_has_reserved_type(cs1) ? 1 : 2);
    if (cheri_cap_otype_of(cs1.word.high) != cheri_cap_otype_of(cs2.word.high))
        return cheri_isa9_trap(CHERI_ISA9_TYPE, 1);
    if (!cheri_isa9_has(cs1, CHERI_CAP_PERM_CINVOKE) || !cheri_isa9_has(cs2, CHERI_CAP_PERM_CINVOKE))
        return cheri_isa9_trap(CHERI_ISA9_PERMIT_CINVOKE, cheri_isa9_has(cs1, CHERI_CAP_PERM_CINVOKE) ? 2 : 1);
    if (!cheri_isa9_has(cs1, CHERI_CAP_PERM_EXECUTE) || cheri_isa9_has(cs2, CHERI_CAP_PERM_EXECUTE))
        return cheri_isa9_trap(CHERI_ISA9_PERMIT_EXECUTE, cheri_isa9_has(cs1, CHERI_CAP_PERM_EXECUTE) ? 2 : 1);
    jump = cheri_isa9_trap(cheri_isa9_fetch(code, target, least), 1);
    if (jump.cause == 0) {
        jump.pcc = cheri_isa9_of(cheri_cap_with_address(code.word.high, code.word.low, target), true);
        jump.also = cheri_isa9_typed(cs2, CHERI_CAP_OTYPE_UNSEALED, true);
    }
    return jump;
}

#ifdef __GNUC__
#pragma GCC diagnostic pop
#endif

#ifdef __cplusplus
}
#endif

#endif
