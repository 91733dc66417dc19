/*
 * cheri_cap.hpp: capability words as values of C++17, over the functions of cheri_cap.h.
 *
 * cheri::word is a word of 128 bits, with methods for its fields, its bounds and the rules of
 * derivation. The comments of cheri_cap.h apply: each method names the function that it calls, if
 * it is not the one of its name. The code here is plain C++: it is tested, not proved.
 *
 * No function here allocates, and none has state. None throws, except what a function given to
 * and_then or or_else throws, or a stream or std::format. Link with libcheri_cap, as for C.
 *
 * Tags are up to the caller, as in C: a word has none.
 */
#ifndef CHERI_CAP_HPP
#define CHERI_CAP_HPP

#if __cplusplus < 201703L
#error "cheri_cap.hpp needs C++17 or later, as by -std=c++17"
#else

#include "cheri_cap.h"

#include <array>
#include <cstddef>
#include <cstdint>
#include <exception>
#include <functional>
#include <iosfwd>
#include <optional>
#include <string_view>
#include <type_traits>
#include <utility>
#if __cplusplus >= 202002L && __has_include(<compare>)
#include <compare>
#endif
#if __cplusplus >= 202002L && __has_include(<format>)
#include <format>
#endif

#ifdef __GNUC__
#pragma GCC diagnostic push
#pragma GCC diagnostic ignored "-Wpadded"
#endif

namespace cheri {

/* A number of 128 bits, such as a top or a length in bytes. Any number of 64 bits converts to it. */
struct u128 {
    std::uint64_t high = 0;
    std::uint64_t low = 0;

    constexpr u128() noexcept = default;
    constexpr u128(std::uint64_t number) noexcept : low(number) {}
    constexpr u128(std::uint64_t upper, std::uint64_t lower) noexcept : high(upper), low(lower) {}

    friend constexpr bool operator==(u128 one, u128 other) noexcept
    {
        return one.high == other.high && one.low == other.low;
    }
    friend constexpr bool operator!=(u128 one, u128 other) noexcept { return !(one == other); }
    friend constexpr bool operator<(u128 one, u128 other) noexcept
    {
        return one.high != other.high ? one.high < other.high : one.low < other.low;
    }
    friend constexpr bool operator>(u128 one, u128 other) noexcept { return other < one; }
    friend constexpr bool operator<=(u128 one, u128 other) noexcept { return !(other < one); }
    friend constexpr bool operator>=(u128 one, u128 other) noexcept { return !(one < other); }
};

/* 2^64, the length of the whole address space. */
inline constexpr u128 address_space{1, 0};

/* The reasons for which a rule returns no word, and none. */
enum class refusal : std::uint8_t {
    none = 0,
    sealed = CHERI_CAP_REFUSAL_SEALED,
    unsealed = CHERI_CAP_REFUSAL_UNSEALED,
    bounds = CHERI_CAP_REFUSAL_BOUNDS,
    inexact = CHERI_CAP_REFUSAL_INEXACT,
    unrepresentable = CHERI_CAP_REFUSAL_UNREPRESENTABLE,
    permission = CHERI_CAP_REFUSAL_PERMISSION,
    type = CHERI_CAP_REFUSAL_TYPE,
    mismatch = CHERI_CAP_REFUSAL_MISMATCH,
    canonical = CHERI_CAP_REFUSAL_CANONICAL,
    exceeds = CHERI_CAP_REFUSAL_EXCEEDS,
};

/* Returns the name of a refusal, one token in lower case, or an empty string for none. */
[[nodiscard]] inline std::string_view name(refusal why) noexcept
{
    return cheri_cap_refusal_name(static_cast<std::uint8_t>(why));
}

/* The reasons why a word is not canonical, and none. cheri_cap.h says what each means. */
enum class defect : std::uint8_t {
    none = CHERI_CAP_DEFECT_NONE,
    reserved_bits = CHERI_CAP_DEFECT_RESERVED_BITS,
    type = CHERI_CAP_DEFECT_TYPE,
    order = CHERI_CAP_DEFECT_ORDER,
    top = CHERI_CAP_DEFECT_TOP,
    fields = CHERI_CAP_DEFECT_FIELDS,
};

/* The order of bytes in memory. */
enum class byte_order : bool { little, big };

/* The bounds that a word decodes to, in bytes: [base, top). */
class bounds {
public:
    explicit constexpr bounds(const cheri_cap_bounds &decoded) noexcept : decoded_(decoded) {}

    [[nodiscard]] constexpr std::uint64_t base() const noexcept { return decoded_.base; }
    [[nodiscard]] constexpr u128 top() const noexcept { return {decoded_.top_high, decoded_.top_low}; }
    [[nodiscard]] constexpr unsigned exponent() const noexcept { return decoded_.exponent; }

    /* Returns the top minus the base, modulo 2^128 if the top is below the base. */
    [[nodiscard]] constexpr u128 length() const noexcept
    {
        const cheri_cap_u128 length = cheri_cap_length(&decoded_);
        return {length.high, length.low};
    }

    /* Returns whether the bounds contain the byte at the address. */
    [[nodiscard]] constexpr bool contains(std::uint64_t address) const noexcept
    {
        return cheri_cap_bounds_hold(&decoded_, address);
    }

    /* Returns whether the bounds contain an access: cheri_cap_bounds_hold_bytes. */
    [[nodiscard]] constexpr bool contains(std::uint64_t address, std::uint64_t size) const noexcept
    {
        return cheri_cap_bounds_hold_bytes(&decoded_, address, size);
    }

    /* The struct of C. */
    [[nodiscard]] constexpr const cheri_cap_bounds &raw() const noexcept { return decoded_; }

private:
    cheri_cap_bounds decoded_;
};

/* The window of a word: the addresses from the first up to the last, through 2^64 - 1 to 0 if the last is below. */
class window {
public:
    explicit constexpr window(const cheri_cap_ends &ends) noexcept : ends_(ends) {}

    [[nodiscard]] constexpr std::uint64_t first() const noexcept { return ends_.first; }
    [[nodiscard]] constexpr std::uint64_t last() const noexcept { return ends_.last; }

    /* Returns whether the address is in the window, as word::keeps_bounds does. */
    [[nodiscard]] constexpr bool contains(std::uint64_t address) const noexcept
    {
        return address - ends_.first <= ends_.last - ends_.first;
    }

    /* The struct of C. */
    [[nodiscard]] constexpr const cheri_cap_ends &raw() const noexcept { return ends_; }

private:
    cheri_cap_ends ends_;
};

/* The one-line form of a word, in a buffer of fixed size. */
class line {
public:
    [[nodiscard]] std::string_view view() const noexcept { return {text_.data(), size_}; }
    [[nodiscard]] const char *c_str() const noexcept { return text_.data(); }
    operator std::string_view() const noexcept { return view(); }

private:
    friend class word;
    std::array<char, CHERI_CAP_LINE_SIZE> text_{};
    std::size_t size_ = 0;
};

/* The 32 hexadecimal digits of a word, in a buffer of fixed size. */
class digits {
public:
    [[nodiscard]] std::string_view view() const noexcept { return {text_.data(), text_.size()}; }
    operator std::string_view() const noexcept { return view(); }

private:
    friend class word;
    std::array<char, 32> text_{};
};

class result;

/* A word of 128 bits. By default it is null, all zeros. Every number of 128 bits is a word. */
class word {
public:
    constexpr word() noexcept = default;
    constexpr word(std::uint64_t high, std::uint64_t low) noexcept : halves_{high, low} {}
    explicit constexpr word(const cheri_cap_u128 &halves) noexcept : halves_(halves) {}
    explicit word(const cheri_cap_fields &fields) noexcept : halves_(cheri_cap_pack(fields)) {}

    /* Every permission over every address, at address 0. */
    [[nodiscard]] static constexpr word root() noexcept { return word(cheri_cap_root()); }

    /* Returns the word of 32 hexadecimal digits of either case, and nothing for any other text. */
    [[nodiscard]] static std::optional<word> parse(std::string_view text) noexcept
    {
        if (text.size() != 32) /* also since the pointer of an empty text may be null */
            return std::nullopt;
        const cheri_cap_read read = cheri_cap_read_word(text.data(), text.size());
        return read.found ? std::optional<word>(word(read.high, read.low)) : std::nullopt;
    }

    /* Returns the word of 16 bytes of memory. `bytes` must not be null. */
    [[nodiscard]] static word from_bytes(const std::uint8_t bytes[16], byte_order order) noexcept
    {
        return word(cheri_cap_word_from_bytes(bytes, order == byte_order::big));
    }
    [[nodiscard]] static word from_bytes(const std::array<std::uint8_t, 16> &bytes, byte_order order) noexcept
    {
        return from_bytes(bytes.data(), order);
    }

    [[nodiscard]] std::array<std::uint8_t, 16> to_bytes(byte_order order) const noexcept
    {
        std::array<std::uint8_t, 16> bytes{};
        cheri_cap_word_to_bytes(halves_, bytes.data(), order == byte_order::big);
        return bytes;
    }

    [[nodiscard]] cheri::digits digits() const noexcept
    {
        cheri::digits written;
        cheri_cap_write_word(high(), low(), written.text_.data());
        return written;
    }

    /* Returns the one-line form: cheri_cap_format. */
    [[nodiscard]] cheri::line line(bool tagged = true) const noexcept
    {
        cheri::line written;
        written.size_ = cheri_cap_format(high(), low(), tagged, written.text_.data());
        return written;
    }

    [[nodiscard]] constexpr std::uint64_t high() const noexcept { return halves_.high; }
    [[nodiscard]] constexpr std::uint64_t low() const noexcept { return halves_.low; }
    [[nodiscard]] constexpr const cheri_cap_u128 &raw() const noexcept { return halves_; }
    [[nodiscard]] constexpr std::uint64_t address() const noexcept { return halves_.low; }
    [[nodiscard]] constexpr std::uint16_t perms() const noexcept { return cheri_cap_perms_of(high()); }
    [[nodiscard]] constexpr std::uint32_t otype() const noexcept { return cheri_cap_otype_of(high()); }
    [[nodiscard]] constexpr bool flag() const noexcept { return (high() >> 45 & 1) != 0; }
    [[nodiscard]] constexpr bool is_sealed() const noexcept { return cheri_cap_is_sealed(high()); }
    [[nodiscard]] constexpr bool is_sentry() const noexcept { return cheri_cap_is_sentry(high()); }

    /* Returns whether the word has all permissions of the mask, such as CHERI_CAP_PERM_LOAD. */
    [[nodiscard]] constexpr bool has_perms(unsigned mask) const noexcept { return (perms() & mask) == mask; }

    /* Returns all fields: cheri_cap_unpack. */
    [[nodiscard]] cheri_cap_fields fields() const noexcept { return cheri_cap_unpack(high(), low()); }

    /* Returns the base, the top and the exponent: cheri_cap_decode. */
    [[nodiscard]] cheri::bounds bounds() const noexcept { return cheri::bounds(cheri_cap_decode(high(), low())); }

    /* Returns the top minus the base, modulo 2^128 if the top is below the base: cheri_cap_word_length. */
    [[nodiscard]] u128 length() const noexcept
    {
        const cheri_cap_u128 length = cheri_cap_word_length(high(), low());
        return {length.high, length.low};
    }

    /* Returns the granule in bytes, the unit in which the bounds are stored: cheri_cap_word_granule. */
    [[nodiscard]] std::uint64_t granule() const noexcept { return cheri_cap_word_granule(high(), low()); }

    /* Returns the window: the addresses for which keeps_bounds returns true. */
    [[nodiscard]] cheri::window window() const noexcept { return cheri::window(cheri_cap_window(high(), low())); }

    /* Returns the address minus the base, modulo 2^64. */
    [[nodiscard]] std::uint64_t offset() const noexcept { return address() - bounds().base(); }

    [[nodiscard]] bool is_canonical() const noexcept { return cheri_cap_is_canonical(high(), low()); }

    /* Returns the first reason why the word is not canonical, or `defect::none` if it is. */
    [[nodiscard]] cheri::defect defect() const noexcept
    {
        return static_cast<cheri::defect>(cheri_cap_defect(high(), low()));
    }
    [[nodiscard]] bool represents(std::uint64_t address) const noexcept
    {
        return cheri_cap_represents(high(), low(), address);
    }
    [[nodiscard]] bool keeps_bounds(std::uint64_t address) const noexcept
    {
        return cheri_cap_keeps_bounds(high(), low(), address);
    }
    [[nodiscard]] bool is_subset_of(word outer) const noexcept
    {
        return cheri_cap_is_subset(high(), low(), outer.high(), outer.low());
    }

    /* The words with one field changed and nothing checked: cheri_cap_with_*. They have no tag. */
    [[nodiscard]] constexpr word with_address(std::uint64_t address) const noexcept
    {
        return word(cheri_cap_with_address(high(), low(), address));
    }
    [[nodiscard]] constexpr word with_perms(std::uint16_t perms) const noexcept
    {
        return word(cheri_cap_with_perms(high(), low(), perms));
    }
    [[nodiscard]] constexpr word with_flag(bool flag) const noexcept
    {
        return word(cheri_cap_with_flag(high(), low(), flag));
    }
    [[nodiscard]] constexpr word with_type(std::uint64_t otype) const noexcept
    {
        return word(cheri_cap_with_type(high(), low(), otype));
    }
    [[nodiscard]] constexpr word with_bounds(const cheri_cap_granted &granted) const noexcept
    {
        return word(cheri_cap_with_bounds(high(), low(), &granted));
    }

    /* The rules of derivation. */
    [[nodiscard]] inline result set_address(std::uint64_t address) const noexcept;
    [[nodiscard]] inline result set_offset(std::uint64_t offset) const noexcept;
    [[nodiscard]] inline result increment(std::uint64_t amount) const noexcept;
    [[nodiscard]] inline result set_bounds(u128 length) const noexcept;       /* cheri_cap_set_bounds_on */
    [[nodiscard]] inline result set_bounds_exact(u128 length) const noexcept; /* cheri_cap_set_bounds_exact_on */
    [[nodiscard]] inline result and_perms(std::uint16_t mask) const noexcept;
    [[nodiscard]] inline result set_flag(bool flag) const noexcept;
    [[nodiscard]] inline result seal(word authority) const noexcept;
    [[nodiscard]] inline result unseal(word authority) const noexcept;

    /* CBuildCap, with this word as the authority: cheri_cap_rebuild. */
    [[nodiscard]] inline result rebuild(word untagged) const noexcept;

    friend constexpr bool operator==(word one, word other) noexcept
    {
        return one.high() == other.high() && one.low() == other.low();
    }
    friend constexpr bool operator!=(word one, word other) noexcept { return !(one == other); }

    /* The order of the numbers, for sorted containers. It does not compare what words grant: that is is_subset_of. */
#ifdef __cpp_lib_three_way_comparison
    friend constexpr std::strong_ordering operator<=>(word one, word other) noexcept
    {
        return one.high() != other.high() ? one.high() <=> other.high() : one.low() <=> other.low();
    }
#else
    friend constexpr bool operator<(word one, word other) noexcept
    {
        return cheri_cap_compare(one.halves_, other.halves_) < 0;
    }
    friend constexpr bool operator>(word one, word other) noexcept { return other < one; }
    friend constexpr bool operator<=(word one, word other) noexcept { return !(other < one); }
    friend constexpr bool operator>=(word one, word other) noexcept { return !(one < other); }
#endif

    /* Writes the one-line form. The caller includes <ostream>. */
    template <class Traits>
    friend std::basic_ostream<char, Traits> &operator<<(std::basic_ostream<char, Traits> &out, word it)
    {
        return out << it.line().view();
    }

private:
    cheri_cap_u128 halves_{0, 0};
};

static_assert(sizeof(word) == sizeof(cheri_cap_u128) && std::is_standard_layout_v<word> &&
              std::is_trivially_copyable_v<word>);

/* The result of a rule: a word, or the refusal for which there is none. */
class [[nodiscard]] result {
public:
    constexpr result(word made) noexcept : word_(made) {}
    explicit constexpr result(refusal why) noexcept : refusal_(why) {}
    explicit constexpr result(const cheri_cap_made &made) noexcept
        : word_(made.high, made.low), refusal_(static_cast<refusal>(made.refusal))
    {}

    [[nodiscard]] constexpr bool has_value() const noexcept { return refusal_ == refusal::none; }
    explicit constexpr operator bool() const noexcept { return has_value(); }

    /* The refusal, `refusal::none` if there is a word. */
    [[nodiscard]] constexpr refusal error() const noexcept { return refusal_; }

    /* The word, or null after a refusal: test `has_value` first. */
    [[nodiscard]] constexpr const word &operator*() const noexcept { return word_; }
    [[nodiscard]] constexpr const word *operator->() const noexcept { return &word_; }

    /* Returns the word. After a refusal, it calls std::terminate. */
    [[nodiscard]] constexpr const word &value() const noexcept
    {
        if (!has_value())
            std::terminate();
        return word_;
    }

    [[nodiscard]] constexpr word value_or(word other) const noexcept { return has_value() ? word_ : other; }

    /* Returns the word as an optional, without the refusal. */
    [[nodiscard]] constexpr std::optional<word> to_optional() const noexcept
    {
        return has_value() ? std::optional<word>(word_) : std::nullopt;
    }

    /* Calls a function that takes a word and returns a result, and returns that. After a refusal, it
     * returns this refusal, and the function is not called. */
    template <class Function>
    constexpr result and_then(Function &&next) const
    {
        return has_value() ? result(std::forward<Function>(next)(word_)) : *this;
    }

    /* Calls a function that takes a refusal and returns a result, and returns that. If there is a word, it
     * returns this result, and the function is not called. */
    template <class Function>
    constexpr result or_else(Function &&next) const
    {
        return has_value() ? *this : result(std::forward<Function>(next)(refusal_));
    }

    friend constexpr bool operator==(const result &one, const result &other) noexcept
    {
        return one.refusal_ == other.refusal_ && one.word_ == other.word_;
    }
    friend constexpr bool operator!=(const result &one, const result &other) noexcept { return !(one == other); }

private:
    word word_;
    refusal refusal_ = refusal::none;
};

inline result word::set_address(std::uint64_t address) const noexcept
{
    return result(cheri_cap_set_address(high(), low(), address));
}
inline result word::set_offset(std::uint64_t offset) const noexcept
{
    return result(cheri_cap_set_offset(high(), low(), offset));
}
inline result word::increment(std::uint64_t amount) const noexcept
{
    return result(cheri_cap_increment(high(), low(), amount));
}
inline result word::set_bounds(u128 length) const noexcept
{
    return result(cheri_cap_set_bounds_on(high(), low(), length.high, length.low));
}
inline result word::set_bounds_exact(u128 length) const noexcept
{
    return result(cheri_cap_set_bounds_exact_on(high(), low(), length.high, length.low));
}
inline result word::and_perms(std::uint16_t mask) const noexcept
{
    return result(cheri_cap_and_perms(high(), low(), mask));
}
inline result word::set_flag(bool flag) const noexcept { return result(cheri_cap_set_flag(high(), low(), flag)); }
inline result word::seal(word authority) const noexcept
{
    return result(cheri_cap_seal(high(), low(), authority.high(), authority.low()));
}
inline result word::unseal(word authority) const noexcept
{
    return result(cheri_cap_unseal(high(), low(), authority.high(), authority.low()));
}
inline result word::rebuild(word untagged) const noexcept
{
    return result(cheri_cap_rebuild(high(), low(), untagged.high(), untagged.low()));
}

/* Returns the granted request, or nothing if base + length is above 2^64: cheri_cap_set_bounds. */
[[nodiscard]] inline std::optional<cheri_cap_granted> grant(std::uint64_t base, u128 length) noexcept
{
    const cheri_cap_granted granted = cheri_cap_set_bounds(base, length.high, length.low);
    return granted.in_range ? std::optional<cheri_cap_granted>(granted) : std::nullopt;
}

/* Returns the bytes that are granted before and after a request, or nothing if base + length is above 2^64. */
[[nodiscard]] inline std::optional<cheri_cap_excess> lost(std::uint64_t base, u128 length) noexcept
{
    const cheri_cap_excess excess = cheri_cap_lost(base, length.high, length.low);
    return excess.in_range ? std::optional<cheri_cap_excess>(excess) : std::nullopt;
}

/* Returns the granule of a length in bytes, or nothing above 2^64. */
[[nodiscard]] inline std::optional<std::uint64_t> granule(u128 length) noexcept
{
    return length <= address_space ? std::optional<std::uint64_t>(cheri_cap_granule(length.high, length.low))
                                   : std::nullopt;
}

/* CRRL: returns the representable length, or nothing above 2^64. */
[[nodiscard]] inline std::optional<u128> round_length(u128 length) noexcept
{
    if (length > address_space)
        return std::nullopt;
    const cheri_cap_u128 rounded = cheri_cap_round_length(length.high, length.low);
    return u128(rounded.high, rounded.low);
}

/* CRAM: returns the representable alignment mask, or nothing above 2^64. */
[[nodiscard]] inline std::optional<std::uint64_t> alignment_mask(u128 length) noexcept
{
    return length <= address_space ? std::optional<std::uint64_t>(cheri_cap_alignment_mask(length.high, length.low))
                                   : std::nullopt;
}

/*
 * Batch functions: the result for each of `count` words, at its position. An array may be null if
 * `count` is 0, and otherwise has `count` elements. The results must not overlap what is read.
 */
inline void decode_many(const word *words, cheri_cap_bounds *results, std::size_t count) noexcept
{
    if (count != 0)
        cheri_cap_decode_many(&words->raw(), count, results, count);
}
inline void is_canonical_many(const word *words, std::uint8_t *results, std::size_t count) noexcept
{
    if (count != 0)
        cheri_cap_is_canonical_many(&words->raw(), count, results, count);
}
inline void represents_many(const word *words, const std::uint64_t *addresses, std::uint8_t *results,
                            std::size_t count) noexcept
{
    if (count != 0)
        cheri_cap_represents_many(&words->raw(), count, addresses, count, results, count);
}

/* Batch functions on requests: the result for each of `count` lengths, and for the base at its position. */
inline void set_bounds_many(const std::uint64_t *bases, const cheri_cap_u128 *lengths, cheri_cap_granted *results,
                            std::size_t count) noexcept
{
    cheri_cap_set_bounds_many(bases, count, lengths, count, results, count);
}
inline void round_length_many(const cheri_cap_u128 *lengths, cheri_cap_u128 *results, std::size_t count) noexcept
{
    cheri_cap_round_length_many(lengths, count, results, count);
}
inline void alignment_mask_many(const cheri_cap_u128 *lengths, std::uint64_t *results, std::size_t count) noexcept
{
    cheri_cap_alignment_mask_many(lengths, count, results, count);
}

/*
 * Batch functions on memory: `count` words of 16 bytes each, one after the other, in the byte order
 * of the memory and at any address. Otherwise they are like those above.
 */
inline void decode_memory(const void *memory, byte_order order, cheri_cap_bounds *results, std::size_t count) noexcept
{
    if (count != 0)
        cheri_cap_decode_memory(memory, count, order == byte_order::big, results, count);
}
inline void is_canonical_memory(const void *memory, byte_order order, std::uint8_t *results, std::size_t count) noexcept
{
    if (count != 0)
        cheri_cap_is_canonical_memory(memory, count, order == byte_order::big, results, count);
}
inline void represents_memory(const void *memory, byte_order order, const std::uint64_t *addresses,
                              std::uint8_t *results, std::size_t count) noexcept
{
    if (count != 0)
        cheri_cap_represents_memory(memory, count, order == byte_order::big, addresses, count, results, count);
}

/*
 * Sets the bounds of each word of memory to the length at its position, exactly if `exact`: writes
 * the word that was made, in the same byte order, or 16 zero bytes and the refusal.
 */
inline void set_bounds_memory(const void *memory, byte_order order, bool exact, const cheri_cap_u128 *lengths,
                              void *made, refusal *refusals, std::size_t count) noexcept
{
    cheri_cap_set_bounds_memory(memory, count, order == byte_order::big, exact, lengths, count, made, count,
                                reinterpret_cast<std::uint8_t *>(refusals), count);
}

/*
 * Writes the positions of the words of memory that the query wants to `positions`, at most `capacity`
 * of them, and returns their number: cheri_cap_search_memory. `tag_bits` has a bit for each word, or
 * is null if the query needs no tag. `next` is as there.
 */
[[nodiscard]] inline std::size_t search_memory(const void *memory, byte_order order, std::size_t count,
                                               const std::uint8_t *tag_bits, const cheri_cap_query &query,
                                               std::uint64_t *positions, std::size_t capacity,
                                               std::size_t &next) noexcept
{
    return cheri_cap_search_memory(memory, count, order == byte_order::big, tag_bits,
                                   tag_bits == nullptr ? 0 : count / 8 + (count % 8 != 0), &query, positions, capacity,
                                   &next);
}

} // namespace cheri

/* The hash of a word, for std::unordered_map. */
template <>
struct std::hash<cheri::word> {
    [[nodiscard]] std::size_t operator()(cheri::word word) const noexcept
    {
        return std::hash<std::uint64_t>()(word.high() * UINT64_C(0x9e3779b97f4a7c15) ^ word.low());
    }
};

#ifdef __cpp_lib_format
/* The one-line form of a word, with the width and the alignment of a text, for std::format. */
template <>
struct std::formatter<cheri::word, char> : std::formatter<std::string_view, char> {
    template <class Context>
    auto format(cheri::word word, Context &context) const
    {
        return std::formatter<std::string_view, char>::format(word.line().view(), context);
    }
};
#endif

#ifdef __GNUC__
#pragma GCC diagnostic pop
#endif

#endif
#endif
