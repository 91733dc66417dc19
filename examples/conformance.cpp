// Compares the C++ header and the library with the conformance table, a file of rows with fifteen values, and with some
// lengths. The library did not compute the table. It is C++17 and C++20.
//
//   conformance TABLE   the failures, and at the end the numbers of rows and of failures
#include <cheri_cap.hpp>
#include <cheri_cap.hpp> // a second include changes nothing
#include <cstdio>
#include <fstream>
#include <sstream>
#include <string>
#include <unordered_set>
#include <vector>

using cheri::byte_order;
using cheri::refusal;
using cheri::u128;
using cheri::word;

namespace {

unsigned failures;

void expect(bool holds, const std::string &row, const char *what)
{
    if (!holds) {
        std::fprintf(stderr, "%s: %s\n", row.c_str(), what);
        failures++;
    }
}

// A row of the table. Numbers are in hexadecimal digits, except the exponent.
struct row {
    std::string name, word, perms, reserved, flag, type, ie, t, b, address, exponent, base, top, canonical, rebuild;
};

bool read_row(const std::string &line, row &to)
{
    std::istringstream from(line);
    std::string more;
    from >> to.name >> to.word >> to.perms >> to.reserved >> to.flag >> to.type >> to.ie >> to.t >> to.b;
    from >> to.address >> to.exponent >> to.base >> to.top >> to.canonical >> to.rebuild;
    return !from.fail() && !(from >> more) && to.name != "name";
}

// A number of up to 128 bits in hexadecimal digits, with or without 0x.
u128 hexadecimal(const std::string &text)
{
    u128 number;
    for (char digit : text.substr(text.rfind("0x", 0) == 0 ? 2 : 0))
        number = {number.high << 4 | number.low >> 60,
                  number.low << 4 | std::stoull(std::string(1, digit), nullptr, 16)};
    return number;
}

void check_fields(const row &it, word cap)
{
    const cheri_cap_fields fields = cap.fields();
    expect(hexadecimal(it.perms) == fields.perms && hexadecimal(it.perms) == cap.perms(), it.name, "perms");
    expect(hexadecimal(it.reserved) == fields.reserved, it.name, "reserved");
    expect(hexadecimal(it.flag) == fields.flag && hexadecimal(it.flag) == cap.flag(), it.name, "flag");
    expect(hexadecimal(it.type) == fields.otype && hexadecimal(it.type) == cap.otype(), it.name, "type");
    expect(hexadecimal(it.ie) == fields.ie && hexadecimal(it.t) == fields.t && hexadecimal(it.b) == fields.b, it.name,
           "bounds fields");
    expect(hexadecimal(it.address) == fields.address && hexadecimal(it.address) == cap.address(), it.name, "address");
    expect(word(fields) == cap, it.name, "the word of the fields");
    expect(cap.is_sealed() == (it.type != "3ffff") && cap.is_sentry() == (it.type == "3fffe"), it.name,
           "sealed or a sentry");
    expect(cap.has_perms(fields.perms) && (fields.perms == 0xffff || !cap.has_perms(0xffff)), it.name,
           "has permissions");
}

void check_bounds(const row &it, word cap)
{
    const cheri::bounds bounds = cap.bounds();
    expect(hexadecimal(it.base) == bounds.base() && hexadecimal(it.top) == bounds.top(), it.name, "bounds");
    expect(std::stoul(it.exponent) == bounds.exponent() && bounds.raw().exponent == bounds.exponent(), it.name,
           "exponent");
    expect(cap.is_canonical() == (it.canonical == "yes"), it.name, "canonical");
    expect(cap.offset() + bounds.base() == cap.address(), it.name, "offset");
    for (const std::uint64_t address : {cap.address(), ~cap.address(), bounds.base(), bounds.base() - 1}) {
        const cheri::bounds moved = cap.with_address(address).bounds();
        expect(cap.keeps_bounds(address) == (moved.base() == bounds.base() && moved.top() == bounds.top()), it.name,
               "keeps_bounds");
    }
    expect(cap.length() == bounds.length(), it.name, "length");
    expect(cap.granule() == (hexadecimal(it.ie) == 1 ? UINT64_C(8) << bounds.exponent() : 1), it.name, "granule");
    expect(cap.is_canonical() == (cap.defect() == cheri::defect::none), it.name, "defect");
    if (!cap.is_canonical())
        return;
    const std::optional<cheri_cap_granted> granted = cheri::grant(bounds.base(), bounds.length());
    expect(granted && granted->exact && u128(granted->top_high, granted->top_low) == bounds.top(), it.name, "granted");
    expect(granted && cap.with_bounds(*granted) == cap, it.name, "with its own bounds");
    expect(cap.represents(cap.address()) && cap.represents(bounds.base()), it.name, "represents");
    const bool is_empty = bounds.length() == 0;
    expect(bounds.contains(bounds.base()) != is_empty && bounds.contains(bounds.base(), 1) != is_empty, it.name,
           "its first byte");
    expect(bounds.contains(bounds.base(), bounds.length().low) && bounds.contains(bounds.base(), 0), it.name,
           "all its bytes");
    expect(bounds.top() == cheri::address_space || !bounds.contains(bounds.top().low), it.name, "the byte after them");
    expect(!bounds.contains(UINT64_MAX, 2), it.name, "an access that wraps around");
}

// Checks the ends of the window against the addresses that keep the bounds.
void check_window(const row &it, word cap)
{
    const cheri::window window = cap.window();
    const std::uint64_t first = window.first(), last = window.last();
    const bool is_all = first == 0 && last == UINT64_MAX;
    expect(window.raw().first == first && window.raw().last == last, it.name, "the window's ends");
    expect(window.contains(first) && window.contains(last), it.name, "the window has its ends");
    expect(window.contains(first - 1) == is_all && window.contains(last + 1) == is_all, it.name, "and no more");
    for (const std::uint64_t address : {first, first - 1, last, last + 1, cap.address(), ~cap.address()})
        expect(window.contains(address) == cap.keeps_bounds(address), it.name, "the window keeps the bounds");
}

// Checks the reasons why words are not canonical, and the bytes that requests lose.
void check_measures()
{
    using cheri::defect;
    cheri_cap_fields fields = word::root().fields();
    fields.reserved = 1;
    expect(word(fields).defect() == defect::reserved_bits, "defects", "reserved bits");
    expect(word::root().with_type(CHERI_CAP_OTYPE_SENTRY).defect() == defect::type, "defects", "type");
    constexpr std::pair<const char *, defect> rows[] = {
        {"ffff0000000030070000000000000000", defect::order},
        {"ffff00000441bf04ffffffffffffff00", defect::top},
        {"ffff0000000000010000000000000000", defect::fields},
    };
    for (const auto &[digits, why] : rows)
        expect(word::parse(digits)->defect() == why, digits, "defect");
    const std::optional<cheri_cap_excess> lost = cheri::lost(1, 8184);
    expect(lost && lost->before == 1 && lost->after == 7, "8184 bytes from 1", "lost");
    expect(!cheri::lost(1, cheri::address_space) && !cheri::lost(0, u128(1, 1)), "above 2^64", "lost");
}

void check_text(const row &it, word cap)
{
    expect(cap.digits().view() == it.word, it.name, "digits");
    expect(cap.from_bytes(cap.to_bytes(byte_order::little), byte_order::little) == cap, it.name, "little-endian bytes");
    expect(cap.from_bytes(cap.to_bytes(byte_order::big), byte_order::big) == cap, it.name, "big-endian bytes");
    expect(cap.to_bytes(byte_order::big)[0] == cap.high() >> 56 &&
               cap.to_bytes(byte_order::little)[15] == cap.high() >> 56,
           it.name, "the highest byte");
    const std::string end = "," + it.base + "-" + it.top + "]", text(cap.line().view());
    expect(text.rfind(it.address + " [", 0) == 0 && text.find(end) != std::string::npos, it.name, "one-line form");
    expect(text == cap.line(true).c_str() && cap.line(false).view().find("(invalid") != std::string_view::npos, it.name,
           "one-line form without a tag");
    expect(!word::parse(it.word.substr(1)) && !word::parse({}) && !word::parse(it.word + "0"), it.name,
           "fewer or more digits");
}

void check_changed(const row &it, word cap)
{
    cheri_cap_fields wanted = cap.fields();
    wanted.address ^= 0x1234;
    expect(cap.with_address(wanted.address) == word(wanted), it.name, "with another address");
    wanted = cap.fields();
    wanted.perms ^= 0x8421;
    expect(cap.with_perms(wanted.perms) == word(wanted), it.name, "with other permissions");
    wanted = cap.fields();
    wanted.flag = !wanted.flag;
    expect(cap.with_flag(wanted.flag) == word(wanted), it.name, "with another flag");
    wanted = cap.fields();
    wanted.otype = CHERI_CAP_OTYPE_SENTRY;
    expect(cap.with_type(CHERI_CAP_OTYPE_SENTRY) == word(wanted) && word(wanted).is_sentry(), it.name,
           "with the type of a sentry");
}

// Checks the rules for which the table has the result.
void check_rules(const row &it, word cap)
{
    const word root = word::root();
    const cheri::result rebuilt = root.rebuild(cap);
    const unsigned refused = it.rebuild == "made" ? 0 : static_cast<unsigned>(std::stoul(it.rebuild));
    expect(static_cast<unsigned>(rebuilt.error()) == refused && rebuilt.has_value() == (refused == 0), it.name,
           "rebuild");
    expect(cap.is_subset_of(cap), it.name, "subset of itself");
    const refusal wanted = !cap.is_canonical() ? refusal::canonical : refused != 0 ? refusal::sealed : refusal::none;
    const cheri::bounds bounds = cap.bounds();
    const cheri::result same[] = {
        cap.set_address(cap.address()),
        cap.set_offset(cap.offset()),
        cap.increment(0),
        cap.and_perms(cap.perms()),
        cap.set_flag(cap.flag()),
        cap.set_address(bounds.base())
            .and_then([&](word at) { return at.set_bounds(bounds.length()); })
            .and_then([&](word at) { return at.set_address(cap.address()); }),
        cap.set_address(bounds.base())
            .and_then([&](word at) { return at.set_bounds_exact(bounds.length()); })
            .and_then([&](word at) { return at.set_address(cap.address()); }),
    };
    for (const cheri::result &made : same) {
        expect(made.error() == wanted && made == (wanted == refusal::none ? cheri::result(cap) : cheri::result(wanted)),
               it.name, "the same word made");
        expect(made.value_or(root) == (made ? cap : root) && made.to_optional().has_value() == made.has_value(),
               it.name, "the word or another");
    }
    if (wanted != refusal::none)
        return;
    const word authority = *root.set_address(7);
    const cheri::result sealed = cap.seal(authority);
    expect(sealed && sealed->otype() == 7 && sealed->is_sealed(), it.name, "sealed");
    expect(sealed->unseal(authority) == cap, it.name, "unsealed again");
    expect(sealed->set_flag(true).error() == refusal::sealed && cap.unseal(authority).error() == refusal::unsealed,
           it.name, "refusals");
    expect(cap.is_subset_of(root) && !root.is_subset_of(cap.with_perms(0)), it.name, "subset of the root");
}

// Setting bounds of words of memory and searching it are like the functions for one word.
void check_bounds_there(const std::vector<word> &words, const std::vector<std::uint8_t> &memory, byte_order order)
{
    const std::size_t count = words.size();
    std::vector<cheri_cap_u128> lengths(count, cheri_cap_u128{0, 100});
    std::vector<std::uint8_t> made(16 * count, 7), tags(count / 8 + 1, 0xff);
    std::vector<refusal> refusals(count);
    cheri::set_bounds_memory(memory.data(), order, true, lengths.data(), made.data(), refusals.data(), count);
    std::size_t wanted = 0, found = 0, next = 0;
    cheri_cap_query query{};
    query.needs_tag = query.needs_permission = query.sealed = true;
    std::vector<std::uint64_t> positions(count);
    found = cheri::search_memory(memory.data(), order, count, tags.data(), query, positions.data(), count, next);
    for (std::size_t i = 0; i < count; i++) {
        const cheri::result alone = words[i].set_bounds_exact(100);
        expect(refusals[i] == alone.error(), "memory", "the refusal of bounds");
        expect(word::from_bytes(&made[16 * i], order) == alone.value_or(word()), "memory", "a word with bounds");
        if (words[i].is_canonical() && words[i].perms() != 0)
            expect(wanted < found && positions[wanted++] == i, "memory", "a found word");
    }
    expect(wanted == found && wanted > 0 && next == count, "memory", "the number of found words");
    expect(cheri::search_memory(nullptr, order, 0, nullptr, query, nullptr, 0, next) == 0, "memory", "no words");
}

// Requests are like the functions for one.
void check_many_requests(const std::vector<word> &words)
{
    std::vector<std::uint64_t> bases, masks(words.size());
    std::vector<cheri_cap_u128> lengths, rounded(words.size());
    std::vector<cheri_cap_granted> granted(words.size());
    for (const word it : words) {
        bases.push_back(it.low());
        lengths.push_back({0, it.high() >> 20});
    }
    cheri::set_bounds_many(bases.data(), lengths.data(), granted.data(), words.size());
    cheri::round_length_many(lengths.data(), rounded.data(), words.size());
    cheri::alignment_mask_many(lengths.data(), masks.data(), words.size());
    for (std::size_t i = 0; i < words.size(); i++) {
        const auto alone = cheri::grant(bases[i], lengths[i].low);
        expect(granted[i].in_range == alone.has_value() && (!alone || granted[i].top_low == alone->top_low), "many requests",
               "bounds");
        expect(cheri::round_length(lengths[i].low) == u128(rounded[i].high, rounded[i].low) &&
                   cheri::alignment_mask(lengths[i].low) == masks[i],
               "many requests", "a length and a mask");
    }
    cheri::set_bounds_many(nullptr, nullptr, nullptr, 0);
}

void check_many(const std::vector<word> &words)
{
    std::vector<cheri_cap_bounds> bounds(words.size());
    std::vector<std::uint8_t> canonical(words.size(), 7), representable(words.size(), 7);
    std::vector<std::uint64_t> addresses(words.size());
    for (std::size_t i = 0; i < words.size(); i++)
        addresses[i] = words[i].low() ^ UINT64_C(1) << i % 64;
    cheri::decode_many(words.data(), bounds.data(), words.size());
    cheri::is_canonical_many(words.data(), canonical.data(), words.size());
    cheri::represents_many(words.data(), addresses.data(), representable.data(), words.size());
    for (std::size_t i = 0; i < words.size(); i++) {
        const cheri::bounds wanted = words[i].bounds();
        expect(bounds[i].base == wanted.base() && cheri::bounds(bounds[i]).top() == wanted.top(), "many words",
               "bounds");
        expect(canonical[i] == words[i].is_canonical() && representable[i] == words[i].represents(addresses[i]),
               "many words", "canonical and representable");
    }
    cheri::decode_many(nullptr, nullptr, 0);
    cheri::is_canonical_many(nullptr, nullptr, 0);
    cheri::represents_many(nullptr, nullptr, nullptr, 0);
    for (const byte_order order : {byte_order::little, byte_order::big}) {
        std::vector<std::uint8_t> memory, canonical_there(words.size(), 7), representable_there(words.size(), 7);
        std::vector<cheri_cap_bounds> bounds_there(words.size());
        for (const word it : words)
            for (const std::uint8_t byte : it.to_bytes(order))
                memory.push_back(byte);
        cheri::decode_memory(memory.data(), order, bounds_there.data(), words.size());
        cheri::is_canonical_memory(memory.data(), order, canonical_there.data(), words.size());
        cheri::represents_memory(memory.data(), order, addresses.data(), representable_there.data(), words.size());
        for (std::size_t i = 0; i < words.size(); i++) {
            const cheri::bounds got(bounds_there[i]), wanted = words[i].bounds();
            expect(got.base() == wanted.base() && got.top() == wanted.top(), "memory", "bounds");
        }
        expect(canonical_there == canonical && representable_there == representable, "memory",
               "canonical and representable");
        cheri::decode_memory(nullptr, order, nullptr, 0);
        cheri::is_canonical_memory(nullptr, order, nullptr, 0);
        cheri::represents_memory(nullptr, order, nullptr, nullptr, 0);
        check_bounds_there(words, memory, order);
    }
    const std::unordered_set<word> distinct(words.begin(), words.end());
    expect(distinct.count(word::root()) == 1 && distinct.count(word(0, 1)) == 0, "many words", "a set of them");
}

void check_lengths()
{
    expect(cheri::granule(0xfff) == 1u && cheri::granule(0x1000) == 8u &&
               cheri::granule(cheri::address_space) == UINT64_C(1) << 55,
           "lengths", "granule");
    expect(cheri::round_length(0x1fff) == u128(0x2000) &&
               cheri::round_length(cheri::address_space) == cheri::address_space,
           "lengths", "representable length");
    expect(cheri::alignment_mask(0x1000) == ~UINT64_C(7) &&
               cheri::alignment_mask(cheri::address_space) == UINT64_C(0xff80000000000000),
           "lengths", "mask");
    const u128 above(1, 1);
    expect(!cheri::granule(above) && !cheri::round_length(above) && !cheri::alignment_mask(above) &&
               !cheri::grant(0, above) && !cheri::grant(1, cheri::address_space),
           "lengths", "above 2^64");
    expect(word::root().set_bounds(above).error() == refusal::bounds &&
               word::root().set_bounds_exact(4097).error() == refusal::inexact,
           "lengths", "refusals");
    expect(cheri::name(refusal::inexact) == "inexact" && cheri::name(refusal::none).empty(), "refusals", "names");
    expect(word() == word(0, 0) && word() != word::root() && word().bounds().length() == cheri::address_space, "null",
           "its bounds");
    expect(u128(1) < u128(2) && u128(1, 0) > u128(UINT64_MAX) && u128(1, 0) >= u128(1, 0) && u128(2) <= u128(2),
           "numbers", "order");
    constexpr word fixed(0, 5);
    static_assert(fixed.address() == 5 && fixed == word(0, 5) && fixed != word(0, 6) && fixed != word(1, 5),
                  "words are constant expressions");
    static_assert(noexcept(fixed.set_address(1)) && noexcept(cheri_cap_decode(0, 0)), "no function throws");
}

// Checks the rules with arguments that change a word, and results that differ.
void check_results()
{
    const word root = word::root(), cap = *root.set_address(0x10000), sealed = *cap.seal(*root.set_address(7));
    expect(cap.increment(0x10)->address() == 0x10010 && cap.increment(UINT64_MAX)->address() == 0xffff &&
               cap.set_offset(5)->address() == 5,
           "rules", "another address");
    expect(cap.and_perms(CHERI_CAP_PERM_LOAD)->perms() == CHERI_CAP_PERM_LOAD, "rules", "fewer permissions");
    expect(cap.set_flag(true)->flag() && !cap.with_flag(true).set_flag(false)->flag(), "rules", "another flag");
    const cheri::bounds rounded = cap.set_bounds(4097)->bounds();
    expect(rounded.base() == 0x10000 && rounded.length() == 4104, "rules", "rounded bounds");
    expect(sealed.unseal(*root.set_address(8)).error() == refusal::mismatch, "rules", "unsealed at another type");
    expect(cheri::result(refusal::sealed) != cheri::result(refusal::bounds) &&
               cheri::result(refusal::sealed) != cheri::result(word()) &&
               cheri::result(root) != cheri::result(word()) && cheri::result(root) == cheri::result(root),
           "results", "those that differ");
    expect(cap.set_flag(true).to_optional() == cap.with_flag(true), "results", "the word as an optional");
    const cheri::line line = cap.line();
    const cheri::digits digits = cap.digits();
    const std::string_view line_text = line, digits_text = digits;
    expect(line_text == line.view() && line_text == line.c_str() && digits_text == digits.view(), "texts", "converted");
    expect(!word::parse(std::string(32, 'g')) && word::parse(digits_text) == cap, "texts", "32 characters");
    const word stores_none(UINT64_C(0xffff000000000001), 0);
    expect(!stores_none.represents(0) && stores_none.keeps_bounds(UINT64_MAX), "exponent 53", "every address");
    constexpr std::pair<refusal, const char *> names[] = {
        {refusal::sealed, "sealed"},         {refusal::unsealed, "unsealed"},
        {refusal::bounds, "bounds"},         {refusal::inexact, "inexact"},
        {refusal::permission, "permission"}, {refusal::unrepresentable, "unrepresentable"},
        {refusal::type, "type"},             {refusal::mismatch, "mismatch"},
        {refusal::canonical, "canonical"},   {refusal::exceeds, "exceeds"},
    };
    for (const auto &[why, text] : names)
        expect(cheri::name(why) == text, "refusals", text);
}

} // namespace

int main(int argc, char **argv)
{
    std::ifstream table(argc == 2 ? argv[1] : "");
    if (!table) {
        std::fputs("usage: conformance TABLE\n", stderr);
        return 2;
    }
    expect(cheri_cap_version() == CHERI_CAP_VERSION, "version", "header and library");
    std::vector<word> words;
    row it;
    for (std::string line; std::getline(table, line);) {
        if (!read_row(line, it))
            continue;
        const std::optional<word> read = word::parse(it.word);
        expect(read.has_value(), it.name, "a word");
        words.push_back(read.value_or(word()));
        for (auto check : {check_fields, check_bounds, check_window, check_text, check_changed, check_rules})
            check(it, words.back());
    }
    expect(words.size() >= 24, argv[1], "too few rows");
    check_many(words);
    check_many_requests(words);
    check_lengths();
    check_results();
    check_measures();
    std::printf("%zu rows, %u failures\n", words.size(), failures);
    return failures != 0;
}
