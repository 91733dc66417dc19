// Decodes many words as `cheri-cap decode [--format text] [FILE]` does, in plain C, for the comparison of bench/decode. It has
// its own two buffers; lines are found by memchr, and digits are written by a table.
#include "plain.c"

#include <fcntl.h>
#include <unistd.h>

enum { PIECE = 32768, MOST_LINE = 128 };

static char output[PIECE];
static size_t waiting;
static bool any_error;

static void pass_on(void)
{
    for (size_t at = 0; at < waiting;) {
        ssize_t count = write(1, output + at, waiting - at);
        if (count <= 0)
            _exit(3);
        at += (size_t)count;
    }
    waiting = 0;
}

static char *put(char *to, const char *text, size_t length)
{
    memcpy(to, text, length);
    return to + length;
}

static char *put_number(char *to, uint64_t high, uint64_t low)
{
    char digits[32];
    plain_write_word(high, low, digits);
    int bits = high ? 128 - __builtin_clzll(high) : 64 - __builtin_clzll(low | 1);
    size_t count = (size_t)(bits + 3) / 4;
    *to++ = '0';
    *to++ = 'x';
    return put(to, digits + 32 - count, count);
}

static char *put_columns(char *to, uint64_t high, uint64_t low)
{
    cheri_cap_fields fields = plain_unpack(high, low);
    span bounds = decoded_word(high, low);
    char digits[32];
    plain_write_word(high, low, to);
    to += 32;
    *to++ = ' ';
    to = put_number(to, 0, bounds.base);
    *to++ = ' ';
    to = put_number(to, (uint64_t)(bounds.top >> 64), (uint64_t)bounds.top);
    *to++ = ' ';
    plain_write_word(fields.perms, fields.otype, digits);
    to = put(to, digits + 12, 4);
    to = put(to, fields.flag ? " 1 " : " 0 ", 3);
    to = put(to, digits + 27, 5);
    *to++ = ' ';
    if (bounds.exponent > 9)
        *to++ = (char)('0' + bounds.exponent / 10);
    *to++ = (char)('0' + bounds.exponent % 10);
    return plain_is_canonical(high, low) ? put(to, " yes", 4) : put(to, " no", 3);
}

static char *put_text(char *to, uint64_t high, uint64_t low)
{
    cheri_cap_fields fields = plain_unpack(high, low);
    span bounds = decoded_word(high, low);
    to = put_number(to, 0, fields.address);
    to = put(to, " [", 2);
    for (int bit = 0; bit < 5; bit++)
        if (fields.perms & 1u << "\2\3\1\4\5"[bit])
            *to++ = "rwxRW"[bit];
    *to++ = ',';
    to = put_number(to, 0, bounds.base);
    *to++ = '-';
    to = put_number(to, (uint64_t)(bounds.top >> 64), (uint64_t)bounds.top);
    *to++ = ']';
    if (fields.otype == CHERI_CAP_OTYPE_UNSEALED)
        return to;
    return fields.otype == 0x3fffe ? put(to, " (sentry)", 9) : put(to, " (sealed)", 9);
}

static void answer(const char *line, size_t length, bool text)
{
    if (waiting + MOST_LINE > PIECE)
        pass_on();
    char *to = output + waiting;
    cheri_cap_read word = plain_read_word(line, length);
    if (!word.found) {
        any_error = true;
        to = put(to, "error 1 syntax", 14);
    } else {
        to = text ? put_text(to, word.high, word.low) : put_columns(to, word.high, word.low);
    }
    *to++ = '\n';
    waiting = (size_t)(to - output);
}

int main(int count, char **words)
{
    static char piece[PIECE], begun[MOST_LINE];
    size_t start = 0;
    bool text = count > 1 && strcmp(words[1], "text") == 0;
    int file = count > 2 ? open(words[2], O_RDONLY) : 0;
    for (ssize_t given; (given = read(file, piece, PIECE)) != 0; pass_on()) {
        if (file < 0 || given < 0)
            return 3;
        const char *at = piece, *end = piece + given, *feed;
        for (; (feed = memchr(at, '\n', (size_t)(end - at))); at = feed + 1) {
            size_t length = (size_t)(feed - at);
            if (start == 0) {
                answer(at, length, text);
                continue;
            }
            size_t more = length < MOST_LINE - start ? length : MOST_LINE - start;
            memcpy(begun + start, at, more);
            answer(begun, start + more, text);
            start = 0;
        }
        size_t left = (size_t)(end - at), more = left < MOST_LINE - start ? left : MOST_LINE - start;
        memcpy(begun + start, at, more);
        start += more;
    }
    if (start > 0) {
        any_error = true;
        waiting = (size_t)(put(output, "error 2 unfinished\n", 19) - output);
        pass_on();
    }
    return any_error;
}
