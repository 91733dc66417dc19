// Decodes the word of 16 bytes on standard input: cc -Iinclude examples/decode.c libcc_ffi.a
// With the argument "big" the bytes are in big-endian order, otherwise in little-endian order.
#include <cheri_cap.h>
#include <inttypes.h>
#include <stdio.h>
#include <string.h>

int main(int argc, char **argv)
{
    uint8_t bytes[16];
    if (cheri_cap_version() != CHERI_CAP_VERSION || fread(bytes, 1, 16, stdin) != 16) {
        fputs("no 16 bytes, or a library of another version\n", stderr);
        return 2;
    }
    bool big_endian = argc > 1 && strcmp(argv[1], "big") == 0;
    cheri_cap_u128 word = cheri_cap_word_from_bytes(bytes, big_endian);
    cheri_cap_fields fields = cheri_cap_unpack(word.high, word.low);
    cheri_cap_bounds bounds = cheri_cap_decode(word.high, word.low);
    bool canonical = cheri_cap_is_canonical(word.high, word.low);
    printf("word %016" PRIx64 "%016" PRIx64 "\n", word.high, word.low);
    printf("perms %04x\ntype %05" PRIx32 "\n", (unsigned)fields.perms, fields.otype);
    printf("address 0x%" PRIx64 "\nexponent %u\n", fields.address, (unsigned)bounds.exponent);
    printf("base 0x%" PRIx64 "\n", bounds.base);
    if (bounds.top_high != 0)
        printf("top 0x%" PRIx64 "%016" PRIx64 "\n", bounds.top_high, bounds.top_low);
    else
        printf("top 0x%" PRIx64 "\n", bounds.top_low);
    printf("canonical %s\n", canonical ? "yes" : "no");
    return 0;
}
