// A small emulator: registers with words and tags, and 10,000 seeded instructions on them by the rules of the library.
// It also writes these instructions as a script of cheri-cap, and the replies that they must get. The status is 1 if a
// rule returned no word, or refused none. It is C11 and C++17. Usage:
//   emulator SCRIPT REPLIES
#include <cheri_cap.h>
#include <inttypes.h>
#include <stdio.h>

enum { INSTRUCTIONS = 10000, REGISTERS = 16, AUTHORITY = 15 };
enum { SET_ADDRESS, INCREMENT, SET_BOUNDS, SET_BOUNDS_EXACT, AND_PERMS, SET_FLAG, SEAL, UNSEAL, BUILD, RULES };

// A register, and the slot of the machine of cheri-cap that has the same capability.
typedef struct capability {
    cheri_cap_u128 word;
    unsigned tag, slot;
} capability;

static capability registers[REGISTERS];
static unsigned slots = 1;

// A seeded generator, splitmix64.
static uint64_t next_random(void)
{
    static uint64_t state = 27;
    uint64_t number = state += UINT64_C(0x9e3779b97f4a7c15);
    number = (number ^ number >> 30) * UINT64_C(0xbf58476d1ce4e5b9);
    number = (number ^ number >> 27) * UINT64_C(0x94d049bb133111eb);
    return number ^ number >> 31;
}

// A number with a random count of bits, small ones as often as large ones.
static uint64_t next_number(void)
{
    const uint64_t number = next_random();
    return number >> next_random() % 64;
}

// Returns a register that is read. One without its tag is loaded with the root again, slot 0, so that the script can
// continue.
static capability *read_register(uint64_t number)
{
    capability *found = &registers[number];
    if (found->tag == 0) {
        found->word = cheri_cap_root();
        found->tag = 1;
        found->slot = 0;
    }
    return found;
}

static cheri_cap_made and_perms(FILE *script, cheri_cap_u128 word, unsigned slot)
{
    static const char *const names[] = {"EXECUTE+LOAD+LOAD_CAP", "GLOBAL+LOAD+STORE+SEAL+UNSEAL", "SEAL+UNSEAL+USER3", "-"};
    static const uint16_t masks[] = {
        CHERI_CAP_PERM_EXECUTE | CHERI_CAP_PERM_LOAD | CHERI_CAP_PERM_LOAD_CAP,
        CHERI_CAP_PERM_GLOBAL | CHERI_CAP_PERM_LOAD | CHERI_CAP_PERM_STORE | CHERI_CAP_PERM_SEAL | CHERI_CAP_PERM_UNSEAL,
        CHERI_CAP_PERM_SEAL | CHERI_CAP_PERM_UNSEAL | CHERI_CAP_PERM_USER3,
        0,
    };
    const uint64_t chosen = next_random() % 4;
    fprintf(script, "perms %u %s\n", slot, names[chosen]);
    return cheri_cap_and_perms(word.high, word.low, masks[chosen]);
}

// Writes an instruction as a line of the script, and executes it.
static cheri_cap_made execute(uint64_t rule, FILE *script, const capability *source, const capability *authority)
{
    cheri_cap_u128 word = source->word, by = authority->word;
    uint64_t number = next_number();
    bool flag = number % 2 != 0;
    switch (rule) {
    case SET_ADDRESS:
        number += next_random() % 2 != 0 ? word.low : 0;
        fprintf(script, "addr %u 0x%" PRIx64 "\n", source->slot, number);
        return cheri_cap_set_address(word.high, word.low, number);
    case INCREMENT:
        fprintf(script, "inc %u %" PRIu64 "\n", source->slot, number);
        return cheri_cap_increment(word.high, word.low, number);
    case SET_BOUNDS:
        fprintf(script, "bounds %u %" PRIu64 "\n", source->slot, number);
        return cheri_cap_set_bounds_on(word.high, word.low, 0, number);
    case SET_BOUNDS_EXACT:
        fprintf(script, "exact %u %" PRIu64 "\n", source->slot, number);
        return cheri_cap_set_bounds_exact_on(word.high, word.low, 0, number);
    case AND_PERMS:
        return and_perms(script, word, source->slot);
    case SET_FLAG:
        fprintf(script, "flag %u %d\n", source->slot, flag);
        return cheri_cap_set_flag(word.high, word.low, flag);
    case SEAL:
        fprintf(script, "seal %u %u\n", source->slot, authority->slot);
        return cheri_cap_seal(word.high, word.low, by.high, by.low);
    case UNSEAL:
        fprintf(script, "unseal %u %u\n", source->slot, authority->slot);
        return cheri_cap_unseal(word.high, word.low, by.high, by.low);
    default:
        fprintf(script, "rebuild %u %016" PRIx64 "%016" PRIx64 "\n", authority->slot, word.high, word.low);
        return cheri_cap_rebuild(by.high, by.low, word.high, word.low);
    }
}

// Writes the reply to an instruction, and its result to a register: without a tag if the rule refuses.
static void finish(FILE *replies, const cheri_cap_made *made, capability *target)
{
    cheri_cap_bounds bounds = cheri_cap_decode(made->high, made->low);
    target->tag = made->refusal == 0;
    if (made->refusal != 0) {
        fprintf(replies, "error %u %s\n", made->refusal, cheri_cap_refusal_name(made->refusal));
        return;
    }
    fprintf(replies, "slot %u %016" PRIx64 "%016" PRIx64 " 0x%" PRIx64, slots, made->high, made->low, bounds.base);
    fprintf(replies, bounds.top_high != 0 ? " 0x1%016" PRIx64 "\n" : " 0x%" PRIx64 "\n", bounds.top_low);
    target->word.high = made->high;
    target->word.low = made->low;
    target->slot = slots++;
}

// Executes all except the first, and returns whether each rule returned a word and refused one.
static bool run(FILE *script, FILE *replies)
{
    unsigned made_by[RULES] = {0}, refused_by[RULES] = {0};
    bool all = true;
    for (unsigned i = 1; i < INSTRUCTIONS; i++) {
        uint64_t rule = next_random() % RULES;
        const capability *source = read_register(next_random() % AUTHORITY);
        const capability *authority = read_register(next_random() % 2 != 0 ? next_random() % REGISTERS : UINT64_C(15));
        cheri_cap_made made = execute(rule, script, source, authority);
        *(made.refusal == 0 ? &made_by[rule] : &refused_by[rule]) += 1;
        finish(replies, &made, &registers[next_random() % AUTHORITY]);
    }
    for (unsigned rule = 0; rule < RULES; rule++)
        all = all && made_by[rule] > 0 && refused_by[rule] > 0;
    return all;
}

int main(int argc, char **argv)
{
    // The root at address 7, which seals with type 7 and unseals this type.
    cheri_cap_made made = cheri_cap_set_address(cheri_cap_root().high, 0, 7);
    FILE *script = argc == 3 ? fopen(argv[1], "w") : stdout, *replies = argc == 3 ? fopen(argv[2], "w") : stdout;
    if (argc != 3 || !script || !replies) {
        fputs("usage: emulator SCRIPT REPLIES\n", stderr);
        return 2;
    }
    fputs("addr 0 7\n", script);
    finish(replies, &made, &registers[AUTHORITY]);
    if (!run(script, replies))
        return 1;
    printf("%d instructions, %u words made\n", INSTRUCTIONS, slots - 1);
    return fclose(script) == 0 && fclose(replies) == 0 ? 0 : 1;
}
