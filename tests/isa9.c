// Executes instructions by cheri_cap_isa9.h, one for each line of standard input, for tests/isa9. C11 and C++17. A line is
//   NAME WORD TAG WORD TAG NUMBER NUMBER
// the words in 32 hexadecimal digits, the numbers in hexadecimal. The reply has the words and the tags that the instruction
// writes, or a number, or the cause and the operand of a jump that traps.
#include <cheri_cap_isa9.h>
#include <inttypes.h>
#include <stdio.h>

static cheri_isa9_cap one, two;
static uint64_t number, other;

static int say(uint64_t value) { return printf("%" PRIx64 "\n", value); }

static int say_cap(cheri_isa9_cap cap, char end)
{
    return printf("%016" PRIx64 "%016" PRIx64 " %d%c", cap.word.high, cap.word.low, cap.tag, end);
}

static int say_jump(cheri_isa9_jump jump)
{
    if (jump.cause != 0)
        return printf("trap %x %u\n", jump.cause, jump.operand);
    return say_cap(jump.pcc, ' ') + say_cap(jump.also, '\n');
}

static int execute(const char *name)
{
    cheri_cap_granted fields;
#define NUMBER(it, ...) if (strcmp(name, #it) == 0) return say(cheri_isa9_##it(__VA_ARGS__))
#define CAP(it, ...) if (strcmp(name, #it) == 0) return say_cap(cheri_isa9_##it(__VA_ARGS__), '\n')
#define JUMP(it, ...) if (strcmp(name, #it) == 0) return say_jump(cheri_isa9_##it(__VA_ARGS__))
    NUMBER(cgetperm, one); NUMBER(cgettype, one); NUMBER(cgetbase, one); NUMBER(cgettop, one); NUMBER(cgetlen, one);
    NUMBER(cgettag, one); NUMBER(cgetsealed, one); NUMBER(cgetoffset, one); NUMBER(cgetflags, one);
    NUMBER(cgetaddr, one); NUMBER(cgethigh, one);
    CAP(integer, number); CAP(cmove, one); CAP(ccleartag, one); CAP(csealentry, one);
    CAP(csethigh, one, number); CAP(candperm, one, number); CAP(csetflags, one, number); CAP(csetaddr, one, number);
    CAP(auipcc, one, number); CAP(cincoffset, one, number); CAP(csetoffset, one, number); CAP(cfromptr, one, number);
    CAP(csetbounds, one, number); CAP(csetboundsexact, one, number);
    CAP(cseal, one, two); CAP(cunseal, one, two); CAP(ccseal, one, two); CAP(cbuildcap, one, two);
    CAP(ccopytype, one, two); CAP(loaded, one, two);
    NUMBER(ctoptr, one, two); NUMBER(csub, one, two); NUMBER(ctestsubset, one, two); NUMBER(csetequalexact, one, two);
    NUMBER(crrl, number); NUMBER(cram, number); NUMBER(is_fast, one, number);
    NUMBER(load, one, number, other); NUMBER(store, one, number, other); NUMBER(fetch, one, number, other);
    NUMBER(store_cap, one, number, two);
    JUMP(cjalr, two, UINT64_C(0x1004), one, number, other); JUMP(cinvoke, one, two, other);
    if (strcmp(name, "root") == 0)
        return say_cap(cheri_isa9_root(), '\n');
    if (strcmp(name, "fields") != 0)
        return -1;
    fields = cheri_isa9_fields(number, other);
    return printf("%x %x %d %u\n", fields.t, fields.b, fields.ie, fields.exponent);
}

int main(void)
{
    char name[32];
    int one_tag, two_tag;
    while (scanf("%31s %16" SCNx64 "%16" SCNx64 " %d %16" SCNx64 "%16" SCNx64 " %d %" SCNx64 " %" SCNx64, name, &one.word.high,
                 &one.word.low, &one_tag, &two.word.high, &two.word.low, &two_tag, &number, &other) == 9) {
        one.tag = one_tag != 0;
        two.tag = two_tag != 0;
        if (execute(name) < 0)
            return 1;
    }
    return 0;
}
