// Words in memory, as an emulator stores them, for a debugger: docs/EMBEDDING.md shows them in gdb.
#include <stdint.h>

// A register, or 16 bytes of memory, of a little-endian processor.
typedef struct capability {
    uint64_t low;
    uint64_t high;
} capability;

const capability root = {0, UINT64_C(0xffff000000000000)};
capability heap[] = {
    {UINT64_C(0x0000000000010000), UINT64_C(0xffff000004188004)}, // 100 bytes from 0x10000
    {UINT64_C(0x0000000000010070), UINT64_C(0xffff0000000f803d)}, // 8,192 bytes from 0x10070
    {0, 0},                                                       // null
};
// The first word of the heap in the memory of a big-endian processor.
uint8_t bytes[16] = {0xff, 0xff, 0, 0, 4, 0x18, 0x80, 4, 0, 0, 0, 0, 0, 1, 0, 0};

static uint64_t use(capability authority)
{
    return authority.low ^ heap[0].low ^ bytes[0];
}

int main(void)
{
    return use(root) == 0;
}
