/* Records the allocations of a program as a trace, an event a line, which `cheri-cap replay` reads (docs/REPLAY.md).

       cc -O2 -shared -fPIC -pthread -o record.so examples/record.c
       RECORD=trace LD_PRELOAD=$PWD/record.so PROGRAM ARGUMENTS..

   Each process writes a file of its own, trace.PID; a process that becomes another program begins trace.PID.2. An event is
   written when it happens, by one call of write, so that nothing is lost if the process is killed. An object is named by its
   address. A call that fails leaves no line. Objects that a forked process has from its parent are not in its trace, so that a
   replay counts their frees as unknown. The first line is a comment with the path of the program.

       a ADDRESS SIZE          malloc; realloc of no object
       a ADDRESS SIZE ALIGN    aligned_alloc, memalign, posix_memalign, valloc, pvalloc
       c ADDRESS SIZE          calloc, with the product
       r OLD NEW SIZE          realloc, reallocarray
       f ADDRESS               free; realloc to no bytes
       t TIME                  milliseconds since the first line, before an event at which they changed. The clock is the
                               coarse one of the kernel, which advances every few milliseconds, so a second has at most
                               a thousand of these lines, and none is a call of write of its own

   It needs the GNU C library, for the names of its own functions. */
#define _GNU_SOURCE
#include <errno.h>
#include <fcntl.h>
#include <pthread.h>
#include <stdarg.h>
#include <stddef.h>
#include <stdint.h>
#include <stdio.h>
#include <stdlib.h>
#include <time.h>
#include <unistd.h>

extern void *__libc_malloc(size_t), *__libc_calloc(size_t, size_t), *__libc_realloc(void *, size_t);
extern void *__libc_memalign(size_t, size_t), __libc_free(void *);

enum { NOT_OPEN = -1, CANNOT_OPEN = -2 };

static int trace = NOT_OPEN;
/* the milliseconds of the clock when the trace was opened, and those since then of the last line */
static uint64_t opened, latest;
/* held from before a call to after its line, so that the lines of all threads are in the order of the calls */
static pthread_mutex_t lock = PTHREAD_MUTEX_INITIALIZER;

/* Returns the milliseconds of the coarse clock, which no call of the system is needed for. */
static uint64_t milliseconds(void)
{
    struct timespec now = {0, 0};
    clock_gettime(CLOCK_MONOTONIC_COARSE, &now);
    return (uint64_t)now.tv_sec * 1000 + (uint64_t)now.tv_nsec / 1000000;
}

/* Writes bytes, and writes no more if that fails. */
static void put_out(const char *at, const char *end)
{
    while (trace >= 0 && at < end) {
        ssize_t written = write(trace, at, (size_t)(end - at));
        if (written < 0 && errno != EINTR)
            trace = CANNOT_OPEN;
        at += written > 0 ? written : 0;
    }
}

/* Writes a comment with the path of the program. A byte of it that no line can have becomes a question mark. */
static void name_program(void)
{
    static const char before[] = "# program: ";
    char line[4200], *end = line;
    for (const char *at = before; *at; at++)
        *end++ = *at;
    ssize_t length = readlink("/proc/self/exe", end, 4096);
    for (ssize_t left = length; left > 0; left--, end++)
        if (*end == '\n')
            *end = '?';
    *end++ = '\n';
    put_out(line, end);
}

/* Opens the first of trace.PID, trace.PID.2, trace.PID.3, .. that does not exist. */
static void open_trace(void)
{
    char path[4096];
    const char *prefix = getenv("RECORD");
    int file = -1;
    for (int number = 1; number < 10000 && file < 0; number++) {
        int length = snprintf(path, sizeof path, number == 1 ? "%s.%ld" : "%s.%ld.%d", prefix ? prefix : "trace", (long)getpid(), number);
        if (length < 0 || (size_t)length >= sizeof path)
            break;
        file = open(path, O_WRONLY | O_CREAT | O_EXCL | O_APPEND | O_CLOEXEC, 0644);
        if (file < 0 && errno != EEXIST)
            break;
    }
    /* a high number, which programs that close or count their files do not use */
    trace = file < 0 ? -1 : fcntl(file, F_DUPFD_CLOEXEC, 500);
    if (file >= 0)
        close(file);
    if (trace < 0)
        trace = CANNOT_OPEN;
    opened = milliseconds();
    latest = 0;
    name_program();
}

/* Appends a space, `0x` and the digits of a number, without a call that could allocate. */
static char *put(char *at, uint64_t value)
{
    char digits[16];
    int count = 0;
    do
        digits[count++] = "0123456789abcdef"[value & 15];
    while (value >>= 4);
    *at++ = ' ';
    *at++ = '0';
    *at++ = 'x';
    while (count > 0)
        *at++ = digits[--count];
    return at;
}

/* Writes a line: the kind of the event, and its numbers. A line with the time is before it if that changed. */
static void tell(char kind, int count, ...)
{
    char lines[120], *end = lines;
    va_list numbers;
    int saved = errno;
    if (trace == NOT_OPEN)
        open_trace();
    uint64_t now = milliseconds() - opened;
    if (now != latest) {
        latest = now;
        *end++ = 't';
        end = put(end, now);
        *end++ = '\n';
    }
    *end++ = kind;
    va_start(numbers, count);
    while (count-- > 0)
        end = put(end, va_arg(numbers, uint64_t));
    va_end(numbers);
    *end++ = '\n';
    put_out(lines, end);
    errno = saved;
}

static void begin(void) { pthread_mutex_lock(&lock); }
static void end(void) { pthread_mutex_unlock(&lock); }

/* A forked process begins a trace of its own. */
static void forked(void)
{
    if (trace >= 0)
        close(trace);
    trace = NOT_OPEN;
    end();
}
__attribute__((constructor)) static void start(void) { pthread_atfork(begin, end, forked); }

void *malloc(size_t size)
{
    begin();
    void *object = __libc_malloc(size);
    if (object)
        tell('a', 2, (uint64_t)(uintptr_t)object, (uint64_t)size);
    end();
    return object;
}

void *calloc(size_t count, size_t size)
{
    begin();
    void *object = __libc_calloc(count, size);
    if (object)
        tell('c', 2, (uint64_t)(uintptr_t)object, (uint64_t)(count * size));
    end();
    return object;
}

void *realloc(void *old, size_t size)
{
    if (!old)
        return malloc(size);
    begin();
    void *object = __libc_realloc(old, size);
    if (object)
        tell('r', 3, (uint64_t)(uintptr_t)old, (uint64_t)(uintptr_t)object, (uint64_t)size);
    else if (size == 0)
        tell('f', 1, (uint64_t)(uintptr_t)old);
    end();
    return object;
}

void *reallocarray(void *old, size_t count, size_t size)
{
    size_t bytes;
    if (!__builtin_mul_overflow(count, size, &bytes))
        return realloc(old, bytes);
    errno = ENOMEM;
    return NULL;
}

void free(void *object)
{
    if (!object)
        return;
    begin();
    tell('f', 1, (uint64_t)(uintptr_t)object);
    __libc_free(object);
    end();
}

void *memalign(size_t align, size_t size)
{
    begin();
    void *object = __libc_memalign(align, size);
    /* the library takes the next power of two for any other alignment */
    size_t power = 1;
    while (power < align)
        power *= 2;
    if (object)
        tell('a', 3, (uint64_t)(uintptr_t)object, (uint64_t)size, (uint64_t)power);
    end();
    return object;
}

void *aligned_alloc(size_t align, size_t size) { return memalign(align, size); }

int posix_memalign(void **place, size_t align, size_t size)
{
    if (align == 0 || align % sizeof(void *) != 0 || (align & (align - 1)) != 0)
        return EINVAL;
    int saved = errno;
    void *object = memalign(align, size);
    errno = saved;
    if (!object)
        return ENOMEM;
    *place = object;
    return 0;
}

void *valloc(size_t size) { return memalign((size_t)sysconf(_SC_PAGESIZE), size); }

void *pvalloc(size_t size)
{
    size_t page = (size_t)sysconf(_SC_PAGESIZE);
    return size > SIZE_MAX - page ? (errno = ENOMEM, NULL) : memalign(page, (size + page - 1) / page * page);
}
