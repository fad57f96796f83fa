/* The library on the target, called for near.c: reads a request and its image, makes the call on that memory, sends both back, until the input ends. A call runs on a
   stack of its own, painted before and looked through after it, so the reply tells how much it took. usage: far [INPUT OUTPUT], standard input and output unless said */
#include "wire.h"
#include <fcntl.h>
#include <string.h>
#include <unistd.h>

static _Alignas(8) uint8_t image[IMAGE];
static struct request request;

/* Lent storage, NULL where its length is 0, and an argument that is a number. */
#define LENT(i) (request.value[i] == 0 ? NULL : (void *)(image + request.at[i])), request.value[i]
#define NUMBER(i) ((uint32_t)request.value[i])

static uint32_t make_call(void)
{
    switch ((enum call)request.call) {
    case POWER_ON: return deorasaeng_power_on(LENT(0), request.value[1], NUMBER(2));
    case POWER_ON_PORTS: return deorasaeng_power_on_ports(LENT(0), request.value[1], NUMBER(2), NUMBER(3));
    case FRAME: return deorasaeng_frame(LENT(0), NUMBER(1), NUMBER(2), LENT(3), LENT(4));
    case TAKE: return deorasaeng_take(LENT(0), NUMBER(1), LENT(2), LENT(3));
    case MESSAGE: return deorasaeng_message(LENT(0), NUMBER(1), NUMBER(2), LENT(3), LENT(4), LENT(5));
    case START: return deorasaeng_start(LENT(0), LENT(1));
    case QUIET: return deorasaeng_quiet(LENT(0));
    case UNIT: return deorasaeng_unit(LENT(0), LENT(1));
    case COUNTS: return deorasaeng_counts(LENT(0), NUMBER(1), LENT(2));
    case TAKE_QUEUE: return deorasaeng_take_queue((uint64_t *)(void *)(image + request.at[0]), LENT(1), LENT(2));
    case PLAN: return deorasaeng_plan(LENT(0), LENT(1), NUMBER(2), NUMBER(3), NUMBER(4), NUMBER(5), LENT(6));
    case PLAN_LINKS: return deorasaeng_plan_links(LENT(0), LENT(1), NUMBER(2), NUMBER(3), NUMBER(4), NUMBER(5), LENT(6));
    default: _exit(4);
    }
}

#ifdef __wasm__
/* WebAssembly has no stack in memory to look at. */
static uint32_t with_stack(uint64_t *taken)
{
    *taken = 0;
    return make_call();
}
#else
enum { STACK = 16384, STEP = 512, PAINT = 0x5A };
static _Alignas(16) uint8_t stack[STACK];

/* A function that is called with the stack pointer at `top`. */
__attribute__((noinline)) static uint32_t on_stack(uint32_t (*function)(void), uint8_t *top)
{
#if defined __aarch64__
    register uint64_t result __asm__("x0");
    __asm__ volatile("mov x19, sp\n mov sp, %1\n blr %2\n mov sp, x19"
                     : "=r"(result) : "r"(top), "r"(function)
                     : "x1", "x2", "x3", "x4", "x5", "x6", "x7", "x8", "x9", "x10", "x11", "x12", "x13", "x14", "x15", "x16", "x17", "x18", "x19", "x30", "memory", "cc",
                       "v0", "v1", "v2", "v3", "v4", "v5", "v6", "v7", "v16", "v17", "v18", "v19", "v20", "v21", "v22", "v23", "v24", "v25", "v26", "v27", "v28", "v29", "v30", "v31");
    return (uint32_t)result;
#elif defined __riscv
    register uint64_t result __asm__("a0");
    __asm__ volatile("mv s1, sp\n mv sp, %1\n jalr %2\n mv sp, s1"
                     : "=r"(result) : "r"(top), "r"(function)
                     : "s1", "ra", "a1", "a2", "a3", "a4", "a5", "a6", "a7", "t0", "t1", "t2", "t3", "t4", "t5", "t6", "memory");
    return (uint32_t)result;
#elif defined __arm__
    register uint32_t result __asm__("r0");
    __asm__ volatile("mov r4, sp\n mov sp, %1\n blx %2\n mov sp, r4"
                     : "=r"(result) : "r"(top), "r"(function) : "r1", "r2", "r3", "r4", "r12", "lr", "memory", "cc");
    return result;
#else
#error "no way known here to call a function on another stack"
#endif
}

static uint32_t with_stack(uint64_t *taken)
{
    static uint8_t paint[STEP];
    size_t untouched = 0;
    memset(paint, PAINT, sizeof paint);
    memset(stack, PAINT, sizeof stack);
    uint32_t number = on_stack(make_call, stack + STACK);
    while (untouched + STEP <= STACK && memcmp(stack + untouched, paint, STEP) == 0)
        untouched += STEP;
    while (untouched < STACK && stack[untouched] == PAINT)
        untouched++;
    *taken = STACK - untouched;
    return number;
}
#endif

static int from = 0, to = 1;

/* Whether so many bytes came; not where the input ends. */
static int read_all(void *memory, size_t bytes)
{
    for (char *at = memory; bytes > 0;) {
        ssize_t got = read(from, at, bytes);
        if (got <= 0)
            return 0;
        at += got;
        bytes -= (size_t)got;
    }
    return 1;
}

static void write_all(const void *memory, size_t bytes)
{
    for (const char *at = memory; bytes > 0;) {
        ssize_t written = write(to, at, bytes);
        if (written <= 0)
            _exit(5);
        at += written;
        bytes -= (size_t)written;
    }
}

int main(int argc, char **argv)
{
    if (argc > 2) {
        from = open(argv[1], O_RDONLY);
        to = open(argv[2], O_WRONLY);
    }
    while (read_all(&request, sizeof request)) {
        struct reply reply;
        if (request.image_len > IMAGE || !read_all(image, request.image_len))
            return 6;
        reply.number = with_stack(&reply.stack);
        write_all(&reply, sizeof reply);
        write_all(image, request.image_len);
    }
    return 0;
}
