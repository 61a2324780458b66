/* The engine's library comes as object code without instrumentation. Each of its instructions is therefore made a breakpoint,
 * which the first call to reach it takes away again and counts: the fuzzer learns of new code, and later calls run at full speed. */
#define _GNU_SOURCE
#include "engine_code.h"

#include <signal.h>
#include <stdint.h>
#include <stdio.h>
#include <stdlib.h>
#include <sys/mman.h>
#include <ucontext.h>

enum { CODE_ROOM = 1 << 17, PAGE_BYTES = 4096, BREAKPOINT = 0xCC };

extern uint8_t __executable_start[];

static uint8_t *first; /* the engine's lowest instruction */
static uint8_t whole[CODE_ROOM];
static uint8_t watched[CODE_ROOM];
static size_t instructions, reached;

__attribute__((section("__libfuzzer_extra_counters"))) static uint8_t counters[CODE_ROOM];

static void at_breakpoint(int signal, siginfo_t *info, void *context) {
    (void)signal, (void)info;
    greg_t *next = &((ucontext_t *)context)->uc_mcontext.gregs[REG_RIP];
    size_t at = (size_t)((uint8_t *)*next - 1 - first);
    if (at >= CODE_ROOM || !watched[at]) {
        abort();
    }
    watched[at] = 0;
    first[at] = whole[at];
    reached++;
    counters[at]++;
    --*next;
}

static void stop(const char *why) {
    fprintf(stderr, "fuzz: %s\n", why);
    exit(2);
}

static void open_code(uint8_t *from, uint8_t *to) {
    uint8_t *page = from - (uintptr_t)from % PAGE_BYTES;
    if (mprotect(page, (size_t)(to - page) + 1, PROT_READ | PROT_WRITE | PROT_EXEC) != 0) {
        stop("the engine's code cannot be watched here");
    }
}

static void watch(uint8_t *instruction) {
    size_t at = (size_t)(instruction - first);
    whole[at] = *instruction;
    watched[at] = 1;
    *instruction = BREAKPOINT;
    instructions++;
}

void watch_engine_code(void) {
    const char *name = getenv("ENGINE_CODE");
    if (name == NULL) {
        return;
    }
    static uint8_t *listed[CODE_ROOM];
    size_t count = 0;
    FILE *file = fopen(name, "r");
    for (unsigned long offset; file != NULL && count < CODE_ROOM && fscanf(file, "%lx", &offset) == 1;) {
        listed[count++] = __executable_start + offset;
    }
    if (count == 0 || listed[count - 1] - listed[0] >= CODE_ROOM) {
        stop("ENGINE_CODE names no list of the engine's instructions");
    }
    fclose(file);
    struct sigaction action = {.sa_sigaction = at_breakpoint, .sa_flags = SA_SIGINFO};
    sigaction(SIGTRAP, &action, NULL);
    first = listed[0];
    open_code(first, listed[count - 1]);
    for (size_t i = 0; i < count; i++) {
        watch(listed[i]);
    }
}

void print_engine_code(void) {
    if (instructions == 0) {
        return;
    }
    printf("engine's object code: %zu of %zu instructions reached; not reached:", reached, instructions);
    for (size_t at = 0; at < CODE_ROOM; at++) {
        if (watched[at]) {
            printf(" %zx", (size_t)(first + at - __executable_start));
        }
    }
    printf("\n");
}
