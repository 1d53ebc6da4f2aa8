/*
 * Coverage of the archive, whose code has no counters for the fuzzer.
 *
 * A breakpoint stands on each of its instructions. Where one is reached, the instruction is put back and counts as a
 * feature of the input that reached it first, so the fuzzer keeps that input and goes on from it. The file
 * PROGRAM.places has an address a line, in the order of addresses; `run` writes it.
 */
#define _GNU_SOURCE
#include "coverage.h"
#include <signal.h>
#include <stdio.h>
#include <stdlib.h>
#include <string.h>
#include <sys/mman.h>
#include <ucontext.h>
#include <unistd.h>

enum { CODE = 1 << 16, BREAKPOINT = 0xCC };

/* For each byte of the code: what the fuzzer counts, and what stands there without a breakpoint. */
__attribute__((section("__libfuzzer_extra_counters"))) static uint8_t reached[CODE];
static uint8_t code[CODE];
static uint8_t *start;
static size_t size, count, count_reached;

static void stop(const char *why)
{
    fprintf(stderr, "coverage.c: %s\n", why);
    exit(2);
}

static void at_breakpoint(int number, siginfo_t *info, void *context)
{
    greg_t *next = &((ucontext_t *)context)->uc_mcontext.gregs[REG_RIP];
    uint8_t *place = (uint8_t *)*next - 1;
    (void)number;
    (void)info;
    if (place < start || place >= start + size)
        stop("a breakpoint that is none of these");
    *place = code[place - start];
    reached[place - start] = 1;
    count_reached++;
    *next -= 1;
}

static void unprotect(void)
{
    uintptr_t page = (uintptr_t)sysconf(_SC_PAGESIZE), first = (uintptr_t)start / page * page;
    if (mprotect((void *)first, (uintptr_t)start + size - first, PROT_READ | PROT_WRITE | PROT_EXEC) != 0)
        stop("the code can't be made writable");
}

static void report(void)
{
    if (count_reached > 0)
        fprintf(stderr, "coverage: %zu of the archive's %zu instructions were reached\n", count_reached, count);
}

void watch_coverage(const char *program)
{
    struct sigaction action = {.sa_sigaction = at_breakpoint, .sa_flags = SA_SIGINFO};
    static uintptr_t places[CODE];
    char name[4096];
    FILE *file;
    snprintf(name, sizeof name, "%s.places", program);
    file = fopen(name, "r");
    if (file == NULL)
        stop("the file of places is missing");
    while (count < CODE && fscanf(file, "%lx", &places[count]) == 1)
        count++;
    fclose(file);
    if (count == 0 || places[count - 1] - places[0] >= CODE)
        stop("the file of places doesn't fit");
    start = (uint8_t *)places[0];
    size = places[count - 1] - places[0] + 1;
    memcpy(code, start, size);
    unprotect();
    sigaction(SIGTRAP, &action, NULL);
    for (size_t i = 0; i < count; i++)
        *(uint8_t *)places[i] = BREAKPOINT;
    atexit(report);
}

