/* Which blocks of a program's code a run meets.
 *
 *     blocks PROGRAM ADDRESSES SEEN SECONDS [WORD..] < INPUT > OUTPUT
 *
 * ADDRESSES has the first addresses of blocks, in hexadecimal, one a line, as the file of the program has them. Each of them
 * that SEEN has not is given a breakpoint, which is taken out as it is met; those that are met are written to the end of SEEN.
 * The exit code is the program's, 128 and the signal where one ends it (SIGXCPU after so many seconds of the processor), and 126
 * for a fault here.
 *
 *     cc -O2 -o blocks blocks.c
 */
#define _GNU_SOURCE
#include <errno.h>
#include <fcntl.h>
#include <signal.h>
#include <stdint.h>
#include <stdio.h>
#include <stdlib.h>
#include <string.h>
#include <sys/personality.h>
#include <sys/ptrace.h>
#include <sys/resource.h>
#include <sys/user.h>
#include <sys/wait.h>
#include <unistd.h>

enum { FAULT = 126, BREAK = 0xcc, MOST = 1 << 20 };

static uint64_t addresses[MOST], seen[MOST], base;
static size_t address_count, seen_count;
static unsigned char *image;
static uint64_t low = UINT64_MAX, high;
static pid_t child;

static void fail(const char *what)
{
    perror(what);
    if (child > 0)
        kill(child, SIGKILL);
    exit(FAULT);
}

static size_t read_addresses(const char *path, uint64_t *into)
{
    FILE *file = fopen(path, "r");
    size_t count = 0;
    unsigned long address;

    if (file == NULL)
        return 0;
    while (count < MOST && fscanf(file, "%lx", &address) == 1)
        into[count++] = address;
    fclose(file);
    return count;
}

static int order(const void *a, const void *b)
{
    uint64_t x = *(const uint64_t *)a, y = *(const uint64_t *)b;

    return x < y ? -1 : x > y;
}

static int is_seen(uint64_t address)
{
    return bsearch(&address, seen, seen_count, sizeof *seen, order) != NULL;
}

/* Where the program lies in memory: its first mapping. */
static uint64_t base_of(pid_t pid)
{
    char path[64];
    unsigned long begin;

    snprintf(path, sizeof path, "/proc/%d/maps", pid);
    FILE *maps = fopen(path, "r");
    if (maps == NULL || fscanf(maps, "%lx", &begin) != 1)
        fail("maps");
    fclose(maps);
    return begin;
}

/* Puts the breakpoints in, with one write of the whole code. */
static int set_breakpoints(pid_t pid)
{
    char path[64];

    snprintf(path, sizeof path, "/proc/%d/mem", pid);
    int memory = open(path, O_RDWR);
    size_t length = high - low + 1;
    unsigned char *changed = malloc(length);
    image = malloc(length);
    if (memory < 0 || changed == NULL || image == NULL || pread(memory, image, length, (off_t)(base + low)) != (ssize_t)length)
        fail("memory of the program");
    memcpy(changed, image, length);
    for (size_t i = 0; i < address_count; i++)
        if (!is_seen(addresses[i]))
            changed[addresses[i] - low] = BREAK;
    if (pwrite(memory, changed, length, (off_t)(base + low)) != (ssize_t)length)
        fail("breakpoints");
    free(changed);
    return memory;
}

/* A breakpoint was met: it goes, and the program goes on there. 0 where there was none of ours. */
static int take_out(int memory, FILE *found)
{
    struct user_regs_struct registers;

    if (ptrace(PTRACE_GETREGS, child, NULL, &registers) != 0)
        fail("registers");
    uint64_t address = registers.rip - 1 - base;
    if (address < low || address > high || bsearch(&address, addresses, address_count, sizeof *addresses, order) == NULL)
        return 0;
    if (pwrite(memory, &image[address - low], 1, (off_t)(base + address)) != 1)
        fail("byte");
    registers.rip--;
    if (ptrace(PTRACE_SETREGS, child, NULL, &registers) != 0)
        fail("registers");
    fprintf(found, "%lx\n", (unsigned long)address);
    return 1;
}

static int follow(int memory, FILE *found)
{
    int status, signal = 0;

    for (;;) {
        if (ptrace(PTRACE_CONT, child, NULL, (void *)(intptr_t)signal) != 0 && errno != ESRCH)
            fail("continue");
        if (waitpid(child, &status, 0) != child)
            fail("wait");
        if (WIFEXITED(status))
            return WEXITSTATUS(status);
        if (WIFSIGNALED(status))
            return 128 + WTERMSIG(status);
        signal = WSTOPSIG(status);
        if (signal == SIGTRAP && take_out(memory, found))
            signal = 0;
    }
}

int main(int count, char **words)
{
    int status;

    if (count < 5) {
        fprintf(stderr, "blocks PROGRAM ADDRESSES SEEN SECONDS [WORD..]\n");
        return FAULT;
    }
    address_count = read_addresses(words[2], addresses);
    seen_count = read_addresses(words[3], seen);
    qsort(addresses, address_count, sizeof *addresses, order);
    qsort(seen, seen_count, sizeof *seen, order);
    for (size_t i = 0; i < address_count; i++) {
        low = addresses[i] < low ? addresses[i] : low;
        high = addresses[i] > high ? addresses[i] : high;
    }
    FILE *found = fopen(words[3], "a");
    if (found == NULL || address_count == 0)
        fail("addresses");
    child = fork();
    if (child == 0) {
        rlim_t seconds = (rlim_t)atoi(words[4]);
        struct rlimit stack = { 1 << 20, 1 << 20 }, time = { seconds, seconds + 1 };

        words[4] = words[1];
        setrlimit(RLIMIT_STACK, &stack);
        setrlimit(RLIMIT_CPU, &time);
        personality(ADDR_NO_RANDOMIZE);
        ptrace(PTRACE_TRACEME, 0, NULL, NULL);
        execv(words[1], words + 4);
        _exit(FAULT);
    }
    if (child < 0 || waitpid(child, &status, 0) != child || !WIFSTOPPED(status))
        fail(words[1]);
    base = base_of(child);
    int memory = set_breakpoints(child);
    status = follow(memory, found);
    fclose(found);
    return status;
}
