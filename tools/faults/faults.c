/* Faults on demand: laid in front of the C library, it refuses memory to a program, and fails, cuts short or interrupts
 * its reads and writes. Only calls that the program itself makes are counted, from 1; those of the C library are not.
 *
 * The environment says what is wanted, as FAULT=kind:first:count, where kind is one of
 *     memory        malloc, calloc, realloc, aligned_alloc and posix_memalign answer that there is none (ENOMEM)
 *     read, write       the call fails (EIO)
 *     read-short, write-short       at most one byte is moved
 *     read-interrupt, write-interrupt       the call is interrupted (EINTR), and nothing is moved
 *     write-none       the call takes no byte, and answers 0
 * and the calls first, first + 1, .. are concerned, count of them; 0 means all.
 * One byte is written to the file descriptor FAULT_REPORT for the first call that is concerned.
 *
 *     cc -O2 -shared -fPIC -o faults.so faults.c
 */
#define _GNU_SOURCE
#include <elf.h>
#include <errno.h>
#include <stdint.h>
#include <stdlib.h>
#include <string.h>
#include <sys/auxv.h>
#include <sys/syscall.h>
#include <sys/uio.h>
#include <unistd.h>

enum device { MEMORY, READ, WRITE };
enum way { REFUSE, CUT, INTERRUPT, TAKE_NONE };

static enum device wanted_device;
static enum way wanted_way;
static unsigned long first, count, calls[3];
static int is_wanted, has_reported, report_to = -1;
static uintptr_t program_begin, program_end;

/* The program's own code lies between the ends of its loaded segments. */
static void find_program(void)
{
    const Elf64_Phdr *headers = (const Elf64_Phdr *)getauxval(AT_PHDR);
    unsigned long number = getauxval(AT_PHNUM);
    uintptr_t base = 0;

    for (unsigned long i = 0; i < number; i++)
        if (headers[i].p_type == PT_PHDR)
            base = (uintptr_t)headers - headers[i].p_vaddr;
    for (unsigned long i = 0; i < number; i++)
        if (headers[i].p_type == PT_LOAD) {
            uintptr_t begin = base + headers[i].p_vaddr, end = begin + headers[i].p_memsz;
            if (program_begin == 0 || begin < program_begin)
                program_begin = begin;
            if (end > program_end)
                program_end = end;
        }
}

static int take_word(const char **text, const char *word)
{
    size_t length = strlen(word);

    if (strncmp(*text, word, length) != 0)
        return 0;
    *text += length;
    return 1;
}

__attribute__((constructor)) static void read_wishes(void)
{
    const char *text = getenv("FAULT"), *report = getenv("FAULT_REPORT");
    char *rest;

    if (text == NULL)
        return;
    find_program();
    if (take_word(&text, "memory"))
        wanted_device = MEMORY;
    else if (take_word(&text, "read"))
        wanted_device = READ;
    else if (take_word(&text, "write"))
        wanted_device = WRITE;
    else
        abort();
    if (take_word(&text, "-short"))
        wanted_way = CUT;
    else if (take_word(&text, "-interrupt"))
        wanted_way = INTERRUPT;
    else if (take_word(&text, "-none"))
        wanted_way = TAKE_NONE;
    if (*text != ':')
        abort();
    first = strtoul(text + 1, &rest, 10);
    if (*rest != ':')
        abort();
    count = strtoul(rest + 1, NULL, 10);
    if (report != NULL)
        report_to = atoi(report);
    is_wanted = 1;
}

/* Counts a call that the program makes, and says whether it is one of those that are concerned. */
static int is_concerned(enum device device, void *caller)
{
    uintptr_t place = (uintptr_t)caller;
    unsigned long call;

    if (!is_wanted || device != wanted_device || place < program_begin || place >= program_end)
        return 0;
    call = ++calls[device];
    if (call < first || (count != 0 && call - first >= count))
        return 0;
    if (!has_reported && report_to >= 0)
        syscall(SYS_write, report_to, "1", 1);
    has_reported = 1;
    return 1;
}

#define CALLER __builtin_return_address(0)

/* Looking a name up takes memory itself, so the C library's own names are called where it has them. */
extern void *__libc_malloc(size_t);
extern void *__libc_calloc(size_t, size_t);
extern void *__libc_realloc(void *, size_t);
extern void *__libc_memalign(size_t, size_t);

static void *no_memory(void)
{
    errno = ENOMEM;
    return NULL;
}

void *malloc(size_t size)
{
    return is_concerned(MEMORY, CALLER) ? no_memory() : __libc_malloc(size);
}

void *calloc(size_t number, size_t size)
{
    return is_concerned(MEMORY, CALLER) ? no_memory() : __libc_calloc(number, size);
}

void *realloc(void *old, size_t size)
{
    return is_concerned(MEMORY, CALLER) ? no_memory() : __libc_realloc(old, size);
}

void *aligned_alloc(size_t alignment, size_t size)
{
    return is_concerned(MEMORY, CALLER) ? no_memory() : __libc_memalign(alignment, size);
}

int posix_memalign(void **result, size_t alignment, size_t size)
{
    if (is_concerned(MEMORY, CALLER))
        return ENOMEM;
    *result = __libc_memalign(alignment, size);
    return *result == NULL ? ENOMEM : 0;
}

/* The error of a call that is concerned, or 0 where it is to move a byte after all. */
static int error_of_way(void)
{
    return wanted_way == INTERRUPT ? EINTR : wanted_way == REFUSE ? EIO : 0;
}

ssize_t read(int from, void *to, size_t size)
{
    if (is_concerned(READ, CALLER)) {
        if ((errno = error_of_way()) != 0)
            return -1;
        size = size < 1 ? size : 1;
    }
    return syscall(SYS_read, from, to, size);
}

ssize_t write(int to, const void *from, size_t size)
{
    if (is_concerned(WRITE, CALLER)) {
        if ((errno = error_of_way()) != 0)
            return -1;
        if (wanted_way == TAKE_NONE)
            return 0;
        size = size < 1 ? size : 1;
    }
    return syscall(SYS_write, to, from, size);
}

ssize_t __write(int to, const void *from, size_t size)
{
    if (is_concerned(WRITE, CALLER)) {
        if ((errno = error_of_way()) != 0)
            return -1;
        if (wanted_way == TAKE_NONE)
            return 0;
        size = size < 1 ? size : 1;
    }
    return syscall(SYS_write, to, from, size);
}

ssize_t readv(int from, const struct iovec *parts, int number)
{
    if (is_concerned(READ, CALLER)) {
        if ((errno = error_of_way()) != 0)
            return -1;
        return syscall(SYS_read, from, parts[0].iov_base, parts[0].iov_len < 1 ? 0 : 1);
    }
    return syscall(SYS_readv, from, parts, number);
}

ssize_t writev(int to, const struct iovec *parts, int number)
{
    if (is_concerned(WRITE, CALLER)) {
        if ((errno = error_of_way()) != 0)
            return -1;
        return wanted_way == TAKE_NONE ? 0 : syscall(SYS_write, to, parts[0].iov_base, parts[0].iov_len < 1 ? 0 : 1);
    }
    return syscall(SYS_writev, to, parts, number);
}
