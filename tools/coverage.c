/* A library that is loaded into each process of a run, and notes which functions of one program
 * were entered: checks/coverage uses it.
 *
 * COVERED names a file: the size of the program, the count of its functions, and where each begins;
 * and the same name with .map one with a byte for each, which becomes 1. A breakpoint stands at
 * each function's first byte until it is entered: then the byte is put back. */
#define _GNU_SOURCE
#include <fcntl.h>
#include <link.h>
#include <signal.h>
#include <stdint.h>
#include <stdio.h>
#include <stdlib.h>
#include <string.h>
#include <sys/mman.h>
#include <sys/stat.h>
#include <ucontext.h>
#include <unistd.h>

enum { BREAKPOINT = 0xCC };

struct functions {
    uint64_t size, count;
    uint32_t starts[];
};
static struct functions *functions;
static uint8_t *entered, *first_bytes;
static uintptr_t base;

static void *mapped(const char *name, int flags, int protection) {
    struct stat it;
    int fd = open(name, flags | O_CLOEXEC);
    if (fd < 0 || fstat(fd, &it))
        return NULL;
    void *at = mmap(NULL, it.st_size, protection, MAP_SHARED, fd, 0);
    close(fd);
    return at == MAP_FAILED ? NULL : at;
}
static int set_base(struct dl_phdr_info *it, size_t size, void *more) {
    (void)size, (void)more;
    base = it->dlpi_addr;
    return 1;
}
static void note(int number, siginfo_t *info, void *context) {
    (void)number, (void)info;
    greg_t *registers = ((ucontext_t *)context)->uc_mcontext.gregs;
    uint8_t *at = (uint8_t *)registers[REG_RIP] - 1;
    uint64_t low = 0, high = functions->count;
    while (low < high) {
        uint64_t middle = (low + high) / 2;
        if (base + functions->starts[middle] < (uintptr_t)at)
            low = middle + 1;
        else
            high = middle;
    }
    if (low == functions->count || base + functions->starts[low] != (uintptr_t)at)
        _exit(99);
    entered[low] = 1;
    *at = first_bytes[low];
    registers[REG_RIP] = (greg_t)at;
}
__attribute__((constructor)) static void begin(void) {
    struct stat it;
    char map[4096];
    const char *name = getenv("COVERED");
    if (!name || stat("/proc/self/exe", &it) || !(functions = mapped(name, O_RDONLY, PROT_READ)))
        return;
    if (functions->size != (uint64_t)it.st_size || functions->count == 0)
        return;
    snprintf(map, sizeof map, "%s.map", name);
    first_bytes = malloc(functions->count);
    if (!first_bytes || !(entered = mapped(map, O_RDWR, PROT_READ | PROT_WRITE)))
        return;
    dl_iterate_phdr(set_base, NULL);
    uintptr_t page = sysconf(_SC_PAGESIZE), from = (base + functions->starts[0]) & -page;
    uintptr_t to = base + functions->starts[functions->count - 1] + page;
    struct sigaction action = {.sa_sigaction = note,
                               .sa_flags = SA_SIGINFO | SA_NODEFER | SA_RESTART};
    if (sigaction(SIGTRAP, &action, NULL) ||
        mprotect((void *)from, to - from, PROT_READ | PROT_WRITE | PROT_EXEC))
        return;
    for (uint64_t i = 0; i < functions->count; i++) {
        uint8_t *at = (uint8_t *)(base + functions->starts[i]);
        first_bytes[i] = *at;
        if (!entered[i])
            *at = BREAKPOINT;
    }
}
