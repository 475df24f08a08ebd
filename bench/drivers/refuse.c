/* Refuses one growth of a program: the one with the number REFUSE, from 1, and no other. How many there were stands in the file GROWTHS,
   which has one number of eight bytes, whatever ends the program.

   Only calls from the program itself count, not those that the C library makes of its own. */
#define _GNU_SOURCE
#include <fcntl.h>
#include <link.h>
#include <stdatomic.h>
#include <stdint.h>
#include <stdlib.h>
#include <sys/mman.h>
#include <unistd.h>

extern void *__libc_malloc(size_t size);
extern void *__libc_realloc(void *block, size_t size);

static uintptr_t from, to;
static atomic_long unshared, *growths = &unshared;
static long refused;

/* The first object is the program; notes where its code stands. */
static int note_program(struct dl_phdr_info *info, size_t size, void *none) {
    (void)size, (void)none;
    for (int at = 0; at < info->dlpi_phnum; at++) {
        const ElfW(Phdr) *part = &info->dlpi_phdr[at];
        if (part->p_type == PT_LOAD && (part->p_flags & PF_X)) {
            from = info->dlpi_addr + part->p_vaddr;
            to = from + part->p_memsz;
        }
    }
    return 1;
}

__attribute__((constructor)) static void begin(void) {
    const char *number = getenv("REFUSE"), *path = getenv("GROWTHS");
    refused = number ? atol(number) : 0;
    int file = path ? open(path, O_RDWR | O_CREAT | O_TRUNC, 0600) : -1;
    if (file >= 0 && ftruncate(file, sizeof *growths) == 0) {
        void *shared = mmap(0, sizeof *growths, PROT_READ | PROT_WRITE, MAP_SHARED, file, 0);
        growths = shared == MAP_FAILED ? &unshared : shared;
    }
    dl_iterate_phdr(note_program, 0);
}

/* Whether a growth that this address asks for is the one to refuse. */
static int refuses(void *asks) {
    uintptr_t place = (uintptr_t)asks;
    return from <= place && place < to && atomic_fetch_add(growths, 1) + 1 == refused;
}

void *malloc(size_t size) {
    return refuses(__builtin_return_address(0)) ? 0 : __libc_malloc(size);
}

void *realloc(void *block, size_t size) {
    return refuses(__builtin_return_address(0)) ? 0 : __libc_realloc(block, size);
}
