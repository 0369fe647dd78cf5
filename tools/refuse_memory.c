// Preloaded into a test program: the growth of the number that REFUSE says is refused, of those that the program itself asks for.
// A byte is written to descriptor 9 then.
#define _GNU_SOURCE
#include <dlfcn.h>
#include <link.h>
#include <stdint.h>
#include <stdlib.h>
#include <unistd.h>

static uintptr_t first, last;
static unsigned long number, asked;

// The first object is the program.
static int find_program(struct dl_phdr_info *info, size_t size, void *data) {
    (void)size;
    (void)data;
    for (int i = 0; i < info->dlpi_phnum; i++) {
        if (info->dlpi_phdr[i].p_type == PT_LOAD) {
            uintptr_t from = info->dlpi_addr + info->dlpi_phdr[i].p_vaddr;
            uintptr_t to = from + info->dlpi_phdr[i].p_memsz;
            if (first == 0 || from < first)
                first = from;
            if (to > last)
                last = to;
        }
    }
    return 1;
}

__attribute__((constructor)) static void begin(void) {
    const char *text = getenv("REFUSE");
    dl_iterate_phdr(find_program, NULL);
    number = text == NULL ? 0 : strtoul(text, NULL, 10);
}

static int is_refused(void *caller) {
    uintptr_t at = (uintptr_t)caller;
    if (at < first || at >= last || ++asked != number)
        return 0;
    if (write(9, "r", 1) < 0)
        _exit(99);
    return 1;
}

void *malloc(size_t size) {
    static void *(*next)(size_t);
    if (is_refused(__builtin_return_address(0)))
        return NULL;
    if (next == NULL)
        next = (void *(*)(size_t))dlsym(RTLD_NEXT, "malloc");
    return next(size);
}

void *realloc(void *old, size_t size) {
    static void *(*next)(void *, size_t);
    if (is_refused(__builtin_return_address(0)))
        return NULL;
    if (next == NULL)
        next = (void *(*)(void *, size_t))dlsym(RTLD_NEXT, "realloc");
    return next(old, size);
}
