/* Refuses the program one growth of its memory: memory.py makes a library of this and has it loaded first.

   The built program asks the C library for all of its memory, by malloc and realloc (and calloc, counted as well). Calls
   that come from the program's own code are counted from 0, and the one of number REFUSE_AT is answered as when there is
   none; with REFUSE_ALL so is each behind it. What the C library asks for itself, as before main, is left out. At the
   first refusal the file REFUSE_TOLD is made. */
#define _GNU_SOURCE
#include <errno.h>
#include <fcntl.h>
#include <link.h>
#include <stddef.h>
#include <stdint.h>
#include <stdlib.h>
#include <unistd.h>

extern void *__libc_malloc(size_t);
extern void *__libc_calloc(size_t, size_t);
extern void *__libc_realloc(void *, size_t);

static uintptr_t from, to;
static unsigned long count, at;
static int all;

/* The bounds of the program itself, which the loader names first. */
static int first_object(struct dl_phdr_info *info, size_t size, void *unused)
{
    (void)size, (void)unused;
    for (int i = 0; i < info->dlpi_phnum; i++) {
        const ElfW(Phdr) *part = &info->dlpi_phdr[i];
        if (part->p_type == PT_LOAD && part->p_flags & PF_X) {
            from = info->dlpi_addr + part->p_vaddr;
            to = from + part->p_memsz;
        }
    }
    return 1;
}

__attribute__((constructor)) static void begin(void)
{
    const char *number = getenv("REFUSE_AT");
    at = number ? strtoul(number, NULL, 10) : ~0ul;
    all = getenv("REFUSE_ALL") != NULL;
    dl_iterate_phdr(first_object, NULL);
}

static int is_refused(const void *caller)
{
    if ((uintptr_t)caller < from || (uintptr_t)caller >= to)
        return 0;
    unsigned long number = count++;
    if (number == at) {
        const char *told = getenv("REFUSE_TOLD");
        if (told)
            close(open(told, O_WRONLY | O_CREAT, 0600));
    }
    if (number == at || (all && number > at)) {
        errno = ENOMEM;
        return 1;
    }
    return 0;
}

void *malloc(size_t size)
{
    return is_refused(__builtin_return_address(0)) ? NULL : __libc_malloc(size);
}

void *calloc(size_t number, size_t size)
{
    return is_refused(__builtin_return_address(0)) ? NULL : __libc_calloc(number, size);
}

void *realloc(void *block, size_t size)
{
    return is_refused(__builtin_return_address(0)) ? NULL : __libc_realloc(block, size);
}
