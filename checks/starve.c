/* Refuses chosen requests of a program for memory: those whose numbers STARVE_AT has, counted from 1, with a comma between two. What the C library
   asks for itself is not counted. The file STARVE_TOLD gets how many requests there were, as eight bytes. checks/starve loads this by LD_PRELOAD. */
#define _GNU_SOURCE
#include <errno.h>
#include <fcntl.h>
#include <link.h>
#include <stdatomic.h>
#include <stdint.h>
#include <stdlib.h>
#include <sys/mman.h>
#include <unistd.h>

extern void *__libc_malloc(size_t size);
extern void *__libc_realloc(void *old, size_t size);

enum { MOST = 4 };
static unsigned long refused[MOST];
static int chosen;
static atomic_ulong own, *count = &own;
/* Where the program's own code is. */
static uintptr_t begin, end;

static int find_code(struct dl_phdr_info *object, size_t size, void *data)
{
    (void)size, (void)data;
    for (int at = 0; at < object->dlpi_phnum; at++) {
        const ElfW(Phdr) *part = &object->dlpi_phdr[at];
        if (part->p_type == PT_LOAD && (part->p_flags & PF_X)) {
            begin = object->dlpi_addr + part->p_vaddr;
            end = begin + part->p_memsz;
        }
    }
    /* The first object is the program. */
    return 1;
}

__attribute__((constructor)) static void begin_count(void)
{
    int file = open(getenv("STARVE_TOLD"), O_RDWR | O_CREAT, 0644);
    void *shared = MAP_FAILED;
    if (file >= 0 && !ftruncate(file, sizeof *count))
        shared = mmap(NULL, sizeof *count, PROT_READ | PROT_WRITE, MAP_SHARED, file, 0);
    if (file >= 0)
        close(file);
    if (shared != MAP_FAILED)
        count = shared;
    char *numbers = getenv("STARVE_AT");
    while (numbers && *numbers && chosen < MOST) {
        refused[chosen++] = strtoul(numbers, &numbers, 10);
        numbers += *numbers == ',';
    }
    dl_iterate_phdr(find_code, NULL);
}

static int is_refused(void *caller)
{
    if ((uintptr_t)caller < begin || (uintptr_t)caller >= end)
        return 0;
    unsigned long number = atomic_fetch_add(count, 1) + 1;
    for (int at = 0; at < chosen; at++)
        if (refused[at] == number)
            return 1;
    return 0;
}

void *malloc(size_t size)
{
    if (is_refused(__builtin_return_address(0))) {
        errno = ENOMEM;
        return NULL;
    }
    return __libc_malloc(size);
}

void *realloc(void *old, size_t size)
{
    if (is_refused(__builtin_return_address(0))) {
        errno = ENOMEM;
        return NULL;
    }
    return __libc_realloc(old, size);
}
