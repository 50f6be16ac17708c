/* Preloaded into a program (LD_PRELOAD): refuses calls for memory, with ENOMEM, as if there were none.
 *
 *     REFUSE_CALL    the number of the call that is refused, counted from 1 over all threads
 *     REFUSE_EACH    set: each of whose numbers is a multiple of that one, too
 *     REFUSE_TOLD    a file that gets a byte for each call that was refused
 *
 * Calls before this library is set up, those of the dynamic loader, are not counted. Needs glibc. */
#include <errno.h>
#include <fcntl.h>
#include <stdlib.h>
#include <unistd.h>

void *__libc_malloc(size_t);
void *__libc_calloc(size_t, size_t);
void *__libc_realloc(void *, size_t);
void *__libc_memalign(size_t, size_t);

static unsigned long number; /* 0: no call is refused */
static int each;
static int told = -1;
static unsigned long calls;

__attribute__((constructor)) static void set_up(void)
{
    const char *call = getenv("REFUSE_CALL");
    const char *file = getenv("REFUSE_TOLD");
    each = getenv("REFUSE_EACH") != NULL;
    if (file)
        told = open(file, O_WRONLY | O_APPEND | O_CLOEXEC);
    number = call ? strtoul(call, NULL, 10) : 0;
}

/* Counts a call. Whether it is refused. */
static int is_refused(void)
{
    unsigned long call = number ? __atomic_add_fetch(&calls, 1, __ATOMIC_SEQ_CST) : 0;
    if (!number || (each ? call % number != 0 : call != number))
        return 0;
    if (told >= 0 && write(told, "x", 1) != 1)
        abort();
    errno = ENOMEM;
    return 1;
}

void *malloc(size_t size) { return is_refused() ? NULL : __libc_malloc(size); }
void *calloc(size_t count, size_t size) { return is_refused() ? NULL : __libc_calloc(count, size); }
void *realloc(void *old, size_t size) { return is_refused() ? NULL : __libc_realloc(old, size); }
void *aligned_alloc(size_t alignment, size_t size) { return is_refused() ? NULL : __libc_memalign(alignment, size); }

int posix_memalign(void **made, size_t alignment, size_t size)
{
    void *memory = is_refused() ? NULL : __libc_memalign(alignment, size);
    if (!memory)
        return ENOMEM;
    *made = memory;
    return 0;
}
