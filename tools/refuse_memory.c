/* An allocator to be preloaded (LD_PRELOAD), which refuses memory. tools/refuse_memory.sh builds and uses it.

   REFUSE_FROM is the number, from 1 on, of the first growth that is refused, and REFUSE_TO that of the last one. A growth is a call of
   malloc, calloc or realloc, by the program or by the C library for it. If one was refused, the file REFUSE_NOTE exists afterwards. The C
   library serves all others. The program has one thread. */
#include <errno.h>
#include <fcntl.h>
#include <stddef.h>
#include <stdlib.h>
#include <unistd.h>

void *__libc_malloc(size_t size);
void *__libc_calloc(size_t count, size_t size);
void *__libc_realloc(void *old, size_t size);

static unsigned long grown;

static unsigned long number_in(const char *name) {
    const char *text = getenv(name);
    return text == NULL ? 0 : strtoul(text, NULL, 10);
}

/* Counts a growth, and returns whether it is refused. */
static int is_refused(void) {
    const char *note;
    grown++;
    if (grown < number_in("REFUSE_FROM") || grown > number_in("REFUSE_TO"))
        return 0;
    note = getenv("REFUSE_NOTE");
    if (note != NULL) {
        int file = open(note, O_WRONLY | O_CREAT | O_CLOEXEC, 0600);
        if (file >= 0)
            close(file);
    }
    errno = ENOMEM;
    return 1;
}

void *malloc(size_t size) {
    return is_refused() ? NULL : __libc_malloc(size);
}

void *calloc(size_t count, size_t size) {
    return is_refused() ? NULL : __libc_calloc(count, size);
}

void *realloc(void *old, size_t size) {
    return is_refused() ? NULL : __libc_realloc(old, size);
}
