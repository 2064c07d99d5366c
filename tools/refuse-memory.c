// Loaded before a program, it refuses allocations as the C library does, by a null pointer and ENOMEM: that of the number
// REFUSE_FIRST, counted from 1 at the start of `main`, and that of the number REFUSE_AGAIN, or all later ones where that is
// negative. Where it comes to one of the two numbers it writes a byte to the file descriptor REFUSE_NOTE. The programs
// allocate by malloc and realloc alone, the C library's threads by calloc.
#include <errno.h>
#include <stdlib.h>
#include <unistd.h>

void *__libc_malloc(size_t size);
void *__libc_calloc(size_t count, size_t size);
void *__libc_realloc(void *place, size_t size);

static long counted, first, again, note;

static long number(const char *name) {
    const char *word = getenv(name);
    return word ? atol(word) : 0;
}

__attribute__((constructor)) static void begin(void) {
    again = number("REFUSE_AGAIN");
    note = number("REFUSE_NOTE");
    counted = 0;
    first = number("REFUSE_FIRST");
}

static int is_refused(void) {
    long here = __atomic_add_fetch(&counted, 1, __ATOMIC_SEQ_CST);
    if (first == 0 || here < first || (here > first && again >= 0 && here != again))
        return 0;
    if ((here == first || here == again) && write(note, "r", 1) != 1)
        _exit(99);
    errno = ENOMEM;
    return 1;
}

void *malloc(size_t size) { return is_refused() ? NULL : __libc_malloc(size); }
void *calloc(size_t count, size_t size) { return is_refused() ? NULL : __libc_calloc(count, size); }
void *realloc(void *place, size_t size) { return is_refused() ? NULL : __libc_realloc(place, size); }
