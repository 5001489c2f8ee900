// Preloaded into a program (LD_PRELOAD), refuses it memory. malloc and realloc are all by which the program takes it.
//
//     REFUSE=N             the Nth call of the two fails
//     REFUSE_FROM=N        the Nth fails, and all behind it
//     REFUSE_COUNT=FILE    at its end the program writes there how many it has made, and the most bytes that it had at once
#include <malloc.h>
#include <stdio.h>
#include <stdlib.h>

void *__libc_malloc(size_t);
void *__libc_realloc(void *, size_t);
void __libc_free(void *);

static long nth = -1, from, calls, bytes, most;

static long number_in(const char *name) {
    const char *asked = getenv(name);
    return asked ? atol(asked) : 0;
}

// Whether this call is refused.
static int refused(void) {
    if (nth < 0) {
        nth = number_in("REFUSE");
        from = number_in("REFUSE_FROM");
    }
    calls++;
    return calls == nth || (from > 0 && calls >= from);
}

// What was made in the place of so many bytes.
static void *counted(void *made, long old) {
    if (made) bytes += (long)malloc_usable_size(made) - old;
    if (bytes > most) most = bytes;
    return made;
}

void *malloc(size_t size) { return refused() ? NULL : counted(__libc_malloc(size), 0); }

void *realloc(void *old, size_t size) {
    long before = malloc_usable_size(old);
    return refused() ? NULL : counted(__libc_realloc(old, size), before);
}

void free(void *old) {
    bytes -= malloc_usable_size(old);
    __libc_free(old);
}

__attribute__((destructor)) static void tell(void) {
    const char *path = getenv("REFUSE_COUNT");
    FILE *file = path ? fopen(path, "w") : NULL;
    if (file) fprintf(file, "%ld %ld\n", calls, most), fclose(file);
}
