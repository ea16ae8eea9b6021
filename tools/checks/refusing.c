/* Loaded before the C library, it counts the calls of malloc and realloc in the file that COUNT names, and refuses those of the numbers
   from FIRST to LAST, counted from 1. */
#define _GNU_SOURCE
#include <dlfcn.h>
#include <fcntl.h>
#include <stdlib.h>
#include <sys/mman.h>

static long *calls;

__attribute__((constructor)) static void begin(void) {
    int file = open(getenv("COUNT"), O_RDWR);
    void *place = mmap(NULL, sizeof(long), PROT_READ | PROT_WRITE, MAP_SHARED, file, 0);
    calls = place == MAP_FAILED ? NULL : place;
}

static int is_refused(void) {
    if (!calls) return 0;
    ++*calls;
    return *calls >= atol(getenv("FIRST")) && *calls <= atol(getenv("LAST"));
}

void *malloc(size_t size) {
    void *(*given)(size_t) = dlsym(RTLD_NEXT, "malloc");
    return is_refused() ? NULL : given(size);
}

void *realloc(void *place, size_t size) {
    void *(*given)(void *, size_t) = dlsym(RTLD_NEXT, "realloc");
    return is_refused() ? NULL : given(place, size);
}
