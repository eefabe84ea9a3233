/* Counts the allocations of the library for C. It is linked into a shared library with it, by -Wl,--wrap=malloc,--wrap=realloc. */
#include <stddef.h>

void *__real_malloc(size_t size);
void *__real_realloc(void *old, size_t size);

static size_t made;

/* Begins to count. */
void begin_counting(void) { made = 0; }

/* Returns how many allocations were asked for since then. */
size_t allocations(void) { return made; }

void *__wrap_malloc(size_t size) { made++; return __real_malloc(size); }

void *__wrap_realloc(void *old, size_t size) { made++; return __real_realloc(old, size); }
