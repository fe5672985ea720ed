// Refuses growths of memory. The checked build of `rt try` takes its memory from AddressSanitizer, whose weak names
// `__interceptor_..` these take the place of.
#include <stddef.h>

void *___interceptor_malloc(size_t size);
void *___interceptor_realloc(void *old, size_t size);
void ___interceptor_free(void *block);

static int is_counting;
static unsigned long count, refused, held;

// Whether the growth that is asked for now is the one to refuse.
static int is_refused(void) { return is_counting && ++count == refused; }

void *__interceptor_malloc(size_t size) {
    void *block = is_refused() ? NULL : ___interceptor_malloc(size);
    held += block != NULL;
    return block;
}

void *__interceptor_realloc(void *old, size_t size) {
    void *block = is_refused() ? NULL : ___interceptor_realloc(old, size);
    held += block != NULL && old == NULL;
    return block;
}

void __interceptor_free(void *block) {
    held -= block != NULL;
    ___interceptor_free(block);
}

void growths_refuse(unsigned long number) {
    is_counting = 1;
    count = 0;
    refused = number;
}

unsigned long growths_end(void) {
    is_counting = 0;
    return count;
}

unsigned long growths_held(void) { return held; }
