// The same work as `measure bitmaps BITS ONE_IN`, by CRoaring: prints the nanoseconds of each operation.
#include <roaring/roaring.h>
#include <stdint.h>
#include <stdio.h>
#include <stdlib.h>
#include <time.h>

static uint64_t nanoseconds(void) {
    struct timespec now;
    clock_gettime(CLOCK_MONOTONIC, &now);
    return (uint64_t)now.tv_sec * 1000000000u + (uint64_t)now.tv_nsec;
}

static roaring_bitmap_t *made(uint64_t bits, uint64_t one_in, uint64_t seed) {
    roaring_bitmap_t *bitmap = roaring_bitmap_create();
    uint64_t state = seed;
    for (uint64_t i = 0; i < bits; i++) {
        state = state * 6364136223846793005u + 1442695040888963407u;
        if ((state >> 33) % one_in == 0) roaring_bitmap_add(bitmap, (uint32_t)i);
    }
    return bitmap;
}

static uint64_t since(uint64_t *start) {
    uint64_t now = nanoseconds(), spent = now - *start;
    *start = now;
    return spent;
}

int main(int count, char **words) {
    if (count != 3) return 1;
    uint64_t bits = strtoull(words[1], NULL, 10), one_in = strtoull(words[2], NULL, 10);
    uint64_t start = nanoseconds();
    roaring_bitmap_t *first = made(bits, one_in, 1), *second = made(bits, one_in, 2);
    uint64_t append = since(&start);
    roaring_bitmap_run_optimize(first);
    roaring_bitmap_run_optimize(second);
    // each operation once before it is measured, so that its memory is there
    roaring_bitmap_free(roaring_bitmap_and(first, second));
    start = nanoseconds();
    roaring_bitmap_t *both = roaring_bitmap_and(first, second);
    uint64_t and = since(&start);
    roaring_bitmap_free(roaring_bitmap_or(first, second));
    start = nanoseconds();
    roaring_bitmap_t *either = roaring_bitmap_or(first, second);
    uint64_t or = since(&start);
    roaring_bitmap_free(roaring_bitmap_flip(first, 0, bits));
    start = nanoseconds();
    roaring_bitmap_t *turned = roaring_bitmap_flip(first, 0, bits);
    uint64_t not = since(&start);
    uint64_t ones = roaring_bitmap_get_cardinality(both), more = roaring_bitmap_get_cardinality(either) + roaring_bitmap_get_cardinality(turned);
    uint64_t counted = since(&start), walked = 0;
    roaring_uint32_iterator_t *at = roaring_create_iterator(both);
    for (; at->has_value; roaring_advance_uint32_iterator(at)) walked++;
    uint64_t walk = since(&start);
    if (walked != ones || more < ones) return 1;
    printf("append %llu\nand %llu\nor %llu\nnot %llu\ncount %llu\nwalk %llu\nones %llu\n", (unsigned long long)append,
           (unsigned long long)and, (unsigned long long)or, (unsigned long long)not, (unsigned long long)counted,
           (unsigned long long)walk, (unsigned long long)ones);
    return 0;
}
