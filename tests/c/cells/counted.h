/* A heap for libcells.a that counts its blocks and refuses the one that is asked for, and checks that count themselves. */
#ifndef COUNTED_H
#define COUNTED_H

#include <stdbool.h>
#include <stddef.h>
#include <stdint.h>
#include <stdio.h>
#include <stdlib.h>
#include <string.h>

enum { MANY = 1000000 };

/* How many allocations succeed before one is refused; the blocks that are allocated; the results that were checked. */
static long left = MANY, blocks, results;

struct allocation { bool is_there; void *at; };

struct allocation rattle_alloc(size_t size, size_t align);
void rattle_dealloc(void *at);

struct allocation rattle_alloc(size_t size, size_t align) {
    struct allocation allocation = {false, &left};
    if (left-- == 0 || align > 16)
        return allocation;
    allocation.at = malloc(size > 0 ? size : 1);
    allocation.is_there = allocation.at != NULL;
    blocks += allocation.is_there;
    return allocation;
}

void rattle_dealloc(void *at) {
    blocks--;
    free(at);
}

static void must(uint32_t result, uint32_t wanted, const char *what) {
    results++;
    if (result == wanted)
        return;
    fprintf(stderr, "%s: %u, and not %u\n", what, (unsigned)result, (unsigned)wanted);
    exit(1);
}

static void must_be(bool is, const char *what) { must(is, true, what); }

#endif
