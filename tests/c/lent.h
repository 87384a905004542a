/*
 * Memory to lend to the calls, beside pages without access: a library that reads
 * or writes past the end or before the start of what it is lent ends the program,
 * however it was compiled. Include it before any other header.
 *
 * A block either ends where such pages begin, or begins where they end. What its
 * own pages have beside it is compared when it is given back.
 */
#ifndef LENT_H
#define LENT_H

#ifndef _DEFAULT_SOURCE
#define _DEFAULT_SOURCE
#endif

#include <stddef.h>
#include <stdio.h>
#include <stdlib.h>
#include <string.h>
#include <sys/mman.h>
#include <unistd.h>

enum lent_side { LENT_ENDS_AT_PAGES, LENT_BEGINS_AFTER_PAGES, LENT_SIDES };

enum { LENT_MOST = 16, LENT_GUARD = 1 << 16, LENT_FILL = 0x5a };

/* One block: its pages, those without access on either side included, and what is lent of them. */
struct lent {
    unsigned char *pages, *memory;
    size_t pages_size, size;
};

/* On which side of the blocks that are lent from now on the pages without access lie next to them. */
static enum lent_side lent_side = LENT_ENDS_AT_PAGES;

static struct lent lent_now[LENT_MOST];

static inline void lent_stop(const char *why)
{
    printf("FAILED memory to lend: %s\n", why);
    fflush(stdout);
    abort();
}

/* The place of a block in the list of those that are lent; NULL is a place that is free. */
static inline struct lent *lent_place(const void *memory)
{
    for (size_t i = 0; i < LENT_MOST; i++)
        if (lent_now[i].memory == memory)
            return &lent_now[i];
    lent_stop(memory == NULL ? "too many blocks" : "no such block");
    return NULL;
}

/* So many bytes, aligned for words where it is so many words; 0 bytes lie between two such pages. */
static inline void *lend(size_t size)
{
    struct lent *block = lent_place(NULL);
    size_t page = (size_t)sysconf(_SC_PAGESIZE), used = (size + page - 1) / page * page;
    block->size = size;
    block->pages_size = LENT_GUARD + used + LENT_GUARD;
    block->pages = mmap(NULL, block->pages_size, PROT_NONE, MAP_PRIVATE | MAP_ANONYMOUS, -1, 0);
    if (block->pages == MAP_FAILED)
        lent_stop("no pages");
    unsigned char *start = block->pages + LENT_GUARD;
    if (used > 0 && mprotect(start, used, PROT_READ | PROT_WRITE) != 0)
        lent_stop("no access");
    memset(start, LENT_FILL, used);
    block->memory = lent_side == LENT_ENDS_AT_PAGES ? start + used - size : start;
    return block->memory;
}

static inline void give_back(void *memory)
{
    struct lent *block = lent_place(memory);
    unsigned char *start = block->pages + LENT_GUARD, *end = block->pages + block->pages_size - LENT_GUARD;
    for (unsigned char *byte = start; byte < end; byte++)
        if ((byte < block->memory || byte >= block->memory + block->size) && *byte != LENT_FILL)
            lent_stop("bytes beside a block were written");
    munmap(block->pages, block->pages_size);
    *block = (struct lent){0};
}

#endif
