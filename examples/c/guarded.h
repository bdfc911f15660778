/* A heap for tests: the calls of rosm.h by the same names, but a store past a block's end stops there,
   whichever block it is, once it is past the last word of the block's bytes. The Makefile puts this
   file before NAME.c for NAME-guarded.bin; the program itself stays as it is.

   A store is stopped only by a word that the heap keeps for itself. Behind the last block there is none,
   so a block that is never freed stands at the heap's end: all room before it is a free block then, or
   several, and has such words at its front. Behind other blocks the rounding comes first, so a block
   whose bytes are rounded by a word begins one word later, and ends where the next one begins. */
#ifndef GUARDED_H
#define GUARDED_H
#include "rosm.h"

static inline void guarded_initialise(void *heap, unsigned size)
{
    heap_initialise(heap, size);
    void *room = heap_get(heap, heap_largest(heap) - 8);
    heap_get(heap, 4);
    heap_free(heap, room);
}

/* OS_Heap's own address of a block: 4 bytes past a multiple of 8 from the heap's start on */
static inline void *guarded_start(void *heap, void *block)
{
    unsigned place = (char *)block - (char *)heap;
    return (char *)heap + ((place - 1) & ~7u) + 4;
}

static inline void *guarded_at_end(void *heap, void *start, unsigned size)
{
    return (char *)start + heap_size(heap, start) - size;
}

static inline void *guarded_get(void *heap, unsigned size)
{
    unsigned words = (size + 3) & ~3u;
    return guarded_at_end(heap, heap_get(heap, words), words);
}

static inline void *guarded_get_or_null(void *heap, unsigned size)
{
    unsigned words = (size + 3) & ~3u;
    void *start = heap_get_or_null(heap, words);
    return start ? guarded_at_end(heap, start, words) : 0;
}

static inline void guarded_free(void *heap, void *block)
{
    heap_free(heap, guarded_start(heap, block));
}

static inline unsigned guarded_size(void *heap, void *block)
{
    char *start = guarded_start(heap, block);
    return start + heap_size(heap, start) - (char *)block;
}

/* Always moves the block: a program that goes on with the old address is right by luck where it doesn't. */
static inline void *guarded_move(void *heap, char *block, int change, void *(*get)(void *, unsigned))
{
    unsigned before = guarded_size(heap, block), after = before + change;
    char *moved = (int)after > 0 ? get(heap, after) : 0;
    for (unsigned at = 0; moved && at < before && at < after; at++)
        moved[at] = block[at];
    if (moved || (int)after <= 0)
        guarded_free(heap, block);
    return moved;
}

static inline void *guarded_resize(void *heap, void *block, int change)
{
    return guarded_move(heap, block, change, guarded_get);
}

static inline void *guarded_resize_or_null(void *heap, void *block, int change)
{
    return guarded_move(heap, block, change, guarded_get_or_null);
}

#define heap_initialise guarded_initialise
#define heap_get guarded_get
#define heap_get_or_null guarded_get_or_null
#define heap_free guarded_free
#define heap_size guarded_size
#define heap_resize guarded_resize
#define heap_resize_or_null guarded_resize_or_null

#endif
