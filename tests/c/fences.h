/*
 * Memory between two pages without access, with guard words beside what is lent, and a watch over calls that touch
 * anything else or do not end: either fails the test.
 */
#ifndef FENCES_H
#define FENCES_H

#include <stdbool.h>
#include <stddef.h>
#include <stdint.h>

struct fence {
    uint32_t *room;
    size_t words;  /* of the room */
    uint32_t *lent;
    size_t lent_words;
};

struct fence fence_make(size_t words);
uint32_t *lend(struct fence *fence, size_t words, bool at_end); /* else at the start; the others become guards */
bool guards_stand(const struct fence *fence);

/* From here on a call that touches pages without access, or runs for some seconds, ends the test. */
void watch_calls(void);
void one_more_call(void);
uint64_t calls_made(void);

void expect(bool holds, const char *what);

#endif
