#define _DEFAULT_SOURCE
#include "fences.h"

#include <inttypes.h>
#include <signal.h>
#include <stdio.h>
#include <stdlib.h>
#include <string.h>
#include <sys/mman.h>
#include <unistd.h>

enum { SECONDS_A_CALL = 8 };

static const uint32_t GUARD = 0xa5c35a3cu;

/* ---- failing, also from within a call */

static uint64_t made;
static volatile sig_atomic_t calls_seen_alive;

static void fail(const char *what)
{
    fprintf(stderr, "unsound: %s, after %" PRIu64 " calls\n", what, made);
    exit(1);
}

void expect(bool holds, const char *what)
{
    if (!holds)
        fail(what);
}

static void die(const char *what)
{
    ssize_t written = write(STDERR_FILENO, what, strlen(what));
    (void)written;
    _exit(1);
}

static void no_access(int signal_number)
{
    (void)signal_number;
    die("unsound: a call touched memory that it was not lent\n");
}

/* Every second: the count of calls has grown, or the same call is still running. */
static void each_second(int signal_number)
{
    static sig_atomic_t last, seconds;
    (void)signal_number;
    seconds = calls_seen_alive == last ? seconds + 1 : 0;
    last = calls_seen_alive;
    if (seconds >= SECONDS_A_CALL)
        die("unsound: a call does not end\n");
    alarm(1);
}

void one_more_call(void)
{
    made++;
    calls_seen_alive++;
}

uint64_t calls_made(void)
{
    return made;
}

void watch_calls(void)
{
    signal(SIGSEGV, no_access);
    signal(SIGBUS, no_access);
    signal(SIGALRM, each_second);
    alarm(1);
}

/* ---- memory between two pages without access */

struct fence fence_make(size_t words)
{
    size_t page = (size_t)sysconf(_SC_PAGESIZE), bytes = (words * sizeof(uint32_t) + page - 1) / page * page;
    char *pages = mmap(NULL, bytes + 2 * page, PROT_NONE, MAP_PRIVATE | MAP_ANONYMOUS, -1, 0);
    if (pages == MAP_FAILED || mprotect(pages + page, bytes, PROT_READ | PROT_WRITE) != 0)
        fail("no memory");
    return (struct fence){ (uint32_t *)(void *)(pages + page), bytes / sizeof(uint32_t), NULL, 0 };
}

uint32_t *lend(struct fence *fence, size_t words, bool at_end)
{
    for (size_t i = 0; i < fence->words; i++)
        fence->room[i] = GUARD;
    fence->lent = at_end ? fence->room + (fence->words - words) : fence->room;
    fence->lent_words = words;
    return fence->lent;
}

bool guards_stand(const struct fence *fence)
{
    size_t start = (size_t)(fence->lent - fence->room), past = start + fence->lent_words;
    for (size_t i = 0; i < start; i++)
        if (fence->room[i] != GUARD)
            return false;
    for (size_t i = past; i < fence->words; i++)
        if (fence->room[i] != GUARD)
            return false;
    return true;
}
