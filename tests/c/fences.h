/* Bytes that lie right before a page that may not be touched, or right after one, for the tests of the border to C. */
#ifndef FENCES_H
#define FENCES_H

#include "scenes.h"

#include <signal.h>
#include <sys/mman.h>
#include <unistd.h>

static size_t page;
static const char *current = "nothing yet";

/* `size` bytes, a whole number of pages, between two pages that may not be touched. */
struct fenced {
    uint8_t *start;
    size_t size;
};

static inline struct fenced fence(size_t least)
{
    struct fenced area = {.size = (least + page - 1) / page * page};
    uint8_t *all = mmap(NULL, area.size + 2 * page, PROT_NONE, MAP_PRIVATE | MAP_ANONYMOUS, -1, 0);

    if (all == MAP_FAILED || mprotect(all + page, area.size, PROT_READ | PROT_WRITE) != 0)
        fail("mmap", "no memory");
    area.start = all + page;
    return area;
}

static inline uint8_t *at_start(struct fenced area, size_t length)
{
    (void)length;
    return area.start;
}

static inline uint8_t *at_end(struct fenced area, size_t length)
{
    return area.start + area.size - length;
}

static inline void say_where(int signal)
{
    (void)signal;
    static const char what[] = "border: a page was touched that was not lent: ";

    if (write(2, what, sizeof what - 1) < 0 || write(2, current, strlen(current)) < 0 || write(2, "\n", 1) < 0)
        _exit(2);
    _exit(1);
}

typedef uint8_t *(*placing)(struct fenced, size_t);

static const placing placings[] = {at_start, at_end};

/* A page that is touched and was not lent ends the program, with the name of what is `current`. */
static inline void watch_fences(void)
{
    struct sigaction action = {.sa_handler = say_where};

    page = (size_t)sysconf(_SC_PAGESIZE);
    sigaction(SIGSEGV, &action, NULL);
    sigaction(SIGBUS, &action, NULL);
}

#endif
