/*
** Memory that tests lend to calls. A slice ends where a page begins that no one may touch, and one more stands before
** it; so a call that reads or writes past the end is stopped by the machine. What lies before the slice in its first
** page is paint, and is looked at when it is given back. A slice that a call may only read can be sealed.
*/
#ifndef LENDING_H
#define LENDING_H

#include <stdint.h>
#include <stdio.h>
#include <stdlib.h>
#include <string.h>
#include <sys/mman.h>
#include <unistd.h>

enum { LENT_PAINT = 0x5C };

struct lent {
    unsigned char *pages; /* the untouchable one first */
    size_t room;          /* bytes between the untouchable pages */
    unsigned char *cells;
    size_t bytes;
};

static size_t lent_page(void)
{
    return (size_t)sysconf(_SC_PAGESIZE);
}

static void lent_must(int holds, const char *what)
{
    if (!holds) {
        fflush(stdout);
        fprintf(stderr, "%s\n", what);
        exit(3);
    }
}

static struct lent lend(size_t bytes)
{
    struct lent slice;
    size_t page = lent_page();
    void *pages;
    slice.bytes = bytes;
    slice.room = (bytes / page + 1) * page;
    pages = mmap(NULL, slice.room + 2 * page, PROT_NONE, MAP_PRIVATE | MAP_ANONYMOUS, -1, 0);
    lent_must(pages != MAP_FAILED, "no memory to lend");
    slice.pages = (unsigned char *)pages;
    lent_must(mprotect(slice.pages + page, slice.room, PROT_READ | PROT_WRITE) == 0, "no memory to lend");
    slice.cells = slice.pages + page + slice.room - bytes;
    memset(slice.pages + page, LENT_PAINT, slice.room);
    return slice;
}

static void seal(struct lent slice)
{
    lent_must(mprotect(slice.pages + lent_page(), slice.room, PROT_READ) == 0, "a slice could not be sealed");
}

static void give_back(struct lent slice)
{
    size_t page = lent_page(), at;
    for (at = page; slice.pages + at < slice.cells; at++) {
        lent_must(slice.pages[at] == LENT_PAINT, "a call wrote before a slice");
    }
    lent_must(munmap(slice.pages, slice.room + 2 * page) == 0, "a slice could not be given back");
}

#endif
