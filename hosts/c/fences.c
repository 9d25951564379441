#define _DEFAULT_SOURCE
#include "fences.h"

#include <stdlib.h>
#include <string.h>
#include <sys/mman.h>
#include <unistd.h>

struct fenced fence(const uint8_t *bytes, size_t length, enum side side)
{
    size_t page = (size_t)sysconf(_SC_PAGESIZE), room = (length + page - 1) / page * page;
    struct fenced fenced = {NULL, room + 2 * page, NULL};
    fenced.pages = mmap(NULL, fenced.size, PROT_NONE, MAP_PRIVATE | MAP_ANONYMOUS, -1, 0);
    if (fenced.pages == MAP_FAILED)
        abort();
    uint8_t *copy = fenced.pages + page + (side == BEFORE_THE_SECOND ? room - length : 0);
    if (room > 0) {
        if (mprotect(fenced.pages + page, room, PROT_READ | PROT_WRITE) != 0)
            abort();
        memcpy(copy, bytes, length);
        if (mprotect(fenced.pages + page, room, PROT_READ) != 0)
            abort();
    }
    fenced.bytes = copy;
    return fenced;
}

void take_down(struct fenced *fenced)
{
    if (munmap(fenced->pages, fenced->size) != 0)
        abort();
}
