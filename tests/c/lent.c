#define _DEFAULT_SOURCE /* for MAP_ANONYMOUS and MAP_NORESERVE */
#include "lent.h"

#include <string.h>
#include <sys/mman.h>
#include <unistd.h>

enum { PATTERN = 0xA5 };

void *untouchable(size_t size) {
    void *start = mmap(NULL, size, PROT_NONE, MAP_PRIVATE | MAP_ANONYMOUS | MAP_NORESERVE, -1, 0);
    return had(start == MAP_FAILED ? NULL : start, "address space");
}

lent lent_pages(size_t most) {
    size_t page = (size_t)sysconf(_SC_PAGESIZE);
    size_t total = (most + page - 1) / page * page + page;
    unsigned char *pages = (unsigned char *)untouchable(total + 2 * page) + page;
    had(mprotect(pages, total, PROT_READ | PROT_WRITE) == 0 ? pages : NULL, "pages to lend from");
    return (lent){pages, total, NULL, 0};
}

void *lend(lent *memory, const void *content, size_t size, enum place place) {
    memory->size = size;
    memory->data = memory->pages + (place == AT_START ? 0 : memory->total - size);
    memset(memory->pages, PATTERN, memory->total);
    if (size > 0)
        memcpy(memory->data, content, size);
    else if (place == AT_START)
        return NULL;
    return memory->data;
}

int64_t *lend_places(lent *memory, int64_t *content, size_t places, enum place place) {
    for (size_t i = 0; i < places; i++)
        content[i] = place == AT_START ? 1000000 + (int64_t)i : ~(1000000 + (int64_t)i);
    return lend(memory, content, places * sizeof *content, place);
}

void compare_lent(const lent *memory, const void *content, const char *what) {
    const unsigned char *end = memory->pages + memory->total, *byte = memory->pages, *held = content;
    size_t before = (size_t)(memory->data - memory->pages), at = 0;
    int due = PATTERN;
    for (; byte < end; byte++, at++) {
        due = at >= before && at - before < memory->size ? held[at - before] : PATTERN;
        if (*byte != due)
            break;
    }
    compare(byte == end, "%s: byte %td of %zu is %d, not %d", what, byte - memory->data, memory->size, byte == end ? 0 : *byte, due);
}
