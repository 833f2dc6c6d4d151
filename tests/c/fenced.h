/* Memory between two pages that cannot be read: what reaches past it ends the test. */
#ifndef FENCED_H
#define FENCED_H

#ifndef _DEFAULT_SOURCE
#error "define _DEFAULT_SOURCE before all headers, for MAP_ANONYMOUS"
#endif
#include "judged.h"

#include <string.h>
#include <sys/mman.h>
#include <unistd.h>

struct fenced {
    uint8_t *start, *fence;
};

/* At least so many bytes, whole pages of them. */
static inline struct fenced fenced_memory(size_t wanted)
{
    size_t page = (size_t)sysconf(_SC_PAGESIZE);
    size_t room = (wanted + page - 1) / page * page;
    uint8_t *first = mmap(NULL, room + 2 * page, PROT_NONE, MAP_PRIVATE | MAP_ANONYMOUS, -1, 0);
    if (first == MAP_FAILED)
        give_up("mmap", "no memory");
    struct fenced memory = {first + page, first + page + room};
    if (mprotect(memory.start, room, PROT_READ | PROT_WRITE) != 0)
        give_up("mprotect", "cannot fence memory");
    return memory;
}

static inline void protect(struct fenced memory, int protection)
{
    if (mprotect(memory.start, (size_t)(memory.fence - memory.start), protection) != 0)
        give_up("mprotect", "cannot protect memory");
}

/* Where bytes of this length end at the fence. */
static inline uint8_t *before_fence(struct fenced memory, size_t length)
{
    if (length > (size_t)(memory.fence - memory.start))
        give_up("a test", "asks for more than the fenced memory");
    return memory.fence - length;
}

static inline uint8_t *put_before_fence(struct fenced memory, const uint8_t *bytes, size_t length)
{
    uint8_t *there = before_fence(memory, length);
    if (length != 0)
        memcpy(there, bytes, length);
    return there;
}

#endif
