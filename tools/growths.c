/* Refuses one growth of memory to a program that is started with it (LD_PRELOAD): that of the number GROWTH, counted from 0, and where
 * GROWTH_ON is there all behind it. Each refusal is told by a byte to the descriptor GROWTH_TOLD. Used by tools/edges.
 */
#include <stdlib.h>
#include <unistd.h>

void *__libc_malloc(size_t size);
void *__libc_calloc(size_t count, size_t size);
void *__libc_realloc(void *old, size_t size);

static int refuses(void)
{
    static long asked, refused = -1;
    static int on, told;
    if (asked == 0) {
        refused = atol(getenv("GROWTH"));
        told = atoi(getenv("GROWTH_TOLD"));
        on = getenv("GROWTH_ON") != NULL;
    }
    long number = asked++;
    return (number == refused || (on && number > refused)) && write(told, "x", 1) == 1;
}

void *malloc(size_t size)
{
    return refuses() ? NULL : __libc_malloc(size);
}

void *calloc(size_t count, size_t size)
{
    return refuses() ? NULL : __libc_calloc(count, size);
}

void *realloc(void *old, size_t size)
{
    return refuses() ? NULL : __libc_realloc(old, size);
}
