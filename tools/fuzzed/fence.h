/* Memory for the programs of tools/fuzz: each input and each room ends at a page that may not be touched, so a byte too far is a signal,
 * though the library itself is not built with a sanitizer. */
#include "isp.h"
#include <stdlib.h>
#include <sys/mman.h>

enum { PAGE = 4096, AREA = 1 << 21 };

/* An area of memory, with a page behind it that may not be touched. */
static inline unsigned char *area(void)
{
    unsigned char *begin = mmap(NULL, AREA + PAGE, PROT_READ | PROT_WRITE, MAP_PRIVATE | MAP_ANONYMOUS, -1, 0);
    if (begin == MAP_FAILED || mprotect(begin + AREA, PAGE, PROT_NONE))
        abort();
    return begin + AREA;
}

static inline void holds(int is, const char *what)
{
    if (is)
        return;
    fprintf(stderr, "broken: %s\n", what);
    abort();
}

/* A piece of the input, up to a byte, and how far the input has been taken. */
static inline struct isp_text piece(const uint8_t *data, size_t size, size_t *at, unsigned char end)
{
    struct isp_text text = {(const char *)data + *at, 0};
    while (*at + text.size < size && data[*at + text.size] != end)
        text.size++;
    *at += text.size + (*at + text.size < size);
    return text;
}

/* The bytes of a text, in front of the page that may not be touched. */
static inline struct isp_text fenced(unsigned char *end, struct isp_text text)
{
    struct isp_text copy = {(char *)end - text.size, text.size};
    if (text.size)
        memcpy(end - text.size, text.at, text.size);
    return copy;
}

/* A room of so many bytes that are all '#'. */
static inline char *room_before(unsigned char *end, size_t size)
{
    return memset(end - size, '#', size);
}

static inline int all_stay(const char *room, size_t size)
{
    for (size_t i = 0; i < size; i++)
        if (room[i] != '#')
            return 0;
    return 1;
}

static unsigned char *ends[6];

static inline void begin(void)
{
    for (size_t i = 0; !ends[5]; i++)
        ends[i] = area();
}
