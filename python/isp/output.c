/* What a kernel writes, in memory that grows: `isp_output_write` is the `write` of its run, and `to` a struct isp_output. */
#include <stdbool.h>
#include <stddef.h>
#include <stdlib.h>
#include <string.h>

struct isp_output {
    char *bytes;
    size_t used, room;
};

bool isp_output_write(void *to, const char *bytes, size_t count)
{
    struct isp_output *output = to;
    if (count > output->room - output->used) {
        const size_t room = 2 * output->room + count;
        char *grown = realloc(output->bytes, room);
        if (!grown)
            return false;
        output->bytes = grown;
        output->room = room;
    }
    if (count)
        memcpy(output->bytes + output->used, bytes, count);
    output->used += count;
    return true;
}

void isp_output_free(struct isp_output *output)
{
    free(output->bytes);
}
