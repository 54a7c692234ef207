/* What `isp run` does, in a program of one's own: the answer in JSON to arguments in JSON.
 *
 *     tools/library
 *     cc -std=c11 -O2 -I include examples/c/run.c lib/libisp.a -lm -o run
 *     ./run examples/collatz.ispc collatz examples/collatz.json
 */
#include "isp.h"
#include <stdlib.h>

enum { GANG = 16, BUDGET = 100000000 };

/* The whole text of a file; the program ends where it cannot be read. */
static struct isp_text contents(const char *name)
{
    FILE *file = fopen(name, "rb");
    char *bytes = NULL;
    size_t size = 0, room = 0, more = 1;
    while (file && more) {
        if (size == room && !(bytes = realloc(bytes, room = 2 * room + 4096)))
            exit(ISP_MEMORY);
        more = fread(bytes + size, 1, room - size, file);
        size += more;
    }
    if (!file || ferror(file))
        exit(ISP_TEXT);
    fclose(file);
    return (struct isp_text){bytes, size};
}

int main(int count, char **words)
{
    if (count != 4)
        return ISP_WORDS;
    struct isp_text source = contents(words[1]), json = contents(words[3]), entry = isp_string(words[2]);

    /* where a room is too small the call says how much is wanted, and can be made again */
    struct isp_streams to = {malloc(64), 64, malloc(64), 64, {0, 0}};
    uint8_t status;
    while ((status = isp_json(source, GANG, entry, json, BUDGET, &to)) == ISP_ROOM) {
        to.out = realloc(to.out, to.out_room = to.used.out + 1);
        to.err = realloc(to.err, to.err_room = to.used.err + 1);
        if (!to.out || !to.err)
            return ISP_MEMORY;
    }
    fwrite(to.out, 1, to.used.out, stdout);
    fwrite(to.err, 1, to.used.err, stderr);
    free((char *)source.at);
    free((char *)json.at);
    free(to.out);
    free(to.err);
    return status;
}
