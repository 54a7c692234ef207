/* Hostile words and files into isp_command: what isp.h promises of it holds. */
#define _DEFAULT_SOURCE
#include "fence.h"

enum { WORDS = 12, MOST = 1 << 20 };

/* isp_command with rooms of so many bytes. */
static uint8_t commanded(const struct isp_text *words, size_t count, const struct isp_file *files, size_t out_size, size_t err_size, struct isp_used *used)
{
    char *out = room_before(ends[3], out_size), *err = room_before(ends[4], err_size);
    uint8_t status = isp_command(words, count, files, 2, out, out_size, err, err_size, used);
    holds(status <= ISP_ROOM, "the status");
    if (status == ISP_ROOM)
        holds(all_stay(out, out_size) && all_stay(err, err_size) && (used->out > out_size || used->err > err_size), "rooms that are too small");
    else
        holds(used->out <= out_size && all_stay(out + used->out, out_size - used->out) && used->err <= err_size
                  && all_stay(err + used->err, err_size - used->err),
              "the rooms");
    return status;
}

static int is(struct isp_text word, const char *what)
{
    return word.size == strlen(what) && memcmp(word.at, what, word.size) == 0;
}

/* Whether a word has a number that is long: a run that takes long is of no use. */
static int has_long_number(const struct isp_text *words, size_t count)
{
    for (size_t i = 0; i < count; i++) {
        size_t digits = 0;
        for (size_t k = 0; k < words[i].size; k++)
            digits += words[i].at[k] >= '0' && words[i].at[k] <= '9';
        if (digits > 4)
            return 1;
    }
    return 0;
}

/* Gives a run without a budget one; returns how many words there are then. */
static size_t with_budget(struct isp_text *words, size_t count)
{
    int alone = count && is(words[0], "solo"), runs = count && (is(words[0], "run") || is(words[0], "exec"));
    for (size_t i = 0; i < count; i++)
        if (words[i].size > 2 && (memcmp(words[i].at, "--b", 3) == 0 || memcmp(words[i].at, "--t", 3) == 0))
            return count;
    if (!alone && !runs)
        return count;
    memmove(words + 3, words + 1, (count - 1) * sizeof *words);
    words[1] = isp_string(alone ? "--turns" : "--budget");
    words[2] = isp_string(alone ? "20" : "9999");
    return count + 2;
}

/* Words, with a 1 between two of them, up to the first zero; then the files `a` and `b`, with a zero between them. */
int LLVMFuzzerTestOneInput(const uint8_t *data, size_t size)
{
    struct isp_text words[WORDS + 2];
    size_t at = 0, in = 0, count = 0;
    if (size > 65536)
        return 0;
    begin();
    struct isp_text all = fenced(ends[0], piece(data, size, &at, 0));
    while (in < all.size && count < WORDS)
        words[count++] = piece((const uint8_t *)all.at, all.size, &in, 1);
    struct isp_text a = fenced(ends[1], piece(data, size, &at, 0)), b = fenced(ends[2], (struct isp_text){(const char *)data + at, size - at});
    struct isp_file files[] = {{isp_string("a"), a}, {isp_string("b"), b}};
    if (has_long_number(words, count))
        return 0;
    count = with_budget(words, count);
    struct isp_used used;
    uint8_t status = commanded(words, count, files, 0, 0, &used);
    if (status == ISP_ROOM && used.out <= MOST && used.err <= MOST) {
        struct isp_used wanted = used;
        if (wanted.out)
            holds(commanded(words, count, files, wanted.out - 1, wanted.err, &used) == ISP_ROOM && used.out == wanted.out, "a byte too few");
        status = commanded(words, count, files, wanted.out, wanted.err, &used);
        holds(status != ISP_ROOM && used.out == wanted.out && used.err == wanted.err, "rooms that are large enough");
        holds(status != ISP_OK || used.err == 0, "a line where all went well");
        holds(status == ISP_OK || used.err > 0, "no line where a command failed");
    }
    return 0;
}
