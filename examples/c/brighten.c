/* A million elements brightened by a kernel of isp, beside the same loop in C.
 *
 *     tools/library
 *     cc -std=c11 -O2 -I include examples/c/brighten.c lib/libisp.a -lm -o brighten && ./brighten examples/brighten.ispc
 */
#include "isp.h"
#include <stdlib.h>
#include <time.h>

enum { COUNT = 1000000, LEVEL = 50, GANG = 16 };

static double seconds(void)
{
    struct timespec now;
    timespec_get(&now, TIME_UTC);
    return (double)now.tv_sec + (double)now.tv_nsec * 1e-9;
}

/* The whole file of a name, and its size. */
static char *read_file(const char *name, size_t *size)
{
    FILE *file = fopen(name, "rb");
    char *bytes = malloc(65536);
    if (!file || !bytes)
        exit(6);
    *size = fread(bytes, 1, 65536, file);
    fclose(file);
    return bytes;
}

int main(int count, char **names)
{
    if (count != 2)
        return 2;
    size_t size;
    char *source = read_file(names[1], &size);

    /* the code text is the compiled form: it can be kept, and run as often as one likes */
    static char code[65536];
    struct isp_report report;
    if (isp_compile(source, size, GANG, code, sizeof code, &report) != ISP_OK) {
        fputs(report.line, stderr);
        return 1;
    }
    size_t code_size = report.used;

    /* the arguments: pixels, count, level */
    size_t packed_size = ISP_ARRAY_SIZE(COUNT, 1) + 2 * ISP_VALUE_SIZE;
    unsigned char *pixels = malloc(COUNT), *wanted = malloc(COUNT), *packed = malloc(packed_size);
    if (!pixels || !wanted || !packed)
        return 7;
    for (size_t i = 0; i < COUNT; i++)
        pixels[i] = (unsigned char)(i * 2654435761u >> 24);

    double start = seconds();
    for (size_t i = 0; i < COUNT; i++)
        wanted[i] = (unsigned char)(pixels[i] + LEVEL > 255 ? 255 : pixels[i] + LEVEL);
    double by_c = seconds() - start;

    start = seconds();
    unsigned char *at = isp_put_array(packed, pixels, COUNT, 1);
    at = isp_put_value(at, COUNT);
    isp_put_value(at, LEVEL);
    struct isp_job job = {isp_string("brighten"), 100000000};
    char output[1];
    int status = isp_run(code, code_size, &job, packed, packed_size, output, sizeof output, &report);
    if (status != ISP_OK) {
        fputs(report.line, stderr);
        return status;
    }
    isp_take_array(packed, pixels, COUNT, 1);
    double by_isp = seconds() - start;

    int same = memcmp(pixels, wanted, COUNT) == 0;
    printf("%d pixels, %s\n", COUNT, same ? "as the loop in C has them" : "otherwise than the loop in C has them");
    fprintf(stderr, "isp %.1f ms, C %.1f ms\n", by_isp * 1e3, by_c * 1e3);
    free(source);
    free(pixels);
    free(wanted);
    free(packed);
    return !same;
}
