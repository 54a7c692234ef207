/* What `ispx wasm` does, in a program of one's own: the module of WebAssembly of a kernel's code, for a gang of 4, 8, 16 or 32.
 *
 *     tools/library
 *     cc -std=c11 -O2 -I include examples/c/module.c lib/libisp.a -lm -o module
 *     ./module 16 <examples/brighten.ispc >brighten.wasm
 */
#include "isp.h"
#include <stdlib.h>

enum { SOURCE = 1 << 20 };

/* Tells what went wrong, and ends the program. */
static void stop(const struct isp_report *report, uint8_t status)
{
    fputs(report->line, stderr);
    exit(status);
}

int main(int count, char **words)
{
    struct isp_report report;
    char *source = malloc(SOURCE), *code, *file;
    if (count != 2 || !source)
        return ISP_WORDS;
    size_t size = fread(source, 1, SOURCE, stdin);
    uint32_t gang = (uint32_t)strtoul(words[1], NULL, 10);

    /* each call without room says how much it wants */
    uint8_t status = isp_compile(source, size, gang, "", 0, &report);
    if (status != ISP_ROOM)
        stop(&report, status);
    size_t code_size = report.used;
    if (!(code = malloc(code_size)) || isp_compile(source, size, gang, code, code_size, &report) != ISP_OK)
        return ISP_MEMORY;
    status = isp_wasm(code, code_size, "", 0, &report);
    if (status != ISP_ROOM)
        stop(&report, status);
    size_t file_size = report.used;
    if (!(file = malloc(file_size)) || isp_wasm(code, code_size, file, file_size, &report) != ISP_OK)
        return ISP_MEMORY;
    fwrite(file, 1, file_size, stdout);
    free(source);
    free(code);
    free(file);
    return 0;
}
