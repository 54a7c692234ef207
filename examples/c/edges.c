/* Each way in which a call of isp ends, once: the status, the report, and what the rooms hold then.
 *
 * It prints what is otherwise than wanted, and `N calls, M differ`; the status is 1 where one differs. With the word `memory`
 * memory is refused to the calls (run it under `ulimit -v`), and they must say so and change nothing. With the word `many` a kernel is
 * called a million times, and the process must not grow.
 */
#include "isp.h"
#include <stdlib.h>
#include <time.h>

static int calls, differ;

static void want(int holds, const char *what, int line)
{
    calls++;
    if (!holds) {
        differ++;
        printf("line %d: %s\n", line, what);
    }
}
#define WANT(x) want(x, #x, __LINE__)

static struct isp_report report;
static char code[4096], output[64];

static uint8_t compiled(const char *source, uint32_t gang)
{
    memset(code, '#', sizeof code);
    return isp_compile(source, strlen(source), gang, code, sizeof code, &report);
}

/* whether all bytes are still what they were filled with */
static int untouched(const char *room, size_t size)
{
    for (size_t i = 0; i < size; i++)
        if (room[i] != '#')
            return 0;
    return 1;
}

static uint8_t ran(const char *entry, uint64_t budget, void *packed, size_t size, size_t room)
{
    size_t used = strlen(code);
    struct isp_job job = {isp_string(entry), budget};
    memset(output, '#', sizeof output);
    return isp_run(code, used, &job, packed, size, output, room, &report);
}

/* compiles for a gang of 4, and ends the code text with a zero */
static void kernel(const char *source)
{
    WANT(compiled(source, 4) == ISP_OK);
    code[report.used] = 0;
}

static void compiling(void)
{
    const char *plus = "export void f(uniform int a[]) { a[programIndex] = a[programIndex] + 1; }";
    WANT(compiled(plus, 4) == ISP_OK && report.used > 100 && report.line[0] == 0 && report.why.number == 0);
    WANT(memcmp(code, "isp 1 gang 4\n", 13) == 0 && code[report.used - 1] == '\n');
    size_t wanted = report.used;
    WANT(untouched(code + wanted, sizeof code - wanted));

    memset(code, '#', sizeof code);
    WANT(isp_compile(plus, strlen(plus), 4, code, wanted, &report) == ISP_OK && untouched(code + wanted, 100));
    memset(code, '#', sizeof code);
    WANT(isp_compile(plus, strlen(plus), 4, code, wanted - 1, &report) == ISP_ROOM && report.used == wanted && untouched(code, sizeof code));
    WANT(strcmp(report.line, "isp: no room\n") == 0);
    WANT(isp_compile(plus, strlen(plus), 4, "", 0, &report) == ISP_ROOM && report.used == wanted);

    WANT(compiled("export void f() { x = 1; }", 4) == ISP_SOURCE && untouched(code, sizeof code) && report.used == 0);
    WANT(report.why.number == 20 && report.why.begin == 18 && report.why.end == 19);
    WANT(strcmp(report.line, "isp: 20 UnknownName at 18..19\n") == 0);
    WANT(compiled("", 32) == ISP_OK);
    WANT(compiled(plus, 5) == ISP_WORDS && untouched(code, sizeof code) && strcmp(report.line, "isp: no such gang\n") == 0);
    WANT(compiled(plus, 0) == ISP_WORDS && compiled(plus, 4294967295u) == ISP_WORDS);
    WANT(compiled("// \xe9", 4) == ISP_TEXT && strcmp(report.line, "isp: cannot read source\n") == 0);
    WANT(compiled("\xe9", 5) == ISP_TEXT);
}

static void running(void)
{
    kernel("export uniform int f(uniform int n, uniform int a[]) { a[programIndex] = a[programIndex] + n; print(\"%\\n\", n); return -n; }");
    unsigned char packed[40] = {0}, before[40], *at = isp_put_value(packed, 7);
    int elements[] = {1, 2, 3, 4};
    isp_put_array(at, elements, 4, 4);
    memcpy(before, packed, sizeof packed);
    size_t size = ISP_VALUE_SIZE + ISP_ARRAY_SIZE(4, 4);

    /* the array is in front now, and the bytes behind it stay */
    WANT(ran("f", 1000, packed, size, sizeof output) == ISP_OK && (int32_t)report.result == -7 && report.result >> 32 == 0);
    WANT(report.used == 2 && memcmp(output, "7\n", 2) == 0 && untouched(output + 2, sizeof output - 2));
    isp_take_array(packed, elements, 4, 4);
    WANT(elements[0] == 8 && elements[1] == 9 && elements[2] == 10 && elements[3] == 11);
    WANT(memcmp(packed + 24, before + 24, 16) == 0);

    memcpy(packed, before, sizeof packed);
    WANT(ran("f", 1000, packed, size, 2) == ISP_OK);
    memcpy(packed, before, sizeof packed);
    WANT(ran("f", 1000, packed, size, 1) == ISP_ROOM && report.used == 2 && untouched(output, sizeof output));
    WANT(memcmp(packed, before, sizeof packed) == 0);

    WANT(ran("g", 1000, packed, size, sizeof output) == ISP_ARGUMENTS && report.why.number == 50 && report.used == 0);
    WANT(strcmp(report.line, "isp: 50 NoEntry\n") == 0);
    WANT(ran("\xe9", 1000, packed, size, sizeof output) == ISP_ARGUMENTS && report.why.number == 50);
    WANT(ran("f", 1000, packed, size - 1, sizeof output) == ISP_ARGUMENTS && report.why.number == 72 && report.why.parameter == 1);
    WANT(ran("f", 1000, packed, 0, sizeof output) == ISP_ARGUMENTS && report.why.number == 72 && report.why.parameter == 0);
    WANT(ran("f", 1000, packed, size + 1, sizeof output) == ISP_ARGUMENTS && report.why.number == 73);
    packed[4] = 1; /* above the width of an int */
    WANT(ran("f", 1000, packed, size, sizeof output) == ISP_ARGUMENTS && report.why.number == 75 && report.why.parameter == 0);
    packed[4] = 0;
    uint64_t most = ((uint64_t)1 << 63) - 1, many = (uint64_t)1 << 63;
    memcpy(packed + 8, &most, 8);
    WANT(ran("f", 1000, packed, size, sizeof output) == ISP_ARGUMENTS && report.why.number == 72 && report.why.parameter == 1);
    memcpy(packed + 8, &many, 8);
    WANT(ran("f", 1000, packed, size, sizeof output) == ISP_ARGUMENTS && report.why.number == 76 && report.why.parameter == 1);
    memcpy(packed, before, sizeof packed);
    WANT(untouched(output, sizeof output));

    WANT(ran("f", 3, packed, size, sizeof output) == ISP_BUDGET && memcmp(packed, before, sizeof packed) == 0);
    WANT(strcmp(report.line, "isp: budget used\n") == 0);
}

static void trapping(void)
{
    kernel("export void f(uniform int a[], uniform bool b[]) { a[programIndex] = 5; print(\"x\"); a[4 / a[3 * programIndex]] = 1; }");
    unsigned char packed[8 + 16 + 8 + 2], *at = packed;
    int elements[] = {0, 0, 0, 0};
    unsigned char flags[] = {1, 2};
    at = isp_put_array(at, elements, 4, 4);
    isp_put_array(at, flags, 2, 1);
    WANT(ran("f", 1000, packed, sizeof packed, sizeof output) == ISP_ARGUMENTS && report.why.number == 75);
    WANT(report.why.parameter == 1 && report.why.element == 1);
    packed[sizeof packed - 1] = 0;
    WANT(ran("f", 1000, packed, sizeof packed, sizeof output) == ISP_TRAP && report.why.trap == ISP_TRAP_INDEX && report.why.number == 0);
    WANT(report.why.begin == 90 && report.why.end == 109 && report.why.instance == 2);
    WANT(strcmp(report.line, "isp: trap index at 90..109, instance 2\n") == 0);
    isp_take_array(packed, elements, 4, 4);
    WANT(elements[0] == 5 && elements[3] == 5 && report.used == 1 && output[0] == 'x');
}

/* whether the kernel traps so for n = 0: the number, and the word that the line has */
static int traps(const char *source, uint32_t trap, const char *word)
{
    unsigned char packed[8] = {0};
    char begin[32];
    kernel(source);
    uint8_t status = ran("f", 100000, packed, sizeof packed, sizeof output);
    snprintf(begin, sizeof begin, "isp: trap %s at ", word);
    return status == ISP_TRAP && report.why.trap == trap && report.why.number == 0 && strncmp(report.line, begin, strlen(begin)) == 0;
}

static void each_trap(void)
{
    WANT(traps("export uniform int f(uniform int n) { return 7 / n; }", ISP_TRAP_DIVIDE, "divide"));
    WANT(traps("export uniform int f(uniform int n) { uniform int a[3]; return a[n - 1]; }", ISP_TRAP_INDEX, "index"));
    WANT(traps("export void f(uniform int n) { assert(n > 5); }", ISP_TRAP_ASSERT, "assert"));
    WANT(traps("uniform int g(uniform int n) { return g(n + 1); } export uniform int f(uniform int n) { return g(n); }", ISP_TRAP_DEPTH, "depth"));
}

static void reading(void)
{
    unsigned char packed[8] = {0};
    strcpy(code, "isp 1 gang 4\nplace 0 4\nfunc f export void\nm 1\nret\nend\n");
    WANT(ran("f", 10, packed, 0, 0) == ISP_CODE && report.why.number == 60 && report.why.line == 5);
    strcpy(code, "isp 1 gang 4\nfunc f export void\nm 1\njmp L1\nend\n");
    WANT(ran("f", 10, packed, 0, 0) == ISP_CODE && report.why.number == 42 && report.why.function == 0 && report.why.instruction == 0);
    WANT(strcmp(report.line, "isp: 42 BadJump in function 0, instruction 0\n") == 0);
    strcpy(code, "isp 1 gang 4\nfunc f export void\nm 1\nret -\nend\nfunc g export void\ns i32\nm 1\nconst s0 1\nconst s0 2\njmp L9\nend\n");
    WANT(ran("f", 10, packed, 0, 0) == ISP_CODE && report.why.number == 42 && report.why.function == 1 && report.why.instruction == 2);
    WANT(strcmp(report.line, "isp: 42 BadJump in function 1, instruction 2\n") == 0);
    strcpy(code, "\xe9");
    WANT(ran("f", 10, packed, 0, 0) == ISP_TEXT && strcmp(report.line, "isp: cannot read code\n") == 0);
}

static void translating(void)
{
    static char file[65536];
    kernel("export void f(uniform int a[]) { a[programIndex] = a[programIndex] + 1; }");
    size_t size = strlen(code);
    memset(file, '#', sizeof file);
    WANT(isp_native(code, size, file, sizeof file, &report) == ISP_OK && report.line[0] == 0 && report.why.number == 0);
    size_t wanted = report.used;
    WANT(wanted > 100 && untouched(file + wanted, sizeof file - wanted));
    file[wanted] = 0;
    WANT(strstr(file, "#include \"isp_machine.h\"\n") && strstr(file, "enum isp_end kernel_f("));
    memset(file, '#', sizeof file);
    WANT(isp_native(code, size, file, wanted, &report) == ISP_OK && untouched(file + wanted, 100));
    memset(file, '#', sizeof file);
    WANT(isp_native(code, size, file, wanted - 1, &report) == ISP_ROOM && report.used == wanted && untouched(file, sizeof file));
    WANT(isp_native(code, size - 1, file, sizeof file, &report) == ISP_CODE && report.why.number == 60 && untouched(file, sizeof file));
    WANT(isp_native("\xe9", 1, file, sizeof file, &report) == ISP_TEXT && strcmp(report.line, "isp: cannot read code\n") == 0);
}

static void making_modules(void)
{
    static char file[65536];
    kernel("export void f(uniform int a[]) { a[programIndex] = a[programIndex] + 1; }");
    size_t size = strlen(code);
    memset(file, '#', sizeof file);
    WANT(isp_wasm(code, size, file, sizeof file, &report) == ISP_OK && report.line[0] == 0 && report.why.number == 0);
    size_t wanted = report.used;
    WANT(wanted > size + 100 && untouched(file + wanted, sizeof file - wanted));
    /* a module, and the code text behind the name of its section */
    WANT(memcmp(file, "\0asm\1\0\0\0", 8) == 0 && memcmp(file + wanted - size - 4, "\3isp", 4) == 0 && memcmp(file + wanted - size, code, size) == 0);
    memset(file, '#', sizeof file);
    WANT(isp_wasm(code, size, file, wanted, &report) == ISP_OK && untouched(file + wanted, 100));
    memset(file, '#', sizeof file);
    WANT(isp_wasm(code, size, file, wanted - 1, &report) == ISP_ROOM && report.used == wanted && untouched(file, sizeof file));
    WANT(strcmp(report.line, "isp: no room\n") == 0);
    WANT(isp_wasm(code, size - 1, file, sizeof file, &report) == ISP_CODE && report.why.number == 60 && untouched(file, sizeof file));
    WANT(isp_wasm("\xe9", 1, file, sizeof file, &report) == ISP_TEXT && strcmp(report.line, "isp: cannot read code\n") == 0);

    /* no module: the whole line, and 127 bytes of a longer one */
    const char *locals = "isp 2 gang 32\nfunc f export void\nm 25000\nret -\nend\n";
    WANT(isp_wasm(locals, strlen(locals), file, sizeof file, &report) == ISP_CODE && report.why.number == 0 && report.used == 0);
    WANT(strcmp(report.line, "isp: no module: f: more than 50,000 locals. Fix: take a smaller gang, or make a function of a part.\n") == 0);
    /* each array is of 65,536 int64 in each of 32 lanes: 16 MB */
    static char opens[8192] = "isp 2 gang 32\nfunc hidden inner void\nm 1\nret -\nend\nfunc opens export void\n";
    for (int i = 0; i < 256; i++)
        strcat(opens, "loc p i64 65536\n");
    strcat(opens, "m 1\nclear a0 m0\nret -\nend\n");
    WANT(isp_wasm(opens, strlen(opens), file, sizeof file, &report) == ISP_CODE && report.why.number == 0 && report.used == 0);
    WANT(strncmp(report.line, "isp: no module: opens: 4 GB of local arrays, in it or, where it calls one, in any function; or of texts. ", 105) == 0);
    WANT(strlen(report.line) == 127 && untouched(file, sizeof file));
    WANT(isp_wasm(opens, strlen(opens), NULL, 0, &report) == ISP_CODE && report.why.number == 0);
}

static void stepping(void)
{
    kernel("export void f(uniform int a[]) { a[programIndex] = a[programIndex] + 1; }");
    unsigned char packed[ISP_ARRAY_SIZE(4, 4)], before[sizeof packed];
    int elements[] = {5, 6, 7, 8};
    isp_put_array(packed, elements, 4, 4);
    memcpy(before, packed, sizeof packed);
    static char lines[4096];
    size_t size = strlen(code);
    struct isp_trace all = {{isp_string("f"), 1000}, 0, 1000, 1}, two = {{isp_string("f"), 1000}, 1, 2, 0};
    memset(lines, '#', sizeof lines);
    WANT(isp_trace(code, size, &all, packed, sizeof packed, lines, sizeof lines, &report) == ISP_OK && report.line[0] == 0);
    size_t used = report.used, steps = 0;
    for (size_t i = 0; i < used; i++)
        steps += lines[i] == '\n';
    WANT(strncmp(lines, "0 f L0: ", 8) == 0 && untouched(lines + used, sizeof lines - used));
    lines[used] = 0;
    WANT(strstr(lines, "=[6,7,8,9]\n") && strstr(lines, " m0=1111"));
    WANT(memcmp(packed, before, sizeof packed) == 0);
    /* as many steps as the run takes: with one instruction less the budget is used up */
    WANT(ran("f", steps - 1, packed, sizeof packed, sizeof output) == ISP_BUDGET && ran("f", steps, packed, sizeof packed, sizeof output) == ISP_OK);
    memcpy(packed, before, sizeof packed);
    WANT(isp_trace(code, size, &two, packed, sizeof packed, lines, sizeof lines, &report) == ISP_OK && strncmp(lines, "1 f L1: ", 8) == 0);
    size_t wanted = report.used;
    memset(lines, '#', sizeof lines);
    WANT(isp_trace(code, size, &two, packed, sizeof packed, lines, wanted - 1, &report) == ISP_ROOM && report.used == wanted && untouched(lines, sizeof lines));
    WANT(isp_trace(code, size, &two, packed, sizeof packed - 1, lines, sizeof lines, &report) == ISP_ARGUMENTS && report.why.number == 72);
    two.job.entry = isp_string("g");
    WANT(isp_trace(code, size, &two, packed, sizeof packed, lines, sizeof lines, &report) == ISP_ARGUMENTS && report.why.number == 50);
    WANT(isp_trace(code, size - 1, &all, packed, sizeof packed, lines, sizeof lines, &report) == ISP_CODE && untouched(lines, sizeof lines));
}

static void commanding(void)
{
    char out[4096], err[4096];
    struct isp_streams to = {out, sizeof out, err, sizeof err, {0, 0}};
    struct isp_text source = isp_string("export void f(uniform int a[]) { a[programIndex] = a[programIndex] + 1; }");
    WANT(isp_check(source, 4, &to) == ISP_OK && to.used.out == 17 && memcmp(out, "ok\nf independent\n", 17) == 0 && to.used.err == 0);
    WANT(isp_json(source, 4, isp_string("f"), isp_string("{\"a\":[1,2,3,4]}"), 1000, &to) == ISP_OK);
    WANT(to.used.out == 41 && memcmp(out, "{\"arrays\":{\"a\":[2,3,4,5]},\"result\":null}\n", 41) == 0);
    WANT(isp_json(source, 4, isp_string("f"), isp_string("{}"), 1000, &to) == ISP_ARGUMENTS && memcmp(err, "isp: 72 Missing\n", to.used.err) == 0);
    WANT(isp_json(source, 4, isp_string("f"), isp_string("{\"a\":[1]}"), 1000, &to) == ISP_TRAP);
    WANT(isp_json(source, 4, isp_string("f"), isp_string("{\"a\":[1,2,3,4]}"), 2, &to) == ISP_BUDGET);
    WANT(isp_solo(source, 4, isp_string("f"), isp_string("{\"a\":[1,2,3,4]}"), 1000, &to) == ISP_OK && to.used.out == 41);
    struct isp_text shared = isp_string("export void f(uniform int a[]) { a[0] = reduce_add(programIndex); }");
    WANT(isp_solo(shared, 4, isp_string("f"), isp_string("{\"a\":[1]}"), 1000, &to) == ISP_DEPENDENT && to.used.out == 0);
    WANT(isp_asm(source, 4, &to) == ISP_OK && memcmp(out, "isp 1 gang 4\n", 13) == 0);
    size_t wanted = to.used.out;
    memset(out, '#', sizeof out);
    to.out_room = wanted - 1;
    WANT(isp_asm(source, 4, &to) == ISP_ROOM && to.used.out == wanted && untouched(out, sizeof out));
    to.out_room = wanted;
    WANT(isp_asm(source, 4, &to) == ISP_OK && untouched(out + wanted, sizeof out - wanted));
    WANT(isp_asm(isp_string("x"), 4, &to) == ISP_SOURCE && memcmp(err, "isp: 10 Unexpected at 0..1\n", to.used.err) == 0);
    memset(err, '#', sizeof err);
    to.err_room = to.used.err - 1;
    WANT(isp_asm(isp_string("x"), 4, &to) == ISP_ROOM && untouched(err, sizeof err));
    to.err_room = sizeof err;
    WANT(isp_asm(source, 7, &to) == ISP_WORDS && to.used.err > 0);
    struct isp_text words[] = {isp_string("check"), isp_string("nosuch")};
    WANT(isp_command(words, 2, &(struct isp_file){source, source}, 0, out, sizeof out, err, sizeof err, &to.used) == ISP_TEXT);
    WANT(memcmp(err, "isp: cannot read nosuch\n", to.used.err) == 0 && to.used.err == 24);
    words[0] = isp_string("\xe9");
    WANT(isp_command(words, 2, &(struct isp_file){source, source}, 0, out, sizeof out, err, sizeof err, &to.used) == ISP_WORDS);
}

/* whether a command gave this line on standard output, or on standard error, and nothing else */
static int gave(const struct isp_streams *to, const char *out, const char *err)
{
    return to->used.out == strlen(out) && memcmp(to->out, out, strlen(out)) == 0 && to->used.err == strlen(err) && memcmp(to->err, err, strlen(err)) == 0;
}

/* Each value goes where it belongs: the gang, the budget, the turns, and the entry, which is no option. */
static void by_value(void)
{
    char out[4096], err[4096];
    struct isp_streams to = {out, sizeof out, err, sizeof err, {0, 0}};
    struct isp_text width = isp_string("export void f(uniform int a[]) { a[programIndex] = programCount; }");
    struct isp_text f = isp_string("f"), eight = isp_string("{\"a\":[0,0,0,0,0,0,0,0]}");
    WANT(isp_json(width, 8, f, eight, 1000, &to) == ISP_OK && gave(&to, "{\"arrays\":{\"a\":[8,8,8,8,8,8,8,8]},\"result\":null}\n", ""));
    WANT(isp_solo(width, 8, f, eight, 1000, &to) == ISP_OK && gave(&to, "{\"arrays\":{\"a\":[8,8,8,8,8,8,8,8]},\"result\":null}\n", ""));
    WANT(isp_asm(width, 8, &to) == ISP_OK && memcmp(out, "isp 1 gang 8\n", 13) == 0);
    WANT(isp_check(width, 9, &to) == ISP_WORDS && isp_check(width, 16, &to) == ISP_OK);

    /* nine turns, more than the instances of the gang */
    struct isp_text loop = isp_string("export uniform int f(uniform int n) { uniform int k = 0; while (k < n) k++; return k; }");
    WANT(isp_solo(loop, 4, f, isp_string("{\"n\":9}"), 9, &to) == ISP_OK && gave(&to, "{\"arrays\":{},\"result\":9}\n", ""));
    WANT(isp_solo(loop, 4, f, isp_string("{\"n\":10}"), 9, &to) == ISP_BUDGET && gave(&to, "", "isp: turns used, instance 0\n"));
    WANT(isp_json(loop, 4, f, isp_string("{\"n\":9}"), UINT64_MAX, &to) == ISP_OK && gave(&to, "{\"arrays\":{},\"result\":9}\n", ""));

    static const char *const names[] = {"--help", "-h", "--", "-", "", "--gang", "--budget=1", "source", "arguments", "f ", "\xe9", "f\n"};
    for (size_t i = 0; i < sizeof names / sizeof *names; i++) {
        WANT(isp_json(loop, 4, isp_string(names[i]), isp_string("{\"n\":9}"), 1000, &to) == ISP_ARGUMENTS && gave(&to, "", "isp: 50 NoEntry\n"));
        WANT(isp_solo(loop, 4, isp_string(names[i]), isp_string("{\"n\":9}"), 1000, &to) == ISP_ARGUMENTS && gave(&to, "", "isp: 50 NoEntry\n"));
    }
}

/* A pointer with size 0 may be NULL. */
static void without_bytes(void)
{
    struct isp_text none = {NULL, 0};
    struct isp_job job = {none, 1000};
    WANT(isp_compile(NULL, 0, 4, code, sizeof code, &report) == ISP_OK && report.used == 13 && memcmp(code, "isp 1 gang 4\n", 13) == 0);
    WANT(isp_compile("", 0, 4, NULL, 0, &report) == ISP_ROOM && report.used == 13);
    WANT(isp_compile(NULL, 0, 5, NULL, 0, &report) == ISP_WORDS);
    WANT(isp_run(NULL, 0, &job, NULL, 0, NULL, 0, &report) == ISP_CODE && report.why.number == 60 && report.why.line == 1);
    WANT(isp_native(NULL, 0, NULL, 0, &report) == ISP_CODE && report.why.number == 60);
    WANT(isp_wasm(NULL, 0, NULL, 0, &report) == ISP_CODE && report.why.number == 60);
    kernel("export void f() { print(\"x\"); }");
    size_t size = strlen(code);
    WANT(isp_run(code, size, &job, NULL, 0, NULL, 0, &report) == ISP_ARGUMENTS && report.why.number == 50);
    job.entry = isp_string("f");
    WANT(isp_run(code, size, &job, NULL, 0, NULL, 0, &report) == ISP_ROOM && report.used == 1);
    WANT(isp_run(code, size, &job, NULL, 0, output, sizeof output, &report) == ISP_OK && output[0] == 'x');
    WANT(isp_native(code, size, NULL, 0, &report) == ISP_ROOM && report.used > 100);
    WANT(isp_wasm(code, size, NULL, 0, &report) == ISP_ROOM && report.used > 100);
    struct isp_trace all = {job, 0, 1000, 1};
    WANT(isp_trace(code, size, &all, NULL, 0, NULL, 0, &report) == ISP_ROOM && report.used > 10);

    struct isp_streams to = {NULL, 0, NULL, 0, {0, 0}};
    WANT(isp_command(NULL, 0, NULL, 0, NULL, 0, NULL, 0, &to.used) == ISP_ROOM && to.used.err > 0);
    WANT(isp_check(none, 4, &to) == ISP_ROOM && to.used.out == 3);
    char room[64];
    to.out = room, to.out_room = sizeof room;
    WANT(isp_check(none, 4, &to) == ISP_OK && gave(&to, "ok\n", ""));
    WANT(isp_asm(none, 4, &to) == ISP_OK && gave(&to, "isp 1 gang 4\n", ""));
    to.err = output, to.err_room = sizeof output;
    WANT(isp_json(none, 4, none, none, 1000, &to) == ISP_ARGUMENTS && gave(&to, "", "isp: 50 NoEntry\n"));
    WANT(isp_solo(none, 4, none, none, 1000, &to) == ISP_ARGUMENTS && gave(&to, "", "isp: 50 NoEntry\n"));
}

/* Rooms that touch, at odd addresses: `output`, `packed` and a room for code stand side by side, and each call writes its own alone. */
static void side_by_side(void)
{
    kernel("export void f(uniform int a[]) { a[programIndex] = a[programIndex] + 1; print(\"xy\"); }");
    static char all[8192], before[8192];
    size_t size = strlen(code), array = ISP_ARRAY_SIZE(4, 4);
    int elements[] = {1, 2, 3, 4};
    memset(all, '#', sizeof all);
    char *says = all + 1, *packed = says + 2, *text = packed + array;
    isp_put_array((unsigned char *)packed, elements, 4, 4);
    memcpy(before, all, sizeof all);
    struct isp_job job = {isp_string("f"), 1000};
    WANT(isp_run(code, size, &job, packed, array, says, 2, &report) == ISP_OK && memcmp(says, "xy", 2) == 0);
    isp_take_array((unsigned char *)packed, elements, 4, 4);
    WANT(elements[0] == 2 && elements[3] == 5 && all[0] == '#' && untouched(text, all + sizeof all - text));
    WANT(isp_compile("", 0, 32, text, 14, &report) == ISP_OK && memcmp(text, "isp 2 gang 32\n", 14) == 0);
    WANT(memcmp(says, "xy", 2) == 0 && untouched(text + 14, all + sizeof all - text - 14));

    /* rooms that share a byte: what it holds then is not said, but the call returns, and nothing beyond the two rooms changes */
    memcpy(all, before, sizeof all);
    isp_run(code, size, &job, packed, array, packed - 1, 2, &report);
    WANT(all[0] == '#' && says[0] == '#' && untouched(text, all + sizeof all - text));
    memcpy(all, before, sizeof all);
    isp_compile("", 0, 4, text - 1, 13, &report);
    WANT(memcmp(all, before, (size_t)(text - 1 - all)) == 0 && untouched(text + 12, all + sizeof all - text - 12));
}

/* Every call says that memory is refused, and changes nothing. */
static void without_memory(void)
{
    const char *source = "export void f(uniform int n) { }";
    unsigned char packed[8] = {1};
    void *held = NULL, *more;
    kernel(source);
    memset(output, '#', sizeof output);
    while ((more = malloc(65536)))
        memcpy(more, &held, sizeof held), held = more;
    while ((more = malloc(64)))
        memcpy(more, &held, sizeof held), held = more;
    struct isp_job job = {isp_string("f"), 1000};
    WANT(isp_run(code, strlen(code), &job, packed, 8, output, sizeof output, &report) == ISP_MEMORY && packed[0] == 1);
    WANT(strcmp(report.line, "isp: memory\n") == 0 && report.used == 0 && untouched(output, sizeof output));
    memset(code, '#', sizeof code);
    WANT(isp_compile(source, strlen(source), 4, code, sizeof code, &report) == ISP_MEMORY && untouched(code, sizeof code));
    const char *empty = "isp 1 gang 4\n";
    WANT(isp_native(empty, strlen(empty), code, sizeof code, &report) == ISP_MEMORY && untouched(code, sizeof code));
    WANT(isp_wasm(empty, strlen(empty), code, sizeof code, &report) == ISP_MEMORY && report.used == 0 && untouched(code, sizeof code));
    struct isp_streams to = {code, sizeof code, output, sizeof output, {1, 1}};
    WANT(isp_check(isp_string(source), 4, &to) == ISP_MEMORY && to.used.out == 0 && untouched(code, sizeof code));
    WANT(untouched(output + to.used.err, sizeof output - to.used.err));
}

/* The bytes of memory that the process has (Linux). */
static long resident(void)
{
    long pages = 0, all = 0;
    FILE *file = fopen("/proc/self/statm", "r");
    WANT(file && fscanf(file, "%ld %ld", &all, &pages) == 2);
    if (file)
        fclose(file);
    return pages * 4096;
}

/* A million calls of a kernel over 16 elements. */
static void many_calls(void)
{
    enum { CALLS = 1000000, COUNT = 16 };
    static unsigned char packed[ISP_ARRAY_SIZE(COUNT, 4)];
    int elements[COUNT] = {0}, same = 1;
    kernel("export void f(uniform int a[]) { foreach (i = 0 ... 16) a[i] = a[i] + 1; }");
    isp_put_array(packed, elements, COUNT, 4);
    long before = 0;
    clock_t start = clock();
    for (int i = 0; i < CALLS; i++) {
        if (i == 1000)
            before = resident();
        same &= ran("f", 1000, packed, sizeof packed, 0) == ISP_OK;
    }
    double spent = (double)(clock() - start) / CLOCKS_PER_SEC;
    WANT(same);
    WANT(resident() - before < 1 << 20);
    isp_take_array(packed, elements, COUNT, 4);
    for (int i = 0; i < COUNT; i++)
        WANT(elements[i] == CALLS);
    fprintf(stderr, "%.1f microseconds a call\n", spent * 1e6 / CALLS);
}

int main(int count, char **words)
{
    if (count > 1 && strcmp(words[1], "memory") == 0) {
        without_memory();
    } else if (count > 1 && strcmp(words[1], "many") == 0) {
        many_calls();
    } else {
        compiling();
        running();
        trapping();
        each_trap();
        reading();
        translating();
        making_modules();
        stepping();
        commanding();
        by_value();
        without_bytes();
        side_by_side();
    }
    printf("%d calls, %d differ\n", calls, differ);
    return differ != 0;
}
