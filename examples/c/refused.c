/* Memory refused to each call of isp at each of its growths: once, and from then on.
 *
 *     tools/library
 *     cc -std=c11 -O2 -I include examples/c/refused.c lib/libisp.a -lm -Wl,--wrap=malloc,--wrap=calloc,--wrap=realloc,--wrap=free -o refused && ./refused
 *
 * Growth number 0 is refused, then growth number 1, until a call meets no refusal. Each call must answer ISP_MEMORY and leave what it must
 * leave, or give what it gives where nothing is refused; and behind each call all that it asked for is given back. It prints what is
 * otherwise, and for each call how many growths were refused; the last line is `N refusals, M differ`, and the status is 1 where one differs
 * or where a call met no refusal.
 */
#include "isp.h"
#include <stdlib.h>

/* the growth that is refused, how many have been asked for, how many blocks have yet to be given back, and whether all growths behind the
 * refused one are refused too */
static long refused = -1, asked, held;
static int for_good;

static int refuses(void)
{
    long number = asked++;
    return refused >= 0 && (number == refused || (for_good && number > refused));
}

void *__real_malloc(size_t size);
void *__real_calloc(size_t count, size_t size);
void *__real_realloc(void *old, size_t size);
void __real_free(void *old);

void *__wrap_malloc(size_t size)
{
    void *made = refuses() ? NULL : __real_malloc(size);
    held += made != NULL;
    return made;
}

void *__wrap_calloc(size_t count, size_t size)
{
    void *made = refuses() ? NULL : __real_calloc(count, size);
    held += made != NULL;
    return made;
}

void *__wrap_realloc(void *old, size_t size)
{
    void *made = refuses() ? NULL : __real_realloc(old, size);
    held += made != NULL && old == NULL;
    return made;
}

void __wrap_free(void *old)
{
    held -= old != NULL;
    __real_free(old);
}

/* ---- what is called */

enum { ROOM = 1 << 16 };

static const char source[] =
    "int twice(int x) { return x * 2; }\n"
    "export uniform int f(uniform int n, uniform int a[]) {\n"
    "    int own[40];\n"
    "    foreach (i = 0 ... n) { own[i % 40] = twice(a[i]); a[i] = own[i % 40]; }\n"
    "    for (uniform int k = 0; k < n; k++) print(\"element % of %\\n\", k, n);\n"
    "    return n;\n"
    "}\n";
static const char alone[] = "export void f(uniform int n, uniform int a[]) { foreach (i = 0 ... n) { a[i] = a[i] * 2; } }\n";
static const char json[] = "{\"n\":5,\"a\":[1,2,3,4,5]}";

/* what a call left: its status, how much it wrote, and its rooms */
struct left {
    uint8_t status;
    size_t used, used_err;
    char room[ROOM], err[1024];
    unsigned char packed[ISP_VALUE_SIZE + ISP_ARRAY_SIZE(5, 4)];
    uint64_t result;
};

/* the code of `source`, and of `alone` */
static char code[ROOM], plain[ROOM];
static size_t code_size, plain_size;

static void report_of(struct left *left, uint8_t status, const struct isp_report *report)
{
    left->status = status;
    left->used = report->used;
    left->result = report->result;
}

static void compiles(struct left *left)
{
    struct isp_report report;
    uint8_t status = isp_compile(source, sizeof source - 1, 8, left->room, ROOM, &report);
    report_of(left, status, &report);
}

static void runs(struct left *left)
{
    struct isp_report report;
    struct isp_job job = {isp_string("f"), 100000};
    uint8_t status = isp_run(code, code_size, &job, left->packed, sizeof left->packed, left->room, ROOM, &report);
    report_of(left, status, &report);
}

static void translates(struct left *left)
{
    struct isp_report report;
    uint8_t status = isp_native(code, code_size, left->room, ROOM, &report);
    report_of(left, status, &report);
}

static void makes_module(struct left *left)
{
    struct isp_report report;
    uint8_t status = isp_wasm(plain, plain_size, left->room, ROOM, &report);
    report_of(left, status, &report);
}

/* of code that has more locals than an engine takes no module is made */
static void makes_none(struct left *left)
{
    struct isp_report report;
    static const char locals[] = "isp 2 gang 32\nfunc f export void\nm 25000\nret -\nend\n";
    uint8_t status = isp_wasm(locals, sizeof locals - 1, left->room, ROOM, &report);
    report_of(left, status, &report);
}

static void traces(struct left *left)
{
    struct isp_report report;
    struct isp_trace window = {{isp_string("f"), 100000}, 3, 40, 1};
    uint8_t status = isp_trace(code, code_size, &window, left->packed, sizeof left->packed, left->room, ROOM, &report);
    report_of(left, status, &report);
}

static void commanded(struct left *left, const char *command)
{
    struct isp_text text = {source, sizeof source - 1}, written = {code, code_size};
    if (strcmp(command, "solo") == 0)
        text = isp_string(alone);
    else if (strcmp(command, "exec") == 0)
        text = written;
    struct isp_text words[] = {isp_string(command), isp_string("file"), isp_string("f"), isp_string("arguments")};
    struct isp_file files[] = {{isp_string("file"), text}, {isp_string("arguments"), isp_string(json)}};
    size_t count = strcmp(command, "check") && strcmp(command, "asm") ? 4 : 2;
    struct isp_used used;
    left->status = isp_command(words, count, files, 2, left->room, ROOM, left->err, sizeof left->err, &used);
    left->used = used.out;
    left->used_err = used.err;
}

static void command_run(struct left *left)
{
    commanded(left, "run");
}

static void command_check(struct left *left)
{
    commanded(left, "check");
}

static void command_asm(struct left *left)
{
    commanded(left, "asm");
}

static void command_exec(struct left *left)
{
    commanded(left, "exec");
}

static void command_solo(struct left *left)
{
    commanded(left, "solo");
}

static void command_help(struct left *left)
{
    commanded(left, "--help");
}

static const struct call {
    const char *name;
    void (*make)(struct left *);
    /* the status where nothing is refused; a command may have written something before memory was refused */
    uint8_t status;
    int is_command;
} calls[] = {
    {"isp_compile", compiles, ISP_OK, 0},        {"isp_run", runs, ISP_OK, 0},
    {"isp_native", translates, ISP_OK, 0},       {"isp_trace", traces, ISP_OK, 0},
    {"isp_wasm", makes_module, ISP_OK, 0},       {"isp_wasm of none", makes_none, ISP_CODE, 0},
    {"isp_command run", command_run, ISP_OK, 1}, {"isp_command check", command_check, ISP_OK, 1},
    {"isp_command asm", command_asm, ISP_OK, 1}, {"isp_command exec", command_exec, ISP_OK, 1},
    {"isp_command solo", command_solo, ISP_OK, 1}, {"isp_command --help", command_help, ISP_WORDS, 1},
};

/* ---- the sweep */

static long refusals, differ;

static void fill(struct left *left)
{
    int elements[] = {1, 2, 3, 4, 5};
    memset(left, 0, sizeof *left);
    memset(left->room, '#', sizeof left->room);
    memset(left->err, '#', sizeof left->err);
    isp_put_array(isp_put_value(left->packed, 5), elements, 5, 4);
}

/* whether what a call left under a refusal is what it may leave */
static int may_leave(const struct call *call, const struct left *left, const struct left *whole)
{
    static struct left before;
    if (left->status != ISP_MEMORY)
        return memcmp(left, whole, sizeof *left) == 0;
    fill(&before);
    if (call->is_command)
        return left->used <= whole->used && memcmp(left->room, whole->room, left->used) == 0 && left->room[left->used] == '#';
    return left->used == 0 && memcmp(left->room, before.room, ROOM) == 0 && memcmp(left->packed, before.packed, sizeof left->packed) == 0;
}

static void sweep(const struct call *call)
{
    static struct left whole, left;
    long met = 0;
    refused = -1;
    fill(&whole);
    held = 0;
    call->make(&whole);
    if (whole.status != call->status || held)
        printf("%s: status %d where nothing is refused, %ld blocks held\n", call->name, whole.status, held), differ++;
    for (refused = 0;; refused++) {
        fill(&left);
        asked = held = 0;
        call->make(&left);
        if (asked <= refused)
            break;
        met++;
        if ((!may_leave(call, &left, &whole) || held) && differ++ < 20)
            printf("%s: growth %ld refused%s: status %d, %ld blocks held\n", call->name, refused, for_good ? " and all behind it" : "", left.status, held);
    }
    refused = -1;
    differ += met == 0;
    refusals += met;
    printf("%s: %ld growths refused%s\n", call->name, met, for_good ? " for good" : "");
}

int main(void)
{
    struct isp_report report;
    if (isp_compile(alone, sizeof alone - 1, 8, plain, sizeof plain, &report) != ISP_OK) {
        fputs(report.line, stdout);
        return 1;
    }
    plain_size = report.used;
    if (isp_compile(source, sizeof source - 1, 8, code, sizeof code, &report) != ISP_OK) {
        fputs(report.line, stdout);
        return 1;
    }
    code_size = report.used;
    for (for_good = 0; for_good < 2; for_good++)
        for (size_t i = 0; i < sizeof calls / sizeof *calls; i++)
            sweep(&calls[i]);
    printf("%ld refusals, %ld differ\n", refusals, differ);
    return differ != 0;
}
