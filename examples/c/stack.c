/* How much stack each call of isp takes: sources as deep as may be, in each form, and hostile ones, each in a thread of ISP_STACK bytes.
 *
 *     tools/library
 *     cc -std=c11 -O2 -I include examples/c/stack.c lib/libisp.a -lm -pthread -o stack && ./stack
 *
 * It prints the most that each call took, and `N calls, M differ`; the status is 1 where a call ended otherwise than it must, or took
 * more than isp.h says. A call that needs more stack than the thread has ends in a signal.
 */
#define _DEFAULT_SOURCE
#include "isp.h"
#include <pthread.h>
#include <stdlib.h>
#include <sys/mman.h>

enum { PAGE = 4096, MARK = 0xa5, HOSTILE = 60000, ROOM = 1 << 24 };

/* ---- a thread whose stack is marked before */

static unsigned char *stack;

struct work {
    void (*make)(void *);
    void *given;
};

static void *thread(void *given)
{
    struct work *work = given;
    work->make(work->given);
    return NULL;
}

/* The bytes of stack that a call took, with those of a thread that does nothing. */
static size_t taken(void (*make)(void *), void *given)
{
    struct work work = {make, given};
    pthread_attr_t attributes;
    pthread_t id;
    size_t low = 0;
    memset(stack, MARK, ISP_STACK);
    pthread_attr_init(&attributes);
    pthread_attr_setstack(&attributes, stack, ISP_STACK);
    if (pthread_create(&id, &attributes, thread, &work))
        exit(2);
    pthread_join(id, NULL);
    pthread_attr_destroy(&attributes);
    while (low < ISP_STACK && stack[low] == MARK)
        low++;
    return ISP_STACK - low;
}

/* ---- the calls */

static const char *const names[] = {"isp_compile", "isp_run", "isp_native", "isp_wasm", "isp_trace", "isp_command check", "isp_command run", "isp_command solo",
                                    "isp_command exec"};
enum call { COMPILE, RUN, NATIVE, WASM, TRACE, CHECK, JSON, SOLO, EXEC, CALLS };
/* what isp.h says that each takes at most, in KiB */
static const size_t said[CALLS] = {800, 16, 16, 16, 16, 800, 800, 800, 48};

/* what is called, and what came of it */
struct trial {
    enum call call;
    const char *source, *json;
    size_t size;
    uint32_t gang;
    uint8_t status;
    struct isp_report report;
};

static char code[ROOM], room[ROOM];
static size_t code_size;
static size_t most[CALLS];
static int tried, differ;

static uint8_t commanded(struct trial *trial)
{
    struct isp_text source = {trial->source, trial->size}, json = isp_string(trial->json);
    struct isp_streams to = {room, ROOM, code, ROOM, {0, 0}};
    if (trial->call == CHECK)
        return isp_check(source, trial->gang, &to);
    if (trial->call == JSON)
        return isp_json(source, trial->gang, isp_string("f"), json, 1000000, &to);
    if (trial->call == SOLO)
        return isp_solo(source, trial->gang, isp_string("f"), json, 1000000, &to);
    struct isp_text words[] = {isp_string("exec"), isp_string("code"), isp_string("f"), isp_string("arguments")};
    struct isp_file files[] = {{isp_string("code"), source}, {isp_string("arguments"), json}};
    return isp_command(words, 4, files, 2, room, ROOM, code, ROOM, &to.used);
}

static void make(void *given)
{
    struct trial *trial = given;
    unsigned char packed[8] = {0};
    struct isp_job job = {isp_string("f"), 1000000};
    struct isp_trace steps = {job, 0, 100, 1};
    switch (trial->call) {
    case COMPILE:
        trial->status = isp_compile(trial->source, trial->size, trial->gang, code, ROOM, &trial->report);
        break;
    case RUN:
        memcpy(packed, "\xfd", 1);
        trial->status = isp_run(trial->source, trial->size, &job, packed, 8, room, ROOM, &trial->report);
        break;
    case NATIVE:
        trial->status = isp_native(trial->source, trial->size, room, ROOM, &trial->report);
        break;
    case WASM:
        trial->status = isp_wasm(trial->source, trial->size, room, ROOM, &trial->report);
        break;
    case TRACE:
        trial->status = isp_trace(trial->source, trial->size, &steps, packed, 8, room, ROOM, &trial->report);
        break;
    default:
        trial->status = commanded(trial);
    }
}

/* Makes a call in a thread, and returns its status. */
static uint8_t call(enum call call, uint32_t gang, const char *source, size_t size, const char *json)
{
    struct trial trial = {call, source, json, size, gang, 0, {0}};
    size_t bytes = taken(make, &trial);
    tried++;
    if (bytes > most[call])
        most[call] = bytes;
    code_size = trial.report.used;
    return trial.status;
}

static void want(int holds, const char *what, const char *form)
{
    if (!holds) {
        differ++;
        printf("%s: %s\n", form, what);
    }
}

/* ---- sources */

/* A form that nests: what stands before, what opens it, its middle, and what closes it. */
static const struct form {
    const char *head, *open, *middle, *close, *tail;
} forms[] = {
    {"export void f() { int x = ", "(", "1", ")", "; }"},
    {"export void f() { int x = ", "- ", "1", "", "; }"},
    {"export void f() { bool x = ", "!", "true", "", "; }"},
    {"export void f() { int x = ", "(int64)", "1", "", "; }"},
    {"export void f() { int a[4]; int x = ", "a[", "0", "]", "; }"},
    {"int g(int n) { return n; } export void f() { int x = ", "g(", "0", ")", "; }"},
    {"export void f() { int x = ", "min(1, ", "0", ")", "; }"},
    {"export void f() { int x = ", "1 + (", "0", ")", "; }"},
    {"export void f() { int x = 1", "", "", " + 1", "; }"},
    {"export void f() { bool x = ", "true && (", "true", ")", "; }"},
    {"export void f() { int x = ", "programIndex == 0 ? 1 : ", "0", "", "; }"},
    {"export void f() { int x = ", "broadcast(", "0", ", 0)", "; }"},
    {"export void f() { int x = ", "reduce_add(", "0", ")", "; }"},
    {"export void f() { ", "{ ", "", "}", "}"},
    {"export void f() { ", "if (true) ", ";", "", "}"},
    {"export void f() { ", "if (programIndex == 0) { ", "", "}", "}"},
    {"export void f() { ", "if (programIndex == 0) ; else ", ";", "", "}"},
    {"export void f() { int i; ", "for (i = 0; i < programIndex; i++) ", ";", "", "}"},
    {"export void f() { ", "while (programIndex < 0) { ", "", "}", "}"},
    {"export void f() { ", "do { ", "", "} while (programIndex < 0);", "}"},
    {"export void f() { foreach (i = 0 ... 3) ", "{ ", "", "}", "}"},
    {"export void f() { ", "unmasked { ", "", "}", "}"},
    {"export void f() { int a[4]; ", "{ if (programIndex < a[0]) ", ";", "}", "}"},
};

/* The form so deep; where it is broken off it does not close. */
static char *nested(const struct form *form, size_t depth, int is_whole)
{
    size_t all = strlen(form->head) + strlen(form->middle) + strlen(form->tail) + depth * (strlen(form->open) + strlen(form->close)) + 1;
    char *text = malloc(all), *at = text;
    if (!text)
        exit(2);
    at = stpcpy(at, form->head);
    for (size_t i = 0; i < depth; i++)
        at = stpcpy(at, form->open);
    if (is_whole) {
        at = stpcpy(at, form->middle);
        for (size_t i = 0; i < depth; i++)
            at = stpcpy(at, form->close);
        stpcpy(at, form->tail);
    }
    return text;
}

/* The deepest source of a form that is taken, by each call; one deeper is refused. */
static void deepest(const struct form *form)
{
    size_t depth = 130;
    char *text = NULL;
    for (; depth; depth--) {
        free(text);
        text = nested(form, depth, 1);
        if (call(COMPILE, 32, text, strlen(text), "") == ISP_OK)
            break;
    }
    want(depth > 20 && depth < 130, "it is not taken from a depth of 20 to one below 130", form->open);
    char *kept = malloc(code_size + 1);
    memcpy(kept, code, code_size);
    size_t size = code_size;
    want(call(CHECK, 32, text, strlen(text), "") == ISP_OK, "isp check", form->open);
    uint8_t status = call(JSON, 32, text, strlen(text), "{}");
    want(status == ISP_OK || status == ISP_BUDGET || status == ISP_TRAP, "isp run", form->open);
    status = call(SOLO, 32, text, strlen(text), "{}");
    want(status == ISP_OK || status == ISP_BUDGET || status == ISP_TRAP || status == ISP_DEPENDENT, "isp solo", form->open);
    want(call(NATIVE, 32, kept, size, "") == ISP_OK, "isp_native", form->open);
    status = call(WASM, 32, kept, size, "");
    want(status == ISP_OK || status == ISP_CODE, "isp_wasm", form->open);
    status = call(EXEC, 32, kept, size, "{}");
    want(status == ISP_OK || status == ISP_BUDGET || status == ISP_TRAP, "isp exec", form->open);
    free(kept);
    free(text);
}

static void hostile(const struct form *form)
{
    for (int is_whole = 0; is_whole < 2; is_whole++) {
        char *text = nested(form, HOSTILE / (1 + strlen(form->open) / 8), is_whole);
        want(call(COMPILE, 4, text, strlen(text), "") == ISP_SOURCE, "hostile text is not refused", form->open);
        want(call(CHECK, 4, text, strlen(text), "") == ISP_SOURCE, "hostile text is not refused by isp check", form->open);
        free(text);
    }
}

/* Calls 255 deep, and arguments in as many brackets as JSON may have. */
static void running(void)
{
    const char *calls = "uniform int g(uniform int n) { if (n > 0) return g(n - 1); return 0; } export uniform int f(uniform int n) { return g(n); }";
    char *kept = malloc(ROOM), json[512] = "{\"n\":", *at = json + 5;
    want(call(COMPILE, 32, calls, strlen(calls), "") == ISP_OK, "isp_compile", calls);
    size_t size = code_size;
    memcpy(kept, code, size);
    want(call(RUN, 32, kept, size, "") == ISP_OK, "isp_run", calls);
    want(call(WASM, 32, kept, size, "") == ISP_OK, "isp_wasm", calls);
    want(call(TRACE, 32, kept, size, "") == ISP_OK, "isp_trace", calls);
    want(call(EXEC, 32, kept, size, "{\"n\":253}") == ISP_OK, "isp exec", calls);
    want(call(JSON, 32, calls, strlen(calls), "{\"n\":253}") == ISP_OK, "isp run", calls);
    want(call(JSON, 32, calls, strlen(calls), "{\"n\":300}") == ISP_TRAP, "isp run", calls);
    want(call(SOLO, 32, calls, strlen(calls), "{\"n\":253}") == ISP_OK, "isp solo", calls);
    memset(at, '[', 126);
    memset(at + 126, ']', 126);
    strcpy(at + 252, "}");
    want(call(JSON, 32, calls, strlen(calls), json) == ISP_ARGUMENTS, "isp run with brackets", calls);
    free(kept);
}

int main(void)
{
    stack = mmap(NULL, PAGE + ISP_STACK, PROT_READ | PROT_WRITE, MAP_PRIVATE | MAP_ANONYMOUS, -1, 0);
    if (stack == MAP_FAILED || mprotect(stack, PAGE, PROT_NONE))
        return 2;
    stack += PAGE;
    for (size_t i = 0; i < sizeof forms / sizeof *forms; i++) {
        deepest(&forms[i]);
        hostile(&forms[i]);
    }
    running();
    for (int i = 0; i < CALLS; i++) {
        printf("%s: %zu bytes\n", names[i], most[i]);
        want(most[i] > 0, "it was not called", names[i]);
        want(most[i] <= said[i] * 1024, "it takes more than isp.h says", names[i]);
    }
    printf("%d calls, %d differ\n", tried, differ);
    return differ != 0;
}
