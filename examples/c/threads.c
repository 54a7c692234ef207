/* Sixteen threads that call isp at once, each over memory of its own: each answer is the one that a thread alone gets.
 *
 *     tools/library
 *     cc -std=c11 -O2 -g -fsanitize=thread -I include examples/c/threads.c lib/libisp.a -lm -pthread -o threads
 *     ./threads 1000
 *
 * The number is how often each thread goes round. In a round it makes each call once, with a kernel of its own, and compares what it gets
 * with what stands below. The last line is `N calls, M differ`, and the status is 1 where one differs.
 */
#include "isp.h"
#include <pthread.h>
#include <stdatomic.h>
#include <stdlib.h>

enum { THREADS = 16, COUNT = 5, BUDGET = 100000, CALLS = 7 };

static atomic_long differ;
static long rounds;

/* what a thread has: its number, by which its kernel and its answers differ from the others' */
struct own {
    int number;
    uint32_t gang;
    char source[512], code[4096], file[65536], lines[32768], output[64], out[256], err[256];
    size_t code_size;
    unsigned char packed[ISP_VALUE_SIZE + ISP_ARRAY_SIZE(COUNT, 4)];
};

static void want(int holds, const struct own *own, const char *what)
{
    if (!holds && atomic_fetch_add(&differ, 1) < 20)
        printf("thread %d: %s\n", own->number, what);
}

static void compiled(struct own *own)
{
    struct isp_report report;
    snprintf(own->source, sizeof own->source,
             "export uniform int f(uniform int n, uniform int a[]) {\n"
             "    foreach (i = 0 ... %d) { a[i] = a[i] * n + %d; }\n"
             "    print(\"thread %d of %%\", n);\n"
             "    return n + %d;\n"
             "}\n",
             COUNT, own->number, own->number, 100 * own->number);
    want(isp_compile(own->source, strlen(own->source), own->gang, own->code, sizeof own->code, &report) == ISP_OK, own, "isp_compile");
    own->code_size = report.used;
}

/* the arguments: n, and the elements 0, 1, .. */
static void put(struct own *own, int n)
{
    int elements[COUNT];
    for (int i = 0; i < COUNT; i++)
        elements[i] = i;
    isp_put_array(isp_put_value(own->packed, (uint32_t)n), elements, COUNT, 4);
}

static void ran(struct own *own, int n)
{
    struct isp_report report;
    struct isp_job job = {isp_string("f"), BUDGET};
    char wanted[64];
    int elements[COUNT], same = 1;
    put(own, n);
    uint8_t status = isp_run(own->code, own->code_size, &job, own->packed, sizeof own->packed, own->output, sizeof own->output, &report);
    want(status == ISP_OK && (int32_t)report.result == n + 100 * own->number, own, "isp_run");
    int size = snprintf(wanted, sizeof wanted, "thread %d of %d", own->number, n);
    want(report.used == (size_t)size && memcmp(own->output, wanted, report.used) == 0, own, "what isp_run wrote");
    isp_take_array(own->packed, elements, COUNT, 4);
    for (int i = 0; i < COUNT; i++)
        same &= elements[i] == i * n + own->number;
    want(same, own, "the array of isp_run");
}

static void shown(struct own *own, int n)
{
    struct isp_report report;
    struct isp_trace last = {{isp_string("f"), BUDGET}, 0, UINT64_MAX, 1};
    char wanted[64];
    put(own, n);
    uint8_t status = isp_trace(own->code, own->code_size, &last, own->packed, sizeof own->packed, own->lines, sizeof own->lines, &report);
    want(status == ISP_OK && report.used > 100 && own->lines[report.used - 1] == '\n', own, "isp_trace");
    want(isp_native(own->code, own->code_size, own->file, sizeof own->file, &report) == ISP_OK, own, "isp_native");
    int size = snprintf(wanted, sizeof wanted, "#define ISP_GANG %u\n", own->gang);
    want(strncmp(own->file, wanted, (size_t)size) == 0, own, "the file of isp_native");
    want(isp_wasm(own->code, own->code_size, own->file, sizeof own->file, &report) == ISP_OK && report.used > own->code_size, own, "isp_wasm");
    want(memcmp(own->file + report.used - own->code_size, own->code, own->code_size) == 0, own, "the code behind the module");
}

/* an answer, and a refusal whose place is the thread's */
static void commanded(struct own *own, int n)
{
    struct isp_streams to = {own->out, sizeof own->out, own->err, sizeof own->err, {0, 0}};
    struct isp_text source = isp_string(own->source), f = isp_string("f");
    char json[64], wanted[256];
    snprintf(json, sizeof json, "{\"n\":%d,\"a\":[1,1,1,1,1]}", n);
    int each = n + own->number;
    int size = snprintf(wanted, sizeof wanted, "thread %d of %d{\"arrays\":{\"a\":[%d,%d,%d,%d,%d]},\"result\":%d}\n", own->number, n, each, each, each, each,
                        each, n + 100 * own->number);
    want(isp_json(source, own->gang, f, isp_string(json), BUDGET, &to) == ISP_OK, own, "isp_json");
    want(to.used.out == (size_t)size && memcmp(own->out, wanted, to.used.out) == 0, own, "the answer of isp_json");

    char fault[64];
    snprintf(fault, sizeof fault, "%*s", own->number + 1, "?");
    size = snprintf(wanted, sizeof wanted, "isp: 10 Unexpected at %d..%d\n", own->number, own->number + 1);
    want(isp_check(isp_string(fault), own->gang, &to) == ISP_SOURCE, own, "isp_check");
    want(to.used.err == (size_t)size && memcmp(own->err, wanted, to.used.err) == 0, own, "the line of isp_check");
}

static void *thread(void *given)
{
    struct own *own = given;
    for (long round = 0; round < rounds; round++) {
        int n = (int)(round % 1000);
        compiled(own);
        ran(own, n);
        shown(own, n);
        commanded(own, n);
    }
    return NULL;
}

int main(int count, char **words)
{
    pthread_t threads[THREADS];
    struct own *all = calloc(THREADS, sizeof *all);
    rounds = count > 1 ? atol(words[1]) : 100;
    if (!all || rounds < 1)
        return 2;
    for (int i = 0; i < THREADS; i++) {
        all[i].number = i;
        all[i].gang = 4u << i % 4;
        if (pthread_create(&threads[i], NULL, thread, &all[i]))
            return 2;
    }
    for (int i = 0; i < THREADS; i++)
        pthread_join(threads[i], NULL);
    free(all);
    printf("%ld calls, %ld differ\n", THREADS * rounds * CALLS, atomic_load(&differ));
    return atomic_load(&differ) != 0;
}
