/* isp for C: the compiler, the machine and the commands as functions.
 *
 * The library behind this header (crates/isp_c, built by tools/library) is proved: what each function writes and answers is
 * its contract. Of this file, which says how C calls them, nothing is proved; it is tested (tools/library-test).
 *
 * There are no handles. A kernel is compiled to code text, which the caller keeps, and each call reads it again. No call
 * remembers anything, so several threads may make calls at once, each over memory of its own.
 *
 * What a caller owes, and no call can check:
 *   - A pointer goes with a size, and that many bytes are there. Where the size is 0 the pointer may be NULL. A pointer to a struct is never NULL.
 *   - What a call writes, a room, a struct or `packed`, overlaps nothing else that it is passed. Rooms may stand side by side, at any address.
 *   - malloc, realloc and free are those of one allocator. No call is made from a signal handler.
 *   - The thread has ISP_STACK bytes of stack left.
 *
 * The machine is x86-64 Linux: the little end of a number comes first.
 */
#ifndef ISP_H
#define ISP_H

#include <stddef.h>
#include <stdint.h>
#include <stdio.h>
#include <string.h>

#ifdef __cplusplus
extern "C" {
#endif

/* The stack that is enough for any call, in bytes. Measured (examples/c/stack.c): what compiles, isp_compile and isp_command but for `exec`,
 * takes up to 800 KiB; `exec` 48 KiB; isp_run, isp_native, isp_wasm and isp_trace 16 KiB. */
#define ISP_STACK (1024 * 1024)

/* What every call gives back. Up to 9 they are the statuses of the program `isp` (README.md); docs/FAULTS.md has each
 * fault by its number, with what to do. */
enum isp_status {
    ISP_OK = 0,        /* all went well */
    ISP_SOURCE = 1,    /* the source is refused: why.number 1 to 33, at why.begin up to why.end */
    ISP_WORDS = 2,     /* the gang is not 4, 8, 16 or 32; of isp_command: the words are refused, or ask for help */
    ISP_TRAP = 3,      /* the run trapped: why.trap, at why.begin up to why.end, in why.instance */
    ISP_BUDGET = 4,    /* the budget of instructions is used up */
    ISP_ARGUMENTS = 5, /* the entry or the arguments are refused: why.number 50, or 72 to 76 with why.parameter and why.element */
    ISP_TEXT = 6,      /* a text is no UTF-8; of isp_command: a file cannot be read */
    ISP_MEMORY = 7,    /* memory was refused */
    ISP_CODE = 8,      /* the code text is refused: why.number 60 to 63 with why.line, 40 to 45 with why.function and why.instruction; of
                        * isp_wasm also with why.number 0: no module is made of the code, and `line` says why */
    ISP_DEPENDENT = 9, /* of isp_solo: the entry is not independent, or two instances clash */
    ISP_ROOM = 10      /* a room is too small: `used` says how many bytes are wanted. Nothing has changed: call again */
};

/* why.trap */
enum isp_trap {
    ISP_NO_TRAP = 0,
    ISP_TRAP_DIVIDE = 1, /* a divisor is zero */
    ISP_TRAP_INDEX = 2,  /* an index is outside its array */
    ISP_TRAP_ASSERT = 3, /* an assert does not hold */
    ISP_TRAP_DEPTH = 4   /* calls are 256 deep */
};

/* Why a status is not 0. What a status does not tell is 0. */
struct isp_why {
    uint32_t number;      /* of the fault, as in docs/FAULTS.md */
    uint32_t trap;        /* enum isp_trap */
    size_t begin, end;    /* bytes of the source, from begin up to but not including end */
    size_t instance;      /* of a trap: the lowest instance of the gang that caused it */
    size_t line;          /* of code text, from 1 */
    size_t function;      /* of code, from 0 */
    size_t instruction;   /* of that function, from 0 */
    size_t parameter;     /* of the arguments, from 0 */
    size_t element;       /* of that parameter, from 0 */
};

/* What isp_compile, isp_run, isp_native, isp_wasm and isp_trace say of themselves. They write all of it, whatever it held. */
struct isp_report {
    size_t used;          /* bytes that were written to the room; with ISP_ROOM, how many are wanted */
    uint64_t result;      /* what the entry returned: its bits, zero above its width; 0 where it returns nothing */
    struct isp_why why;
    char line[128];       /* the line of standard error, with its line feed, and zeros behind it; "" with ISP_OK. Of a longer one the first 127 bytes */
};

/* A text: where its bytes begin, and how many there are. */
struct isp_text {
    const char *at;
    size_t size;
};

static inline struct isp_text isp_string(const char *string)
{
    struct isp_text text = {string, strlen(string)};
    return text;
}

/* ---- compile and run */

/* Compiles `source` for a gang of 4, 8, 16 or 32 instances, and writes its code text at the front of `code`, which has room
 * for `room` bytes. report->used is its length; the bytes behind it stay.
 *
 * ISP_OK, or ISP_SOURCE, ISP_WORDS, ISP_TEXT, ISP_MEMORY, ISP_ROOM: then `code` is as it was. */
uint8_t isp_compile(const char *source, size_t size, uint32_t gang, char *code, size_t room, struct isp_report *report);

/* What is run of some code: the name of an exported function, for so many instructions at most. */
struct isp_job {
    struct isp_text entry;
    uint64_t budget;
};

/* Reads code text, and runs `job->entry` from the arguments in `packed`. Behind it `packed` has the arrays, and what `print`
 * wrote is at the front of `output`, which has room for `room` bytes. report->used is its length; the bytes behind it stay.
 *
 * ISP_OK: the run ended; report->result has what it returned.
 * ISP_TRAP: it trapped. The arrays are as they were then, and `output` has what was written until then.
 * ISP_BUDGET: `packed` is as it was, so the call can be made again with a greater budget. `output` has what was written
 *     until then.
 * ISP_ARGUMENTS, ISP_TEXT, ISP_MEMORY, ISP_CODE, ISP_ROOM: `packed` and `output` are as they were. */
uint8_t isp_run(const char *code, size_t code_size, const struct isp_job *job, void *packed, size_t packed_size, char *output,
                size_t room, struct isp_report *report);

/* Reads code text, and writes its C file at the front of `file`, which has room for `room` bytes: a line for each instruction, of which
 * a C compiler makes native code with isp_machine.h (docs/EMBEDDING.md). report->used is its length; the bytes behind it stay.
 *
 * ISP_OK, or ISP_TEXT, ISP_MEMORY, ISP_CODE, ISP_ROOM: then `file` is as it was. */
uint8_t isp_native(const char *code, size_t code_size, char *file, size_t room, struct isp_report *report);

/* Reads code text, and writes its module of WebAssembly at the front of `file`, which has room for `room` bytes: what `ispx wasm` writes,
 * with the code text in a section `isp` behind it. An engine runs its functions (js/isp.js, docs/EMBEDDING.md). report->used is its length;
 * the bytes behind it stay.
 *
 * ISP_OK, or ISP_TEXT, ISP_MEMORY, ISP_CODE, ISP_ROOM: then `file` is as it was. With ISP_CODE and report->why.number 0 the code is sound,
 * and no module is made of it: report->line says of which function and why, as `isp: no module: blend: a varying local array, ..`. */
uint8_t isp_wasm(const char *code, size_t code_size, char *file, size_t room, struct isp_report *report);

/* Which steps of a run have a line: `count` of them from number `from` on, where the first has number 0. Where `lanes` is not 0 a line
 * shows the vector that its step wrote. */
struct isp_trace {
    struct isp_job job;
    uint64_t from, count;
    uint32_t lanes;
};

/* Reads code text, runs `trace->job.entry` from the arguments in `packed`, which stay as they are, and writes the lines of these steps at
 * the front of `lines`, which has room for `room` bytes. report->used is their length; the bytes behind them stay. A line is
 *
 *     3 share L3: mtest m3 v2 m0 m0=1111 -> m3=1110
 *
 * the number of the step, the function, the number of the instruction in it, its line of code text, the masks that it reads, lane 0
 * first, and what it wrote. The steps end with the window, with the run, or where trace->job.budget is used up.
 *
 * ISP_OK, or ISP_ARGUMENTS, ISP_TEXT, ISP_MEMORY, ISP_CODE, ISP_ROOM: then `lines` is as it was. */
uint8_t isp_trace(const char *code, size_t code_size, const struct isp_trace *trace, const void *packed, size_t packed_size, char *lines,
                  size_t room, struct isp_report *report);

/* ---- arguments and answers as bytes
 *
 * `packed` has the arguments in the order of the parameters, with nothing between: a value in 8 bytes; an array as 8 bytes
 * with the number of its elements and then the elements, each in the bytes of its type (bool in 1, as 0 or 1). Behind a run
 * it begins with the arrays alone, in the same form, in their order, which never takes more; the bytes behind them stay. An array has
 * up to 2^63 - 1 elements.
 *
 * Each of these goes from `at` on, and gives the place behind. */

/* The bytes that one value takes, and an array of `count` elements of `width` bytes. */
#define ISP_VALUE_SIZE 8
#define ISP_ARRAY_SIZE(count, width) (8 + (size_t)(count) * (width))

/* A value: its bits, zero above its width. So cast a negative int to uint32_t, and not to uint64_t. */
static inline unsigned char *isp_put_value(unsigned char *at, uint64_t bits)
{
    memcpy(at, &bits, sizeof bits);
    return at + ISP_VALUE_SIZE;
}

/* An array of `count` elements of `width` bytes. */
static inline unsigned char *isp_put_array(unsigned char *at, const void *elements, size_t count, size_t width)
{
    isp_put_value(at, count);
    if (count)
        memcpy(at + 8, elements, count * width);
    return at + ISP_ARRAY_SIZE(count, width);
}

/* The elements of the array that stands there. */
static inline const unsigned char *isp_take_array(const unsigned char *at, void *elements, size_t count, size_t width)
{
    if (count)
        memcpy(elements, at + 8, count * width);
    return at + ISP_ARRAY_SIZE(count, width);
}

/* ---- the commands, over memory */

/* A file that stands in memory. */
struct isp_file {
    struct isp_text name, text;
};

/* How many bytes a command wrote to each of its rooms; with ISP_ROOM, how many are wanted. */
struct isp_used {
    size_t out, err;
};

/* Does what `isp WORD..` does, where the files that the words name stand in `files`; of two with one name the first counts.
 * What goes to standard output is written at the front of `out`, and what goes to standard error at the front of `err`.
 *
 * The status of the program, or ISP_ROOM: then both rooms are as they were. With ISP_MEMORY they have what was written until
 * then, or nothing. */
uint8_t isp_command(const struct isp_text *words, size_t words_count, const struct isp_file *files, size_t files_count, char *out,
                    size_t out_room, char *err, size_t err_room, struct isp_used *used);

/* The rooms of a command. `used` is written by each call. */
struct isp_streams {
    char *out;
    size_t out_room;
    char *err;
    size_t err_room;
    struct isp_used used;
};

/* The name of a function as a word of a command. No function's name has a byte past 127, and no function has the empty name. */
static inline struct isp_text isp_name(struct isp_text entry)
{
    for (size_t i = 0; i < entry.size; i++)
        if ((unsigned char)entry.at[i] > 127)
            return isp_string("");
    return entry;
}

/* A number in decimal. `digits` has room for 21 bytes. */
static inline struct isp_text isp_decimal(char *digits, uint64_t number)
{
    struct isp_text text = {digits, (size_t)snprintf(digits, 21, "%llu", (unsigned long long)number)};
    return text;
}

/* `isp check`: for each exported function of `source` whether it is independent by the rules, or which rule it breaks and
 * where. ISP_OK, or ISP_SOURCE, ISP_WORDS, ISP_TEXT, ISP_MEMORY, ISP_ROOM. */
static inline uint8_t isp_check(struct isp_text source, uint32_t gang, struct isp_streams *to)
{
    char width[21];
    struct isp_text words[] = {isp_string("check"), isp_string("--gang"), isp_decimal(width, gang), isp_string("source")};
    struct isp_file files[] = {{isp_string("source"), source}};
    return isp_command(words, 4, files, 1, to->out, to->out_room, to->err, to->err_room, &to->used);
}

/* `isp asm`: the code text, which isp_compile gives too. ISP_OK, or ISP_SOURCE, ISP_WORDS, ISP_TEXT, ISP_MEMORY, ISP_ROOM. */
static inline uint8_t isp_asm(struct isp_text source, uint32_t gang, struct isp_streams *to)
{
    char width[21];
    struct isp_text words[] = {isp_string("asm"), isp_string("--gang"), isp_decimal(width, gang), isp_string("source")};
    struct isp_file files[] = {{isp_string("source"), source}};
    return isp_command(words, 4, files, 1, to->out, to->out_room, to->err, to->err_room, &to->used);
}

/* `isp run`: the answer in JSON to arguments in JSON (docs/ARGUMENTS.md), behind what `print` wrote. `entry` is a name and no
 * word of a command: of `--help` the line says 50 NoEntry. ISP_OK, or ISP_SOURCE, ISP_WORDS, ISP_TRAP, ISP_BUDGET, ISP_ARGUMENTS, ISP_TEXT, ISP_MEMORY, ISP_ROOM. */
static inline uint8_t isp_json(struct isp_text source, uint32_t gang, struct isp_text entry, struct isp_text json, uint64_t budget,
                               struct isp_streams *to)
{
    char width[21], most[21];
    struct isp_text words[] = {isp_string("run"), isp_string("--gang"), isp_decimal(width, gang), isp_string("--budget"), isp_decimal(most, budget),
                               isp_string("--"), isp_string("source"), isp_name(entry), isp_string("arguments")};
    struct isp_file files[] = {{isp_string("source"), source}, {isp_string("arguments"), json}};
    return isp_command(words, 9, files, 2, to->out, to->out_room, to->err, to->err_room, &to->used);
}

/* `isp solo`: the answer in JSON of the instances one by one; a loop makes at most `turns` iterations each time it is
 * entered. ISP_OK, or ISP_SOURCE, ISP_WORDS, ISP_TRAP, ISP_BUDGET, ISP_ARGUMENTS, ISP_TEXT, ISP_MEMORY, ISP_DEPENDENT,
 * ISP_ROOM. */
static inline uint8_t isp_solo(struct isp_text source, uint32_t gang, struct isp_text entry, struct isp_text json, uint64_t turns,
                               struct isp_streams *to)
{
    char width[21], most[21];
    struct isp_text words[] = {isp_string("solo"), isp_string("--gang"), isp_decimal(width, gang), isp_string("--turns"), isp_decimal(most, turns),
                               isp_string("--"), isp_string("source"), isp_name(entry), isp_string("arguments")};
    struct isp_file files[] = {{isp_string("source"), source}, {isp_string("arguments"), json}};
    return isp_command(words, 9, files, 2, to->out, to->out_room, to->err, to->err_room, &to->used);
}

#ifdef __cplusplus
}
#endif

#endif
