/* Hostile code text and hostile packed bytes into isp_run and isp_trace, and the code into isp_wasm: what isp.h promises of them holds. */
#define _DEFAULT_SOURCE
#include "fence.h"

enum { STEPS = 20000, LINES = 65536, MODULE = 65536 };

/* isp_run with a room of so many bytes, over a copy of what was given. */
static uint8_t ran(struct isp_text code, struct isp_text entry, struct isp_text given, size_t room, struct isp_report *report)
{
    struct isp_job job = {entry, STEPS};
    struct isp_text packed = fenced(ends[2], given);
    char *output = room_before(ends[4], room);
    uint8_t status = isp_run(code.at, code.size, &job, (char *)packed.at, packed.size, output, room, report);
    int went = status == ISP_OK || status == ISP_TRAP || status == ISP_BUDGET;
    holds(status != ISP_SOURCE && status != ISP_WORDS && status != ISP_DEPENDENT && status <= ISP_ROOM, "the status");
    holds(status == ISP_OK || status == ISP_TRAP || memcmp(packed.at, given.at, packed.size) == 0, "the arguments");
    holds(went ? report->used <= room && all_stay(output + report->used, room - report->used) : all_stay(output, room), "the room");
    holds((status == ISP_ROOM) == (report->used > room), "what is wanted");
    holds((status == ISP_OK) == (report->line[0] == 0), "the line");
    return status;
}

/* isp_wasm says of the code what isp_run does, and gives a module that ends with the code, or says that none is made. */
static void made(struct isp_text code, uint8_t ran, uint32_t number)
{
    struct isp_report report;
    uint8_t status = isp_wasm(code.at, code.size, NULL, 0, &report);
    if (status == ISP_MEMORY || ran == ISP_MEMORY)
        return;
    if (ran == ISP_TEXT || ran == ISP_CODE) {
        holds(status == ran && report.why.number == number && report.used == 0, "isp_wasm and isp_run differ");
        return;
    }
    holds(status == ISP_ROOM || (status == ISP_CODE && report.why.number == 0 && report.used == 0), "the status of isp_wasm");
    size_t wanted = report.used;
    if (status == ISP_CODE || wanted > MODULE)
        return;
    char *file = room_before(ends[5], wanted);
    holds(isp_wasm(code.at, code.size, file, wanted - 1, &report) == ISP_ROOM && report.used == wanted && all_stay(file, wanted), "a byte too few");
    holds(isp_wasm(code.at, code.size, file, wanted, &report) == ISP_OK && report.used == wanted && report.line[0] == 0, "a room that is large enough");
    holds(memcmp(file, "\0asm", 4) == 0 && memcmp(file + wanted - code.size, code.at, code.size) == 0, "the module");
}

/* Up to the first zero stands code text, then the entry up to the next, and the rest is what the parameters are. */
int LLVMFuzzerTestOneInput(const uint8_t *data, size_t size)
{
    struct isp_report report, traced;
    size_t at = 0;
    if (size > 65536)
        return 0;
    begin();
    struct isp_text code = fenced(ends[0], piece(data, size, &at, 0)), entry = fenced(ends[1], piece(data, size, &at, 0));
    struct isp_text given = fenced(ends[3], (struct isp_text){(const char *)data + at, size - at});
    struct isp_trace steps = {{entry, STEPS}, given.size, 50, 1};
    char *lines = room_before(ends[5], LINES);
    uint8_t seen = isp_trace(code.at, code.size, &steps, given.at, given.size, lines, LINES, &traced);
    uint8_t status = ran(code, entry, given, 0, &report);
    if (status == ISP_ROOM) {
        /* with a byte too few it wants the same, and with enough it says how the run went */
        size_t wanted = report.used;
        holds(ran(code, entry, given, wanted - 1, &report) == ISP_ROOM && report.used == wanted, "a byte too few");
        status = ran(code, entry, given, wanted, &report);
        holds((status == ISP_OK || status == ISP_TRAP || status == ISP_BUDGET) && report.used == wanted, "a room that is large enough");
    }
    made(code, status, report.why.number);
    int refused = status == ISP_ARGUMENTS || status == ISP_TEXT || status == ISP_CODE;
    holds(refused ? seen == status : seen == ISP_OK || seen == ISP_ROOM || seen == ISP_MEMORY, "isp_trace and isp_run differ");
    return 0;
}
