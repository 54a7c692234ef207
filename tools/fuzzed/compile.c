/* Hostile sources into isp_compile: what isp.h promises of it holds, and what it gives is code, of which a module is made or is not. */
#define _DEFAULT_SOURCE
#include "fence.h"

/* isp_compile with a room of so many bytes. */
static uint8_t compiled(struct isp_text source, uint32_t gang, unsigned char *end, size_t size, struct isp_report *report)
{
    char *room = room_before(end, size);
    uint8_t status = isp_compile(source.at, source.size, gang, room, size, report);
    holds(status == ISP_OK ? report->used <= size && all_stay(room + report->used, size - report->used) : all_stay(room, size), "the room");
    holds((status == ISP_ROOM) == (report->used > size), "what is wanted");
    holds((status == ISP_OK) == (report->line[0] == 0), "the line");
    return status;
}

/* The first byte says the gang, the second how much room there is too much, and the rest is the source. */
int LLVMFuzzerTestOneInput(const uint8_t *data, size_t size)
{
    static const uint32_t gangs[] = {4, 8, 16, 32, 4, 8, 16, 5};
    struct isp_report report;
    if (size < 2 || size > 65536)
        return 0;
    begin();
    uint32_t gang = gangs[data[0] % 8];
    struct isp_text source = fenced(ends[0], (struct isp_text){(const char *)data + 2, size - 2});
    uint8_t status = compiled(source, gang, ends[1], 0, &report);
    holds(status == ISP_SOURCE || status == ISP_WORDS || status == ISP_TEXT || status == ISP_MEMORY || status == ISP_ROOM, "the status");
    holds(status != ISP_SOURCE || (report.why.begin <= report.why.end && report.why.end <= source.size), "the place of a fault");
    holds(status != ISP_SOURCE || (report.why.number >= 1 && report.why.number <= 33), "the number of a fault");
    if (status != ISP_ROOM || report.used > 1 << 20)
        return 0;
    /* with a byte too few it wants the same, and with enough it gives code */
    size_t wanted = report.used;
    holds(compiled(source, gang, ends[1], wanted - 1, &report) == ISP_ROOM && report.used == wanted, "a byte too few");
    holds(compiled(source, gang, ends[1], wanted + data[1], &report) == ISP_OK && report.used == wanted, "a room that is large enough");
    holds(compiled(source, gang, ends[2], wanted, &report) == ISP_OK && memcmp(ends[1] - wanted - data[1], ends[2] - wanted, wanted) == 0, "the code again");
    holds(isp_native((char *)ends[2] - wanted, wanted, NULL, 0, &report) == ISP_ROOM, "the code is code");
    status = isp_wasm((char *)ends[2] - wanted, wanted, NULL, 0, &report);
    holds(status == ISP_ROOM || (status == ISP_CODE && report.why.number == 0), "the code has a module, or none is made of it");
    return 0;
}
