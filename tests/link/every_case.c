/* every_case: settles the cases that standard input holds, a sheet and a list in hexadecimal digits to a line ('-' for no
 * bytes), each in a block of memory of just its length, so that valgrind sees any byte read or written beside them. Each is
 * also explained, read as a draft and written again, and added to an hour; a line 'hour' begins another. */
#include "m2m.h"

#include <stdio.h>
#include <stdlib.h>
#include <string.h>

typedef struct {
    uint8_t *bytes;
    size_t length;
} block;

static block read_block(char *digits) {
    block b = {NULL, strcmp(digits, "-") == 0 ? 0 : strlen(digits) / 2};
    b.bytes = malloc(b.length);
    for (size_t i = 0; i < b.length; i++) {
        char pair[3] = {digits[2 * i], digits[2 * i + 1], 0};
        b.bytes[i] = (uint8_t)strtoul(pair, NULL, 16);
    }
    return b;
}

static void report(block sheet, block list, size_t room) {
    uint8_t *out = malloc(room);
    m2m_printed p = m2m_report(sheet.bytes, sheet.length, list.bytes, list.length, out, room);
    if (p.statement.refusal == 0)
        fwrite(out, 1, p.length, stdout);
    else
        printf("refused %d\n", p.statement.refusal);
    if (p.length > 0 && p.length == room)
        report(sheet, list, room - 1);
    free(out);
}

/* Writes the sheet again into a block of so many bytes, and then into one that is a byte shorter. */
static void rewrite(block sheet, size_t room) {
    m2m_drafted d = m2m_read_draft(sheet.bytes, sheet.length);
    uint8_t *out = malloc(room);
    m2m_written w = m2m_write_draft(d.draft, out, room);
    printf("%d %d %zu\n", d.refusal, w.refusal, w.length);
    if (w.refusal == 0 && memcmp(out, sheet.bytes, w.length) != 0)
        exit(3);
    if (w.length > 0)
        rewrite(sheet, w.length - 1);
    free(out);
}

/* The part that is refused lies within the sheet. */
static void explain(block sheet, block list) {
    m2m_explanation e = m2m_explain(sheet.bytes, sheet.length, list.bytes, list.length);
    printf("%d %d ", e.refusal, e.reason);
    for (size_t i = e.from; i < e.to; i++)
        printf("%02x", sheet.bytes[i]);
    printf("\n");
    if ((e.refusal == 0) != (e.reason != M2M_REASON_NONE) || e.from > e.to || e.to > sheet.length)
        exit(4);
}

static m2m_hour add(m2m_hour hour, block sheet, block list) {
    m2m_changed c = m2m_hour_add(hour, sheet.bytes, sheet.length, list.bytes, list.length);
    m2m_totals t = m2m_hour_totals(c.hour);
    printf("%d %zu %d: %u %jd %jd %jd\n", c.refusal, c.hour.count, c.hour.monitoring_rto, (unsigned)t.seconds,
           (intmax_t)t.amount, (intmax_t)t.nyiso, (intmax_t)t.pjm);
    return c.hour;
}

int main(void) {
    char *line = NULL;
    size_t room = 0;
    m2m_hour hour = m2m_hour_open();
    while (getline(&line, &room, stdin) > 0) {
        if (strcmp(line, "hour\n") == 0) {
            hour = m2m_hour_open();
            continue;
        }
        block sheet = read_block(strtok(line, " \n")), list = read_block(strtok(NULL, " \n"));
        m2m_statement s = m2m_settle(sheet.bytes, sheet.length, list.bytes, list.length);
        m2m_sheet r = m2m_read(sheet.bytes, sheet.length);
        m2m_entitled e = m2m_entitlement(list.bytes, list.length, s.name, 16);
        m2m_printed p;
        uint8_t out[M2M_LISTING_ROOM];
        p = m2m_report(sheet.bytes, sheet.length, list.bytes, list.length, out, sizeof out);
        printf("%d %d %d\n", s.refusal, r.refusal, e.refusal);
        report(sheet, list, p.length);
        explain(sheet, list);
        rewrite(sheet, sheet.length);
        hour = add(hour, sheet, list);
        free(sheet.bytes);
        free(list.bytes);
    }
    free(line);
    return 0;
}
