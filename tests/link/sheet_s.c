/* sheet_s SHEET LIST LISTING: a C program that links the settlement. Settles sheet S of document 01 and checks each figure,
 * the listing, the reader's counts, the entitlement, refusals and what they mean, and hours that take it. */
#include "m2m.h"

#include "check.h"

#include <string.h>

static void check_figures(m2m_statement s) {
    CHECK(s.refusal == 0);
    CHECK(memcmp(s.name, "A\\B\0\0\0\0\0\0\0\0\0\0\0\0\0", 16) == 0);
    CHECK(s.gtl == 12600000 && s.first_remainder == 0 && s.second_remainder == 0);
    CHECK(s.parallel == 5000000);
    CHECK(s.shadow == 400000);
    CHECK(s.common == 4812500);
    CHECK(s.noncommon == 0);
    CHECK(s.market == 13187500);
    CHECK(s.settled == 13187500 && s.has_paths == 0);
    CHECK(s.entitlement == 10000000);
    CHECK(s.price == 5000);
    CHECK(s.amount == 1328125);
    CHECK(s.nyiso == -1328125);
    CHECK(s.pjm == 1328125);
}

static void check_refused(m2m_statement s, uint8_t number) {
    m2m_statement zeros = {.refusal = number};
    CHECK(s.refusal == zeros.refusal && memcmp(s.name, zeros.name, 16) == 0);
    CHECK(s.gtl == 0 && s.first_remainder == 0 && s.second_remainder == 0 && s.parallel == 0 && s.shadow == 0);
    CHECK(s.common == 0 && s.noncommon == 0 && s.market == 0 && s.entitlement == 0 && s.price == 0);
    CHECK(s.amount == 0 && s.nyiso == 0 && s.pjm == 0 && s.settled == 0 && s.has_paths == 0);
}

static void check_listing(const file *sheet, const file *list, const file *listing) {
    uint8_t out[M2M_LISTING_ROOM + 1];
    memset(out, 0xa5, sizeof out);
    m2m_printed p = m2m_report(sheet->bytes, sheet->length, list->bytes, list->length, out, M2M_LISTING_ROOM);
    check_figures(p.statement);
    CHECK(p.length == listing->length && memcmp(out, listing->bytes, p.length) == 0);
    for (size_t i = p.length; i < sizeof out; i++)
        CHECK(out[i] == 0xa5);
    /* Row 23: one byte short of the listing's length. */
    memset(out, 0xa5, sizeof out);
    p = m2m_report(sheet->bytes, sheet->length, list->bytes, list->length, out, listing->length - 1);
    check_refused(p.statement, 23);
    CHECK(p.length == 0 && out[0] == 0xa5);
    p = m2m_report(sheet->bytes, sheet->length, list->bytes, list->length, out, listing->length);
    CHECK(p.statement.refusal == 0 && p.length == listing->length && out[p.length] == 0xa5);
}

static void check_reading(const file *sheet, const file *list) {
    m2m_sheet r = m2m_read(sheet->bytes, sheet->length);
    CHECK(r.refusal == 0 && r.place == 0);
    CHECK(r.zones == 2 && r.units == 2 && r.points == 2 && r.pars == 1 && r.factors == 13);
    CHECK(r.paths == 0 && r.circulations == 0);
    r = m2m_read(sheet->bytes, 100);
    CHECK(r.refusal == 13 && r.place == 100 && r.zones == 0 && r.factors == 0);
    r = m2m_read(sheet->bytes, 30);
    CHECK(r.refusal == 3 && r.place == 28);
    m2m_entitled e = m2m_entitlement(list->bytes, list->length, sheet->bytes + 1, 16);
    CHECK(e.refusal == 0 && e.value == 100);
    e = m2m_entitlement(list->bytes, list->length, sheet->bytes + 1, 15);
    CHECK(e.refusal == 15 && e.value == 0);
    e = m2m_entitlement(list->bytes, list->length - 1, sheet->bytes + 1, 16);
    CHECK(e.refusal == 14 && e.value == 0);
}

static void check_explained(const file *sheet, size_t length, const file *list, m2m_explanation expected) {
    m2m_explanation e = m2m_explain(sheet->bytes, length, list->bytes, list->length);
    CHECK(e.refusal == expected.refusal && e.reason == expected.reason);
    CHECK(e.from == expected.from && e.to == expected.to);
}

/* The reason for the price, and the part that is refused: a kind byte, what is left of a record, a whole one, the end. */
static void check_explanations(file sheet, file list) {
    file none = {{0}, 0};
    size_t end = sheet.length;
    check_explained(&sheet, end, &list, (m2m_explanation){0, M2M_REASON_ABOVE, end, end});
    check_explained(&none, 0, &list, (m2m_explanation){1, M2M_REASON_NONE, 0, 0});
    check_explained(&list, list.length, &sheet, (m2m_explanation){1, M2M_REASON_NONE, 0, 1});
    check_explained(&sheet, 30, &list, (m2m_explanation){3, M2M_REASON_NONE, 28, 30});
    check_explained(&sheet, 53, &list, (m2m_explanation){12, M2M_REASON_NONE, 53, 53});
    check_explained(&sheet, end, &none, (m2m_explanation){15, M2M_REASON_NONE, end, end});
    list.bytes[18] = 1; /* an entitlement of 6563.6 MW */
    check_explained(&sheet, end, &list, (m2m_explanation){0, M2M_REASON_BELOW, end, end});
    list.bytes[18] = list.bytes[20] = 0;
    for (size_t k = 218; k < end; k += 7) /* all factors, and so the flow */
        sheet.bytes[k + 5] = sheet.bytes[k + 6] = 0;
    check_explained(&sheet, end, &list, (m2m_explanation){0, M2M_REASON_AT, end, end});
    sheet.bytes[53] = 9;
    check_explained(&sheet, end, &list, (m2m_explanation){2, M2M_REASON_NONE, 53, 54});
    sheet.bytes[53] = 1;
    check_explained(&sheet, end, &list, (m2m_explanation){4, M2M_REASON_NONE, 53, 81});
    sheet.bytes[53] = 2;
    sheet.bytes[55] = '1'; /* Z1 for Z2 */
    check_explained(&sheet, end, &list, (m2m_explanation){7, M2M_REASON_NONE, 53, 78});
}

static void check_totals(m2m_hour hour, uint32_t seconds, int64_t amount) {
    m2m_totals t = m2m_hour_totals(hour);
    int64_t nyiso = hour.monitoring_rto == 1 ? amount : -amount;
    CHECK(t.seconds == seconds && t.amount == amount && t.nyiso == nyiso && t.pjm == -nyiso);
}

/* Adds the interval, so many seconds long, and checks the answer: the hour that it hands back. */
static m2m_hour add(m2m_hour hour, file sheet, const file *list, unsigned seconds, uint8_t refusal) {
    sheet.bytes[18] = (uint8_t)(seconds >> 8);
    sheet.bytes[19] = (uint8_t)seconds;
    m2m_changed c = m2m_hour_add(hour, sheet.bytes, sheet.length, list->bytes, list->length);
    m2m_statement s = m2m_settle(sheet.bytes, sheet.length, list->bytes, list->length);
    CHECK(c.refusal == refusal);
    if (refusal == 0) {
        hour.amounts[hour.count] = s.amount;
        hour.seconds[hour.count] = (uint16_t)seconds;
        hour.count++;
        memcpy(hour.name, s.name, sizeof hour.name);
        hour.monitoring_rto = sheet.bytes[17];
    }
    CHECK(memcmp(c.hour.amounts, hour.amounts, sizeof hour.amounts) == 0);
    CHECK(memcmp(c.hour.seconds, hour.seconds, sizeof hour.seconds) == 0);
    CHECK(c.hour.count == hour.count && c.hour.monitoring_rto == hour.monitoring_rto);
    CHECK(memcmp(c.hour.name, hour.name, sizeof hour.name) == 0);
    return c.hour;
}

static void check_hours(file sheet, const file *list) {
    m2m_hour empty, hour = m2m_hour_open();
    memset(&empty, 0, sizeof empty);
    CHECK(memcmp(hour.amounts, empty.amounts, sizeof empty.amounts) == 0 && hour.count == 0);
    CHECK(memcmp(hour.seconds, empty.seconds, sizeof empty.seconds) == 0 && hour.monitoring_rto == 0);
    CHECK(memcmp(hour.name, empty.name, sizeof empty.name) == 0);
    check_totals(hour, 0, 0);
    for (uint32_t k = 1; k <= 12; k++) {
        hour = add(hour, sheet, list, 300, 0);
        check_totals(hour, 300 * k, 1328125 * (int64_t)k);
    }
    CHECK(m2m_hour_totals(hour).seconds == M2M_HOUR_SECONDS && m2m_hour_totals(hour).pjm == 12 * 1328125);
    hour = add(hour, sheet, list, 1, 25);
    hour = m2m_hour_open();
    for (int k = 0; k < M2M_HOUR_INTERVALS; k++)
        hour = add(hour, sheet, list, 1, 0);
    hour = add(hour, sheet, list, 900, 24);
    hour = add(hour, sheet, list, 901, 9);
    hour = add(m2m_hour_open(), sheet, list, 300, 0);
    sheet.bytes[17] = 1;
    hour = add(hour, sheet, list, 300, 26);
    hour = add(m2m_hour_open(), sheet, list, 300, 0);
    CHECK(hour.monitoring_rto == 1 && m2m_hour_totals(hour).nyiso == hour.amounts[0]);
}

/* A struct that was not grown from an empty hour: what include/m2m.h says of it. */
static void check_written(const file *sheet, const file *list) {
    m2m_hour hour;
    memset(&hour, 0xff, sizeof hour);
    for (int k = 0; k < M2M_HOUR_INTERVALS; k++)
        hour.amounts[k] = k % 3 ? INT64_MAX : INT64_MIN;
    check_totals(hour, M2M_HOUR_INTERVALS * 65535, 20 * 2000000000000);
    add(hour, *sheet, list, 300, 24);
    hour.count = 2;
    check_totals(hour, 2 * 65535, 0);
    add(hour, *sheet, list, 300, 25);
    hour.seconds[0] = hour.seconds[1] = 0;
    add(hour, *sheet, list, 300, 26);
    hour.monitoring_rto = 2;
    memcpy(hour.name, sheet->bytes + 1, sizeof hour.name);
    check_totals(add(hour, *sheet, list, 300, 0), 300, 1328125);
}

int main(int count, char **words) {
    if (count != 4)
        return 2;
    file sheet = content(words[1]), list = content(words[2]), listing = content(words[3]);
    check_figures(m2m_settle(sheet.bytes, sheet.length, list.bytes, list.length));
    check_refused(m2m_settle(sheet.bytes, 0, list.bytes, list.length), 1);
    check_refused(m2m_settle(sheet.bytes, sheet.length, list.bytes, 0), 15);
    check_refused(m2m_settle(list.bytes, list.length, sheet.bytes, sheet.length), 1);
    check_listing(&sheet, &list, &listing);
    check_reading(&sheet, &list);
    check_explanations(sheet, list);
    check_hours(sheet, &list);
    check_written(&sheet, &list);
    return failures ? 1 : 0;
}
