/* altered SHEET LIST: a C program that plans. Reads sheet S of document 01 as a draft and checks its records, alters a
 * schedule, writes the sheet and settles it again; then drafts that are refused. */
#include "m2m.h"

#include "check.h"

#include <string.h>

static int named(const uint8_t *name, const char *word) {
    char filled[16] = {0};
    memcpy(filled, word, strlen(word));
    return memcmp(name, filled, sizeof filled) == 0;
}

static void check_draft(const m2m_draft *d) {
    CHECK(named(d->head.name, "A\\B") && d->head.monitoring_rto == 2 && d->head.seconds == 300);
    CHECK(d->head.monitoring_price == 5000 && d->head.nonmonitoring_price == 2000);
    CHECK(d->zone_count == 2 && named(d->zones[1].name, "Z2") && d->zones[1].load == 1950 && d->zones[1].losses == 50);
    CHECK(d->unit_count == 2 && named(d->units[1].name, "U2") && d->units[1].zone == 2 && d->units[1].output == 2000);
    CHECK(d->point_count == 2 && named(d->points[0].name, "P1") && d->points[0].sort == 2);
    CHECK(d->points[0].line == 1 && d->points[0].zone == 2);
    CHECK(d->points[0].import_ == 500 && d->points[0].export_ == 0);
    CHECK(d->points[1].line == 0 && d->points[1].zone == 0 && d->points[1].export_ == 200);
    CHECK(d->points[0].wheel_in == 0 && d->points[0].wheel_out == 0 && d->points[1].wheel_out == 0);
    CHECK(d->par_count == 1 && named(d->pars[0].name, "T1") && d->pars[0].class_ == 1);
    CHECK(d->pars[0].actual == 400 && d->pars[0].target == 380);
    CHECK(d->factor_count == 13 && d->factors[1].factor == -1000);
    CHECK(d->factors[12].target == 1 && d->factors[12].subject == 3 && d->factors[12].index == 2);
    CHECK(d->path_count == 0 && d->circulation_count == 0 && d->paths[M2M_MOST_PATHS].name[0] == 0);
    CHECK(d->zones[2].name[0] == 0 && d->units[M2M_MOST_UNITS].zone == 0 && d->factors[M2M_MOST_FACTORS].target == 0);
}

/* Every byte of the buffer from here on is as it was. */
static int untouched(const uint8_t *out, size_t from, size_t room) {
    for (size_t k = from; k < room; k++)
        if (out[k] != 0xa5)
            return 0;
    return 1;
}

static void check_refused(const m2m_draft *d, size_t room, uint8_t number) {
    uint8_t out[M2M_SHEET_ROOM];
    memset(out, 0xa5, sizeof out);
    m2m_written w = m2m_write_draft(*d, out, room);
    CHECK(w.refusal == number && w.length == 0 && untouched(out, 0, sizeof out));
}

/* An import of 60 MW instead of 50 for P1, the line into zone 2: the same steps on other figures. */
static void check_altered(m2m_draft d, const file *sheet, const file *list) {
    uint8_t out[M2M_SHEET_ROOM];
    memset(out, 0xa5, sizeof out);
    m2m_written w = m2m_write_draft(d, out, sizeof out);
    CHECK(w.refusal == 0 && w.length == sheet->length && memcmp(out, sheet->bytes, w.length) == 0);
    CHECK(untouched(out, w.length, sizeof out));
    d.points[0].import_ = 600;
    w = m2m_write_draft(d, out, w.length);
    CHECK(w.refusal == 0 && w.length == sheet->length && memcmp(out, sheet->bytes, w.length) != 0);
    uint8_t listing[M2M_LISTING_ROOM];
    m2m_printed p = m2m_report(out, w.length, list->bytes, list->length, listing, sizeof listing);
    CHECK(p.statement.refusal == 0 && p.statement.parallel == 6000000 && p.statement.shadow == 400000);
    CHECK(p.statement.amount != 1328125);
    m2m_drafted again = m2m_read_draft(out, w.length);
    CHECK(again.refusal == 0 && again.draft.points[0].import_ == 600);
    again.draft.points[0].import_ = 500;
    check_draft(&again.draft);
}

/* 10 MW that enter at P1 and leave at P2: parallel 600 x 1000 x 10, shadow (300 - 200 - 100) x 400 x 10, and T1 carries
 * 2500 x (11,250,000 + 600 x 2000 x 10) / 10,000; control is 500,000. Loads and generation stay, and so does gtl. */
static void check_wheels(m2m_draft d, const file *list) {
    uint8_t out[M2M_SHEET_ROOM];
    d.points[0].wheel_in = 100;
    d.points[1].wheel_out = 100;
    m2m_written w = m2m_write_draft(d, out, sizeof out);
    m2m_statement s = m2m_settle(out, w.length, list->bytes, list->length);
    CHECK(w.refusal == 0 && s.refusal == 0 && s.gtl == 12600000 && s.parallel == 6000000 && s.shadow == 0);
    CHECK(s.common == 5312500 && s.market == 13287500 && s.amount == 1369792);
    m2m_drafted again = m2m_read_draft(out, w.length);
    CHECK(again.draft.points[0].wheel_in == 100 && again.draft.points[0].wheel_out == 0);
    CHECK(again.draft.points[1].wheel_in == 0 && again.draft.points[1].wheel_out == 100);
}

static m2m_path path(const char *word, int32_t flow, int16_t factor) {
    m2m_path p = {{0}, flow, factor};
    memcpy(p.name, word, strlen(word));
    return p;
}

/* Sheet S with the paths of the Michigan-Ontario interface, as in samples/lake. */
static m2m_draft with_paths(m2m_draft d) {
    d.path_count = 4;
    d.paths[0] = path("J5D", 200, -300);
    d.paths[1] = path("B3N", 50, -200);
    d.paths[2] = path("L4D", 30, 100);
    d.paths[3] = path("L51D", -10, 100);
    d.circulation_count = 1;
    d.circulations[0].flow = 400;
    return d;
}

/* Impact: ((800 - 400) x -300 + (200 - 400) x -200 + (120 - 400) x 100 + (-40 - 400) x 100) x 10 by 4, that is -1,520,000
 * by 4. The adjusted flow, 13,187,500 - 380,000, lies between market flow and entitlement. */
static void check_paths(m2m_draft d, const file *list) {
    uint8_t out[M2M_SHEET_ROOM], listing[M2M_LISTING_ROOM];
    m2m_written w = m2m_write_draft(d, out, sizeof out);
    m2m_sheet r = m2m_read(out, w.length);
    CHECK(w.refusal == 0 && w.length == 309 + 4 * 23 + 5 && r.refusal == 0 && r.paths == 4 && r.circulations == 1);
    m2m_printed p = m2m_report(out, w.length, list->bytes, list->length, listing, sizeof listing);
    CHECK(p.statement.refusal == 0 && p.statement.has_paths == 1 && p.statement.market == 13187500);
    CHECK(p.statement.settled == 12807500 && p.statement.amount == 1169792);
    CHECK(p.length == 181 + 17 && memcmp(listing + 91, "market 13187500\nsettled 12807500\nentitlement", 44) == 0);
    m2m_drafted again = m2m_read_draft(out, w.length);
    CHECK(again.refusal == 0 && again.draft.path_count == 4 && again.draft.circulation_count == 1);
    CHECK(named(again.draft.paths[3].name, "L51D") && again.draft.paths[3].flow == -10);
    CHECK(again.draft.paths[0].factor == -300 && again.draft.circulations[0].flow == 400);
    CHECK(again.draft.paths[4].name[0] == 0 && again.draft.circulations[1].flow == 0);
    r = m2m_read(out, w.length - 5);
    CHECK(r.refusal == 28 && r.place == w.length - 5 && r.paths == 0 && m2m_read_draft(out, w.length - 5).refusal == 28);
}

static void check_path_refusals(const m2m_draft *sound, size_t length) {
    m2m_draft d = *sound;
    check_refused(&d, length - 1, 27);
    d.circulation_count = 0;
    check_refused(&d, 0, 28);
    d.path_count = 0;
    d.circulation_count = 1;
    check_refused(&d, 0, 28);
    d.path_count = 3;
    check_refused(&d, length, 28);
    d.circulation_count = SIZE_MAX;
    check_refused(&d, length, 5);
    d = *sound;
    d.paths[4] = path("L51D", 200001, 0);
    d.path_count = SIZE_MAX;
    check_refused(&d, length, 5);
    d.paths[1].factor = 10001;
    check_refused(&d, length, 11);
    d.paths[1].flow = -200001;
    check_refused(&d, length, 9);
    memcpy(d.paths[1].name, d.paths[0].name, 16);
    check_refused(&d, length, 7);
    d.paths[1].name[0] = 0;
    check_refused(&d, length, 6);
    d.factor_count = 14;
    check_refused(&d, length, 10);
    d = *sound;
    d.circulations[0].flow = 200001;
    check_refused(&d, length, 9);
    d = *sound;
    d.factor_count = 12;
    d.path_count = 1;
    check_refused(&d, length, 13);
}

static void check_refusals(const m2m_draft *sound, size_t length) {
    m2m_draft d = *sound;
    check_refused(&d, length - 1, 27);
    check_refused(&d, 0, 27);
    d.points[0].zone = 0;
    check_refused(&d, 0, 8);
    d.points[0].import_ = 200001;
    check_refused(&d, length, 8);
    d.points[0].line = 0;
    check_refused(&d, length, 9);
    d = *sound;
    d.points[1].wheel_in = 200001;
    check_refused(&d, length, 9);
    d = *sound;
    d.points[0].wheel_out = UINT32_MAX;
    check_refused(&d, 0, 9);
    d = *sound;
    d.factors[1].factor = -10001;
    check_refused(&d, length, 11);
    d.factor_count = SIZE_MAX;
    check_refused(&d, length, 11);
    d.factors[1].factor = 0;
    check_refused(&d, length, 10);
    d.factor_count = 12;
    check_refused(&d, length, 13);
    d.unit_count = SIZE_MAX;
    check_refused(&d, length, 6);
    memset(&d, 0xff, sizeof d);
    check_refused(&d, length, 8);
}

int main(int count, char **words) {
    if (count != 3)
        return 2;
    file sheet = content(words[1]), list = content(words[2]);
    m2m_drafted d = m2m_read_draft(sheet.bytes, sheet.length);
    CHECK(d.refusal == 0);
    check_draft(&d.draft);
    check_altered(d.draft, &sheet, &list);
    check_wheels(d.draft, &list);
    check_refusals(&d.draft, sheet.length);
    m2m_draft lake = with_paths(d.draft);
    check_paths(lake, &list);
    check_path_refusals(&lake, sheet.length + 97);
    d = m2m_read_draft(sheet.bytes, sheet.length - 1);
    CHECK(d.refusal == 3 && d.draft.head.name[0] == 0 && d.draft.zone_count == 0 && d.draft.factors[12].index == 0);
    return failures ? 1 : 0;
}
