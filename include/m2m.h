/*
 * The market-to-market settlement of one flowgate and one interval (document 01), of whole hours, the writer of sheets,
 * and which record a refusal means (document 02, requests 1, 3, 5, 6 and 7), for C and C++.
 *
 *   tools/build exports                                         writes target/staticlib/libexports.a
 *   cc -Iinclude my.c target/staticlib/libexports.a -o my
 *   tools/shared-library                                        writes target/m2m/libm2m.so
 *
 * Each function answers on every input; nothing is asked of the bytes. It reads its inputs, and writes its output
 * buffer, during the call only, allocates nothing, keeps nothing and calls nothing but memcpy and memset, so that
 * threads may call it at once. No pointer is null, also where its length is 0. The output buffer overlaps no input.
 *
 * sheet is an interval sheet and list an entitlement list, byte by byte as docs/FORMAT.md has them.
 * A refusal is the number of a row of document 01, 'Where each refusal is checked', or of a request's error;
 * docs/REFUSALS.md says for each what it means and how to mend the input. 0 means accepted.
 */
#ifndef M2M_H
#define M2M_H

#include <stddef.h>
#include <stdint.h>

#ifdef __cplusplus
extern "C" {
#endif

/* No listing of an accepted statement has more bytes than this. */
#define M2M_LISTING_ROOM 316

/*
 * The statement. Flows and entitlement are in watts, the price in cents per MWh, amount and payments in thousandths of
 * a cent. Rounded quotients go to the nearest whole number, halves to even (document 02, request 2). A refused statement
 * has its number and zeros everywhere else.
 */
typedef struct m2m_statement {
    uint8_t refusal;
    uint8_t name[16];         /* the flowgate's name, filled with zero bytes on the right */
    uint8_t has_paths;        /* 1 where the sheet has paths and the Lake Erie circulation, else 0 */
    int64_t gtl;              /* generation-to-load flow */
    int64_t first_remainder;  /* of 10 x G x N by net load */
    int64_t second_remainder; /* of H x final generation by net generation */
    int64_t parallel;         /* parallel flow, over the non-common points */
    int64_t shadow;           /* shadow flow, over the common points */
    int64_t common;           /* redirect of the common PARs */
    int64_t noncommon;        /* redirect of the non-common PARs; 0 where NYISO is the Monitoring RTO */
    int64_t market;           /* market flow */
    int64_t settled;          /* settlement flow: what is paid on; the market flow where the sheet has no paths */
    int64_t entitlement;      /* the Non-Monitoring RTO's */
    int64_t price;            /* the price taken */
    int64_t amount;
    int64_t nyiso;            /* NYISO's payment; positive means received */
    int64_t pjm;              /* PJM's payment, the other's negative */
} m2m_statement;

/* The statement after row 23, and how many bytes of the output buffer were printed: 0 on a refusal. */
typedef struct m2m_printed {
    m2m_statement statement;
    size_t length;
} m2m_printed;

/*
 * What the reader says of a sheet, rows 1 to 13 and 28. Accepted: 0, place 0 and how many records of each kind there
 * are. Refused: the number, the place, and zeros. The place is the offset of the offending record's kind byte, or the
 * sheet's length for rows 12, 13 and 28, which are about the sheet's end.
 */
typedef struct m2m_sheet {
    uint8_t refusal;
    size_t place;
    size_t zones;
    size_t units;
    size_t points;
    size_t pars;
    size_t factors;
    size_t paths;
    size_t circulations;
} m2m_sheet;

/* The reason for the price: the flow paid on is above, below or at the entitlement. A refusal has none. */
#define M2M_REASON_NONE 0
#define M2M_REASON_ABOVE 1
#define M2M_REASON_BELOW 2
#define M2M_REASON_AT 3

/*
 * Which part of the sheet a refusal means, or why an accepted interval has its price. All records before the part pass.
 * Rows 1 and 2: the kind byte alone. Row 3: from the kind byte to the sheet's end. Rows 4 to 11: the whole record. Of an
 * empty sheet, of all other rows and of an accepted sheet it is the empty part at the sheet's end: from and to are the
 * sheet's length.
 */
typedef struct m2m_explanation {
    uint8_t refusal; /* the settlement's own number; 0: accepted */
    uint8_t reason;  /* M2M_REASON_.. */
    size_t from;     /* the part's first byte, counted from 0 */
    size_t to;       /* the byte behind its last */
} m2m_explanation;

/* What the list says of a flowgate, rows 14 and 15: 0 and the entitlement in tenths of a MW, or the number and 0. */
typedef struct m2m_entitled {
    uint8_t refusal;
    int64_t value;
} m2m_entitled;

/* An hour holds at most so many intervals, of so many seconds together. */
#define M2M_HOUR_INTERVALS 60
#define M2M_HOUR_SECONDS 3600

/*
 * An hour: the intervals that it took, in order, all of one flowgate and one Monitoring RTO. m2m_hour_open begins one,
 * and each m2m_hour_add hands back the next. It is passed and returned by value, so the caller keeps it: no call keeps
 * anything, an old hour stays what it was, and a copy is an hour of its own. Cells behind the count are zero, and in an
 * empty hour name and monitoring_rto too, so two hours are the same where all their fields are.
 *
 * A struct that was not grown from an empty hour is answered too, whatever stands in it. It holds the first count of its
 * cells, 60 at most; with a count of 60 or more it is full. A cell's amount counts as at most 2,000,000,000,000 and at
 * least -2,000,000,000,000; seconds count as they stand. NYISO's payment is the amount where monitoring_rto is 1, else
 * its negative; PJM's is the negative of NYISO's.
 */
typedef struct m2m_hour {
    int64_t amounts[M2M_HOUR_INTERVALS];  /* of each interval, in thousandths of a cent */
    uint16_t seconds[M2M_HOUR_INTERVALS]; /* of each interval */
    size_t count;                         /* how many intervals there are */
    uint8_t name[16];                     /* their flowgate's, filled with zero bytes on the right */
    uint8_t monitoring_rto;               /* 1 NYISO, 2 PJM; 0 in an empty hour */
} m2m_hour;

/* What came of adding: 0 and the hour with the interval, or the refusal's number and the hour as it was. */
typedef struct m2m_changed {
    uint8_t refusal;
    m2m_hour hour;
} m2m_changed;

/* An hour's seconds; its amount and payments in thousandths of a cent. All are 0 of an empty hour. */
typedef struct m2m_totals {
    uint32_t seconds;
    int64_t amount; /* the sum of its intervals' amounts */
    int64_t nyiso;  /* NYISO's payment; positive means received */
    int64_t pjm;    /* PJM's payment, the other's negative */
} m2m_totals;

/* A sheet has at most so many records of a kind, and so many bytes. */
#define M2M_MOST_ZONES 32
#define M2M_MOST_UNITS 256
#define M2M_MOST_POINTS 32
#define M2M_MOST_PARS 8
#define M2M_MOST_FACTORS 2888
#define M2M_MOST_PATHS 4
#define M2M_MOST_CIRCULATIONS 1
#define M2M_SHEET_ROOM 28101

/*
 * The records of a sheet, with the fields and units of docs/FORMAT.md. Any value may stand in a field; the writer refuses
 * what no sheet may have. An underscore ends a name that C++ keeps for itself.
 */
typedef struct m2m_head {
    uint8_t name[16]; /* the flowgate's, filled with zero bytes on the right */
    uint8_t monitoring_rto;
    uint16_t seconds;
    uint32_t monitoring_price;
    uint32_t nonmonitoring_price;
} m2m_head;

typedef struct m2m_zone {
    uint8_t name[16];
    uint32_t load;
    uint32_t losses;
} m2m_zone;

typedef struct m2m_unit {
    uint8_t name[16];
    uint8_t zone; /* the number of its zone, from 1 */
    uint32_t output;
} m2m_unit;

typedef struct m2m_point {
    uint8_t name[16];
    uint8_t sort; /* its type */
    uint8_t line; /* 0: a proxy, whose zone is not looked at. Anything else: a scheduled line that ends in the zone */
    uint8_t zone;
    uint32_t import_;
    uint32_t export_;
    uint32_t wheel_in; /* energy that enters here and leaves at another point */
    uint32_t wheel_out;
} m2m_point;

typedef struct m2m_par {
    uint8_t name[16];
    uint8_t class_;
    int32_t actual;
    int32_t target;
} m2m_par;

typedef struct m2m_factor {
    uint8_t target;
    uint8_t subject;
    uint16_t index;
    int16_t factor;
} m2m_factor;

typedef struct m2m_path {
    uint8_t name[16];
    int32_t flow; /* the market flow on the path */
    int16_t factor;
} m2m_path;

/* The Lake Erie circulation. */
typedef struct m2m_circulation {
    int32_t flow;
} m2m_circulation;

/*
 * A draft of a sheet: its head, and its other records by kind, in order. Each array is one longer than a sheet may have,
 * so that a surplus record can be told. A draft gives the first records of each array, as many as the count says, and all
 * of them where the count is above the array's length. It is some 25 KB long, and is passed and returned by value.
 */
typedef struct m2m_draft {
    m2m_head head;
    size_t zone_count;
    m2m_zone zones[M2M_MOST_ZONES + 1];
    size_t unit_count;
    m2m_unit units[M2M_MOST_UNITS + 1];
    size_t point_count;
    m2m_point points[M2M_MOST_POINTS + 1];
    size_t par_count;
    m2m_par pars[M2M_MOST_PARS + 1];
    size_t factor_count;
    m2m_factor factors[M2M_MOST_FACTORS + 1];
    size_t path_count;
    m2m_path paths[M2M_MOST_PATHS + 1];
    size_t circulation_count;
    m2m_circulation circulations[M2M_MOST_CIRCULATIONS + 1];
} m2m_draft;

/*
 * What the reader says of a sheet, rows 1 to 13 and 28. Accepted: 0 and its records; cells behind a count are zero, line
 * is 1 of a scheduled line, and zone 0 of a proxy. Refused: the number, and a draft of zeros.
 */
typedef struct m2m_drafted {
    uint8_t refusal;
    m2m_draft draft;
} m2m_drafted;

/* What came of writing: 0 and the sheet's length, or the refusal's number and 0. */
typedef struct m2m_written {
    uint8_t refusal;
    size_t length;
} m2m_written;

/* Settles a sheet against a list. */
m2m_statement m2m_settle(const uint8_t *sheet, size_t sheet_length, const uint8_t *list, size_t list_length);

/*
 * Settles, and prints the listing at the front of the output buffer. Bytes behind the listing stay as before; on a
 * refusal all do. Row 23: the buffer is shorter than the listing. A buffer of M2M_LISTING_ROOM bytes never is.
 */
m2m_printed m2m_report(const uint8_t *sheet, size_t sheet_length, const uint8_t *list, size_t list_length,
                       uint8_t *out, size_t out_length);

/* Tells which part of a sheet is refused, or the reason for the price. Nothing is printed, so 23 does not occur. */
m2m_explanation m2m_explain(const uint8_t *sheet, size_t sheet_length, const uint8_t *list, size_t list_length);

/* Reads a sheet alone. */
m2m_sheet m2m_read(const uint8_t *sheet, size_t sheet_length);

/* Looks a flowgate up in a list. Names are compared as 16 bytes, so that a name of another length is in no list. */
m2m_entitled m2m_entitlement(const uint8_t *list, size_t list_length, const uint8_t *name, size_t name_length);

/* The empty hour. */
m2m_hour m2m_hour_open(void);

/*
 * Settles a sheet against a list, and adds the interval to the hour. The interval's own refusals, 1 to 22 and 28, come
 * first, also in a full hour; then 24, the hour has 60 intervals; 25, its seconds and the interval's are above 3600; 26,
 * it is not empty and of another flowgate name or Monitoring RTO. Nothing is printed, so 23 does not occur.
 */
m2m_changed m2m_hour_add(m2m_hour hour, const uint8_t *sheet, size_t sheet_length, const uint8_t *list,
                         size_t list_length);

/* Adds an hour up. */
m2m_totals m2m_hour_totals(m2m_hour hour);

/* Reads a sheet as a draft, to be altered and written again. */
m2m_drafted m2m_read_draft(const uint8_t *sheet, size_t sheet_length);

/*
 * Writes a draft's sheet at the front of the output buffer. Bytes behind the sheet stay as before; on a refusal all do.
 * The refusal is the first that the reader would meet, rows 5 to 13 and 28: a surplus record is 5 where it stands, a
 * surplus factor 10. A scheduled line into zone 0 is 8. Then 27: the buffer is shorter than the sheet. One of
 * M2M_SHEET_ROOM bytes never is. What is written is read again as the same records, and the draft of an accepted sheet
 * is written byte for byte as the sheet was. m2m_report settles what is written.
 */
m2m_written m2m_write_draft(m2m_draft draft, uint8_t *out, size_t out_length);

#ifdef __cplusplus
}
#endif

#endif
