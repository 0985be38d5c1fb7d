/* raw SHEET LIST: what the archive leaves in memory, with nothing assumed of its structs. Prints a line for each function:
 * its name, and the bytes at the answer's address after a call over memory filled with 0x00 and after one over 0xff. A
 * struct of more than 16 bytes is answered at an address that the caller hands over as a first argument, and handed over on
 * the stack, where a longer one is the same; those of the entitlement and of a sheet that was written have 16 and come in
 * two registers (System V ABI, x86-64). The interval is added to an hour that has it already, if it is accepted. The draft
 * that is written is the one that was read. */
#include <stdint.h>
#include <stdio.h>
#include <string.h>

enum { ROOM = 30000, SHOWN = 1024, FILE_ROOM = 70000 };

typedef struct {
    uint64_t first, second;
} registers;

typedef struct {
    uint8_t bytes[ROOM];
} block;

/* In the answers of m2m_hour_add and m2m_read_draft the hour and the draft follow the refusal's byte, at the next multiple
 * of 8. */
enum { BEHIND_REFUSAL = 8 };

extern void *m2m_settle(void *, const uint8_t *, size_t, const uint8_t *, size_t);
extern void *m2m_report(void *, const uint8_t *, size_t, const uint8_t *, size_t, uint8_t *, size_t);
extern void *m2m_read(void *, const uint8_t *, size_t);
extern registers m2m_entitlement(const uint8_t *, size_t, const uint8_t *, size_t);
extern void *m2m_hour_open(void *);
extern void *m2m_hour_add(void *, block, const uint8_t *, size_t, const uint8_t *, size_t);
extern void *m2m_hour_totals(void *, block);
extern void *m2m_read_draft(void *, const uint8_t *, size_t);
extern registers m2m_write_draft(block, uint8_t *, size_t);
extern void *m2m_explain(void *, const uint8_t *, size_t, const uint8_t *, size_t);

static uint8_t sheet[FILE_ROOM], list[FILE_ROOM], out[ROOM], written[FILE_ROOM];
static size_t sheet_length, list_length;

static size_t content(const char *name, uint8_t *to) {
    FILE *in = fopen(name, "rb");
    size_t n = in ? fread(to, 1, FILE_ROOM, in) : 0;
    if (in)
        fclose(in);
    return n;
}

static void hex(const uint8_t *bytes, size_t n) {
    putchar(' ');
    for (size_t i = 0; i < n; i++)
        printf("%02x", bytes[i]);
}

static block behind_refusal(block answer) {
    memmove(answer.bytes, answer.bytes + BEHIND_REFUSAL, ROOM - BEHIND_REFUSAL);
    return answer;
}

/* The hour that was handed in, with the interval. */
static block grown(block hour) {
    block answer;
    memset(&answer, 0, sizeof answer);
    m2m_hour_add(&answer, hour, sheet, sheet_length, list, list_length);
    return behind_refusal(answer);
}

static block draft(void) {
    block answer;
    memset(&answer, 0, sizeof answer);
    m2m_read_draft(&answer, sheet, sheet_length);
    return behind_refusal(answer);
}

/* Each function, and how many bytes are shown. */
static const struct {
    const char *name;
    size_t shown;
} functions[] = {
    {"m2m_settle", SHOWN},      {"m2m_report", SHOWN},   {"m2m_read", SHOWN},        {"m2m_entitlement", SHOWN},
    {"m2m_hour_open", SHOWN},   {"m2m_hour_add", SHOWN}, {"m2m_hour_totals", SHOWN}, {"m2m_read_draft", ROOM},
    {"m2m_write_draft", SHOWN}, {"m2m_explain", SHOWN},
};

static void call(int f, uint8_t *answer) {
    block hour;
    memset(&hour, 0, sizeof hour);
    m2m_hour_open(&hour);
    registers r;
    switch (f) {
    case 0: m2m_settle(answer, sheet, sheet_length, list, list_length); break;
    case 1: m2m_report(answer, sheet, sheet_length, list, list_length, out, SHOWN); break;
    case 2: m2m_read(answer, sheet, sheet_length); break;
    case 3:
        r = m2m_entitlement(list, list_length, sheet + 1, 16);
        memcpy(answer, &r, sizeof r);
        break;
    case 4: m2m_hour_open(answer); break;
    case 5: m2m_hour_add(answer, grown(hour), sheet, sheet_length, list, list_length); break;
    case 6: m2m_hour_totals(answer, grown(grown(hour))); break;
    case 7: m2m_read_draft(answer, sheet, sheet_length); break;
    case 8:
        r = m2m_write_draft(draft(), written, sizeof written);
        memcpy(answer, &r, sizeof r);
        break;
    case 9: m2m_explain(answer, sheet, sheet_length, list, list_length); break;
    }
}

int main(int count, char **words) {
    if (count != 3)
        return 2;
    sheet_length = content(words[1], sheet);
    list_length = content(words[2], list);
    for (int f = 0; f < (int)(sizeof functions / sizeof *functions); f++) {
        printf("%s", functions[f].name);
        for (int fill = 0; fill < 2; fill++) {
            uint8_t answer[ROOM];
            memset(answer, fill ? 0xff : 0, ROOM);
            call(f, answer);
            hex(answer, functions[f].shown);
        }
        putchar('\n');
    }
    printf("listing %s", (const char *)out);
    return 0;
}
