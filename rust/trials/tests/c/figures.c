/* Prints document 01's figures and the return of its xylene year, from C. */

#include "prtr.h"

#include <inttypes.h>
#include <stdio.h>
#include <string.h>

#define BLOCK 512
#define FILL 0xc3

/* A status by its name in the header; two equal names would not compile. */
static const char *name(uint8_t status)
{
    switch (status) {
    case 0: return "taken";
    case PRTR_NOT_A_BLOCK: return "PRTR_NOT_A_BLOCK";
    case PRTR_CHECK_SUM: return "PRTR_CHECK_SUM";
    case PRTR_NOT_NEXT: return "PRTR_NOT_NEXT";
    case PRTR_OUT_OF_TURN: return "PRTR_OUT_OF_TURN";
    case PRTR_CLOSED: return "PRTR_CLOSED";
    case PRTR_LAYOUT: return "PRTR_LAYOUT";
    case PRTR_RANGE: return "PRTR_RANGE";
    case PRTR_NO_ROW: return "PRTR_NO_ROW";
    case PRTR_EXCESS: return "PRTR_EXCESS";
    case PRTR_FULL: return "PRTR_FULL";
    case PRTR_SHORT: return "PRTR_SHORT";
    case PRTR_NO_SUBSTANCE: return "PRTR_NO_SUBSTANCE";
    case PRTR_NO_ROOM: return "PRTR_NO_ROOM";
    case PRTR_STOCK_COUNT: return "PRTR_STOCK_COUNT";
    case PRTR_MIXTURE: return "PRTR_MIXTURE";
    case PRTR_MALFORMED: return "PRTR_MALFORMED";
    default: return "unknown";
    }
}

static void names(void)
{
    for (uint8_t status = 0; status < 20; status++)
        printf("status %u %s\n", status, name(status));
    printf("status 255 %s\n", name(255));
}

static void put(uint8_t *at, uint64_t value, int bytes)
{
    for (int i = 0; i < bytes; i++)
        at[i] = (uint8_t)(value >> (8 * i));
}

static void head(uint8_t *block, uint8_t kind, uint8_t count, uint16_t number)
{
    memset(block, 0, BLOCK);
    memcpy(block, "PRTR", 4);
    block[4] = kind;
    block[5] = count;
    put(block + 6, number, 2);
}

static void seal(uint8_t *block)
{
    uint32_t plain = 0, placed = 0;
    for (uint32_t i = 0; i < 508; i++) {
        plain += block[i];
        placed += block[i] * (i + 1);
    }
    put(block + 508, plain % 65521, 2);
    put(block + 510, placed % 65521, 2);
}

static void post(uint8_t *block, int place, uint8_t kind, uint32_t content, uint64_t grams)
{
    uint8_t *at = block + 8 + 48 * place;
    at[0] = kind;
    put(at + 4, content, 4);
    put(at + 8, grams, 8);
}

/* One material of 450,000 ppm xylene (80, class 1), one stage, side gas, all rates 0. */
static void xylene_year(uint8_t *journal)
{
    uint8_t *site = journal, *stage = journal + BLOCK, *posts = journal + 2 * BLOCK;
    head(site, 1, 1, 0);
    site[8] = 1;
    site[9] = 1;
    put(site + 10, 80, 2);
    site[26] = 1;
    put(site + 34, 450000, 4);
    seal(site);
    head(stage, 2, 0, 1);
    memset(stage + 8, 1, 3);
    seal(stage);
    head(posts, 3, 5, 2);
    post(posts, 0, 1, 0, 500000);
    post(posts, 1, 2, 0, 2500000);
    post(posts, 2, 3, 0, 2700000);
    post(posts, 3, 5, 450000, 2200000);
    post(posts, 4, 13, 0, 0);
    seal(posts);
}

/* F1 to F9: amount, step and filed figure in micrograms. */
static void figures(void)
{
    static const uint64_t amounts[] = {
        49999999, 50000000, 8840302000, 9949999999, 9950000000,
        99500000000, 102000000000, 225000000000, 588000000000,
    };
    for (size_t i = 0; i < sizeof amounts / sizeof *amounts; i++)
        printf("F%zu %" PRIu64 " %" PRIu64 " %" PRIu64 "\n", i + 1, amounts[i],
               prtr_step(amounts[i]), prtr_figure(amounts[i]));
}

static void rounding(uint64_t amount)
{
    uint8_t number = 99;
    uint64_t step = prtr_case(amount, &number);
    printf("case %u %" PRIu64 " step %" PRIu64 " figure %" PRIu64 "\n", number, amount, step,
           prtr_figure(amount));
}

/* Each case's first amount and the one below it, and the largest amount. */
static void cases(void)
{
    uint64_t from = 10000000000;
    rounding(0);
    for (int number = 1; number <= 10; number++) {
        rounding(from - 1);
        rounding(from);
        from *= 10;
    }
    rounding(UINT64_MAX);
}

static void due(uint8_t class_, uint64_t handled)
{
    uint8_t due = 9;
    uint8_t status = prtr_due(class_, handled, &due);
    printf("F10 %u %" PRIu64 " %s due %u\n", class_, handled, name(status), due);
}

static void counted(uint8_t class_, uint32_t ppm)
{
    uint32_t counted = 99;
    uint8_t status = prtr_counted(class_, ppm, &counted);
    printf("F11 %u %" PRIu32 " %s counted %" PRIu32 "\n", class_, ppm, name(status), counted);
}

static void split(const char *title, uint64_t total, uint32_t removal, uint32_t destruction)
{
    uint64_t released = 99, destroyed = 99, residue = 99;
    uint8_t status = prtr_split(total, removal, destruction, &released, &destroyed, &residue);
    printf("%s %s released %" PRIu64 " destroyed %" PRIu64 " residue %" PRIu64 "\n",
           title, name(status), released, destroyed, residue);
}

static void loss(uint8_t form, uint16_t number, double w, double u, double p, double q)
{
    uint64_t bits[4], micrograms = 99;
    const double floats[4] = {w, u, p, q};
    memcpy(bits, floats, sizeof bits);
    uint8_t status = prtr_loss(form, number, bits[0], bits[1], bits[2], bits[3], &micrograms);
    printf("loss %u %u %s micrograms %" PRIu64 "\n", form, number, name(status), micrograms);
}

/*
 * The partial pressure of a part of document 004's solvent, of its first n contents and m weights, and the toluene that
 * is lost at that pressure while 2,000 m3 are filled.
 */
static void pressure(size_t n, size_t m, size_t named, double vapour)
{
    static const double contents[3] = {40, 45, 15}, weights[3] = {92.1, 106.2, 78.1};
    uint64_t content_bits[3], weight_bits[3], bits, partial = 99;
    double u;
    memcpy(content_bits, contents, sizeof content_bits);
    memcpy(weight_bits, weights, sizeof weight_bits);
    memcpy(&bits, &vapour, sizeof bits);
    uint8_t status = prtr_pressure(content_bits, n, weight_bits, m, named, bits, &partial);
    printf("pressure %zu %zu %zu %s partial %" PRIx64 "\n", n, m, named, name(status), partial);
    memcpy(&u, &partial, sizeof u);
    if (status == 0)
        loss(2, 300, 2000, u, 98100, 1);
}

/* How many bytes of out, from its end, are as they were filled. */
static size_t untouched(const uint8_t *out)
{
    size_t count = 0;
    while (count < PRTR_ROOM && out[PRTR_ROOM - 1 - count] == FILL)
        count++;
    return count;
}

static void filing(const uint8_t *journal, size_t length)
{
    uint8_t out[PRTR_ROOM];
    memset(out, FILL, sizeof out);
    size_t written = prtr_filing(journal, length, out, sizeof out - 1);
    printf("too little room: %zu bytes, %zu untouched\n", written, untouched(out));
    written = prtr_filing(journal, length, out, sizeof out);
    fwrite(out, 1, written, stdout);
    printf("%zu bytes, %zu untouched\n", written, untouched(out));
}

/* Adds the tag and the length of a record, and gives the row's new length. */
static size_t tag(uint8_t *records, size_t length, char tag, uint16_t count)
{
    records[length] = (uint8_t)tag;
    put(records + length + 1, count, 2);
    return length + 3;
}

/* The records of the year's two set-up blocks, an end and five posts. */
static size_t year_records(const uint8_t *journal, uint8_t *records)
{
    size_t length = 0;
    for (const uint8_t *block = journal; block < journal + 2 * BLOCK; block += BLOCK) {
        length = tag(records, length, 'S', 502);
        memcpy(records + length, block + 4, 2);
        memcpy(records + length + 2, block + 8, 500);
        length += 502;
    }
    length = tag(records, length, 'E', 0);
    for (int place = 0; place < 5; place++) {
        length = tag(records, length, 'P', 48);
        memcpy(records + length, journal + 2 * BLOCK + 8 + 48 * place, 48);
        length += 48;
    }
    return length;
}

/* Writes records into so much room, and tells whether the year's journal or the fill is there. */
static void write_into(const uint8_t *records, size_t length, size_t room, const uint8_t *journal)
{
    uint8_t out[4 * BLOCK], fill[4 * BLOCK];
    size_t written = 99, place = 99;
    memset(out, FILL, sizeof out);
    memset(fill, FILL, sizeof fill);
    uint8_t status = prtr_write(records, length, out, room, &written, &place);
    size_t taken = status == 0 ? written : 0;
    printf("write into %zu: %s written %zu place %zu, journal %s, rest %s\n", room, name(status), written, place,
           memcmp(out, journal, taken) == 0 ? "right" : "wrong",
           memcmp(out + taken, fill, sizeof out - taken) == 0 ? "untouched" : "touched");
}

static void writes(const uint8_t *journal)
{
    uint8_t records[2048];
    size_t length = year_records(journal, records);
    write_into(records, length, 4 * BLOCK, journal);
    write_into(records, length, 3 * BLOCK, journal);
    write_into(records, length, 3 * BLOCK - 1, journal);
    write_into(records, length, 0, journal);
    write_into(records, length - 1, 4 * BLOCK, journal);
    write_into(records, 0, 0, journal);
    records[3] = 3;
    write_into(records, length, 4 * BLOCK, journal);
    records[0] = 'E';
    write_into(records, length, 4 * BLOCK, journal);
    records[0] = 's';
    write_into(records, length, 4 * BLOCK, journal);
}

int main(void)
{
    uint8_t journal[3 * BLOCK];
    names();
    figures();
    cases();
    due(1, 999999999999);
    due(1, 1000000000000);
    due(3, 1000000000000);
    counted(1, 9999);
    counted(1, 10000);
    counted(1, 1000001);
    split("F12", 7, 500000, 500000);
    split("F13", 1, 999999, 0);
    split("rate", 1, 1000001, 0);
    loss(1, 400, 14, 0.62, 36000, 0);
    loss(2, 300, 2000, 1550, 98100, 1);
    loss(3, 400, 1500, 0.0026885, 1420, 0.0033856);
    loss(4, 400, 1, 1, 1, 1);
    loss(1, 400, 0, 0, 0, 0);
    loss(2, 7, 0, 0, 1, 0);
    loss(3, 7, 2000, 1001, 0, 0);
    pressure(3, 3, 0, 3750);
    pressure(3, 3, 3, 3750);
    pressure(3, 2, 0, 3750);
    pressure(0, 0, 0, 3750);
    pressure(3, 3, 0, -1);
    xylene_year(journal);
    filing(journal, sizeof journal);
    filing(journal, 0);
    filing(journal, 1000);
    writes(journal);
    return 0;
}
