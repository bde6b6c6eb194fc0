/* Links the archive and checks a handful of answers against document 01's examples, with images as section 5 of document 02 has them. Says what
 * differs; ends with 1 if anything does. */
#include "kto.h"

/* The C library's, without its headers: the kit's compiler has none. */
int printf(const char *form, ...);
int memcmp(const void *one, const void *other, __SIZE_TYPE__ length);
void *memset(void *bytes, int value, __SIZE_TYPE__ length);

static int faults;

static void same(const char *what, uint64_t is, uint64_t should) {
    if (is != should) {
        printf("c: %s is %llu, should be %llu\n", what, (unsigned long long)is, (unsigned long long)should);
        faults++;
    }
}

#define SPACE "urn:iso:std:iso:20022:tech:xsd:"

/* "A whole one", and its image: "written as 68 bytes, version 2 and kind byte 1". */
static const char whole[] =
    "<Document xmlns=\"" SPACE "camt.053.001.08\"><BkToCstmrStmt>"
    "<GrpHdr><MsgId>M1</MsgId><CreDtTm>2024-03-01T06:00:00Z</CreDtTm></GrpHdr>"
    "<Stmt><Id>S1</Id><Acct><Id><Othr><Id>9</Id></Othr></Id></Acct>"
    "<Bal><Tp><CdOrPrtry><Cd>CLBD</Cd></CdOrPrtry></Tp><Amt Ccy=\"EUR\">5.00</Amt><CdtDbtInd>CRDT</CdtDbtInd>"
    "<Dt><Dt>2024-02-29</Dt></Dt></Bal></Stmt></BkToCstmrStmt></Document>";

/* Its items and the closing byte. */
#define ITEMS                                                                                                                                  \
    0x01, 0x02, 0x03, 0x04, 0x00, 0x02, 0x4D, 0x31, 0x05, 0x07, 0xE8, 0x03, 0x01, 0x06, 0x00, 0x00, 0x00, 0x00, 0x00, 0x00, 0x03, 0x48, 0x06, \
        0x07, 0x00, 0x02, 0x53, 0x31, 0x09, 0x0A, 0x0C, 0x0D, 0x00, 0x01, 0x39, 0x0F, 0x10, 0x11, 0x12, 0x02, 0x13, 0x45, 0x55, 0x52, 0x00,   \
        0x00, 0x00, 0x00, 0x00, 0x00, 0x00, 0x00, 0x05, 0x14, 0x01, 0x15, 0x16, 0x07, 0xE8, 0x02, 0x1D, 0x00

static const uint8_t image[68] = {0x4B, 0x54, 0x4F, 0x00, 0x02, 0x01, ITEMS};

/* "its 67 bytes are still read" */
static const uint8_t former[67] = {0x4B, 0x54, 0x4F, 0x00, 0x01, ITEMS};

/* The same content as a report's: "Root child BkToCstmrAcctRpt with Rpt in place of Stmt". */
static const char report[] =
    "<Document xmlns=\"" SPACE "camt.052.001.08\"><BkToCstmrAcctRpt>"
    "<GrpHdr><MsgId>M1</MsgId><CreDtTm>2024-03-01T06:00:00Z</CreDtTm></GrpHdr>"
    "<Rpt><Id>S1</Id><Acct><Id><Othr><Id>9</Id></Othr></Id></Acct>"
    "<Bal><Tp><CdOrPrtry><Cd>CLBD</Cd></CdOrPrtry></Tp><Amt Ccy=\"EUR\">5</Amt><CdtDbtInd>CRDT</CdtDbtInd>"
    "<Dt><Dt>2024-02-29</Dt></Dt></Bal></Rpt></BkToCstmrAcctRpt></Document>";

static const uint8_t report_image[68] = {0x4B, 0x54, 0x4F, 0x00, 0x02, 0x02, ITEMS};

/* Fronts of runs, good and bad, before the same items: how many bytes they have, what the reader answers, where the items begin, which kind. */
static const struct {
    const char *bytes;
    int size;
    uint64_t code, place, items, kind;
} fronts[] = {
    {"KTO\0\1", 5, KTO_ACCEPTED, 67, 5, 1},
    {"KTO\0\2\1", 6, KTO_ACCEPTED, 68, 6, 1},
    {"KTO\0\2\2", 6, KTO_ACCEPTED, 68, 6, 2},
    {"KTO\0\2\0", 6, KTO_BROKEN_IMAGE, 5, 0, 0},
    {"KTO\0\2\3", 6, KTO_BROKEN_IMAGE, 5, 0, 0},
    {"KTO\0\2\377", 6, KTO_BROKEN_IMAGE, 5, 0, 0},
    {"KTO\0\0", 5, KTO_WRONG_VERSION, 3, 0, 0},
    {"KTO\0\3\1", 6, KTO_WRONG_VERSION, 3, 0, 0},
    {"KTO\1\0", 5, KTO_WRONG_VERSION, 3, 0, 0},
    {"KTO\1\2\1", 6, KTO_WRONG_VERSION, 3, 0, 0},
    {"KTo\0\2\1", 6, KTO_NO_HEADER, 0, 0, 0},
    /* the kind byte is Document's 1, and the items lack it */
    {"KTO\0\2", 5, KTO_BROKEN_IMAGE, 6, 6, 1},
    /* and a second Document in version 1 */
    {"KTO\0\1\1", 6, KTO_BROKEN_IMAGE, 6, 5, 1},
};

static const uint8_t items[] = {ITEMS};

static uint8_t out[KTO_LIMIT];
static uint8_t large[KTO_LIMIT + 1];

/* A check of a text for so much room: the answer, and what is left in the buffer. */
static void checks(const char *what, const char *text, uint64_t length, uint64_t room, uint64_t code, uint64_t row, uint64_t place) {
    uint64_t r = 77, p = 77;
    memset(out, 0xA5, sizeof out);
    printf("c: check of %s\n", what);
    same("the code", kto_check((const uint8_t *)text, length, out, room, &r, &p), code);
    same("the row", r, row);
    same("the place", p, place);
    uint64_t kept = code == KTO_ACCEPTED ? place : 0;
    for (uint64_t i = kept; i < sizeof out; i++) {
        if (out[i] != 0xA5) {
            same("a byte that must stay", out[i], 0xA5);
            break;
        }
    }
}

static void reads(const char *what, const uint8_t *run, uint64_t length, uint64_t code, uint64_t place) {
    uint64_t p = 77;
    printf("c: read of %s\n", what);
    same("the code", kto_read(run, length, &p), code);
    same("the place", p, place);
}

static void picks(const uint8_t *run, uint64_t size, uint64_t row, uint64_t n, uint64_t code, uint64_t place, uint64_t length) {
    uint64_t p = 77, l = 77;
    printf("c: pick of row %llu, number %llu\n", (unsigned long long)row, (unsigned long long)n);
    same("the code", kto_pick(run, size, row, n, &p, &l), code);
    same("the place", p, place);
    same("the length", l, length);
}

/* A file that is written from a run for so much room: the answer, and what is left in the buffer. */
static void writes(const char *what, const uint8_t *run, uint64_t length, uint64_t room, uint64_t code, uint64_t row, uint64_t place) {
    uint64_t r = 77, p = 77;
    memset(out, 0xA5, sizeof out);
    printf("c: write of %s\n", what);
    same("the code", kto_write(run, length, out, room, &r, &p), code);
    same("the row", r, row);
    same("the place", p, place);
    uint64_t kept = code == KTO_ACCEPTED ? place : 0;
    for (uint64_t i = kept; i < sizeof out; i++) {
        if (out[i] != 0xA5) {
            same("a byte that must stay", out[i], 0xA5);
            break;
        }
    }
}

/* No byte of a buffer from a place on was touched. */
static void stayed(const uint8_t *bytes, uint64_t from, uint64_t size) {
    for (uint64_t i = from; i < size; i++) {
        if (bytes[i] != 0xA5) {
            same("a byte that must stay", bytes[i], 0xA5);
            break;
        }
    }
}

/* A tidying for so much room for the image and for the file: the answer, how much of each buffer is written, and that the rest stays. */
static void tidies(const char *what, const char *text, uint64_t length, uint64_t room, uint64_t space, uint64_t code, uint64_t place, uint64_t imaged) {
    static uint8_t image_out[KTO_LIMIT];
    uint64_t r = 77, p = 77;
    memset(image_out, 0xA5, sizeof image_out);
    memset(out, 0xA5, sizeof out);
    printf("c: tidying of %s\n", what);
    same("the code", kto_tidy((const uint8_t *)text, length, image_out, room, out, space, &r, &p), code);
    same("the row", r, 0);
    same("the place", p, place);
    same("the image", memcmp(image_out, image, imaged) == 0, 1);
    stayed(image_out, imaged, sizeof image_out);
    stayed(out, code == KTO_ACCEPTED ? place : 0, sizeof out);
}

static void sizes(const char *what, const char *text, uint64_t length, uint64_t code, uint64_t row, uint64_t place) {
    uint64_t r = 77, p = 77;
    printf("c: size of %s\n", what);
    same("the code", kto_size((const uint8_t *)text, length, &r, &p), code);
    same("the row", r, row);
    same("the place", p, place);
}

static void item(const uint8_t *run, uint64_t length, uint64_t from, uint64_t code, uint64_t row, uint64_t place, uint64_t size) {
    uint64_t r = 77, p = 77, s = 77;
    printf("c: item at %llu of %llu\n", (unsigned long long)from, (unsigned long long)length);
    same("the code", kto_item(run, length, from, &r, &p, &s), code);
    same("the row", r, row);
    same("the place", p, place);
    same("the size", s, size);
}

/* The items of the example as docs/IMAGE.md takes it apart: place of the row byte, row, where the value's own bytes begin, how many they are. */
static const uint64_t apart[][4] = {
    {6, 1, 7, 0},    {7, 2, 8, 0},     {8, 3, 9, 0},    {9, 4, 12, 2},   {14, 5, 15, 13}, {28, 6, 29, 0},   {29, 7, 32, 2},
    {34, 9, 35, 0},  {35, 10, 36, 0},  {36, 12, 37, 0}, {37, 13, 40, 1}, {41, 15, 42, 0}, {42, 16, 43, 0},  {43, 17, 44, 0},
    {44, 18, 45, 1}, {46, 19, 47, 12}, {59, 20, 60, 1}, {61, 21, 62, 0}, {62, 22, 63, 4}, {67, 0, 68, 0},
};

static void begin(const uint8_t *run, uint64_t length, uint64_t place, uint64_t kind) {
    uint64_t k = 77;
    printf("c: items of %llu bytes\n", (unsigned long long)length);
    same("the place", kto_items(run, length, &k), place);
    same("the kind", k, kind);
}

/* Goes over the example; in version 1 all stands a byte earlier. */
static void items_of(const uint8_t *run, uint64_t length, uint64_t earlier) {
    uint64_t from = 6 - earlier;
    for (uint64_t i = 0; i < sizeof apart / sizeof *apart; i++) {
        same("the next item's place", apart[i][0] - earlier, from);
        item(run, length, from, KTO_ACCEPTED, apart[i][1], apart[i][2] - earlier, apart[i][3]);
        from = apart[i][2] - earlier + apart[i][3];
    }
    same("the image's end", from, length);
}

/* Each front before the items: read, and where the items begin. A run that begins as no image does has none. */
static void read_fronts(void) {
    static uint8_t run[sizeof items + 6];
    for (uint64_t i = 0; i < sizeof fronts / sizeof *fronts; i++) {
        int size = fronts[i].size;
        for (int k = 0; k < size; k++) {
            run[k] = (uint8_t)fronts[i].bytes[k];
        }
        for (uint64_t k = 0; k < sizeof items; k++) {
            run[size + k] = items[k];
        }
        reads("a front before the items", run, size + sizeof items, fronts[i].code, fronts[i].place);
        begin(run, size + sizeof items, fronts[i].items, fronts[i].kind);
        if (!fronts[i].items) {
            item(run, size + sizeof items, size, KTO_BROKEN_IMAGE, 0, size, 0);
        }
    }
    reads("a front without its kind byte", image, 5, KTO_BROKEN_IMAGE, 5);
    begin(image, 5, 0, 0);
    begin(image, 6, 6, KTO_CAMT053);
    begin(report_image, 6, 6, KTO_CAMT052);
    begin(former, 5, 5, KTO_CAMT053);
    begin(image, 0, 0, 0);
}

static void check_all(uint64_t length) {
    checks("nothing", "", 0, sizeof out, KTO_NOT_HOUSE_XML, 0, 0);
    checks("<a></b>", "<a></b>", 7, sizeof out, KTO_NOT_HOUSE_XML, 0, 5);
    checks("<Document/>", "<Document/>", 11, sizeof out, KTO_WRONG_ROOT, 1, 0);
    checks("the whole example", whole, length, sizeof out, KTO_ACCEPTED, 0, 68);
    same("the image", memcmp(out, image, 68) == 0, 1);
    checks("the whole example for 69 bytes", whole, length, 69, KTO_ACCEPTED, 0, 68);
    checks("the whole example for 68 bytes", whole, length, 68, KTO_ACCEPTED, 0, 68);
    checks("the whole example for 67 bytes", whole, length, 67, KTO_NO_ROOM, 0, 68);
    checks("the report", report, sizeof report - 1, sizeof out, KTO_ACCEPTED, 0, 68);
    same("its image", memcmp(out, report_image, 68) == 0, 1);
    checks("a file that is too long", (const char *)large, sizeof large, sizeof out, KTO_TOO_LONG, 0, KTO_LIMIT);

    sizes("the whole example", whole, length, KTO_ACCEPTED, 0, 68);
    sizes("the report", report, sizeof report - 1, KTO_ACCEPTED, 0, 68);
    sizes("<a></b>", "<a></b>", 7, KTO_NOT_HOUSE_XML, 0, 5);
    sizes("<Document/>", "<Document/>", 11, KTO_WRONG_ROOT, 1, 0);
    sizes("a file that is too long", (const char *)large, sizeof large, KTO_TOO_LONG, 0, KTO_LIMIT);
}

static void read_all(void) {
    reads("the image", image, sizeof image, KTO_ACCEPTED, 68);
    reads("its former version", former, sizeof former, KTO_ACCEPTED, 67);
    reads("the report's", report_image, sizeof report_image, KTO_ACCEPTED, 68);
    reads("four bytes of it", image, 4, KTO_NO_HEADER, 0);
    reads("all but its last byte", image, 67, KTO_BROKEN_IMAGE, 67);
    reads("all but the last byte of version 1", former, 66, KTO_BROKEN_IMAGE, 66);
    reads("a run that is too long", large, sizeof large, KTO_TOO_LONG, KTO_LIMIT);
    read_fronts();
}

/* The reader's answer with the number of items that it took. */
static void counts(const char *what, const uint8_t *run, uint64_t length, uint64_t code, uint64_t place, uint64_t count) {
    uint64_t p = 77, n = 77;
    printf("c: count of %s\n", what);
    same("the code", kto_count(run, length, &p, &n), code);
    same("the place", p, place);
    same("the count", n, count);
}

/* "the closing 0 among them"; "on code 17 .. the number of whole items before the place, on other refusals 0" */
static void count_all(void) {
    counts("the image", image, sizeof image, KTO_ACCEPTED, 68, 20);
    counts("its former version", former, sizeof former, KTO_ACCEPTED, 67, 20);
    counts("the report's", report_image, sizeof report_image, KTO_ACCEPTED, 68, 20);
    counts("all but its last byte", image, 67, KTO_BROKEN_IMAGE, 67, 19);
    counts("all but the last byte of version 1", former, 66, KTO_BROKEN_IMAGE, 66, 19);
    counts("forty bytes of it", image, 40, KTO_BROKEN_IMAGE, 37, 10);
    counts("its header", image, 6, KTO_BROKEN_IMAGE, 6, 0);
    counts("its header without the kind", image, 5, KTO_BROKEN_IMAGE, 5, 0);
    counts("four bytes of it", image, 4, KTO_NO_HEADER, 0, 0);
    counts("a run that is too long", large, sizeof large, KTO_TOO_LONG, KTO_LIMIT, 0);
    static const uint8_t third[] = {0x4B, 0x54, 0x4F, 0x00, 0x03, 0x01, ITEMS};
    counts("version 3", third, sizeof third, KTO_WRONG_VERSION, 3, 0);
}

static void pick_all(void) {
    picks(image, sizeof image, KTO_ROW_GRPHDR_MSGID, 0, KTO_ACCEPTED, 12, 2);
    picks(image, sizeof image, KTO_ROW_STMT_BAL_AMT, 0, KTO_ACCEPTED, 47, 12);
    picks(former, sizeof former, KTO_ROW_STMT_BAL_AMT, 0, KTO_ACCEPTED, 46, 12);
    picks(report_image, sizeof report_image, KTO_REPORT_ROW_RPT_BAL_AMT, 0, KTO_ACCEPTED, 47, 12);
    picks(image, sizeof image, KTO_ROW_GRPHDR_MSGID, 1, KTO_NO_SUCH_LEAF, 0, 0);
    picks(image, sizeof image, KTO_ROW_STMT, 0, KTO_NO_SUCH_LEAF, 0, 0);
    picks(image, sizeof image, UINT64_MAX, UINT64_MAX, KTO_NO_SUCH_LEAF, 0, 0);
}

/* What is written from a run is checked, and gives this image. */
static void written(const char *what, const uint8_t *run, uint64_t length, uint64_t size, const uint8_t *again) {
    static uint8_t file[KTO_LIMIT];
    writes(what, run, length, sizeof out, KTO_ACCEPTED, 0, size);
    for (uint64_t i = 0; i < size; i++) {
        file[i] = out[i];
    }
    checks("the written file", (const char *)file, size, 68, KTO_ACCEPTED, 0, 68);
    same("its image", memcmp(out, again, 68) == 0, 1);
}

static void write_all(uint64_t length) {
    /* the file has `5` where the example has `5.00` */
    uint64_t size = length - 3;
    written("the image", image, sizeof image, size, image);
    written("its former version", former, sizeof former, size, image);
    written("the report's", report_image, sizeof report_image, sizeof report - 1, report_image);
    writes("the report's again", report_image, sizeof report_image, sizeof out, KTO_ACCEPTED, 0, sizeof report - 1);
    same("the report", memcmp(out, report, sizeof report - 1) == 0, 1);
    writes("the image for just enough bytes", image, sizeof image, size, KTO_ACCEPTED, 0, size);
    writes("the image for a byte less", image, sizeof image, size - 1, KTO_NO_ROOM, 0, size);
    writes("all but the image's last byte", image, 67, sizeof out, KTO_BROKEN_IMAGE, 0, 67);
    /* the microseconds of CreDtTm are its item's bytes 8 to 11, and the item stands at 14: 1 is no thousandth, 1000 is one */
    static uint8_t finer[sizeof image];
    for (uint64_t i = 0; i < sizeof image; i++) {
        finer[i] = image[i];
    }
    finer[25] = 1;
    writes("a date-time finer than thousandths", finer, sizeof finer, sizeof out, KTO_TOO_FINE, KTO_ROW_GRPHDR_CREDTTM, 14);
    writes("the same, without room", finer, sizeof finer, 0, KTO_TOO_FINE, KTO_ROW_GRPHDR_CREDTTM, 14);
    finer[24] = 3, finer[25] = 0xE8;
    writes("a thousandth", finer, sizeof finer, sizeof out, KTO_ACCEPTED, 0, size + 4);
    writes("nothing", image, 0, sizeof out, KTO_NO_HEADER, 0, 0);
    writes("a run that is too long", large, sizeof large, sizeof out, KTO_TOO_LONG, 0, KTO_LIMIT);
}

static void tidy_all(uint64_t length) {
    /* the tidied file has `5` where the example has `5.00` */
    uint64_t size = length - 3;
    static char tidied[sizeof whole];
    tidies("the example", whole, length, sizeof image, size, KTO_ACCEPTED, size, sizeof image);
    for (uint64_t i = 0; i < size; i++) {
        tidied[i] = (char)out[i];
    }
    tidies("what was tidied", tidied, size, KTO_LIMIT, KTO_LIMIT, KTO_ACCEPTED, size, sizeof image);
    same("the same bytes", memcmp(out, tidied, size) == 0, 1);
    tidies("the example, the file's buffer a byte short", whole, length, KTO_LIMIT, size - 1, KTO_NO_ROOM, size, sizeof image);
    tidies("the example, the image's buffer a byte short", whole, length, sizeof image - 1, KTO_LIMIT, KTO_NO_ROOM, sizeof image, 0);
    tidies("the example, both a byte short", whole, length, sizeof image - 1, size - 1, KTO_NO_ROOM, sizeof image, 0);
    tidies("nothing", "", 0, KTO_LIMIT, KTO_LIMIT, KTO_NOT_HOUSE_XML, 0, 0);
    tidies("a file that is too long", (const char *)large, sizeof large, KTO_LIMIT, KTO_LIMIT, KTO_TOO_LONG, KTO_LIMIT, 0);
}

/* An entry with the old transaction code, and the closing byte: 20 bytes, then rows 40 and 41. */
static const uint8_t old_entry[26] = {0x17, 0x18, 0x45, 0x55, 0x52, 0x00, 0x00, 0x00, 0x00, 0x00, 0x00, 0x00, 0x00,
                                      0x05, 0x19, 0x01, 0x1B, 0x1C, 0x01, 0x22, 0x28, 0x29, 0x00, 0x01, 0x58, 0x00};

/* "Stored images with rows 40 and 41 are still read and picked from", and not written: the image with this entry, of either kind. */
static void old_all(void) {
    static uint8_t old[67 + sizeof old_entry];
    for (uint64_t i = 0; i < sizeof old; i++) {
        old[i] = i < 67 ? image[i] : old_entry[i - 67];
    }
    for (uint8_t kind = KTO_CAMT053; kind <= KTO_CAMT052; kind++) {
        old[5] = kind;
        uint64_t place = 77;
        printf("c: an old transaction code, kind %d\n", kind);
        same("the code", kto_read(old, sizeof old, &place), KTO_ACCEPTED);
        same("the place", place, sizeof old);
        picks(old, sizeof old, KTO_ROW_STMT_NTRY_BKTXCD_PRTRY_CD, 0, KTO_ACCEPTED, 91, 1);
        picks(old, sizeof old, KTO_ROW_STMT_NTRY_BKTXCD_PRTRY, 0, KTO_NO_SUCH_LEAF, 0, 0);
        item(old, sizeof old, 88, KTO_ACCEPTED, KTO_ROW_STMT_NTRY_BKTXCD_PRTRY_CD, 91, 1);
        writes("it", old, sizeof old, sizeof out, KTO_RETIRED, KTO_ROW_STMT_NTRY_BKTXCD_PRTRY, 87);
        writes("it, without room", old, sizeof old, 0, KTO_RETIRED, KTO_ROW_STMT_NTRY_BKTXCD_PRTRY, 87);
        old[25] = 1;
        writes("it, with a date-time finer than thousandths", old, sizeof old, sizeof out, KTO_RETIRED, KTO_ROW_STMT_NTRY_BKTXCD_PRTRY, 87);
        old[25] = 0;
        writes("all but its last byte", old, sizeof old - 1, sizeof out, KTO_BROKEN_IMAGE, 0, sizeof old - 1);
    }
}

static void item_all(void) {
    items_of(image, sizeof image, 0);
    items_of(report_image, sizeof report_image, 0);
    items_of(former, sizeof former, 1);
    item(image, sizeof image, 0, KTO_BROKEN_IMAGE, 0, 0, 0);                   /* 75 is no row */
    item(image, sizeof image, 12, KTO_BROKEN_IMAGE, 0, 12, 0);                 /* nor is 77, the M of M1 */
    item(image, sizeof image, 13, KTO_ACCEPTED, 49, 14, 0);                    /* its 1 is 49, a group's row: an item is judged alone */
    item(image, 57, 46, KTO_BROKEN_IMAGE, 0, 46, 0);                           /* an amount that is cut short */
    item(image, sizeof image, sizeof image, KTO_BROKEN_IMAGE, 0, sizeof image, 0);
    item(image, sizeof image, UINT64_MAX, KTO_BROKEN_IMAGE, 0, UINT64_MAX, 0);
    item(image, 0, 0, KTO_BROKEN_IMAGE, 0, 0, 0);
    /* the fourth word of a balance: a report has it, a statement not */
    static uint8_t fourth[sizeof image];
    for (uint64_t i = 0; i < sizeof image; i++) {
        fourth[i] = report_image[i];
    }
    fourth[45] = 4;
    item(fourth, sizeof fourth, 44, KTO_ACCEPTED, KTO_REPORT_ROW_RPT_BAL_TP_CDORPRTRY_CD, 45, 1);
    fourth[5] = KTO_CAMT053;
    item(fourth, sizeof fourth, 44, KTO_BROKEN_IMAGE, 0, 44, 0);
}

int main(void) {
    uint64_t length = sizeof whole - 1;
    check_all(length);
    read_all();
    count_all();
    pick_all();
    write_all(length);
    tidy_all(length);
    item_all();
    old_all();
    printf("c: %d faults\n", faults);
    return faults != 0;
}
