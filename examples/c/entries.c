/* entries.c: prints the entries of a statement or an intraday report. The first line says which of them it is, then comes a line for each
 * entry: booking day, amount, currency, credit or debit, `pending` where it is not booked yet, payer, text.
 *
 *     cc -Iinclude -o entries examples/c/entries.c target/staticlib/libunit.a
 *     ./entries examples/rent-account.xml
 *
 * A file that begins as an image does is read as one, of either version; any other is checked. Ends with 1 where it is refused, and with 2
 * where it can't be read.
 */
#include <stdio.h>
#include "kto.h"

static uint8_t file[KTO_LIMIT + 1]; /* one byte more than a file may have, so that a longer one is seen to be */
static uint8_t image[KTO_LIMIT];

/* A value of an image, as kto_item hands it out: a part of it. */
struct part {
    const uint8_t *bytes;
    uint64_t size;
};

struct entry {
    struct part day, amount, sign, status, name, text;
};

/* A number whose most significant byte comes first. */
static uint64_t number(const uint8_t *bytes, int size) {
    uint64_t n = 0;
    for (int i = 0; i < size; i++)
        n = n << 8 | bytes[i];
    return n;
}

/* DATE: year in 16 bits, month, day. An entry may have none. */
static void print_day(struct part day) {
    if (day.size)
        printf("%04d-%02d-%02d", (int)number(day.bytes, 2), day.bytes[2], day.bytes[3]);
    else
        printf("%-10s", "-");
}

/* AMT: three letters of the currency, the scale, the coefficient in 64 bits. At least two digits after the point. */
static void print_amount(struct part amount) {
    int scale = amount.bytes[3];
    uint64_t one = 1, coefficient = number(amount.bytes + 4, 8);
    for (int i = 0; i < scale; i++)
        one *= 10;
    for (; scale < 2; scale++) {
        one *= 10;
        coefficient *= 10;
    }
    printf("%8llu.%0*llu %.3s", (unsigned long long)(coefficient / one), scale, (unsigned long long)(coefficient % one), (const char *)amount.bytes);
}

/* ENUM: the place of the word in its list, from 1. */
static void print_sign(struct part sign) {
    static const char *const words[] = {"CRDT", "DBIT"};
    printf("%s", words[sign.bytes[0] - 1]);
}

/* ENUM: BOOK is the first word of either list, and PDNG the second of a report's. */
static void print_status(struct part status) {
    if (status.bytes[0] == 2)
        printf("  pending");
}

/* A text, in UTF-8; an entry may have none. */
static void print_text(struct part text) {
    if (text.size)
        printf("  %.*s", (int)text.size, (const char *)text.bytes);
}

static void print_entry(const struct entry *entry) {
    print_day(entry->day);
    printf("  ");
    print_amount(entry->amount);
    printf("  ");
    print_sign(entry->sign);
    print_status(entry->status);
    print_text(entry->name);
    print_text(entry->text);
    printf("\n");
}

/* Keeps what is printed of an entry; of a payer and a text, which may come more than once, the first. A report's rows have the same numbers. */
static void keep(struct entry *entry, uint64_t row, struct part value) {
    switch (row) {
    case KTO_ROW_STMT_NTRY_AMT:
        entry->amount = value;
        break;
    case KTO_ROW_STMT_NTRY_CDTDBTIND:
        entry->sign = value;
        break;
    case KTO_ROW_STMT_NTRY_STS_CD:
        entry->status = value;
        break;
    case KTO_ROW_STMT_NTRY_BOOKGDT_DT:
        entry->day = value;
        break;
    case KTO_ROW_STMT_NTRY_NTRYDTLS_TXDTLS_RLTDPTIES_DBTR_PTY_NM:
        if (!entry->name.size)
            entry->name = value;
        break;
    case KTO_ROW_STMT_NTRY_NTRYDTLS_TXDTLS_RMTINF_USTRD:
        if (!entry->text.size)
            entry->text = value;
        break;
    }
}

/* Goes over an image once. The items after an Ntry are its own as long as their rows are greater; the next Ntry, Stmt or the end ends it. */
static int print_entries(uint64_t length) {
    static const struct entry empty;
    struct entry entry = empty;
    int within = 0;
    uint64_t kind, row, place, size, from = kto_items(image, length, &kind);
    printf("%s\n", kind == KTO_CAMT052 ? "report" : "statement");
    do {
        uint64_t code = kto_item(image, length, from, &row, &place, &size);
        if (code != KTO_ACCEPTED)
            return (int)code;
        if (within && row <= KTO_ROW_STMT_NTRY) {
            print_entry(&entry);
            within = 0;
        }
        if (row == KTO_ROW_STMT_NTRY) {
            entry = empty;
            within = 1;
        }
        keep(&entry, row, (struct part){image + place, size});
        from = place + size;
    } while (row);
    return 0;
}

/* The image of the file that was read: its own, or the one that it begins with. */
static uint64_t image_of_file(uint64_t length, uint64_t *row, uint64_t *place) {
    uint64_t kind;
    if (!kto_items(file, length, &kind))
        return kto_check(file, length, image, sizeof image, row, place);
    *row = 0;
    uint64_t code = kto_read(file, length, place);
    for (uint64_t i = 0; code == KTO_ACCEPTED && i < *place; i++)
        image[i] = file[i];
    return code;
}

int main(int count, char **words) {
    FILE *in = count == 2 ? fopen(words[1], "rb") : 0;
    if (!in) {
        fprintf(stderr, "entries FILE: which statement file?\n");
        return 2;
    }
    uint64_t length = fread(file, 1, sizeof file, in), row, place;
    fclose(in);
    uint64_t code = image_of_file(length, &row, &place);
    if (code != KTO_ACCEPTED) {
        printf("refused %llu %llu %llu\n", (unsigned long long)code, (unsigned long long)row, (unsigned long long)place);
        return 1;
    }
    return print_entries(place);
}
