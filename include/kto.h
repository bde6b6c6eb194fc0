/* kto.h: the reconciliation unit for C.
 *
 * A statement file (camt.053.001.08) or an intraday report (camt.052.001.08), Austrian subset, is checked and its record image written
 * (kto_check), or only measured (kto_size); a run of bytes is read as an image (kto_read), and its items are counted (kto_count); a value is
 * picked from an image (kto_pick); an image is gone over item by item (kto_items, kto_item); the file of an image is written (kto_write), or a
 * file is tidied, which is both at once (kto_tidy). What an image's bytes say is docs/IMAGE.md, what the codes say docs/CODES.md, the rows
 * docs/LIST.md; examples/c/entries.c prints the entries of a statement or a report.
 * Link with libunit.a, which `tools/staticlib` makes (x86-64 Linux); it needs the C library and nothing else.
 *
 * Every call takes any bytes and any numbers. There is nothing to set up, no memory is allocated, nothing is kept between calls, and
 * calls from several threads do not meet as long as they lend different buffers. What a call uses of the stack does not hang on what is lent:
 * at most 9,552 bytes were seen (docs/SPEED.md); leave it 16 KiB.
 *
 * What is lent. A buffer is a pointer and its length in bytes. While a call runs, nobody else may change what is lent for reading, or read or
 * change what is lent for writing, and what is lent for writing may not overlap anything else that is lent to the same call. Of a
 * buffer of length 0 the pointer must not be null either, but nothing is read or written through it. The pointers to single numbers must point
 * to numbers of 64 bits that may be written, each to its own; the call sets each of them, whatever its answer is.
 *
 * What comes back. The result is the code: KTO_ACCEPTED, or the number of the one refusal. With it go a row (the number of the element in the
 * list of its message, 0 for none) and a place (a byte offset, from 0).
 *
 * A run of more than KTO_LIMIT bytes. kto_read, kto_pick and kto_write refuse one with KTO_TOO_LONG. No image that kto_check writes is longer
 * than its file, so lend them of such a run what they can take, and go on from image to image:
 *
 *     for (uint64_t at = 0; at < len; at += place) {
 *         uint64_t lent = len - at < KTO_LIMIT ? len - at : KTO_LIMIT;
 *         if (kto_read(run + at, lent, &place) != KTO_ACCEPTED)
 *             break;
 *     }
 */
#ifndef KTO_H
#define KTO_H

#include <stdint.h>

#ifdef __cplusplus
extern "C" {
#endif

/* The most bytes that a file or a run may have. */
#define KTO_LIMIT 1048576

enum {
    KTO_ACCEPTED = 0,
    /* of a file */
    KTO_TOO_LONG = 1,          /* more than KTO_LIMIT bytes; also of a run */
    KTO_NOT_UTF8 = 2,          /* place: the start of the first bad sequence */
    KTO_NOT_HOUSE_XML = 3,     /* place: the most leading bytes that still begin some good text */
    KTO_WRONG_ROOT = 4,
    KTO_NOT_A_CHILD = 5,       /* row: the parent's */
    KTO_OUT_OF_ORDER = 6,
    KTO_TOO_MANY = 7,
    KTO_ABSENT = 8,            /* row: the lowest absent one; place: its parent's */
    KTO_WRONG_ATTRIBUTES = 9,
    KTO_TEXT_IN_GROUP = 10,    /* place: the first byte of it */
    KTO_EMPTY = 11,
    KTO_BAD_VALUE = 12,
    KTO_RULE_BROKEN = 13,
    KTO_NO_ROOM = 14,          /* the file is good; place: the bytes that its image needs; or those that a file to be written needs */
    /* of a run */
    KTO_NO_HEADER = 15,
    KTO_WRONG_VERSION = 16,    /* neither 1 nor 2 */
    KTO_BROKEN_IMAGE = 17,     /* place: after the most whole items that begin some image; 5 for a kind byte that is bad; of kto_item: from */
    /* of a pick */
    KTO_NO_SUCH_LEAF = 18,
    /* of a file that is to be written */
    KTO_TOO_LARGE = 19,        /* it would have more than KTO_LIMIT bytes; place: the bytes that it needs */
    KTO_TOO_FINE = 20,         /* a date-time that no file may say any more; row: its own; place: its item's in the run */
    KTO_RETIRED = 26           /* an item that no file may have any more; row: its own, 40; place: the first such item's in the run */
};

/* The kinds of messages and the rows of their lists (docs/LIST.md). Written by tools/lists/make, from here .. */
#define KTO_CAMT053 1
#define KTO_CAMT052 2

/* camt.053.001.08 */
enum {
    KTO_ROW_DOCUMENT = 1,
    KTO_ROW_BKTOCSTMRSTMT = 2,
    KTO_ROW_GRPHDR = 3,
    KTO_ROW_GRPHDR_MSGID = 4, /* REF */
    KTO_ROW_GRPHDR_CREDTTM = 5, /* DTM */
    KTO_ROW_STMT = 6,
    KTO_ROW_STMT_ID = 7, /* REF */
    KTO_ROW_STMT_ELCTRNCSEQNB = 8, /* NUM */
    KTO_ROW_STMT_ACCT = 9,
    KTO_ROW_STMT_ACCT_ID = 10,
    KTO_ROW_STMT_ACCT_ID_IBAN = 11, /* IBAN */
    KTO_ROW_STMT_ACCT_ID_OTHR = 12,
    KTO_ROW_STMT_ACCT_ID_OTHR_ID = 13, /* TXT34 */
    KTO_ROW_STMT_ACCT_CCY = 14, /* CCY */
    KTO_ROW_STMT_BAL = 15,
    KTO_ROW_STMT_BAL_TP = 16,
    KTO_ROW_STMT_BAL_TP_CDORPRTRY = 17,
    KTO_ROW_STMT_BAL_TP_CDORPRTRY_CD = 18, /* ENUM */
    KTO_ROW_STMT_BAL_AMT = 19, /* AMT */
    KTO_ROW_STMT_BAL_CDTDBTIND = 20, /* ENUM */
    KTO_ROW_STMT_BAL_DT = 21,
    KTO_ROW_STMT_BAL_DT_DT = 22, /* DATE */
    KTO_ROW_STMT_NTRY = 23,
    KTO_ROW_STMT_NTRY_AMT = 24, /* AMT */
    KTO_ROW_STMT_NTRY_CDTDBTIND = 25, /* ENUM */
    KTO_ROW_STMT_NTRY_RVSLIND = 26, /* BOOL */
    KTO_ROW_STMT_NTRY_STS = 27,
    KTO_ROW_STMT_NTRY_STS_CD = 28, /* ENUM */
    KTO_ROW_STMT_NTRY_BOOKGDT = 29,
    KTO_ROW_STMT_NTRY_BOOKGDT_DT = 30, /* DATE */
    KTO_ROW_STMT_NTRY_VALDT = 31,
    KTO_ROW_STMT_NTRY_VALDT_DT = 32, /* DATE */
    KTO_ROW_STMT_NTRY_ACCTSVCRREF = 33, /* REF */
    KTO_ROW_STMT_NTRY_BKTXCD = 34,
    KTO_ROW_STMT_NTRY_BKTXCD_DOMN = 35,
    KTO_ROW_STMT_NTRY_BKTXCD_DOMN_CD = 36, /* TXT4 */
    KTO_ROW_STMT_NTRY_BKTXCD_DOMN_FMLY = 37,
    KTO_ROW_STMT_NTRY_BKTXCD_DOMN_FMLY_CD = 38, /* TXT4 */
    KTO_ROW_STMT_NTRY_BKTXCD_DOMN_FMLY_SUBFMLYCD = 39, /* TXT4 */
    KTO_ROW_STMT_NTRY_BKTXCD_PRTRY = 40,
    KTO_ROW_STMT_NTRY_BKTXCD_PRTRY_CD = 41, /* TXT35 */
    KTO_ROW_STMT_NTRY_NTRYDTLS = 42,
    KTO_ROW_STMT_NTRY_NTRYDTLS_TXDTLS = 43,
    KTO_ROW_STMT_NTRY_NTRYDTLS_TXDTLS_REFS = 44,
    KTO_ROW_STMT_NTRY_NTRYDTLS_TXDTLS_REFS_ENDTOENDID = 45, /* REF */
    KTO_ROW_STMT_NTRY_NTRYDTLS_TXDTLS_REFS_MNDTID = 46, /* REF */
    KTO_ROW_STMT_NTRY_NTRYDTLS_TXDTLS_AMT = 47, /* AMT */
    KTO_ROW_STMT_NTRY_NTRYDTLS_TXDTLS_CDTDBTIND = 48, /* ENUM */
    KTO_ROW_STMT_NTRY_NTRYDTLS_TXDTLS_RLTDPTIES = 49,
    KTO_ROW_STMT_NTRY_NTRYDTLS_TXDTLS_RLTDPTIES_DBTR = 50,
    KTO_ROW_STMT_NTRY_NTRYDTLS_TXDTLS_RLTDPTIES_DBTR_PTY = 51,
    KTO_ROW_STMT_NTRY_NTRYDTLS_TXDTLS_RLTDPTIES_DBTR_PTY_NM = 52, /* TXT140 */
    KTO_ROW_STMT_NTRY_NTRYDTLS_TXDTLS_RLTDPTIES_DBTRACCT = 53,
    KTO_ROW_STMT_NTRY_NTRYDTLS_TXDTLS_RLTDPTIES_DBTRACCT_ID = 54,
    KTO_ROW_STMT_NTRY_NTRYDTLS_TXDTLS_RLTDPTIES_DBTRACCT_ID_IBAN = 55, /* IBAN */
    KTO_ROW_STMT_NTRY_NTRYDTLS_TXDTLS_RMTINF = 56,
    KTO_ROW_STMT_NTRY_NTRYDTLS_TXDTLS_RMTINF_USTRD = 57 /* TXT140 */
};

/* camt.052.001.08 */
enum {
    KTO_REPORT_ROW_DOCUMENT = 1,
    KTO_REPORT_ROW_BKTOCSTMRACCTRPT = 2,
    KTO_REPORT_ROW_GRPHDR = 3,
    KTO_REPORT_ROW_GRPHDR_MSGID = 4, /* REF */
    KTO_REPORT_ROW_GRPHDR_CREDTTM = 5, /* DTM */
    KTO_REPORT_ROW_RPT = 6,
    KTO_REPORT_ROW_RPT_ID = 7, /* REF */
    KTO_REPORT_ROW_RPT_ELCTRNCSEQNB = 8, /* NUM */
    KTO_REPORT_ROW_RPT_ACCT = 9,
    KTO_REPORT_ROW_RPT_ACCT_ID = 10,
    KTO_REPORT_ROW_RPT_ACCT_ID_IBAN = 11, /* IBAN */
    KTO_REPORT_ROW_RPT_ACCT_ID_OTHR = 12,
    KTO_REPORT_ROW_RPT_ACCT_ID_OTHR_ID = 13, /* TXT34 */
    KTO_REPORT_ROW_RPT_ACCT_CCY = 14, /* CCY */
    KTO_REPORT_ROW_RPT_BAL = 15,
    KTO_REPORT_ROW_RPT_BAL_TP = 16,
    KTO_REPORT_ROW_RPT_BAL_TP_CDORPRTRY = 17,
    KTO_REPORT_ROW_RPT_BAL_TP_CDORPRTRY_CD = 18, /* ENUM */
    KTO_REPORT_ROW_RPT_BAL_AMT = 19, /* AMT */
    KTO_REPORT_ROW_RPT_BAL_CDTDBTIND = 20, /* ENUM */
    KTO_REPORT_ROW_RPT_BAL_DT = 21,
    KTO_REPORT_ROW_RPT_BAL_DT_DT = 22, /* DATE */
    KTO_REPORT_ROW_RPT_NTRY = 23,
    KTO_REPORT_ROW_RPT_NTRY_AMT = 24, /* AMT */
    KTO_REPORT_ROW_RPT_NTRY_CDTDBTIND = 25, /* ENUM */
    KTO_REPORT_ROW_RPT_NTRY_RVSLIND = 26, /* BOOL */
    KTO_REPORT_ROW_RPT_NTRY_STS = 27,
    KTO_REPORT_ROW_RPT_NTRY_STS_CD = 28, /* ENUM */
    KTO_REPORT_ROW_RPT_NTRY_BOOKGDT = 29,
    KTO_REPORT_ROW_RPT_NTRY_BOOKGDT_DT = 30, /* DATE */
    KTO_REPORT_ROW_RPT_NTRY_VALDT = 31,
    KTO_REPORT_ROW_RPT_NTRY_VALDT_DT = 32, /* DATE */
    KTO_REPORT_ROW_RPT_NTRY_ACCTSVCRREF = 33, /* REF */
    KTO_REPORT_ROW_RPT_NTRY_BKTXCD = 34,
    KTO_REPORT_ROW_RPT_NTRY_BKTXCD_DOMN = 35,
    KTO_REPORT_ROW_RPT_NTRY_BKTXCD_DOMN_CD = 36, /* TXT4 */
    KTO_REPORT_ROW_RPT_NTRY_BKTXCD_DOMN_FMLY = 37,
    KTO_REPORT_ROW_RPT_NTRY_BKTXCD_DOMN_FMLY_CD = 38, /* TXT4 */
    KTO_REPORT_ROW_RPT_NTRY_BKTXCD_DOMN_FMLY_SUBFMLYCD = 39, /* TXT4 */
    KTO_REPORT_ROW_RPT_NTRY_BKTXCD_PRTRY = 40,
    KTO_REPORT_ROW_RPT_NTRY_BKTXCD_PRTRY_CD = 41, /* TXT35 */
    KTO_REPORT_ROW_RPT_NTRY_NTRYDTLS = 42,
    KTO_REPORT_ROW_RPT_NTRY_NTRYDTLS_TXDTLS = 43,
    KTO_REPORT_ROW_RPT_NTRY_NTRYDTLS_TXDTLS_REFS = 44,
    KTO_REPORT_ROW_RPT_NTRY_NTRYDTLS_TXDTLS_REFS_ENDTOENDID = 45, /* REF */
    KTO_REPORT_ROW_RPT_NTRY_NTRYDTLS_TXDTLS_REFS_MNDTID = 46, /* REF */
    KTO_REPORT_ROW_RPT_NTRY_NTRYDTLS_TXDTLS_AMT = 47, /* AMT */
    KTO_REPORT_ROW_RPT_NTRY_NTRYDTLS_TXDTLS_CDTDBTIND = 48, /* ENUM */
    KTO_REPORT_ROW_RPT_NTRY_NTRYDTLS_TXDTLS_RLTDPTIES = 49,
    KTO_REPORT_ROW_RPT_NTRY_NTRYDTLS_TXDTLS_RLTDPTIES_DBTR = 50,
    KTO_REPORT_ROW_RPT_NTRY_NTRYDTLS_TXDTLS_RLTDPTIES_DBTR_PTY = 51,
    KTO_REPORT_ROW_RPT_NTRY_NTRYDTLS_TXDTLS_RLTDPTIES_DBTR_PTY_NM = 52, /* TXT140 */
    KTO_REPORT_ROW_RPT_NTRY_NTRYDTLS_TXDTLS_RLTDPTIES_DBTRACCT = 53,
    KTO_REPORT_ROW_RPT_NTRY_NTRYDTLS_TXDTLS_RLTDPTIES_DBTRACCT_ID = 54,
    KTO_REPORT_ROW_RPT_NTRY_NTRYDTLS_TXDTLS_RLTDPTIES_DBTRACCT_ID_IBAN = 55, /* IBAN */
    KTO_REPORT_ROW_RPT_NTRY_NTRYDTLS_TXDTLS_RMTINF = 56,
    KTO_REPORT_ROW_RPT_NTRY_NTRYDTLS_TXDTLS_RMTINF_USTRD = 57 /* TXT140 */
};
/* .. to here. */

/* Checks the file in[0 .. in_len) and writes its image into out. The namespace of its root says which list it must meet; the image is of
 * version 2, and its byte 5 is the kind: KTO_CAMT053 or KTO_CAMT052.
 *
 * KTO_ACCEPTED: out[0 .. *place) is the image, the bytes of out after it are as they were, *row is 0.
 * Any other code: no byte of out is changed. Of the codes 4 to 13, *row is the element's row and *place its '<', but for what is said at the code.
 *
 * A buffer as long as the file is always long enough: an image is never longer than its file. A shorter one is safe: where the image
 * does not fit, the answer is KTO_NO_ROOM and *place says how many bytes it needs. Any in_len is safe; above KTO_LIMIT the answer is KTO_TOO_LONG.
 */
uint64_t kto_check(const uint8_t *in, uint64_t in_len, uint8_t *out, uint64_t out_len, uint64_t *row, uint64_t *place);

/* The buffer that a file needs: kto_check's answer to one that is long enough, and no byte is written.
 *
 * KTO_ACCEPTED: *place is the image's length, *row is 0. Any other code is 1 to 13, with row and place as kto_check has them.
 */
uint64_t kto_size(const uint8_t *in, uint64_t in_len, uint64_t *row, uint64_t *place);

/* Reads the image that run[0 .. run_len) begins with, of version 1 or 2 and of either kind; what stands after it does not matter.
 *
 * KTO_ACCEPTED: *place is its length. To go over a run of images, call again with run + *place and run_len - *place.
 * Any other code is 1, 15, 16 or 17, and *place says where.
 */
uint64_t kto_read(const uint8_t *run, uint64_t run_len, uint64_t *place);

/* The same answer, with the number of items that the reader took.
 *
 * KTO_ACCEPTED: *count is how many items the image has, the closing byte among them; at most its length less four. KTO_BROKEN_IMAGE: how many
 * whole items stand before *place. Any other code: 0.
 */
uint64_t kto_count(const uint8_t *run, uint64_t run_len, uint64_t *place, uint64_t *count);

/* Picks the value of the n-th leaf, counted from 0, of a row in the image that run[0 .. run_len) begins with.
 *
 * KTO_ACCEPTED: the value is run[*place .. *place + *len), a part of the run that was lent, without row byte and text length. It is not copied:
 * it lives as long as the run does.
 * Any other code: *len is 0. The whole image is judged first, so an image that is broken after the value is refused as kto_read refuses it;
 * KTO_NO_SUCH_LEAF (*place 0) where the row is no leaf or has no such item. Any row and any n are safe. To see every value, or which values
 * belong to one entry, use kto_item: each call of kto_pick goes over the whole image.
 */
uint64_t kto_pick(const uint8_t *run, uint64_t run_len, uint64_t row, uint64_t n, uint64_t *place, uint64_t *len);

/* Writes the file of the image that run[0 .. run_len) begins with into out, a statement or a report; what stands after the image does not matter.
 *
 * KTO_ACCEPTED: out[0 .. *place) is the file, the bytes of out after it are as they were, *row is 0. kto_check accepts that file and gives the
 * image back; one of version 1 comes back as version 2.
 * Any other code: no byte of out is changed. 1, 15, 16 or 17 as kto_read answers, *row being 0; then KTO_RETIRED with row 40; then
 * KTO_TOO_FINE with the date-time's row; then KTO_TOO_LARGE; then KTO_NO_ROOM, where *place says how many bytes the file needs, *row being 0.
 * A buffer of KTO_LIMIT bytes is always long enough. A file may be longer than its image, and longer than the file that the image was made
 * from.
 */
uint64_t kto_write(const uint8_t *run, uint64_t run_len, uint8_t *out, uint64_t out_len, uint64_t *row, uint64_t *place);

/* Tidies the file in[0 .. in_len): checks it into image, and writes it from there into out, as kto_write does. Files of one kind and one content
 * end in the same bytes, and a tidied file stays as it is.
 *
 * KTO_ACCEPTED: out[0 .. *place) is the tidied file, *row is 0, and image begins with the file's image, whose length kto_read tells. The bytes
 * after either are as they were.
 * A file that kto_check refuses, with 1 to 14: its answer, and no byte of image or out is changed.
 * KTO_TOO_LARGE, or KTO_NO_ROOM of the tidied file: no byte of out is changed, *place says how many bytes the file needs, and image begins with the
 * image. A tidied file may be longer than the file: a buffer of KTO_LIMIT bytes is always long enough.
 */
uint64_t kto_tidy(const uint8_t *in, uint64_t in_len, uint8_t *image, uint64_t image_len, uint8_t *out, uint64_t out_len, uint64_t *row,
                  uint64_t *place);

/* Says where the items of the image that run[0 .. run_len) begins with begin, at 5 in version 1 and at 6 in version 2, and of which kind it is.
 *
 * The result is that place, and *kind is KTO_CAMT053 or KTO_CAMT052; an image of version 1 is a statement, KTO_CAMT053. Where the run does not
 * begin as an image does both are 0: where kto_read would answer 15 or 16, and where the kind byte is missing or bad. The header alone is
 * judged, of a run of any length.
 */
uint64_t kto_items(const uint8_t *run, uint64_t run_len, uint64_t *kind);

/* Says which item stands at a place of the image that run[0 .. run_len) begins with.
 *
 * KTO_ACCEPTED: *row is the item's row, and its value is run[*place .. *place + *size), as kto_pick hands it out. A group has no value: *size is 0.
 * *row is 0 at the closing byte. The next item stands at *place + *size; after the closing byte that is the image's end.
 * KTO_BROKEN_IMAGE: no whole item of the image's list stands there; *row and *size are 0, *place is from. So it is at the run's end and past it,
 * and everywhere in a run that does not begin as an image does.
 *
 * The header says which list it is. Of the rest that item alone is judged, not what stands before it, nor whether it may come there. So call
 * kto_read first, and then this from kto_items on, until *row is 0: that goes over the image once, whatever its length. Any from and any
 * run_len are safe.
 */
uint64_t kto_item(const uint8_t *run, uint64_t run_len, uint64_t from, uint64_t *row, uint64_t *place, uint64_t *size);

#ifdef __cplusplus
}
#endif

#endif
