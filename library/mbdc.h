/* libmbdc: link frames and telegrams of wired M-Bus (EN 13757-2, EN 13757-3) as text and as JSON.
 *
 * What the comments here say of a function's result is proved (crates/mbdc_library), if the caller keeps
 * to what C asks of any caller: each address is that of as many bytes as the size after it says, and
 * not null; `out` overlaps no other argument. The functions take no memory, keep no state and call
 * nothing of the host but memcpy, memmove and memset (tools/library looks): any thread may call them at
 * any time. No proof speaks of the stack: leave them 64 KiB of it.
 */
#ifndef MBDC_H
#define MBDC_H

#include <stddef.h>
#include <stdint.h>

#ifdef __cplusplus
extern "C" {
#endif

/* The result of a call whose text is longer than `out`. */
#define MBDC_TOO_LONG SIZE_MAX

/* Decodes lines of hex digits: writes the text that `mbdc decode` prints for them to `out`, and
 * returns its number of bytes. No zero byte follows them.
 *
 * The result is MBDC_TOO_LONG if and only if the text has more than `out_size` bytes: the same call
 * succeeds once `out` is large enough. The bytes of `out` are undefined then. Otherwise the result is
 * at most `out_size`, and `out` begins with the text; its bytes after the text are undefined.
 *
 * The input needs no zero byte. Its lines end at a line feed or at its end, and have pairs of hex
 * digits in either case, with spaces anywhere; a line of more than 4,096 characters, or with any
 * other character, prints HEX FAULT. It may have any size.
 */
size_t mbdc_decode_text(const uint8_t *input, size_t input_size, uint8_t *out, size_t out_size);

/* The same with the text that `mbdc decode --json` prints: JSON Lines (RFC 8259), an object for each
 * frame and for each fault, in UTF-8. Their fields are in docs/JSON.md of the project.
 */
size_t mbdc_decode_json(const uint8_t *input, size_t input_size, uint8_t *out, size_t out_size);

/* Decodes the body of one telegram, as bytes, without a frame around it: writes one JSON line with
 * the fields that a telegram has in a line of mbdc_decode_json, or `body` and `fault`. The results
 * are those of the other functions. A body may have any size.
 */
size_t mbdc_decode_body(const uint8_t *body, size_t body_size, uint8_t *out, size_t out_size);

/* ---- Frames, records and values as numbers
 *
 * What comes next in bytes, from a place on: a place is the number of bytes before it. No struct has
 * an address, and no call remembers another one. A caller may pass any place and any struct.
 *
 *     mbdc_record record;
 *     uint64_t at = header.first;
 *     while (mbdc_next_record(0x72, body, size, at, &record) == MBDC_DONE)
 *         at = record.next;
 */

/* The results of mbdc_next_frame, mbdc_header and mbdc_next_record. */
#define MBDC_DONE 0
#define MBDC_END 1    /* nothing more comes */
#define MBDC_MORE 2   /* nothing more comes, and the next telegram has more records (DIF 1F) */
#define MBDC_OTHER 3  /* bodies after this CI byte aren't read */
#define MBDC_FAULT 16 /* this and the number of a fault: MBDC_FRAME_FAULTS, MBDC_BODY_FAULTS */

/* A link frame (EN 13757-2), or bytes that are none. */
typedef struct {
    uint64_t kind;    /* 1 an acknowledgement, 2 a short frame, 3 a long one, 0 none of them */
    uint64_t control; /* of a short and a long frame; fields that a frame hasn't are 0 */
    uint64_t address;
    uint64_t ci;      /* of a long frame */
    uint64_t body_at;
    uint64_t body_size;
    uint64_t next;    /* where the next frame begins */
} mbdc_frame;

/* Writes to `out` the frame that begins at `at`. Returns MBDC_DONE; MBDC_END from the end of the
 * bytes on; or, where no frame begins, a fault: `next` is after the bytes that are read as none.
 */
uint64_t mbdc_next_frame(const uint8_t *bytes, size_t size, uint64_t at, mbdc_frame *out);

/* What stands before the records of a body (EN 13757-3). What a body lacks is 0. */
typedef struct {
    uint64_t named;         /* 1 where it names its meter */
    uint64_t number;        /* the identification number, eight digits */
    uint64_t manufacturer;  /* five bits a letter, A being 1, the first letter in the highest bits */
    uint64_t version;
    uint64_t medium;        /* MBDC_MEDIA; after CI 73h MBDC_FIXED_MEDIA */
    uint64_t headed;        /* 1 where it has an access number and a status byte */
    uint64_t access;
    uint64_t status;
    uint64_t configuration;
    uint64_t mode;          /* the security mode: MBDC_SECURITY */
    uint64_t blocks;        /* encrypted blocks of 16 bytes, in modes 5 and 7 */
    uint64_t first;         /* where the first record begins */
} mbdc_head;

/* Writes to `out` what stands before the records of a body after CI byte 72h, 73h, 78h or 7Ah, and
 * returns MBDC_DONE; MBDC_OTHER after another one. A fault there is what mbdc_next_record returns.
 */
uint64_t mbdc_header(uint64_t ci, const uint8_t *body, size_t size, mbdc_head *out);

/* A data record (EN 13757-3), or a counter of fixed data, and what is read of it. */
typedef struct {
    uint64_t storage;
    uint64_t tariff;
    uint64_t subunit;
    uint64_t function;      /* MBDC_FUNCTIONS */
    uint64_t field;         /* the data field, bits 3 to 0 of the DIF */
    uint64_t length;        /* the length byte of data field Dh, else 0 */
    uint64_t at;            /* the place that was asked for */
    uint64_t vib_at;        /* VIF and VIFEs */
    uint64_t vib_size;
    uint64_t data_at;
    uint64_t data_size;
    uint64_t label_at;      /* the text of a unit in plain text, last character first; 0 for none */
    uint64_t label_size;
    uint64_t vifes_at;      /* the VIFEs before a manufacturer's */
    uint64_t vifes_size;
    uint64_t maker_at;      /* the manufacturer's bytes; 0 for none */
    uint64_t maker_size;
    uint64_t next;          /* the place after the record */
    uint64_t reading;       /* MBDC_READINGS: 0 for a record that isn't read */
    uint64_t type;          /* one of MBDC_NUMBER to MBDC_IDENTITY; 0 without a value and for record errors */
    uint64_t quantity;      /* MBDC_QUANTITIES */
    uint64_t unit;          /* of MBDC_NUMBER and MBDC_FLAGS, MBDC_UNITS: FFFFh where a VIFE replaces it */
    uint64_t unit_suffix;   /* MBDC_VIFE_TEXTS: what follows the unit; alone, /h is 1/h and *s is s */
    uint64_t error;         /* MBDC_ERRORS: why there is no value; 0 for no reason */
    uint64_t phase;         /* MBDC_VIFE_TEXTS; 0 for none */
    uint64_t direction;     /* MBDC_VIFE_TEXTS; 0 for none */
    uint64_t summer_time;   /* 1 where MBDC_MINUTE or MBDC_SECOND is summer time */
    int64_t mantissa;       /* MBDC_NUMBER: mantissa * 10^exponent */
    int64_t exponent;
    uint64_t year;          /* MBDC_DATE, MBDC_MINUTE, MBDC_SECOND */
    uint64_t month;
    uint64_t day;
    uint64_t hour;          /* MBDC_MINUTE, MBDC_SECOND, MBDC_TIME */
    uint64_t minute;
    uint64_t second;        /* MBDC_SECOND, MBDC_TIME */
    uint64_t flags;         /* MBDC_FLAGS */
} mbdc_record;

/* The types of values. */
#define MBDC_NUMBER 1
#define MBDC_DIGITS 2   /* the data: two digits a byte, the last byte first */
#define MBDC_FLAGS 3
#define MBDC_DATE 4
#define MBDC_MINUTE 5
#define MBDC_SECOND 6
#define MBDC_TIME 7
#define MBDC_TEXT 8     /* the data in ISO 8859-1, the last character first */
#define MBDC_LETTERS 9  /* three letters of a manufacturer: mbdc_value_text */
#define MBDC_IDENTITY 10 /* an identity: mbdc_value_text */

/* Writes to `out` the record that comes next in a body from `at` on, and returns MBDC_DONE. Where none
 * comes, it returns MBDC_END, MBDC_MORE or the body's fault, and MBDC_OTHER after another CI byte than
 * 72h, 73h, 78h and 7Ah; `out` stays as it was then. An encrypted body has a fault and no records.
 * From `first` of the header on, from `next` to `next`, these are the records that `mbdc decode --json`
 * has for the body. `next` is greater than `at`, and at most `size`.
 */
uint64_t mbdc_next_record(uint64_t ci, const uint8_t *body, size_t size, uint64_t at, mbdc_record *out);

/* Writes the value of a record that mbdc_next_record wrote for this body, as `mbdc decode --json` has
 * it in UTF-8, and returns its number of bytes: 0 for a record without one, MBDC_TOO_LONG if it has
 * more than `out_size`. No value has more than 382 bytes.
 */
size_t mbdc_value_text(const mbdc_record *record, const uint8_t *body, size_t size, uint8_t *out, size_t out_size);

/* The tables of names, of which those of codes have the codes' numbers. */
#define MBDC_CONTROLS 0
#define MBDC_CI_BYTES 1
#define MBDC_MEDIA 2
#define MBDC_FIXED_MEDIA 3
#define MBDC_STATES 4 /* of the application, by the status byte */
#define MBDC_SECURITY 5
#define MBDC_FUNCTIONS 6
#define MBDC_READINGS 7
#define MBDC_TYPES 8
#define MBDC_ERRORS 9
#define MBDC_QUANTITIES 10
#define MBDC_UNITS 11
#define MBDC_VIFES 12      /* by a VIFE without bit 7; 128 more after FCh */
#define MBDC_VIFE_TEXTS 13
#define MBDC_FRAME_FAULTS 14
#define MBDC_BODY_FAULTS 15

/* Writes the name with this number in a table, in ASCII, and returns its number of bytes: 0 where there
 * is none, MBDC_TOO_LONG if it has more than `out_size`. No name has more than 64 bytes, and no number is
 * ever given to another name.
 */
size_t mbdc_name(uint64_t table, uint64_t number, uint8_t *out, size_t out_size);

#ifdef __cplusplus
}
#endif

#endif
