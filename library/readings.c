/* Prints what is read of the records of frames: a program over the calls of libmbdc for numbers.
 *
 *     cc -std=c99 readings.c $(pkg-config --cflags --libs mbdc) -o readings
 *     ./readings <LINES
 *
 * For each frame in lines of hex digits, or what is none, a line; for a long frame then one of what stands before its records, one
 * for each record, and one with the result at their end. Fields are those of `mbdc decode --json`, separated by tabs, and - for null.
 */
#include <ctype.h>
#include <inttypes.h>
#include <stdio.h>
#include <stdlib.h>
#include <string.h>

#include <mbdc.h>

enum { ACK = 1, SHORT_FRAME, LONG_FRAME, LONGEST_LINE = 4096, ROOM = 1024, FIXED = 0x73, EXTENSION = 0xFC, NO_UNIT = 0xFFFF };

/* Prints a name, or - for none. */
static void print_name(uint64_t table, uint64_t number)
{
    uint8_t name[ROOM];
    size_t count = mbdc_name(table, number, name, sizeof name);
    printf("\t%.*s", count ? (int)count : 1, count ? (const char *)name : "-");
}

/* Prints bytes in hex digits. */
static void print_hex(const uint8_t *bytes, size_t size)
{
    printf("\t");
    for (size_t n = 0; n < size; n++)
        printf("%02X", bytes[n]);
}

/* Prints characters of ISO 8859-1, of which the last is sent first, in UTF-8. */
static void print_latin1(const uint8_t *text, size_t size)
{
    while (size--)
        if (text[size] < 0x80)
            putchar(text[size]);
        else
            printf("%c%c", 0xC0 + text[size] / 64, 0x80 + text[size] % 64);
}

/* Prints the names of VIFEs, each after a semicolon but for the first. */
static void print_qualifiers(const uint8_t *vifes, size_t size)
{
    uint8_t name[ROOM];
    int after_extension = 0;
    printf("\t");
    for (size_t n = 0; n < size; n++) {
        size_t count = mbdc_name(MBDC_VIFES, vifes[n] % 128u + (after_extension ? 128 : 0), name, sizeof name);
        printf("%s%.*s", n ? ";" : "", (int)count, (const char *)name);
        after_extension = !after_extension && vifes[n] == EXTENSION;
    }
    if (size == 0)
        printf("-");
}

/* Prints the unit of a number or flags: a text of the telegram or a name, and what VIFEs add to it. */
static void print_unit(const mbdc_record *record, const uint8_t *body)
{
    uint8_t unit[ROOM], suffix[ROOM];
    if (record->type != MBDC_NUMBER && record->type != MBDC_FLAGS) {
        printf("\t-");
        return;
    }
    size_t unit_size = mbdc_name(MBDC_UNITS, record->unit, unit, sizeof unit);
    size_t suffix_size = mbdc_name(MBDC_VIFE_TEXTS, record->unit_suffix, suffix, sizeof suffix);
    size_t label_size = record->unit == NO_UNIT ? 0 : record->label_size;
    int alone = label_size == 0 && unit_size == 0;
    printf("\t%s", alone && suffix_size == 0 ? "-" : alone && suffix[0] == '/' ? "1" : "");
    print_latin1(body + record->label_at, label_size);
    printf("%.*s", (int)unit_size, (const char *)unit);
    if (alone && suffix_size && suffix[0] == '*')
        printf("%.*s", (int)suffix_size - 1, (const char *)suffix + 1);
    else
        printf("%.*s", (int)suffix_size, (const char *)suffix);
}

/* Prints a value as text. */
static void print_value(const mbdc_record *record, const uint8_t *body, size_t size)
{
    uint8_t text[ROOM];
    size_t count = mbdc_value_text(record, body, size, text, sizeof text);
    int known = record->type != 0 && record->error == 0;
    putchar('\t');
    fwrite(known ? (const char *)text : "-", 1, known ? count : 1, stdout);
}

/* Prints a record. */
static void print_record(const mbdc_record *record, const uint8_t *body, size_t size)
{
    int is_timed = (record->type == MBDC_MINUTE || record->type == MBDC_SECOND) && record->error == 0;
    printf("%" PRIu64 "\t%" PRIu64 "\t%" PRIu64, record->storage, record->tariff, record->subunit);
    print_name(MBDC_FUNCTIONS, record->function);
    print_hex(body + record->vib_at, record->vib_size);
    print_hex(body + record->data_at, record->data_size);
    print_name(MBDC_QUANTITIES, record->quantity);
    print_qualifiers(body + record->vifes_at, record->vifes_size);
    print_name(MBDC_READINGS, record->reading);
    print_value(record, body, size);
    print_unit(record, body);
    print_name(MBDC_TYPES, record->type);
    print_name(MBDC_ERRORS, record->error);
    print_name(MBDC_VIFE_TEXTS, record->phase);
    print_name(MBDC_VIFE_TEXTS, record->direction);
    if (record->maker_at)
        print_hex(body + record->maker_at, record->maker_size);
    else
        printf("\t-");
    printf(record->label_at ? "\t" : "\t-");
    print_latin1(body + record->label_at, record->label_size);
    printf("\t%s\n", !is_timed ? "-" : record->summer_time ? "true" : "false");
}

/* Prints a number, or - where there is none. */
static void print_number(int is_there, uint64_t number)
{
    if (is_there)
        printf("\t%" PRIu64, number);
    else
        printf("\t-");
}

/* Prints what stands before the records: meter, access number, status, security. */
static void print_head(const mbdc_head *head, uint64_t ci)
{
    int has_rest = ci != FIXED;
    if (head->named)
        printf("\t%08" PRIu64, head->number);
    else
        printf("\t-");
    if (head->named && has_rest)
        printf("\t%c%c%c", 64 + (int)(head->manufacturer >> 10), 64 + (int)(head->manufacturer >> 5 & 31), 64 + (int)(head->manufacturer & 31));
    else
        printf("\t-");
    print_number(head->named && has_rest, head->version);
    print_number(head->named != 0, head->medium);
    print_number(head->headed != 0, head->access);
    print_number(head->headed != 0, head->status);
    if (head->headed && has_rest)
        print_name(MBDC_SECURITY, head->mode);
    else
        printf("\t-");
    print_number(head->headed && has_rest && (head->mode == 5 || head->mode == 7), head->blocks);
    print_number(head->headed && has_rest, head->configuration);
    printf("\n");
}

/* Prints what stands before the records of a body, the records, and the result at their end. */
static void print_body(uint64_t ci, const uint8_t *body, size_t size)
{
    mbdc_head head = {0};
    mbdc_record record;
    uint64_t result = mbdc_header(ci, body, size, &head);
    if (result == MBDC_DONE)
        print_head(&head, ci);
    for (uint64_t at = head.first; (result = mbdc_next_record(ci, body, size, at, &record)) == MBDC_DONE; at = record.next)
        print_record(&record, body, size);
    printf("%" PRIu64 "\n", result);
}

/* Prints the frames of bytes. */
static void print_frames(const uint8_t *bytes, size_t size)
{
    mbdc_frame frame;
    uint64_t result;
    for (uint64_t at = 0; (result = mbdc_next_frame(bytes, size, at, &frame)) != MBDC_END; at = frame.next) {
        if (frame.kind == ACK)
            printf("ack\n");
        else if (frame.kind == SHORT_FRAME)
            printf("short\t%" PRIu64 "\t%" PRIu64 "\n", frame.control, frame.address);
        else if (frame.kind == LONG_FRAME)
            printf("long\t%" PRIu64 "\t%" PRIu64 "\t%" PRIu64 "\n", frame.control, frame.address, frame.ci);
        else {
            printf("none");
            print_name(MBDC_FRAME_FAULTS, result - MBDC_FAULT);
            printf("\n");
        }
        if (frame.kind == LONG_FRAME)
            print_body(frame.ci, bytes + frame.body_at, frame.body_size);
    }
}

/* The bytes of a line of hex digits, with a space before each pair or none. Returns their number, 0 for another line. */
static size_t bytes_of(const char *line, uint8_t *bytes)
{
    size_t count = 0;
    for (; *line && *line != '\n'; line++) {
        char digits[3] = {line[0], line[1], 0};
        if (*line == ' ')
            continue;
        if (!isxdigit((unsigned char)digits[0]) || !isxdigit((unsigned char)digits[1]))
            return 0;
        bytes[count++] = (uint8_t)strtoul(digits, NULL, 16);
        line++;
    }
    return count;
}

int main(void)
{
    static char line[LONGEST_LINE + 2];
    static uint8_t bytes[LONGEST_LINE];
    while (fgets(line, sizeof line, stdin))
        print_frames(bytes, bytes_of(line, bytes));
    return ferror(stdin) || fflush(stdout) ? EXIT_FAILURE : EXIT_SUCCESS;
}
