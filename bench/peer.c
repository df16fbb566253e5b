/* What `mbdc run` does with the scripts of these benches, in plain C over SQLite: WAL, synchronous=FULL, one transaction for
 * a commit or a command, an index for each question. Words: the database, the script. It takes the lines that the benches
 * write, checks a frame's lengths and checksum, prints what mbdc prints, and refuses nothing. */
#include <sqlite3.h>
#include <stdarg.h>
#include <stdio.h>
#include <stdlib.h>
#include <string.h>
#include <unistd.h>

typedef unsigned char byte;
typedef long long number;

enum { LINES = 9, FRAME = 300 };

static struct { char ident[32], flat[16]; int part; number readout; } lines[LINES];
static sqlite3 *db;
static number moment, serial, readouts, waiting;

static void stop(const char *what)
{
    fprintf(stderr, "peer: %s: %s\n", what, db ? sqlite3_errmsg(db) : "");
    exit(1);
}

static void run(const char *sql)
{
    if (sqlite3_exec(db, sql, 0, 0, 0) != SQLITE_OK)
        stop(sql);
}

static sqlite3_stmt *made(const char *sql)
{
    sqlite3_stmt *it;
    if (sqlite3_prepare_v3(db, sql, -1, SQLITE_PREPARE_PERSISTENT, &it, 0) != SQLITE_OK)
        stop(sql);
    return it;
}

static sqlite3_stmt *begin, *commit, *add_meter, *flat_of, *add_part, *add_reading, *add_point, *window, *parts, *meters,
    *due, *drop_points, *drop_parts, *drop_readings, *set_last;

static void open_database(const char *name)
{
    if (sqlite3_open(name, &db) != SQLITE_OK)
        stop(name);
    run("PRAGMA journal_mode=WAL; PRAGMA synchronous=FULL;"
        "CREATE TABLE IF NOT EXISTS meter(ident TEXT PRIMARY KEY, line INT, addr TEXT, flat TEXT) WITHOUT ROWID;"
        "CREATE TABLE IF NOT EXISTS reading(serial INTEGER PRIMARY KEY, ident TEXT, flat TEXT, readout INT, parts INT);"
        "CREATE TABLE IF NOT EXISTS part(readout INT, part INT, moment INT, body BLOB, PRIMARY KEY(readout, part)) WITHOUT ROWID;"
        "CREATE TABLE IF NOT EXISTS point(date INT, ident TEXT, serial INT, flat TEXT, value INT, PRIMARY KEY(date, ident, serial)) WITHOUT ROWID;"
        "CREATE INDEX IF NOT EXISTS point_serial ON point(serial);"
        "CREATE TABLE IF NOT EXISTS state(id INTEGER PRIMARY KEY, last INT, line TEXT, mark INT);"
        "INSERT OR IGNORE INTO state VALUES (1, 0, '', 0);");
    begin = made("BEGIN IMMEDIATE");
    commit = made("COMMIT");
    add_meter = made("INSERT INTO meter VALUES (?, ?, ?, ?)");
    flat_of = made("SELECT flat FROM meter WHERE ident = ?");
    add_part = made("INSERT INTO part VALUES (?, ?, ?, ?)");
    add_reading = made("INSERT INTO reading VALUES (?, ?, ?, ?, ?)");
    add_point = made("INSERT INTO point VALUES (?, ?, ?, ?, ?)");
    window = made("SELECT serial, ident, flat, parts, readout FROM reading WHERE serial >= ? ORDER BY serial LIMIT ?");
    parts = made("SELECT part, moment, body FROM part WHERE readout = ? ORDER BY part");
    meters = made("SELECT ident, line, addr, flat FROM meter ORDER BY ident");
    due = made("SELECT flat, ident, serial, value FROM point p WHERE date = ?1 AND serial ="
               " (SELECT max(serial) FROM point q WHERE q.date = ?1 AND q.ident = p.ident) ORDER BY flat, ident");
    drop_points = made("DELETE FROM point WHERE serial <= ?");
    drop_parts = made("DELETE FROM part WHERE readout IN (SELECT readout FROM reading WHERE serial <= ?)");
    drop_readings = made("DELETE FROM reading WHERE serial <= ?");
    set_last = made("UPDATE state SET last = ?, line = ?, mark = max(mark, ?)");
    sqlite3_stmt *it = made("SELECT coalesce((SELECT max(serial) FROM reading), (SELECT mark FROM state)),"
                            " coalesce((SELECT max(readout) FROM part), 0)");
    if (sqlite3_step(it) == SQLITE_ROW) {
        serial = sqlite3_column_int64(it, 0);
        readouts = sqlite3_column_int64(it, 1);
    }
    sqlite3_finalize(it);
}

static void done(sqlite3_stmt *it)
{
    if (sqlite3_step(it) != SQLITE_DONE)
        stop(sqlite3_sql(it));
    sqlite3_reset(it);
}

/* Binds values in their order, each by a letter of its kind: an int, a number, a text, or bytes with their length. */
static sqlite3_stmt *with(sqlite3_stmt *it, const char *kinds, ...)
{
    va_list given;
    va_start(given, kinds);
    for (int place = 1; kinds[place - 1]; place++) {
        const void *bytes;
        switch (kinds[place - 1]) {
        case 'i': sqlite3_bind_int(it, place, va_arg(given, int)); break;
        case 'n': sqlite3_bind_int64(it, place, va_arg(given, number)); break;
        case 't': sqlite3_bind_text(it, place, va_arg(given, const char *), -1, SQLITE_STATIC); break;
        case 'b':
            bytes = va_arg(given, const void *);
            sqlite3_bind_blob(it, place, bytes, va_arg(given, int), SQLITE_STATIC);
        }
    }
    va_end(given);
    return it;
}

static const char *text(sqlite3_stmt *it, int column)
{
    return (const char *)sqlite3_column_text(it, column);
}

static void put_hex(const byte *p, int n)
{
    static const char digits[] = "0123456789ABCDEF";
    for (int i = 0; i < n; i++) {
        putchar_unlocked(digits[p[i] >> 4]);
        putchar_unlocked(digits[p[i] & 15]);
    }
}

static number settle(void)
{
    number written = waiting;
    if (waiting)
        done(commit);
    waiting = 0;
    return written;
}

static void need_transaction(void)
{
    if (!waiting++)
        done(begin);
}

static int digit(char c)
{
    return c >= '0' && c <= '9' ? c - '0' : c >= 'A' && c <= 'F' ? c - 'A' + 10 : -1;
}

/* The body of a frame in hex digits, or -1. */
static int body_of(const char *hex, byte *body)
{
    static byte frame[FRAME];
    int n = 0;
    byte sum = 0;
    for (; n < FRAME && digit(hex[0]) >= 0 && digit(hex[1]) >= 0; hex += 2)
        frame[n++] = digit(hex[0]) << 4 | digit(hex[1]);
    if (n < 9 || frame[0] != 0x68 || frame[3] != 0x68 || frame[1] != frame[2] || n != frame[1] + 6 || frame[n - 1] != 0x16)
        return -1;
    for (int i = 4; i < n - 2; i++)
        sum += frame[i];
    if (sum != frame[n - 2])
        return -1;
    memcpy(body, frame + 7, n - 9);
    return n - 9;
}

/* The due-date record of these benches: a date of storage 1 and a volume in BCD behind the header. */
static void keep_point(int line, const byte *b, int n)
{
    if (n < 22 || b[12] != 0x42 || b[13] != 0x6C || b[16] != 0x4C || b[17] != 0x13)
        return;
    number value = 0;
    for (int i = 21; i > 17; i--)
        value = value * 100 + (b[i] >> 4) * 10 + (b[i] & 15);
    int date = (2000 + (b[14] >> 5) + (b[15] >> 4) * 8) * 10000 + (b[15] & 15) * 100 + (b[14] & 31);
    done(with(add_point, "itntn", date, lines[line].ident, serial, lines[line].flat, value));
}

static void hear(int line, const char *hex)
{
    byte body[FRAME];
    if (!strcmp(hex, "E5")) {
        puts("READY");
        return;
    }
    int n = body_of(hex, body);
    if (n < 0)
        stop("a frame");
    int more = body[n - 1] == 0x1F;
    need_transaction();
    done(with(add_part, "ninb", lines[line].readout, ++lines[line].part, moment, body, n));
    if (!more) {
        ++serial;
        done(with(add_reading, "nttni", serial, lines[line].ident, lines[line].flat, lines[line].readout,
                  lines[line].part));
        keep_point(line, body, n);
    }
    printf("PART %d %s\n", lines[line].part, more ? "MORE" : "LAST");
}

static void start(int line, const char *ident)
{
    snprintf(lines[line].ident, sizeof lines[line].ident, "%.31s", ident);
    lines[line].part = 0;
    lines[line].readout = ++readouts;
    if (sqlite3_step(with(flat_of, "t", ident)) != SQLITE_ROW)
        stop("a meter");
    snprintf(lines[line].flat, sizeof lines[line].flat, "%s", text(flat_of, 0));
    sqlite3_reset(flat_of);
    puts("STARTED");
}

static void show_window(number from, number count)
{
    number shown = 0;
    with(window, "nn", from, count);
    for (; sqlite3_step(window) == SQLITE_ROW; shown++) {
        printf("READING %lld %s %s %d\n", sqlite3_column_int64(window, 0), text(window, 1), text(window, 2), sqlite3_column_int(window, 3));
        with(parts, "n", (number)sqlite3_column_int64(window, 4));
        while (sqlite3_step(parts) == SQLITE_ROW) {
            printf("PART %d %lld ", sqlite3_column_int(parts, 0), sqlite3_column_int64(parts, 1));
            put_hex(sqlite3_column_blob(parts, 2), sqlite3_column_bytes(parts, 2));
            putchar_unlocked('\n');
        }
        sqlite3_reset(parts);
    }
    sqlite3_reset(window);
    printf("END %lld\n", shown);
}

static void show_meters(void)
{
    number shown = 0;
    for (; sqlite3_step(meters) == SQLITE_ROW; shown++)
        printf("METER %s %d %s %s 0\n", text(meters, 0), sqlite3_column_int(meters, 1), text(meters, 2), text(meters, 3));
    sqlite3_reset(meters);
    printf("END %lld\n", shown);
}

static void show_due(int year, int month, int day)
{
    number shown = 0;
    puts("flat,meter,serial,storage,function,tariff,subunit,value,unit");
    with(due, "i", year * 10000 + month * 100 + day);
    for (; sqlite3_step(due) == SQLITE_ROW; shown++) {
        number value = sqlite3_column_int64(due, 3);
        printf("%s,%s,%lld,1,0,0,0,%lld.%03lld,m3\n", text(due, 0), text(due, 1), sqlite3_column_int64(due, 2), value / 1000, value % 1000);
    }
    sqlite3_reset(due);
    printf("END %lld\n", shown);
}

/* A command, its number and its line, in one transaction. */
static void end_command(number n, const char *line, number mark)
{
    done(with(set_last, "ntn", n, line, mark));
    settle();
    printf("OK %lld\n", n);
}

static void office(const char *line)
{
    number n, upto;
    int bus, year, month, day;
    char ident[32], addr[8], flat[16];
    settle();
    if (sscanf(line, "WINDOW %lld %lld", &n, &upto) == 2) {
        show_window(n, upto);
    } else if (!strcmp(line, "REGISTER")) {
        show_meters();
    } else if (sscanf(line, "REPORT %d-%d-%d", &year, &month, &day) == 3) {
        show_due(year, month, day);
    } else if (sscanf(line, "%lld FIT %31s %d %7s %15s", &n, ident, &bus, addr, flat) == 5) {
        need_transaction();
        done(with(add_meter, "titt", ident, bus, addr, flat));
        end_command(n, line, 0);
    } else if (sscanf(line, "%lld CONFIRM %lld", &n, &upto) == 2) {
        need_transaction();
        done(with(drop_points, "n", upto));
        done(with(drop_parts, "n", upto));
        done(with(drop_readings, "n", upto));
        end_command(n, line, upto);
    } else {
        stop(line);
    }
}

int main(int count, char **words)
{
    static char line[8192];
    FILE *script = count == 3 ? fopen(words[2], "r") : 0;
    if (!script)
        stop("words: DATABASE SCRIPT");
    setvbuf(stdout, 0, _IOFBF, 65536);
    open_database(words[1]);
    while (fgets(line, sizeof line, script)) {
        line[strcspn(line, "\n")] = 0;
        if (!strncmp(line, "AT ", 3))
            moment = atoll(line + 3);
        else if (!strncmp(line, "START ", 6))
            start(atoi(line + 6), line + 8);
        else if (!strncmp(line, "HEAR ", 5))
            hear(atoi(line + 5), line + 7);
        else if (!strcmp(line, "COMMIT"))
            printf("COMMITTED %lld\n", settle());
        else if (!strncmp(line, "OFFICE ", 7))
            office(line + 7);
        else if (*line)
            stop(line);
    }
    fflush(stdout);
    _exit(0); /* no checkpoint at the end: mbdc writes nothing then either */
}
