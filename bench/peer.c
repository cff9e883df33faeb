/* The program's peer in C: its sales and reprints over SQLite's own library, by the program's
   statements and in its words.

       peer --texts FILE serve --file OFFICE --listen 127.0.0.1:0 --connections N

   FILE has the texts, a line each: a name, a tab, the statement. It is honest, not hardened: it takes
   the messages of client.py alone, and ends at whatever it would have to refuse. */
#define _GNU_SOURCE /* memmem */
#include <arpa/inet.h>
#include <netinet/tcp.h>
#include <sqlite3.h>
#include <stdarg.h>
#include <stdio.h>
#include <stdlib.h>
#include <string.h>
#include <time.h>
#include <unistd.h>

enum statement {
    FORMAT, LAST_SALE_NUMBER, SALE_NUMBERED, SALE_OF_REF, OPEN_SHIFT, METER_NUMBERED,
    FIRST_DAY_UNTIL, STEPS_FROM, STEPS_OF, LAST_ID, MONTH_TENTHS, BEGIN, NEW_SALE, LAST_ID_SET,
    TENTHS_ADDED, SALE_COUNTED, COMMIT, STATEMENTS
};

static const char *const names[STATEMENTS] = {
    "FORMAT", "LAST_SALE_NUMBER", "SALE_NUMBERED", "SALE_OF_REF", "OPEN_SHIFT", "METER_NUMBERED",
    "FIRST_DAY_UNTIL", "STEPS_FROM", "STEPS_OF", "LAST_ID", "MONTH_TENTHS", "BEGIN", "NEW_SALE",
    "LAST_ID_SET", "TENTHS_ADDED", "SALE_COUNTED", "COMMIT"
};

struct step { long ends, price; }; /* ends is -1 in the last step */

struct order { char meter[12], operator[17], ref[33]; long tender; };

struct sale {
    long number, moment, shift, base, tid, rnd, tenths, price, tender;
    char operator[17], ref[33], meter[12], digits[21];
};

static sqlite3 *conn;
static sqlite3_stmt *statements[STATEMENTS];
static long sold;

static void stop(const char *why, ...)
{
    va_list values;
    va_start(values, why);
    vfprintf(stderr, why, values);
    va_end(values);
    fputc('\n', stderr);
    exit(1);
}

/* The statements. */

static void run_text(const char *text)
{
    if (sqlite3_exec(conn, text, NULL, NULL, NULL) != SQLITE_OK)
        stop("%s: %s", text, sqlite3_errmsg(conn));
}

static void prepare(const char *name, const char *text)
{
    for (int at = 0; at < STATEMENTS; at++)
        if (!strcmp(names[at], name)
            && sqlite3_prepare_v3(conn, text, -1, SQLITE_PREPARE_PERSISTENT, &statements[at], NULL)
                   != SQLITE_OK)
            stop("%s: %s", text, sqlite3_errmsg(conn));
}

static void prepare_all(const char *path)
{
    static char line[4096];
    FILE *file = fopen(path, "r");
    if (!file)
        stop("no texts in %s", path);
    while (fgets(line, sizeof line, file)) {
        char *text = strchr(line, '\t');
        line[strcspn(line, "\n")] = 0;
        *text++ = 0;
        prepare(line, text);
    }
    fclose(file);
    prepare("BEGIN", "BEGIN");
    prepare("COMMIT", "COMMIT");
    for (int at = 0; at < STATEMENTS; at++)
        if (!statements[at])
            stop("no text of %s", names[at]);
}

/* Binds values by a kind each: i a whole number, t a text. */
static sqlite3_stmt *with(enum statement which, const char *kinds, ...)
{
    sqlite3_stmt *statement = statements[which];
    va_list values;
    va_start(values, kinds);
    for (int at = 0; kinds[at]; at++)
        if (kinds[at] == 'i')
            sqlite3_bind_int64(statement, at + 1, va_arg(values, long));
        else
            sqlite3_bind_text(statement, at + 1, va_arg(values, const char *), -1, SQLITE_STATIC);
    va_end(values);
    return statement;
}

/* Whether there is a further row. At the end the statement is ready for the next time. */
static int next_row(sqlite3_stmt *statement)
{
    int status = sqlite3_step(statement);
    if (status == SQLITE_ROW)
        return 1;
    if (status != SQLITE_DONE)
        stop("%s: %s", sqlite3_sql(statement), sqlite3_errmsg(conn));
    sqlite3_reset(statement);
    return 0;
}

static void to_end(sqlite3_stmt *statement)
{
    while (next_row(statement))
        ;
}

/* The first column of the one row, or what is given where there is none. */
static long number_or(sqlite3_stmt *statement, long none)
{
    long found = none;
    while (next_row(statement))
        found = sqlite3_column_int64(statement, 0);
    return found;
}

static void copy_text(sqlite3_stmt *statement, int column, char *to, size_t room)
{
    snprintf(to, room, "%s", (const char *)sqlite3_column_text(statement, column));
}

static int read_sale(sqlite3_stmt *statement, struct sale *sale)
{
    if (!next_row(statement))
        return 0;
    long *const numbers[] = {&sale->number, &sale->moment, &sale->shift, NULL, NULL, NULL,
                             &sale->base, &sale->tid, &sale->rnd, &sale->tenths, &sale->price,
                             &sale->tender};
    for (int at = 0; at < 12; at++)
        if (numbers[at])
            *numbers[at] = sqlite3_column_int64(statement, at);
    copy_text(statement, 3, sale->operator, sizeof sale->operator);
    copy_text(statement, 4, sale->ref, sizeof sale->ref);
    copy_text(statement, 5, sale->meter, sizeof sale->meter);
    copy_text(statement, 12, sale->digits, sizeof sale->digits);
    to_end(statement);
    return 1;
}

static int read_steps(sqlite3_stmt *statement, struct step *steps)
{
    int count = 0;
    while (next_row(statement)) {
        int is_last = sqlite3_column_type(statement, 0) == SQLITE_NULL;
        steps[count].ends = is_last ? -1 : sqlite3_column_int64(statement, 0);
        steps[count++].price = sqlite3_column_int64(statement, 1);
    }
    return count;
}

static int steps_on(const char *tariff, long day, struct step *steps)
{
    long begun = number_or(with(FIRST_DAY_UNTIL, "ti", tariff, day), -1);
    if (begun >= 0)
        return read_steps(with(STEPS_FROM, "ti", tariff, begun), steps);
    return read_steps(with(STEPS_OF, "t", tariff), steps);
}

/* The rules, as docs/PROFILE.md has them. */

static long month_of(long moment)
{
    time_t seconds = moment;
    struct tm date;
    gmtime_r(&seconds, &date);
    return (date.tm_year - 93) * 12L + date.tm_mon;
}

static long fresh_tid(long base, long moment, long last)
{
    long begins = base == 1993 ? 725846400 : base == 2014 ? 1388534400 : 2051222400;
    long minute = (moment - begins) / 60;
    long tid = minute < 2 ? 2 : minute;
    if (tid <= last)
        tid = last + 1;
    if (tid % 1440 == 1)
        tid++;
    if (moment < begins || tid > 16777215 || tid - minute > 1440)
        stop("no identifier is left");
    return tid;
}

/* What so many tenths cost, in tenths of a cent. */
static long cost_of(const struct step *steps, int count, long prior, long tenths)
{
    long cost = 0;
    for (int at = 0; at < count; at++) {
        long room = steps[at].ends < 0 ? tenths : steps[at].ends - prior;
        long taken = room < 0 ? 0 : room < tenths ? room : tenths;
        cost += taken * steps[at].price;
        prior += taken;
        tenths -= taken;
    }
    return cost;
}

/* How many tenths the money pays for, in tenths of a cent. */
static long bought(const struct step *steps, int count, long prior, long money)
{
    long tenths = 0;
    for (int at = 0; at < count; at++) {
        long affordable = money / steps[at].price;
        long room = steps[at].ends < 0 ? affordable : steps[at].ends - prior - tenths;
        long taken = room < 0 ? 0 : room < affordable ? room : affordable;
        tenths += taken;
        money -= taken * steps[at].price;
        if (taken < room)
            break;
    }
    return tenths;
}

/* The greatest amount that a token carries and that is not above, with its code. */
static long amount_below(long tenths, long *code)
{
    static const long first[] = {0, 16384, 180224, 1818624}, width[] = {1, 10, 100, 1000};
    int exponent = 3;
    while (tenths < first[exponent])
        exponent--;
    long mantissa = (tenths - first[exponent]) / width[exponent];
    if (mantissa > 16383)
        mantissa = 16383;
    *code = (long)exponent << 14 | mantissa;
    return first[exponent] + width[exponent] * mantissa;
}

static void write_token(char *digits, long rnd, long tid, long code)
{
    unsigned long fields = (unsigned long)rnd << 40 | (unsigned long)tid << 16 | code;
    unsigned long check = 0xFFFF;
    for (int at = 48; at >= 0; at -= 8) {
        check ^= fields >> at & 0xFF;
        for (int bit = 0; bit < 8; bit++)
            check = check & 1 ? check >> 1 ^ 0xA001 : check >> 1;
    }
    unsigned long block = fields << 16 | check;
    unsigned __int128 number = (unsigned __int128)(block >> 27 & 3) << 64
        | (block >> 29 << 29) | (block & 0x7FFFFFF);
    digits[20] = 0;
    for (int at = 19; at >= 0; at--) {
        digits[at] = '0' + (int)(number % 10);
        number /= 10;
    }
}

/* The requests. */

static void write_sale(const struct sale *sale, long month, long prior)
{
    to_end(statements[BEGIN]);
    to_end(with(NEW_SALE, "iiiitttiiiiiit", sale->number, sale->moment, month, sale->shift,
                sale->operator, sale->ref, sale->meter, sale->base, sale->tid, sale->rnd,
                sale->tenths, sale->price, sale->tender, sale->digits));
    long last = number_or(with(LAST_ID_SET, "tii", sale->meter, sale->base, sale->tid), -1);
    long all = number_or(with(TENTHS_ADDED, "tii", sale->meter, month, sale->tenths), -1);
    to_end(with(SALE_COUNTED, "iii", sale->shift, sale->tenths, sale->price));
    if (last != sale->tid || all != prior + sale->tenths)
        stop("the totals are not those of the sales");
    to_end(statements[COMMIT]);
    sold = sale->number;
}

static void purchase(struct sale *sale, const struct step *steps, int count, long prior)
{
    long code;
    long most = bought(steps, count, prior, sale->tender * 10);
    if (most < 1)
        stop("too little");
    sale->tenths = amount_below(most, &code);
    sale->price = (cost_of(steps, count, prior, sale->tenths) + 9) / 10;
    write_token(sale->digits, sale->rnd, sale->tid, code);
}

/* A new sale at the open shift, from what its meter has. */
static void sell_new(struct sale *sale)
{
    struct step steps[8];
    char tariff[33];
    sqlite3_stmt *found = with(METER_NUMBERED, "t", sale->meter);
    if (!next_row(found))
        stop("no meter %s", sale->meter);
    sale->base = sqlite3_column_int64(found, 0);
    copy_text(found, 1, tariff, sizeof tariff);
    to_end(found);
    int count = steps_on(tariff, (sale->moment - 725846400) / 86400, steps);
    long month = month_of(sale->moment);
    long last = number_or(with(LAST_ID, "ti", sale->meter, sale->base), 0);
    long prior = number_or(with(MONTH_TENTHS, "ti", sale->meter, month), 0);
    sale->number = sold + 1;
    sale->rnd = sale->number % 16;
    sale->tid = fresh_tid(sale->base, sale->moment, last);
    purchase(sale, steps, count, prior);
    write_sale(sale, month, prior);
}

static void sell(const struct order *order, struct sale *sale)
{
    if (read_sale(with(SALE_OF_REF, "tt", order->operator, order->ref), sale)) {
        if (strcmp(sale->meter, order->meter) || sale->tender != order->tender)
            stop("ref %s came again", order->ref);
        return;
    }
    sale->shift = number_or(with(OPEN_SHIFT, "t", order->operator), 0);
    if (!sale->shift)
        stop("%s has no shift", order->operator);
    strcpy(sale->operator, order->operator);
    strcpy(sale->ref, order->ref);
    strcpy(sale->meter, order->meter);
    sale->moment = time(NULL);
    sale->tender = order->tender;
    sell_new(sale);
}

/* The conversation. */

static void answer(int stream, const struct sale *sale)
{
    char body[512], whole[1024];
    int length = snprintf(
        body, sizeof body,
        "{\"base\":%ld,\"change\":%ld,\"meter\":\"%s\",\"moment\":%ld,\"number\":%ld,"
        "\"operator\":\"%s\",\"price\":%ld,\"ref\":\"%s\",\"shift\":%ld,\"tender\":%ld,"
        "\"tenths\":%ld,\"tid\":%ld,\"token\":\"%s\"}",
        sale->base, sale->tender - sale->price, sale->meter, sale->moment, sale->number,
        sale->operator, sale->price, sale->ref, sale->shift, sale->tender, sale->tenths, sale->tid,
        sale->digits);
    length = snprintf(whole, sizeof whole,
                      "HTTP/1.1 200 OK\r\nContent-Type: application/json\r\n"
                      "Content-Length: %d\r\n\r\n%s",
                      length, body);
    if (write(stream, whole, length) != length)
        stop("the client is gone");
}

static void serve_message(int stream, const char *head, const char *body)
{
    struct sale sale;
    struct order order;
    long number;
    if (sscanf(head, "GET /sales/%ld ", &number) == 1) {
        if (!read_sale(with(SALE_NUMBERED, "i", number), &sale))
            stop("no sale %ld", number);
    } else if (sscanf(body,
                      "{\"meter\":\"%11[0-9]\",\"operator\":\"%16[a-zA-Z0-9]\","
                      "\"ref\":\"%32[a-zA-Z0-9-]\",\"tender\":%ld}",
                      order.meter, order.operator, order.ref, &order.tender) == 4) {
        sell(&order, &sale);
    } else {
        stop("no message: %s", head);
    }
    answer(stream, &sale);
}

/* How long the first message is, or 0 where it is not whole. */
static size_t whole_message(const char *text, size_t length, const char **body)
{
    const char *end = memmem(text, length, "\r\n\r\n", 4);
    if (!end)
        return 0;
    const char *told = memmem(text, end - text, "Content-Length: ", 16);
    size_t size = end + 4 - text + (told ? atol(told + 16) : 0);
    *body = end + 4;
    return size <= length ? size : 0;
}

static void converse(int stream)
{
    static char text[65537];
    size_t length = 0;
    ssize_t more;
    while ((more = read(stream, text + length, sizeof text - 1 - length)) > 0) {
        const char *body;
        size_t done = 0, size;
        length += more;
        text[length] = 0;
        while ((size = whole_message(text + done, length - done, &body))) {
            serve_message(stream, text + done, body);
            done += size;
        }
        length -= done;
        memmove(text, text + done, length);
    }
}

static void serve(int port, long connections)
{
    int listener = socket(AF_INET, SOCK_STREAM, 0), one = 1;
    struct sockaddr_in at = {.sin_family = AF_INET, .sin_port = htons(port)};
    socklen_t size = sizeof at;
    at.sin_addr.s_addr = htonl(INADDR_LOOPBACK);
    if (bind(listener, (struct sockaddr *)&at, size) || listen(listener, 1))
        stop("cannot listen");
    getsockname(listener, (struct sockaddr *)&at, &size);
    fprintf(stderr, "listening 127.0.0.1:%d\n", ntohs(at.sin_port));
    while (connections-- > 0) {
        int stream = accept(listener, NULL, NULL);
        setsockopt(stream, IPPROTO_TCP, TCP_NODELAY, &one, sizeof one);
        converse(stream);
        close(stream);
    }
}

static void open_office(const char *file, const char *texts)
{
    int flags = SQLITE_OPEN_READWRITE | SQLITE_OPEN_NOMUTEX;
    if (sqlite3_open_v2(file, &conn, flags, NULL) != SQLITE_OK)
        stop("cannot open %s", file);
    run_text("PRAGMA journal_mode = WAL");
    run_text("PRAGMA synchronous = FULL");
    run_text("PRAGMA foreign_keys = ON");
    prepare_all(texts);
    long format = 0;
    while (next_row(statements[FORMAT]))
        format = sqlite3_column_int64(statements[FORMAT], 1);
    if (format != 4)
        stop("the format of %s is %ld", file, format);
    sold = number_or(statements[LAST_SALE_NUMBER], 0);
}

int main(int count, char **words)
{
    const char *file = NULL, *texts = NULL, *listen_at = "127.0.0.1:0";
    long connections = 1;
    for (int at = 1; at + 1 < count; at++) {
        if (!strcmp(words[at], "--texts"))
            texts = words[++at];
        else if (!strcmp(words[at], "--file"))
            file = words[++at];
        else if (!strcmp(words[at], "--listen"))
            listen_at = words[++at];
        else if (!strcmp(words[at], "--connections"))
            connections = atol(words[++at]);
    }
    if (count == 2 && !strcmp(words[1], "version"))
        return puts(sqlite3_libversion()) < 0;
    if (!file || !texts)
        stop("peer --texts FILE serve --file OFFICE --listen ADDR --connections N");
    open_office(file, texts);
    serve(atoi(strrchr(listen_at, ':') + 1), connections);
    for (int at = 0; at < STATEMENTS; at++)
        sqlite3_finalize(statements[at]);
    return sqlite3_close(conn) != SQLITE_OK;
}
