/* A scraper: a station at a live host. At the host of examples/inquiry.serve it signs on, asks for an item, prints the
 * row of its price, and leaves.
 *
 *     scrape ADDRESS PORT ITEM
 *
 * Each wait takes ten seconds at most. The status is 1 where something fails, and a line on standard error says what. */
#define _POSIX_C_SOURCE 200809L
#include "ribbonscarp.h"

#include <arpa/inet.h>
#include <poll.h>
#include <stdio.h>
#include <stdlib.h>
#include <string.h>
#include <sys/socket.h>
#include <time.h>
#include <unistd.h>

enum { WAIT = 10000 /* milliseconds */ };

typedef struct {
    ribbon_station station;
    int line;
} session;

static int fail(const char *what)
{
    fprintf(stderr, "%s\n", what);
    return 1;
}

static int write_all(int line, const uint8_t *bytes, size_t count)
{
    while (count > 0) {
        ssize_t written = send(line, bytes, count, MSG_NOSIGNAL);
        if (written <= 0)
            return fail("the host doesn't take what is written");
        bytes += written;
        count -= (size_t)written;
    }
    return 0;
}

static long long now(void)
{
    struct timespec time;
    clock_gettime(CLOCK_MONOTONIC, &time);
    return time.tv_sec * 1000LL + time.tv_nsec / 1000000;
}

/* Takes what comes before a moment, and writes the station's answers. */
static int take(session *at, long long end)
{
    uint8_t bytes[1024], reply[3 * sizeof bytes + 2 * RIBBON_REPLY_ROOM]; /* room for every answer */
    ribbon_pushed pushed;
    struct pollfd ready = {at->line, POLLIN, 0};
    long long left = end - now();
    if (poll(&ready, 1, left > 0 ? (int)left : 0) <= 0)
        return fail("the host is late");
    ssize_t count = read(at->line, bytes, sizeof bytes);
    if (count <= 0)
        return fail("the host has closed");
    ribbon_status status = ribbon_station_push(&at->station, bytes, (size_t)count, reply, sizeof reply, &pushed);
    if (write_all(at->line, reply, pushed.replied) != 0)
        return 1;
    if (status == RIBBON_DONE)
        return 0;
    fprintf(stderr, "byte %llu: ", (unsigned long long)pushed.place);
    return fail(ribbon_reason_text(pushed.reason));
}

/* The row that shows a text, 1 to 24; 0 where none does. */
static uint8_t find(session *at, const char *text)
{
    char row[RIBBON_ROW_ROOM + 1];
    ribbon_told told;
    for (uint8_t number = 1; number <= RIBBON_ROWS; number++) {
        if (ribbon_station_row(&at->station, number, row, RIBBON_ROW_ROOM, &told) != RIBBON_DONE)
            return 0;
        row[told.length] = 0;
        if (strstr(row, text) != NULL)
            return number;
    }
    return 0;
}

static int wait_text(session *at, const char *text)
{
    long long end = now() + WAIT;
    while (find(at, text) == 0)
        if (take(at, end) != 0)
            return 1;
    return 0;
}

static int press(session *at, uint32_t kind, uint32_t value)
{
    uint8_t answer[RIBBON_ANSWER_ROOM];
    ribbon_told told;
    ribbon_status status = ribbon_station_key(&at->station, kind, value, answer, sizeof answer, &told);
    if (status == RIBBON_DONE)
        return write_all(at->line, answer, told.length);
    return fail(status == RIBBON_KEY_REFUSED ? ribbon_refusal_text(told.reason) : ribbon_status_text(status));
}

static int type(session *at, const char *text)
{
    for (; *text != 0; text++)
        if (press(at, RIBBON_KEY_CHAR, (uint8_t)*text) != 0)
            return 1;
    return 0;
}

static int print_row(session *at, uint8_t number)
{
    char row[RIBBON_ROW_ROOM];
    ribbon_told told;
    if (ribbon_station_row(&at->station, number, row, sizeof row, &told) != RIBBON_DONE)
        return fail("there is no such row");
    while (told.length > 0 && row[told.length - 1] == ' ')
        told.length -= 1;
    printf("%.*s\n", (int)told.length, row);
    return 0;
}

static int scrape(session *at, const char *item)
{
    if (wait_text(at, "Sign On") != 0 || type(at, "QUSER") != 0 || press(at, RIBBON_KEY_FIELD_EXIT, 0) != 0
        || type(at, "SECRET") != 0 || press(at, RIBBON_KEY_AID, RIBBON_AID_ENTER) != 0)
        return 1;
    if (wait_text(at, "Item inquiry") != 0 || type(at, item) != 0 || press(at, RIBBON_KEY_AID, RIBBON_AID_F5) != 0)
        return 1;
    return wait_text(at, "Price") != 0 || print_row(at, find(at, "Price")) != 0
           || press(at, RIBBON_KEY_AID, RIBBON_AID_F3) != 0;
}

int main(int count, char **words)
{
    session at = {RIBBON_STATION_NONE, -1};
    struct sockaddr_in address = {.sin_family = AF_INET};
    if (count != 4 || inet_pton(AF_INET, words[1], &address.sin_addr) != 1)
        return fail("scrape ADDRESS PORT ITEM");
    address.sin_port = htons((uint16_t)strtoul(words[2], NULL, 10));
    at.line = socket(AF_INET, SOCK_STREAM, 0);
    if (at.line < 0 || connect(at.line, (struct sockaddr *)&address, sizeof address) != 0)
        return fail("no connection");
    if (ribbon_station_new(&at.station, "IBM-3179-2") != RIBBON_DONE)
        return fail("no station");
    int failed = scrape(&at, words[3]);
    ribbon_station_free(&at.station);
    close(at.line);
    return failed;
}
