/* A host to try terminals at: it listens on 127.0.0.1, shows each station in turn a sign-on and then a form, and tells
 * what it is told. F3 ends a session.
 *
 *     host5250 [--bad] [PORT]        port 0, which is the default, takes a free one; `listening PORT` is printed first
 *
 * With --bad the form is followed by a command that isn't taken (a Roll from row 0, reason 33). */
#define _GNU_SOURCE
#include "ribbonscarp.h"

#include <arpa/inet.h>
#include <stdio.h>
#include <stdlib.h>
#include <string.h>
#include <sys/socket.h>
#include <unistd.h>

/* A body in the making (SC30-3533, commands and orders). */
typedef struct {
    uint8_t bytes[8192];
    size_t count;
} body;

static void put(body *b, const void *bytes, size_t count)
{
    if (count <= sizeof b->bytes - b->count) {
        memcpy(b->bytes + b->count, bytes, count);
        b->count += count;
    }
}

static void put_byte(body *b, uint8_t byte)
{
    put(b, &byte, 1);
}

/* Text of ISO 8859-1, in code page 037. */
static void put_text(body *b, const char *text)
{
    for (; *text != 0; text++) {
        uint8_t byte;
        put_byte(b, ribbon_to_037((uint8_t)*text, &byte) == RIBBON_DONE ? byte : 0x40);
    }
}

/* Set Buffer Address. */
static void put_at(body *b, uint8_t row, uint8_t column)
{
    const uint8_t order[] = {0x11, row, column};
    put(b, order, sizeof order);
}

/* Clear Unit, and a Write to Display with this CC2. */
static void put_write(body *b, uint8_t cc2)
{
    const uint8_t command[] = {0x04, 0x40, 0x04, 0x11, 0x00, cc2};
    put(b, command, sizeof command);
}

/* Read MDT Fields. */
static void put_read(body *b)
{
    static const uint8_t command[] = {0x04, 0x52, 0x00, 0x00};
    put(b, command, sizeof command);
}

/* Start of Field: its first cell is at the address. */
static void put_field(body *b, uint8_t row, uint8_t column, uint16_t format, uint8_t attribute, uint16_t length)
{
    const uint8_t order[] = {0x1d, (uint8_t)(format >> 8), (uint8_t)format, attribute, (uint8_t)(length >> 8),
                             (uint8_t)length};
    put_at(b, row, (uint8_t)(column - 1));
    put(b, order, sizeof order);
}

/* Text behind an attribute. */
static void put_colored(body *b, uint8_t row, uint8_t column, uint8_t attribute, const char *text)
{
    put_at(b, row, (uint8_t)(column - 1));
    put_byte(b, attribute);
    put_text(b, text);
    put_byte(b, 0x20);
}

static bool send_all(int line, const uint8_t *bytes, size_t count)
{
    return send(line, bytes, count, MSG_NOSIGNAL) == (ssize_t)count;
}

static bool send_body(ribbon_host *host, int line, const body *b)
{
    static uint8_t record[16500];
    ribbon_told told;
    ribbon_status status = ribbon_host_send(host, RIBBON_OPCODE_PUT_GET, b->bytes, b->count, &told);
    if (status != RIBBON_DONE) {
        printf("not sent: %s, %s\n", ribbon_status_text(status), ribbon_reason_text(told.reason));
        return false;
    }
    return ribbon_host_sent(host, record, sizeof record, &told) == RIBBON_DONE && send_all(line, record, told.length);
}

static bool sign_on(ribbon_host *host, int line)
{
    body b = {.count = 0};
    put_write(&b, 0x08);
    put_colored(&b, 1, 37, 0x22, "Sign On");
    put_at(&b, 6, 17), put_text(&b, "User  . . . . .");
    put_field(&b, 6, 53, 0x4020, 0x24, 10);
    put_at(&b, 7, 17), put_text(&b, "Password  . . .");
    put_field(&b, 7, 53, 0x4000, 0x27, 10);
    put_colored(&b, 20, 3, 0x21, "reverse");
    put_colored(&b, 20, 15, 0x28, "red");
    put_colored(&b, 20, 25, 0x26, "white underscored");
    put_colored(&b, 20, 45, 0x32, "yellow");
    put_colored(&b, 20, 60, 0x27, "hidden");
    put_at(&b, 23, 2), put_text(&b, "F3=Exit   caf\xe9 \xa3\xac");
    put_read(&b);
    return send_body(host, line, &b);
}

static bool form(ribbon_host *host, int line, unsigned round, const char *came)
{
    body b = {.count = 0};
    char text[80];
    put_write(&b, round % 2 == 0 ? 0x0a : 0x09); /* the message light on or off */
    put_colored(&b, 1, 35, 0x22, "Item inquiry");
    put_at(&b, 3, 2), put_text(&b, "Item number  .");
    put_field(&b, 3, 20, 0x4300, 0x24, 6);
    put_at(&b, 4, 2), put_text(&b, "Remark . . . .");
    put_field(&b, 4, 20, 0x4000, 0x24, 40);
    snprintf(text, sizeof text, "round %u: %.60s", round, came);
    put_at(&b, 10, 2), put_text(&b, text);
    put_at(&b, 23, 2), put_text(&b, "F3=Exit  Enter=Echo");
    put_read(&b);
    return send_body(host, line, &b);
}

/* Prints the answer, and gives its content as text. */
static uint8_t take_answer(ribbon_host *host, char *came, size_t room)
{
    ribbon_answer answer;
    came[0] = 0;
    ribbon_host_answer(host, &answer);
    printf("answer key %02X at %u %u, fields %zu\n", answer.aid, answer.cursor_row, answer.cursor_column,
           answer.field_count);
    for (size_t at = 0; at < answer.field_count; at++) {
        uint8_t content[1920];
        ribbon_read_field field;
        char text[1921];
        if (ribbon_host_answer_field(host, at, content, sizeof content, &field) != RIBBON_DONE)
            continue;
        for (size_t i = 0; i < field.length; i++) {
            uint32_t character;
            text[i] = ribbon_from_037(content[i], &character) == RIBBON_DONE ? (char)character : '.';
        }
        text[field.length] = 0;
        printf("  field %u %u [%s]\n", field.row, field.column, text);
        size_t had = strlen(came);
        snprintf(came + had, room - had, "[%.40s]", text);
    }
    return answer.aid;
}

/* What an event asks for; false where the session is over. */
static bool react(ribbon_host *host, int line, const ribbon_event *event, unsigned *round, bool is_bad)
{
    static const uint8_t roll[] = {0x00, 0x0f, 0x12, 0xa0, 0x00, 0x00, 0x04, 0x00, 0x00, 0x03,
                                   0x04, 0x23, 0x00, 0x00, 0x18, 0xff, 0xef};
    char came[400];
    switch (event->kind) {
    case RIBBON_EVENT_READY:
        printf("ready, terminal %u\n", event->terminal);
        return sign_on(host, line);
    case RIBBON_EVENT_ATTENTION: puts("attention"); return true;
    case RIBBON_EVENT_SYSTEM_REQUEST: puts("system request"); return true;
    case RIBBON_EVENT_ANSWER:
        if (take_answer(host, came, sizeof came) == RIBBON_AID_F3)
            return false;
        *round += 1;
        return is_bad ? send_all(line, roll, sizeof roll) : form(host, line, *round, came);
    default: return true;
    }
}

static void serve(int line, bool is_bad)
{
    ribbon_host host = RIBBON_HOST_NONE;
    uint8_t reply[1024], bytes[4096];
    ribbon_told told;
    unsigned round = 0;
    ssize_t came;
    bool goes_on = ribbon_host_new(&host, reply, sizeof reply, &told) == RIBBON_DONE
                   && send_all(line, reply, told.length);
    while (goes_on && (came = recv(line, bytes, sizeof bytes, 0)) > 0) {
        ribbon_pushed pushed;
        for (size_t at = 0; goes_on && at < (size_t)came; at += pushed.taken) {
            ribbon_event event;
            ribbon_status status = ribbon_host_push(&host, bytes + at, (size_t)came - at, reply, sizeof reply, &pushed,
                                                    &event);
            goes_on = send_all(line, reply, pushed.replied);
            if (status != RIBBON_DONE && status != RIBBON_NO_ROOM) {
                printf("byte %llu: %s\n", (unsigned long long)pushed.place, ribbon_reason_text(pushed.reason));
                goes_on = false;
            } else {
                goes_on = goes_on && react(&host, line, &event, &round, is_bad);
            }
        }
        fflush(stdout);
    }
    puts("session over");
    fflush(stdout);
    ribbon_host_free(&host);
    close(line);
}

int main(int count, char **words)
{
    bool is_bad = count > 1 && strcmp(words[1], "--bad") == 0;
    int one = 1, listening = socket(AF_INET, SOCK_STREAM, 0), at = is_bad ? 2 : 1;
    struct sockaddr_in name = {.sin_family = AF_INET, .sin_addr.s_addr = htonl(INADDR_LOOPBACK)};
    socklen_t size = sizeof name;
    name.sin_port = htons((uint16_t)(count > at ? atoi(words[at]) : 0));
    setsockopt(listening, SOL_SOCKET, SO_REUSEADDR, &one, sizeof one);
    if (bind(listening, (struct sockaddr *)&name, sizeof name) != 0 || listen(listening, 4) != 0
        || getsockname(listening, (struct sockaddr *)&name, &size) != 0) {
        perror("host5250");
        return 2;
    }
    printf("listening %u\n", ntohs(name.sin_port));
    fflush(stdout);
    for (int line; (line = accept(listening, NULL, NULL)) >= 0;)
        serve(line, is_bad);
    return 2;
}
