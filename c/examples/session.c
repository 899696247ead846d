/* Both ends of a session in one process: the host sends a screen with a field of ten cells at 6 53 and asks for its
 * content, a name is typed at the station and Enter pressed, and the host prints the answer. It prints what
 * `t5250 play session.script` prints of these moves, which is `session.out`. */
#include "ribbonscarp.h"

#include <stdio.h>

/* Clear Unit, Write to Display with the field, and Read MDT Fields (SC30-3533, commands and orders). */
static const uint8_t body[] = {0x04, 0x40, 0x04, 0x11, 0x00, 0x08, 0x11, 0x06, 0x34, 0x1d,
                               0x40, 0x00, 0x20, 0x00, 0x0a, 0x04, 0x52, 0x00, 0x00};

/* Bytes on their way to one end. */
typedef struct {
    uint8_t bytes[8192];
    size_t count;
} wire;

typedef struct {
    ribbon_station station;
    ribbon_host host;
    wire down; /* to the station */
    wire up;   /* to the host */
} session;

static const char *terminal_name(uint32_t terminal)
{
    static const char *const names[] = {"none",       "IBM-5251-11", "IBM-5291-1",
                                        "IBM-5292-2", "IBM-3196-A1", "IBM-3179-2"};
    return terminal < sizeof names / sizeof names[0] ? names[terminal] : "none";
}

static int print_answer(ribbon_host *host)
{
    ribbon_answer answer;
    if (ribbon_host_answer(host, &answer) != RIBBON_DONE)
        return 1;
    printf("answer %d %d %02X\n", answer.cursor_row, answer.cursor_column, answer.aid);
    for (size_t at = 0; at < answer.field_count; at++) {
        ribbon_read_field field;
        uint8_t content[1920];
        if (ribbon_host_answer_field(host, at, content, sizeof content, &field) != RIBBON_DONE)
            return 1;
        printf("  field %d %d ", field.row, field.column);
        for (size_t byte = 0; byte < field.length; byte++)
            printf("%02X", content[byte]);
        putchar('\n');
    }
    return 0;
}

static int print_event(ribbon_host *host, const ribbon_event *event)
{
    switch (event->kind) {
    case RIBBON_EVENT_READY:
        printf("host ready %s\n", terminal_name(event->terminal));
        return 0;
    case RIBBON_EVENT_ANSWER:
        return print_answer(host);
    case RIBBON_EVENT_ATTENTION:
        puts("attention");
        return 0;
    case RIBBON_EVENT_SYSTEM_REQUEST:
        puts("system request");
        return 0;
    case RIBBON_EVENT_CANCELLED:
        puts("cancelled");
        return 0;
    default:
        return 0;
    }
}

/* The station takes all that was sent to it. */
static int carry_down(session *both)
{
    ribbon_pushed pushed;
    wire *up = &both->up;
    if (ribbon_station_push(&both->station, both->down.bytes, both->down.count, up->bytes + up->count,
                        sizeof up->bytes - up->count, &pushed) != RIBBON_DONE)
        return 1;
    up->count += pushed.replied;
    both->down.count = 0;
    return 0;
}

/* The host takes all that was sent to it, and prints what it is told. */
static int carry_up(session *both)
{
    wire *down = &both->down;
    for (size_t at = 0; at < both->up.count;) {
        ribbon_pushed pushed;
        ribbon_event event;
        if (ribbon_host_push(&both->host, both->up.bytes + at, both->up.count - at, down->bytes + down->count,
                         sizeof down->bytes - down->count, &pushed, &event) != RIBBON_DONE)
            return 1;
        at += pushed.taken;
        down->count += pushed.replied;
        if (print_event(&both->host, &event) != 0)
            return 1;
    }
    both->up.count = 0;
    return 0;
}

/* All that is in flight arrives, to and fro. */
static int settle(session *both)
{
    while (both->down.count > 0 || both->up.count > 0)
        if (carry_down(both) != 0 || carry_up(both) != 0)
            return 1;
    return 0;
}

static int send_record(session *both, uint8_t opcode, const uint8_t *bytes, size_t count)
{
    ribbon_told told;
    wire *down = &both->down;
    if (ribbon_host_send(&both->host, opcode, bytes, count, &told) != RIBBON_DONE
        || ribbon_host_sent(&both->host, down->bytes + down->count, sizeof down->bytes - down->count, &told) != RIBBON_DONE)
        return 1;
    down->count += told.length;
    return 0;
}

static int press(session *both, uint32_t kind, uint32_t value)
{
    ribbon_told told;
    wire *up = &both->up;
    if (ribbon_station_key(&both->station, kind, value, up->bytes + up->count, sizeof up->bytes - up->count, &told)
        != RIBBON_DONE)
        return 1;
    up->count += told.length;
    return 0;
}

static int type(session *both, const char *text)
{
    for (; *text != 0; text++)
        if (press(both, RIBBON_KEY_CHAR, (uint8_t)*text) != 0)
            return 1;
    return 0;
}

/* What a host that errs is told before records are allowed, while a read is asked, and where none is. */
static int is_told_early(ribbon_host *host)
{
    ribbon_told told;
    ribbon_answer answer;
    uint8_t record[RIBBON_CANCEL_ROOM], opening[RIBBON_REPLY_ROOM];
    return ribbon_host_new(host, opening, sizeof opening, &told) == RIBBON_IN_USE
           && ribbon_host_send(host, RIBBON_OPCODE_PUT_GET, body, sizeof body, &told) == RIBBON_NOT_READY
           && ribbon_host_cancel(host, record, sizeof record, &told) == RIBBON_NOT_READY
           && ribbon_host_answer(host, &answer) == RIBBON_NO_ANSWER
           && ribbon_host_sent(host, record, 0, &told) == RIBBON_DONE && told.length == 0;
}

static int is_told_asking(ribbon_host *host)
{
    ribbon_told told;
    uint8_t record[RIBBON_CANCEL_ROOM];
    return ribbon_host_send(host, RIBBON_OPCODE_PUT_GET, body, sizeof body, &told) == RIBBON_READ_OUTSTANDING
           && ribbon_host_sent(host, record, sizeof record, &told) == RIBBON_NO_ROOM
           && ribbon_host_cancel(host, record, sizeof record - 1, &told) == RIBBON_NO_ROOM;
}

static int is_told_after(ribbon_host *host)
{
    static const uint8_t past_end[] = {0x04, 0x11, 0x00, 0x08, 0x11, 0x18, 0x50, 0xc1, 0xc1};
    ribbon_told told;
    ribbon_read_field field;
    uint8_t record[RIBBON_CANCEL_ROOM], content[1];
    return ribbon_host_cancel(host, record, sizeof record, &told) == RIBBON_NO_READ_TO_CANCEL
           && ribbon_host_send(host, 0x0a, NULL, 0, &told) == RIBBON_BAD_ARGUMENT
           && ribbon_host_send(host, RIBBON_OPCODE_PUT_GET, body, sizeof body - 1, &told) == RIBBON_BAD_ARGUMENT
           && ribbon_host_send(host, RIBBON_OPCODE_PUT_GET, past_end, sizeof past_end, &told) == RIBBON_REFUSED && told.reason == RIBBON_REASON_PAST_END
           && ribbon_host_send(host, RIBBON_OPCODE_PUT_GET, NULL, 1, &told) == RIBBON_NULL
           && ribbon_host_answer_field(host, 1, content, sizeof content, &field) == RIBBON_BAD_ARGUMENT
           && ribbon_host_answer_field(host, 0, content, sizeof content, &field) == RIBBON_NO_ROOM && field.length == 3;
}

/* The host asks again, and cancels. */
static int cancel(session *both)
{
    ribbon_told told;
    wire *down = &both->down;
    if (send_record(both, RIBBON_OPCODE_PUT_GET, body, sizeof body) != 0)
        return 1;
    if (ribbon_host_cancel(&both->host, down->bytes + down->count, sizeof down->bytes - down->count, &told) != RIBBON_DONE
        || told.length != RIBBON_CANCEL_ROOM)
        return 1;
    down->count += told.length;
    return carry_down(both);
}

/* The cancel's end, which the station has written, and then a record of another type than 12A0 (reason 11). */
static int end(session *both)
{
    static const uint8_t bad[] = {0x00, 0x0a, 0x13};
    ribbon_pushed pushed;
    ribbon_event event;
    uint8_t reply[RIBBON_REPLY_ROOM];
    if (ribbon_host_push(&both->host, both->up.bytes, both->up.count, reply, sizeof reply, &pushed, &event) != RIBBON_DONE
        || event.kind != RIBBON_EVENT_CANCELLED || pushed.taken != both->up.count)
        return 1;
    if (ribbon_host_push(&both->host, bad, sizeof bad, reply, sizeof reply, &pushed, &event) != RIBBON_REFUSED
        || pushed.taken != 2 || pushed.reason != RIBBON_REASON_BAD_TYPE)
        return 1;
    return ribbon_host_push(&both->host, bad, 1, reply, sizeof reply, &pushed, &event) != RIBBON_FAILED;
}

static int play(session *both)
{
    if (!is_told_early(&both->host) || settle(both) != 0)
        return 1;
    if (send_record(both, RIBBON_OPCODE_PUT_GET, body, sizeof body) != 0 || !is_told_asking(&both->host)
        || settle(both) != 0)
        return 1;
    if (type(both, "BOB") != 0 || press(both, RIBBON_KEY_AID, RIBBON_AID_ENTER) != 0 || settle(both) != 0)
        return 1;
    return !is_told_after(&both->host) || cancel(both) != 0 || end(both) != 0;
}

int main(void)
{
    static session both = {RIBBON_STATION_NONE, RIBBON_HOST_NONE, {{0}, 0}, {{0}, 0}};
    ribbon_told told;
    int failed = ribbon_station_new(&both.station, "IBM-3179-2") != RIBBON_DONE
                 || ribbon_host_new(&both.host, both.down.bytes, sizeof both.down.bytes, &told) != RIBBON_DONE;
    both.down.count = failed ? 0 : told.length;
    failed = failed || play(&both) != 0;
    ribbon_station_free(&both.station);
    ribbon_host_free(&both.host);
    ribbon_host_free(&both.host);
    return failed || ribbon_host_sent(&both.host, both.up.bytes, sizeof both.up.bytes, &told) != RIBBON_NOTHING_HELD;
}
