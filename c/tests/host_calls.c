/* Each call for a host's end once for each outcome that it names, with what it leaves in its outputs. */
#include "bytes.h"
#include "check.h"
#include "outputs.h"

/* The station's side of the opening, and an Attention behind it. */
static const uint8_t up[] = "\xff\xfb\x18\xff\xfa\x18\0IBM-3179-2\xff\xf0\xff\xfb\x19\xff\xfd\x19\xff\xfb\0\xff\xfd\0"
                            "\0\x0a\x12\xa0\0\0\x04\x40\0\0\xff\xef";

/* A name, with Enter. */
static const uint8_t came[] = {0x00, 0x12, 0x12, 0xa0, 0x00, 0x00, 0x04, 0x00, 0x00, 0x03,
                               0x06, 0x37, 0xf1, 0x11, 0x06, 0x35, 0xc2, 0xd6, 0xff, 0xef};

static void test_new(ribbon_host *host)
{
    ribbon_told told;
    uint8_t reply[64];

    FILL(told);
    CHECK(ribbon_host_new(NULL, reply, sizeof reply, &told) == RIBBON_NULL && is_no_told(&told));
    FILL(told);
    CHECK(ribbon_host_new(host, NULL, sizeof reply, &told) == RIBBON_NULL && is_no_told(&told));
    CHECK(ribbon_host_new(host, reply, sizeof reply, NULL) == RIBBON_NULL);
    FILL(told);
    FILL(reply);
    CHECK(ribbon_host_new(host, reply, RIBBON_REPLY_ROOM - 1, &told) == RIBBON_NO_ROOM && is_no_told(&told)
          && IS_FILLED(reply) && !host->handle.is_open);
    CHECK(ribbon_host_new(host, reply, sizeof reply, &told) == RIBBON_DONE && told.length == 3
          && memcmp(reply, "\xff\xfd\x18", 3) == 0);
    FILL(told);
    CHECK(ribbon_host_new(host, reply, sizeof reply, &told) == RIBBON_IN_USE && is_no_told(&told));
}

/* Nothing is asked and nothing has come. */
static void test_nothing_asked(ribbon_host *host)
{
    ribbon_told told;
    ribbon_answer answer;
    ribbon_read_field field;
    uint8_t record[256], content[16];

    FILL(told);
    CHECK(ribbon_host_send(host, RIBBON_OPCODE_PUT_GET, form, sizeof form, &told) == RIBBON_NOT_READY
          && is_no_told(&told));
    FILL(record);
    FILL(told);
    CHECK(ribbon_host_cancel(host, record, sizeof record, &told) == RIBBON_NOT_READY && is_no_told(&told)
          && IS_FILLED(record));
    FILL(answer);
    CHECK(ribbon_host_answer(host, &answer) == RIBBON_NO_ANSWER && answer.field_count == 0 && answer.cursor_row == 0
          && answer.cursor_column == 0 && answer.aid == 0);
    FILL(field);
    FILL(content);
    CHECK(ribbon_host_answer_field(host, 0, content, sizeof content, &field) == RIBBON_NO_ANSWER && field.length == 0
          && field.row == 0 && field.column == 0 && IS_FILLED(content));
    FILL(told);
    CHECK(ribbon_host_sent(host, record, 0, &told) == RIBBON_DONE && is_no_told(&told) && IS_FILLED(record));
}

/* None, and one of another kind. */
static void test_not_held(void)
{
    ribbon_host none = RIBBON_HOST_NONE;
    ribbon_told told;
    ribbon_pushed pushed;
    ribbon_event event;
    ribbon_answer answer;
    ribbon_read_field field;
    uint8_t reply[64], record[256], content[16];
    ribbon_station station = RIBBON_STATION_NONE;
    CHECK(ribbon_station_new(&station, "IBM-3179-2") == RIBBON_DONE);
    ribbon_host *wrong = (ribbon_host *)(void *)&station;
    ribbon_host *const held[] = {&none, wrong};
    for (size_t at = 0; at < 2; at++) {
        FILL(pushed);
        FILL(event);
        CHECK(ribbon_host_push(held[at], opening, 1, reply, sizeof reply, &pushed, &event) == RIBBON_NOTHING_HELD
              && is_pushed(&pushed, 0, 0, 0, 0) && event.kind == 0 && event.terminal == 0);
        FILL(told);
        CHECK(ribbon_host_send(held[at], 3, form, sizeof form, &told) == RIBBON_NOTHING_HELD && is_no_told(&told));
        FILL(told);
        CHECK(ribbon_host_sent(held[at], record, sizeof record, &told) == RIBBON_NOTHING_HELD && is_no_told(&told));
        FILL(told);
        CHECK(ribbon_host_cancel(held[at], record, sizeof record, &told) == RIBBON_NOTHING_HELD && is_no_told(&told));
        FILL(answer);
        CHECK(ribbon_host_answer(held[at], &answer) == RIBBON_NOTHING_HELD && answer.field_count == 0);
        FILL(field);
        FILL(content);
        CHECK(ribbon_host_answer_field(held[at], 0, content, sizeof content, &field) == RIBBON_NOTHING_HELD
              && field.length == 0 && IS_FILLED(content));
    }
    ribbon_station_free(&station);
}

static void test_null_pointers(ribbon_host *host)
{
    ribbon_told told;
    ribbon_pushed pushed;
    ribbon_event event;
    ribbon_answer answer;
    ribbon_read_field field;
    uint8_t reply[64];

    FILL(pushed);
    FILL(event);
    CHECK(ribbon_host_push(NULL, opening, 1, reply, sizeof reply, &pushed, &event) == RIBBON_NULL
          && is_pushed(&pushed, 0, 0, 0, 0) && event.kind == 0 && event.terminal == 0);
    FILL(event);
    CHECK(ribbon_host_push(host, opening, 1, reply, sizeof reply, NULL, &event) == RIBBON_NULL && event.kind == 0);
    FILL(pushed);
    CHECK(ribbon_host_push(host, opening, 1, reply, sizeof reply, &pushed, NULL) == RIBBON_NULL
          && is_pushed(&pushed, 0, 0, 0, 0));
    FILL(told);
    CHECK(ribbon_host_send(host, 3, NULL, 1, &told) == RIBBON_NULL && is_no_told(&told));
    CHECK(ribbon_host_send(host, 3, NULL, 0, NULL) == RIBBON_NULL);
    CHECK(ribbon_host_sent(host, NULL, 0, &told) == RIBBON_NULL && ribbon_host_cancel(host, NULL, 0, &told) == RIBBON_NULL);
    CHECK(ribbon_host_answer(host, NULL) == RIBBON_NULL && ribbon_host_answer(NULL, &answer) == RIBBON_NULL);
    CHECK(ribbon_host_answer_field(host, 0, NULL, 0, &field) == RIBBON_NULL);
}

/* In one piece: it ends at `ready`, and only that many bytes are taken. */
static void test_opening(ribbon_host *host)
{
    ribbon_pushed pushed;
    ribbon_event event;
    uint8_t reply[64];

    FILL(reply);
    CHECK(ribbon_host_push(host, up, sizeof up - 1, reply, sizeof reply, &pushed, &event) == RIBBON_DONE);
    CHECK(event.kind == RIBBON_EVENT_READY && event.terminal == RIBBON_TERMINAL_IBM_3179_2);
    CHECK(pushed.taken == 31 && pushed.replied == 6 + 12 && all_are(reply + 18, sizeof reply - 18, 0xa5));
    CHECK(memcmp(reply, "\xff\xfa\x18\x01\xff\xf0\xff\xfd\x19\xff\xfb\x19\xff\xfd\0\xff\xfb\0", 18) == 0);
    CHECK(ribbon_host_push(host, up + 31, sizeof up - 1 - 31, reply, 5, &pushed, &event) == RIBBON_BAD_ARGUMENT
          && is_pushed(&pushed, 0, 0, 0, 0) && event.kind == 0);
    CHECK(ribbon_host_push(host, up + 31, sizeof up - 1 - 31, reply, sizeof reply, &pushed, &event) == RIBBON_DONE
          && event.kind == RIBBON_EVENT_ATTENTION && event.terminal == 0 && pushed.taken == 12 && pushed.replied == 0);
}

static void test_sends(ribbon_host *host)
{
    static const uint8_t past_end[] = {0x04, 0x11, 0x00, 0x08, 0x11, 0x18, 0x50, 0xc1, 0xc1};
    ribbon_told told;
    uint8_t record[256];

    FILL(told);
    CHECK(ribbon_host_cancel(host, record, sizeof record, &told) == RIBBON_NO_READ_TO_CANCEL && is_no_told(&told));
    CHECK(ribbon_host_send(host, 0x0a, NULL, 0, &told) == RIBBON_BAD_ARGUMENT && is_no_told(&told));
    CHECK(ribbon_host_send(host, 0x07, NULL, 0, &told) == RIBBON_BAD_ARGUMENT && is_no_told(&told));
    CHECK(ribbon_host_send(host, 3, form, sizeof form - 1, &told) == RIBBON_BAD_ARGUMENT && is_no_told(&told));
    CHECK(ribbon_host_send(host, 3, past_end, sizeof past_end, &told) == RIBBON_REFUSED && told.length == 0
          && told.place == 0 && told.reason == RIBBON_REASON_PAST_END);
    CHECK(ribbon_host_send(host, RIBBON_OPCODE_PUT_GET, form, sizeof form, &told) == RIBBON_DONE
          && told.length == sizeof form_record);
    FILL(record);
    CHECK(ribbon_host_sent(host, record, sizeof form_record - 1, &told) == RIBBON_NO_ROOM && is_no_told(&told)
          && IS_FILLED(record));
    CHECK(ribbon_host_sent(host, record, sizeof record, &told) == RIBBON_DONE && told.length == sizeof form_record
          && memcmp(record, form_record, sizeof form_record) == 0);
    CHECK(ribbon_host_send(host, 3, form, sizeof form, &told) == RIBBON_READ_OUTSTANDING && is_no_told(&told));
    CHECK(ribbon_host_cancel(host, record, RIBBON_CANCEL_ROOM - 1, &told) == RIBBON_NO_ROOM && is_no_told(&told));
}

static void test_answer(ribbon_host *host)
{
    uint8_t reply[64], content[16];
    ribbon_pushed pushed;
    ribbon_event event;
    ribbon_answer answer;
    ribbon_read_field field;

    CHECK(ribbon_host_push(host, came, sizeof came, reply, sizeof reply, &pushed, &event) == RIBBON_DONE
          && event.kind == RIBBON_EVENT_ANSWER && pushed.taken == sizeof came);
    CHECK(ribbon_host_answer(host, &answer) == RIBBON_DONE && answer.field_count == 1 && answer.cursor_row == 6
          && answer.cursor_column == 55 && answer.aid == RIBBON_AID_ENTER);
    FILL(content);
    CHECK(ribbon_host_answer_field(host, 0, content, 1, &field) == RIBBON_NO_ROOM && field.length == 2 && field.row == 6
          && field.column == 53 && IS_FILLED(content));
    FILL(field);
    CHECK(ribbon_host_answer_field(host, 1, content, sizeof content, &field) == RIBBON_BAD_ARGUMENT
          && field.length == 0 && field.row == 0 && field.column == 0);
    CHECK(ribbon_host_answer_field(host, 0, content, sizeof content, &field) == RIBBON_DONE && field.length == 2
          && memcmp(content, "\xc2\xd6", 2) == 0 && all_are(content + 2, sizeof content - 2, 0xa5));
}

/* An answer that nobody asked for is refused at its last byte; what was told before can still be fetched. */
static void test_unasked(ribbon_host *host)
{
    ribbon_told told;
    ribbon_pushed pushed;
    ribbon_event event;
    ribbon_answer answer;
    uint8_t reply[64], record[256];

    CHECK(ribbon_host_push(host, came, sizeof came, reply, sizeof reply, &pushed, &event) == RIBBON_REFUSED
          && pushed.taken == sizeof came - 1 && pushed.reason == RIBBON_REASON_UNASKED_ANSWER
          && pushed.place == sizeof up - 1 + 2 * sizeof came - 1 && event.kind == 0);
    CHECK(ribbon_host_push(host, came, 1, reply, sizeof reply, &pushed, &event) == RIBBON_FAILED
          && is_pushed(&pushed, 0, 0, 0, 0));
    CHECK(ribbon_host_send(host, 3, form, sizeof form, &told) == RIBBON_FAILED && is_no_told(&told));
    CHECK(ribbon_host_cancel(host, record, sizeof record, &told) == RIBBON_FAILED && is_no_told(&told));
    CHECK(ribbon_host_answer(host, &answer) == RIBBON_DONE && ribbon_host_sent(host, record, sizeof record, &told) == RIBBON_DONE);
}

int main(void)
{
    ribbon_host host = RIBBON_HOST_NONE;
    ribbon_answer answer;
    test_new(&host);
    test_nothing_asked(&host);
    test_not_held();
    test_null_pointers(&host);
    test_opening(&host);
    test_sends(&host);
    test_answer(&host);
    test_unasked(&host);
    ribbon_host_free((ribbon_host *)NULL);
    ribbon_host_free(&host);
    ribbon_host_free(&host);
    CHECK(ribbon_host_answer(&host, &answer) == RIBBON_NOTHING_HELD);
    return check_end();
}
