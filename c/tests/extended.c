/* Stations and decoders of the extended kind, beside those of the profile. */
#include "bytes.h"
#include "check.h"
#include "ribbonscarp.h"

typedef ribbon_status new_station(ribbon_station *station, const char *terminal);

/* What a station has written to its host. */
static uint8_t line[16384];
static size_t line_size;

static void write_all(const uint8_t *bytes, size_t count)
{
    CHECK(count <= sizeof line - line_size);
    memcpy(line + line_size, bytes, count);
    line_size += count;
}

/* Pushes bytes as the header's first example does, into a buffer of so much room. How many calls that took. */
static unsigned push(ribbon_station *station, const uint8_t *bytes, size_t count, size_t room, ribbon_status *status)
{
    uint8_t reply[4096];
    ribbon_pushed pushed;
    unsigned calls = 0;
    *status = RIBBON_NO_ROOM;
    for (size_t at = 0; *status == RIBBON_NO_ROOM; at += pushed.taken) {
        *status = ribbon_station_push(station, bytes + at, count - at, reply, room, &pushed);
        write_all(reply, pushed.replied);
        calls += 1;
    }
    return calls;
}

/* A record of opcode Put/Get around a body. */
static size_t record_of(const uint8_t *body, size_t size, uint8_t *record)
{
    static const uint8_t head[] = {0x00, 0x00, 0x12, 0xa0, 0x00, 0x00, 0x04, 0x00, 0x00, 0x03};
    memcpy(record, head, sizeof head);
    record[1] = (uint8_t)(sizeof head + size);
    memcpy(record + sizeof head, body, size);
    memcpy(record + sizeof head + size, "\xff\xef", 2);
    return sizeof head + size + 2;
}

static unsigned push_body(ribbon_station *station, const char *body, size_t size, size_t room, ribbon_status *status)
{
    uint8_t record[256];
    line_size = 0;
    return push(station, record, record_of((const uint8_t *)body, size, record), room, status);
}

#define BODY(text) (text), sizeof(text) - 1

static ribbon_station shows_form(new_station *make)
{
    ribbon_station station = RIBBON_STATION_NONE;
    ribbon_status status;
    line_size = 0;
    CHECK(make(&station, "IBM-3179-2") == RIBBON_DONE);
    push(&station, opening, sizeof opening, 64, &status);
    CHECK(status == RIBBON_DONE && line_size == 3 + 16 + 12);
    push(&station, form_record, sizeof form_record, 64, &status);
    CHECK(status == RIBBON_DONE && line_size == 3 + 16 + 12);
    return station;
}

/* The header's first two examples: a form comes, is filled, and Enter answers it. */
static void test_examples(new_station *make)
{
    static const uint8_t wanted[] = {0x00, 0x12, 0x12, 0xa0, 0x00, 0x00, 0x04, 0x00, 0x00, 0x03,
                                     0x06, 0x37, 0xf1, 0x11, 0x06, 0x35, 0xc2, 0xd6, 0xff, 0xef};
    ribbon_station station = shows_form(make);
    uint8_t answer[RIBBON_ANSWER_ROOM], byte;
    char text[RIBBON_ROW_ROOM];
    ribbon_cell cells[RIBBON_COLUMNS];
    ribbon_state state;
    ribbon_field field;
    ribbon_told told;
    uint32_t rows;
    CHECK(ribbon_station_key(&station, RIBBON_KEY_CHAR, 'B', answer, sizeof answer, &told) == RIBBON_DONE);
    CHECK(ribbon_station_key(&station, RIBBON_KEY_CHAR, 'O', answer, sizeof answer, &told) == RIBBON_DONE);
    CHECK(ribbon_station_state(&station, &state) == RIBBON_DONE && state.records == 1 && state.field_count == 1
          && state.cursor_row == 6 && state.cursor_column == 55 && state.cursor_field == 0 && state.is_ready
          && !state.is_locked && state.error_row == 0);
    CHECK(ribbon_station_cell(&station, 6, 53, &byte) == RIBBON_DONE && byte == 0xc2);
    CHECK(ribbon_station_cells(&station, 6, 6, cells, RIBBON_COLUMNS) == RIBBON_DONE && cells[52].byte == 0xc2
          && cells[52].field == 0 && cells[0].field == RIBBON_NO_FIELD);
    CHECK(ribbon_station_row(&station, 1, text, sizeof text, &told) == RIBBON_DONE && told.length == 80
          && memcmp(text, " Hi ", 4) == 0);
    CHECK(ribbon_station_field(&station, 0, &field) == RIBBON_DONE && field.row == 6 && field.column == 53
          && field.length == 10);
    CHECK(ribbon_station_changed(&station, &rows) == RIBBON_DONE && rows == 0x21);
    CHECK(ribbon_station_key(&station, RIBBON_KEY_AID, RIBBON_AID_ENTER, answer, sizeof answer, &told) == RIBBON_DONE);
    CHECK(told.length == sizeof wanted && memcmp(answer, wanted, sizeof wanted) == 0);
    CHECK(ribbon_station_key(&station, RIBBON_KEY_CHAR, 'X', answer, sizeof answer, &told) == RIBBON_KEY_REFUSED
          && told.reason == RIBBON_KEY_IS_LOCKED);
    ribbon_station_free(&station);
    CHECK(!station.handle.is_open);
}

static const char query[] = "\x04\xf3\x00\x05\xd9\x70\x00";
static const char save[] = "\x04\x02";

/* What is told at once is written in pieces where there is little room, and is the same. */
static void test_pieces(const char *body, size_t size)
{
    static uint8_t whole[sizeof line];
    ribbon_station station = shows_form(ribbon_station_new_extended);
    ribbon_status status;
    CHECK(push_body(&station, body, size, 4096, &status) == 1 && status == RIBBON_DONE);
    size_t whole_size = line_size;
    memcpy(whole, line, line_size);
    CHECK(whole_size > 64 && memcmp(whole + whole_size - 2, "\xff\xef", 2) == 0);
    for (size_t room = 17; room <= 64; room += 47) {
        CHECK(push_body(&station, body, size, room, &status) == (whole_size + room - 1) / room);
        CHECK(status == RIBBON_DONE && line_size == whole_size && memcmp(line, whole, whole_size) == 0);
    }
    ribbon_station_free(&station);
}

/* While a rest waits no byte is taken and no key pressed, and the rest comes also by a push of no bytes. */
static void test_rest(void)
{
    ribbon_station station = shows_form(ribbon_station_new_extended);
    uint8_t record[64], reply[64], answer[RIBBON_ANSWER_ROOM], more[3] = {0xff, 0xfd, 0x27};
    size_t size = record_of((const uint8_t *)query, sizeof query - 1, record);
    ribbon_pushed pushed;
    ribbon_state state;
    ribbon_told told;
    FILL(reply);
    CHECK(ribbon_station_push(&station, record, size, reply, sizeof reply, &pushed) == RIBBON_NO_ROOM);
    CHECK(pushed.taken == size && pushed.replied == 64 && pushed.place == 0 && pushed.reason == 0);
    CHECK(memcmp(reply, "\x00\x47\x12\xa0", 4) == 0);
    FILL(answer);
    CHECK(ribbon_station_key(&station, RIBBON_KEY_ATTENTION, 0, answer, sizeof answer, &told) == RIBBON_NO_ROOM
          && told.length == 0 && IS_FILLED(answer));
    CHECK(ribbon_station_key(&station, RIBBON_KEY_RESET, 0, answer, sizeof answer, &told) == RIBBON_NO_ROOM);
    CHECK(ribbon_station_move_cursor(&station, 1, 1, &told) == RIBBON_NO_ROOM && told.reason == 0);
    CHECK(ribbon_station_new_line(&station, &told) == RIBBON_NO_ROOM && told.reason == 0);
    CHECK(ribbon_station_erase_eof(&station, &told) == RIBBON_NO_ROOM && told.reason == 0);
    CHECK(ribbon_station_state(&station, &state) == RIBBON_DONE && state.records == 2 && state.cursor_row == 6);
    FILL(reply);
    CHECK(ribbon_station_push(&station, more, sizeof more, reply, 8, &pushed) == RIBBON_BAD_ARGUMENT
          && pushed.taken == 0 && pushed.replied == 0 && IS_FILLED(reply));
    CHECK(ribbon_station_push(&station, NULL, 0, reply, RIBBON_REPLY_ROOM, &pushed) == RIBBON_DONE);
    CHECK(pushed.taken == 0 && pushed.replied == 9 && memcmp(reply + 7, "\xff\xef", 2) == 0
          && all_are(reply + 9, sizeof reply - 9, 0xa5));
    CHECK(ribbon_station_push(&station, more, sizeof more, reply, sizeof reply, &pushed) == RIBBON_DONE);
    CHECK(pushed.taken == 3 && pushed.replied == 3 && memcmp(reply, "\xff\xfc\x27", 3) == 0);
    CHECK(ribbon_station_key(&station, RIBBON_KEY_ATTENTION, 0, answer, sizeof answer, &told) == RIBBON_DONE
          && told.length == 12);
    /* The rest and the answer to what comes behind it fit into one buffer. */
    CHECK(ribbon_station_push(&station, record, size, reply, 63, &pushed) == RIBBON_NO_ROOM && pushed.replied == 63);
    CHECK(ribbon_station_push(&station, more, sizeof more, reply, sizeof reply, &pushed) == RIBBON_DONE);
    CHECK(pushed.taken == 3 && pushed.replied == 10 + 3 && memcmp(reply + 8, "\xff\xef\xff\xfc\x27", 5) == 0);
    ribbon_station_free(&station);
}

/* Write Error Code, with the cursor at 6 53 and a white ERR. */
static const char error[] = "\x04\x21\x13\x06\x35\x22\xc5\xd9\xd9";

static void test_errors(void)
{
    ribbon_station station = shows_form(ribbon_station_new_extended);
    uint8_t answer[RIBBON_ANSWER_ROOM], byte;
    ribbon_status status;
    ribbon_state state;
    ribbon_told told;
    push_body(&station, BODY(error), 64, &status);
    CHECK(status == RIBBON_DONE && line_size == 0);
    CHECK(ribbon_station_state(&station, &state) == RIBBON_DONE && state.error_row == 24 && state.is_locked);
    CHECK(ribbon_station_cell(&station, 24, 2, &byte) == RIBBON_DONE && byte == 0xc5);
    CHECK(ribbon_station_key(&station, RIBBON_KEY_CHAR, 'X', answer, sizeof answer, &told) == RIBBON_KEY_REFUSED
          && told.reason == RIBBON_KEY_IS_LOCKED);
    CHECK(ribbon_station_move_cursor(&station, 1, 1, &told) == RIBBON_KEY_REFUSED && told.reason == RIBBON_KEY_IS_LOCKED);
    CHECK(ribbon_station_key(&station, RIBBON_KEY_RESET, 0, answer, sizeof answer, &told) == RIBBON_DONE
          && told.length == 0);
    CHECK(ribbon_station_state(&station, &state) == RIBBON_DONE && state.error_row == 0 && !state.is_locked);
    CHECK(ribbon_station_cell(&station, 24, 2, &byte) == RIBBON_DONE && byte == 0x00);
    CHECK(ribbon_station_key(&station, RIBBON_KEY_CHAR, 'X', answer, sizeof answer, &told) == RIBBON_DONE);
    ribbon_station_free(&station);
}

/* A Write whose second control character has the bit 04 is an alarm, in each record that isn't refused; no read and no key
 * is one. */
static void test_alarms(new_station *make)
{
    static const struct {
        const char *body;
        size_t size;
        uint64_t alarms; /* so far */
    } rows[] = {{BODY("\x04\x11\x00\x00"), 0},
                {BODY("\x04\x11\x00\x04"), 1},
                {BODY("\x04\x11\x04\x08"), 1},
                {BODY("\x04\x11\x00\x0c\xc1\x04\x11\x20\x04"), 3},
                {BODY("\x04\x52\x00\x04"), 3}};
    ribbon_station station = shows_form(make);
    uint8_t answer[RIBBON_ANSWER_ROOM];
    ribbon_status status;
    ribbon_state state;
    ribbon_told told;
    for (size_t i = 0; i < sizeof rows / sizeof rows[0]; i++) {
        push_body(&station, rows[i].body, rows[i].size, 64, &status);
        CHECK(status == RIBBON_DONE && ribbon_station_state(&station, &state) == RIBBON_DONE
              && state.alarms == rows[i].alarms);
    }
    (void)ribbon_station_key(&station, RIBBON_KEY_HOME, 0, answer, sizeof answer, &told);
    CHECK(ribbon_station_state(&station, &state) == RIBBON_DONE && state.alarms == 3);
    push_body(&station, BODY("\x04\x11\x00\x04\x11\x18\x50\xc1\xc2"), 64, &status);
    CHECK(status == RIBBON_REFUSED && ribbon_station_state(&station, &state) == RIBBON_DONE && state.alarms == 3
          && state.refused_reason == RIBBON_REASON_PAST_END);
    ribbon_station_free(&station);
}

/* An error, its text, Reset and a screen that comes back sound nothing; a Write beside them does. */
static void test_alarms_beside(void)
{
    static const struct {
        const char *body;
        size_t size;
        uint64_t alarms; /* so far */
    } rows[] = {{BODY("\x04\x11\x00\xfb"), 0},
                {BODY("\x04\x11\x00\x7f"), 1},
                {BODY("\x04\x11\x00\x04\xc1\x04\x21\x22\xc5\x04\x11\x00\x04\x04\x11\x00\x0c"), 4},
                {BODY("\x04\x21\x22\xc5"), 4},
                {BODY("\x04\x12\x04\x40\x04\x11\x00\x22"), 4},
                {BODY("\x04\x12\x04\x11\x00\x04"), 5}};
    ribbon_station station = shows_form(ribbon_station_new_extended);
    uint8_t answer[RIBBON_ANSWER_ROOM];
    ribbon_status status;
    ribbon_state state;
    ribbon_told told;
    for (size_t i = 0; i < sizeof rows / sizeof rows[0]; i++) {
        push_body(&station, rows[i].body, rows[i].size, 64, &status);
        CHECK(status == RIBBON_DONE && ribbon_station_state(&station, &state) == RIBBON_DONE
              && state.alarms == rows[i].alarms);
        (void)ribbon_station_key(&station, RIBBON_KEY_RESET, 0, answer, sizeof answer, &told);
        CHECK(ribbon_station_state(&station, &state) == RIBBON_DONE && state.alarms == rows[i].alarms);
    }
    ribbon_station_free(&station);
}

/* A station of the profile refuses what it always did, and knows no Reset. */
static void test_profile(void)
{
    static const struct {
        const char *body;
        size_t size;
        uint8_t reason;
    } rows[] = {{BODY(query), RIBBON_REASON_STRUCTURED_FIELD},
                {BODY(save), RIBBON_REASON_SAVE_RESTORE},
                {BODY(error), RIBBON_REASON_ERROR_CODE},
                {BODY("\x04\x62"), RIBBON_REASON_READ_SCREEN},
                {BODY("\x04\x72"), RIBBON_REASON_READ_IMMEDIATE}};
    for (size_t i = 0; i < sizeof rows / sizeof rows[0]; i++) {
        ribbon_station station = shows_form(ribbon_station_new);
        uint8_t answer[RIBBON_ANSWER_ROOM];
        ribbon_status status;
        ribbon_state state;
        ribbon_told told;
        FILL(answer);
        CHECK(ribbon_station_key(&station, RIBBON_KEY_RESET, 0, answer, sizeof answer, &told) == RIBBON_BAD_ARGUMENT
              && told.length == 0 && IS_FILLED(answer));
        push_body(&station, rows[i].body, rows[i].size, 64, &status);
        CHECK(status == RIBBON_REFUSED && line_size == 0);
        CHECK(ribbon_station_state(&station, &state) == RIBBON_DONE && state.refused_reason == rows[i].reason
              && state.error_row == 0);
        ribbon_station_free(&station);
    }
    ribbon_station none = RIBBON_STATION_NONE;
    uint8_t answer[RIBBON_ANSWER_ROOM];
    ribbon_told told;
    CHECK(ribbon_station_key(&none, RIBBON_KEY_RESET, 0, answer, sizeof answer, &told) == RIBBON_BAD_ARGUMENT);
    CHECK(ribbon_station_key(&none, RIBBON_KEY_HOME, 0, answer, sizeof answer, &told) == RIBBON_NOTHING_HELD);
}

static void test_new(void)
{
    ribbon_station station = RIBBON_STATION_NONE;
    ribbon_decoder decoder = RIBBON_DECODER_NONE;
    ribbon_pushed pushed;
    uint8_t reply[64];
    CHECK(ribbon_station_new_extended(NULL, "IBM-3179-2") == RIBBON_NULL);
    CHECK(ribbon_station_new_extended(&station, NULL) == RIBBON_NULL);
    CHECK(ribbon_station_new_extended(&station, "IBM-3179-22") == RIBBON_BAD_ARGUMENT && !station.handle.is_open);
    CHECK(ribbon_station_new_extended(&station, "ibm-5251-11") == RIBBON_DONE);
    CHECK(ribbon_station_new_extended(&station, "IBM-5251-11") == RIBBON_IN_USE);
    CHECK(ribbon_station_new(&station, "IBM-5251-11") == RIBBON_IN_USE);
    ribbon_decoder_free((ribbon_decoder *)(void *)&station); /* of another kind: left alone */
    ribbon_host_free((ribbon_host *)(void *)&station);
    CHECK(station.handle.is_open);
    CHECK(ribbon_station_push(&station, NULL, 0, reply, 17, &pushed) == RIBBON_DONE && pushed.replied == 0);
    CHECK(ribbon_station_push(&station, opening, 1, reply, 16, &pushed) == RIBBON_BAD_ARGUMENT && pushed.taken == 0);
    ribbon_station_free(&station);
    ribbon_station_free(&station);
    CHECK(ribbon_decoder_new_extended(NULL) == RIBBON_NULL);
    CHECK(ribbon_decoder_new_extended(&decoder) == RIBBON_DONE);
    CHECK(ribbon_decoder_new_extended(&decoder) == RIBBON_IN_USE && ribbon_decoder_new(&decoder) == RIBBON_IN_USE);
    ribbon_station_free((ribbon_station *)(void *)&decoder);
    CHECK(decoder.handle.is_open);
    ribbon_decoder_free(&decoder);
    ribbon_decoder_free(&decoder);
}

/* Both kinds of decoder tell a query's record alike up to its element, which one of them refuses. */
static void test_decoders(void)
{
    uint8_t record[64], unit[RIBBON_UNIT_ROOM];
    size_t size = record_of((const uint8_t *)query, sizeof query - 1, record);
    ribbon_decoder decoder = RIBBON_DECODER_NONE;
    ribbon_step step;
    uint64_t place;
    CHECK(ribbon_decoder_new_extended(&decoder) == RIBBON_DONE);
    CHECK(ribbon_decoder_push(&decoder, record, size, unit, sizeof unit, &step) == RIBBON_DONE);
    CHECK(step.kind == RIBBON_STEP_HEADER && step.taken == 10 && step.opcode == RIBBON_OPCODE_PUT_GET);
    CHECK(ribbon_decoder_push(&decoder, record + 10, size - 10, unit, sizeof unit, &step) == RIBBON_DONE);
    CHECK(step.kind == RIBBON_STEP_ELEMENT && step.taken == sizeof query - 1 && step.length == sizeof query - 1
          && memcmp(unit, query, step.length) == 0);
    CHECK(ribbon_decoder_finish(&decoder, &place) == RIBBON_TRUNCATED && place == 10 + sizeof query - 1);
    CHECK(ribbon_decoder_push(&decoder, record, size, unit, sizeof unit, &step) == RIBBON_FAILED);
    ribbon_decoder_free(&decoder);
    CHECK(ribbon_decoder_new(&decoder) == RIBBON_DONE);
    CHECK(ribbon_decoder_push(&decoder, record, size, unit, sizeof unit, &step) == RIBBON_DONE
          && step.kind == RIBBON_STEP_HEADER);
    CHECK(ribbon_decoder_push(&decoder, record + 10, size - 10, unit, sizeof unit, &step) == RIBBON_REFUSED
          && step.reason == RIBBON_REASON_STRUCTURED_FIELD && step.place == 11);
    ribbon_decoder_free(&decoder);
}

int main(void)
{
    test_new();
    test_examples(ribbon_station_new);
    test_examples(ribbon_station_new_extended);
    test_pieces(BODY(query));
    test_pieces(BODY(save));
    test_rest();
    test_errors();
    test_alarms(ribbon_station_new);
    test_alarms(ribbon_station_new_extended);
    test_alarms_beside();
    test_profile();
    test_decoders();
    return check_end();
}
