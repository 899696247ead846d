/* Each call for a station, and those for texts, once for each outcome that it names, with what it leaves in its
 * outputs. */
#include "bytes.h"
#include "check.h"
#include "outputs.h"

#include <stdlib.h>

static int is_no_state(const ribbon_state *state)
{
    return state->records == 0 && state->refused_place == 0 && state->alarms == 0 && state->field_count == 0
           && state->cursor_field == 0
           && state->cursor_row == 0 && state->cursor_column == 0 && state->pending_read == 0
           && state->refused_reason == 0 && !state->is_ready && !state->is_locked && !state->is_message_lit
           && !state->is_blinking && state->error_row == 0;
}

static ribbon_station new_station(void)
{
    ribbon_station station = RIBBON_STATION_NONE;
    CHECK(ribbon_station_new(&station, "IBM-3179-2") == RIBBON_DONE);
    return station;
}

/* A station that shows the form. */
static ribbon_station form_station(void)
{
    ribbon_station station = new_station();
    ribbon_pushed pushed;
    uint8_t reply[256];
    CHECK(ribbon_station_push(&station, opening, sizeof opening, reply, sizeof reply, &pushed) == RIBBON_DONE);
    CHECK(ribbon_station_push(&station, form_record, sizeof form_record, reply, sizeof reply, &pushed) == RIBBON_DONE);
    return station;
}

static void test_new(void)
{
    ribbon_station station = RIBBON_STATION_NONE;
    ribbon_decoder decoder = RIBBON_DECODER_NONE;
    CHECK(ribbon_station_new(NULL, "IBM-3179-2") == RIBBON_NULL);
    CHECK(ribbon_station_new(&station, NULL) == RIBBON_NULL);
    CHECK(ribbon_station_new(&station, "") == RIBBON_BAD_ARGUMENT);
    CHECK(ribbon_station_new(&station, "IBM-3179-22") == RIBBON_BAD_ARGUMENT);
    CHECK(!station.handle.is_open && station.handle.at == NULL);
    CHECK(ribbon_station_new(&station, "ibm-5251-11") == RIBBON_DONE);
    CHECK(ribbon_station_new(&station, "IBM-3179-2") == RIBBON_IN_USE);
    ribbon_decoder_free((ribbon_decoder *)(void *)&station); /* of another kind: left alone */
    ribbon_host_free((ribbon_host *)(void *)&station);
    CHECK(station.handle.is_open);
    ribbon_station_free(&station);
    CHECK(!station.handle.is_open);
    ribbon_station_free(&station);
    ribbon_station_free(NULL);
    CHECK(ribbon_station_new(&station, "IBM-5291-1") == RIBBON_DONE);
    ribbon_station_free(&station);
    CHECK(ribbon_decoder_new(NULL) == RIBBON_NULL);
    CHECK(ribbon_decoder_new(&decoder) == RIBBON_DONE && ribbon_decoder_new(&decoder) == RIBBON_IN_USE);
    ribbon_station_free((ribbon_station *)(void *)&decoder);
    CHECK(decoder.handle.is_open);
    ribbon_decoder_free(&decoder);
    ribbon_decoder_free(&decoder);
    ribbon_decoder_free(NULL);
}

static void test_station_push(void)
{
    ribbon_station station = new_station(), none = RIBBON_STATION_NONE;
    ribbon_decoder decoder = RIBBON_DECODER_NONE;
    ribbon_pushed pushed;
    uint8_t reply[64], small[RIBBON_REPLY_ROOM - 1];
    static const uint8_t bad[] = {0x00, 0x0a, 0x13, 0x00};

    FILL(pushed);
    FILL(reply);
    CHECK(ribbon_station_push(NULL, opening, 1, reply, sizeof reply, &pushed) == RIBBON_NULL
          && is_pushed(&pushed, 0, 0, 0, 0));
    FILL(pushed);
    CHECK(ribbon_station_push(&station, NULL, 1, reply, sizeof reply, &pushed) == RIBBON_NULL
          && is_pushed(&pushed, 0, 0, 0, 0));
    FILL(pushed);
    CHECK(ribbon_station_push(&station, opening, 1, NULL, 64, &pushed) == RIBBON_NULL
          && is_pushed(&pushed, 0, 0, 0, 0));
    CHECK(ribbon_station_push(&station, opening, 1, reply, sizeof reply, NULL) == RIBBON_NULL);
    FILL(pushed);
    CHECK(ribbon_station_push(&none, opening, 1, reply, sizeof reply, &pushed) == RIBBON_NOTHING_HELD
          && is_pushed(&pushed, 0, 0, 0, 0));
    CHECK(ribbon_decoder_new(&decoder) == RIBBON_DONE);
    FILL(pushed);
    CHECK(ribbon_station_push((ribbon_station *)(void *)&decoder, opening, 1, reply, sizeof reply, &pushed)
              == RIBBON_NOTHING_HELD
          && is_pushed(&pushed, 0, 0, 0, 0));
    ribbon_decoder_free(&decoder);
    FILL(pushed);
    FILL(small);
    CHECK(ribbon_station_push(&station, opening, 1, small, sizeof small, &pushed) == RIBBON_BAD_ARGUMENT
          && is_pushed(&pushed, 0, 0, 0, 0) && IS_FILLED(small) && IS_FILLED(reply));
    FILL(pushed);
    CHECK(ribbon_station_push(&none, opening, 1, small, sizeof small, &pushed) == RIBBON_BAD_ARGUMENT
          && is_pushed(&pushed, 0, 0, 0, 0));
    CHECK(ribbon_station_push(&station, NULL, 0, small, 0, &pushed) == RIBBON_BAD_ARGUMENT);

    /* No bytes: done, also without a pointer. */
    FILL(pushed);
    CHECK(ribbon_station_push(&station, NULL, 0, reply, RIBBON_REPLY_ROOM, &pushed) == RIBBON_DONE
          && is_pushed(&pushed, 0, 0, 0, 0) && IS_FILLED(reply));

    /* What was written before the room is wanting is there, and the rest goes on. */
    CHECK(ribbon_station_push(&station, opening, sizeof opening, reply, 19, &pushed) == RIBBON_NO_ROOM);
    CHECK(pushed.taken == 3 && pushed.replied == 3 && pushed.place == 0 && pushed.reason == 0);
    CHECK(memcmp(reply, "\xff\xfb\x18", 3) == 0 && all_are(reply + 3, sizeof reply - 3, 0xa5));
    CHECK(ribbon_station_push(&station, opening + 3, sizeof opening - 3, reply, sizeof reply, &pushed) == RIBBON_DONE);
    CHECK(pushed.taken == sizeof opening - 3 && pushed.replied == 16 + 12);
    CHECK(memcmp(reply, "\xff\xfa\x18\0IBM-3179-2\xff\xf0", 16) == 0);

    /* A record's header of another type is refused at its third byte, behind a command that was answered. */
    uint8_t both[7];
    memcpy(both, "\xff\xfd\x27", 3);
    memcpy(both + 3, bad, sizeof bad);
    FILL(reply);
    CHECK(ribbon_station_push(&station, both, sizeof both, reply, sizeof reply, &pushed) == RIBBON_REFUSED);
    CHECK(is_pushed(&pushed, 5, 3, sizeof opening + 5, RIBBON_REASON_BAD_TYPE));
    CHECK(memcmp(reply, "\xff\xfc\x27", 3) == 0 && all_are(reply + 3, sizeof reply - 3, 0xa5));
    ribbon_state state;
    CHECK(ribbon_station_state(&station, &state) == RIBBON_DONE && state.is_ready
          && state.refused_place == sizeof opening + 5 && state.refused_reason == RIBBON_REASON_BAD_TYPE);
    FILL(reply);
    CHECK(ribbon_station_push(&station, opening, 1, reply, sizeof reply, &pushed) == RIBBON_FAILED
          && is_pushed(&pushed, 0, 0, 0, 0) && IS_FILLED(reply));
    ribbon_told told;
    uint8_t answer[RIBBON_ANSWER_ROOM];
    FILL(told);
    CHECK(ribbon_station_key(&station, RIBBON_KEY_TAB, 0, answer, sizeof answer, &told) == RIBBON_FAILED
          && is_no_told(&told));
    ribbon_station_free(&station);
}

static void test_key(void)
{
    ribbon_station station = new_station(), none = RIBBON_STATION_NONE;
    ribbon_told told;
    uint8_t answer[RIBBON_ANSWER_ROOM];
    FILL(told);
    CHECK(ribbon_station_key(NULL, RIBBON_KEY_TAB, 0, answer, sizeof answer, &told) == RIBBON_NULL && is_no_told(&told));
    FILL(told);
    CHECK(ribbon_station_key(&station, RIBBON_KEY_TAB, 0, NULL, sizeof answer, &told) == RIBBON_NULL
          && is_no_told(&told));
    CHECK(ribbon_station_key(&station, RIBBON_KEY_TAB, 0, answer, sizeof answer, NULL) == RIBBON_NULL);
    FILL(told);
    CHECK(ribbon_station_key(&none, RIBBON_KEY_TAB, 0, answer, sizeof answer, &told) == RIBBON_NOTHING_HELD
          && is_no_told(&told));
    FILL(told);
    FILL(answer);
    CHECK(ribbon_station_key(&station, RIBBON_KEY_TAB, 0, answer, sizeof answer - 1, &told) == RIBBON_NO_ROOM
          && is_no_told(&told) && IS_FILLED(answer));
    static const struct {
        uint32_t kind, value;
    } wrong[] = {{0, 0}, {18, 0}, {0xffffffff, 0}, {RIBBON_KEY_CHAR, 0xd800}, {RIBBON_KEY_CHAR, 0x110000},
                 {RIBBON_KEY_INSERT, 0xffffffff}, {RIBBON_KEY_AID, 0}, {RIBBON_KEY_AID, 0x100 + RIBBON_AID_ENTER}};
    for (size_t at = 0; at < sizeof wrong / sizeof wrong[0]; at++) {
        FILL(told);
        CHECK(ribbon_station_key(&station, wrong[at].kind, wrong[at].value, answer, sizeof answer, &told)
                  == RIBBON_BAD_ARGUMENT
              && is_no_told(&told) && IS_FILLED(answer));
    }
    FILL(told);
    CHECK(ribbon_station_key(&station, RIBBON_KEY_AID, RIBBON_AID_ENTER, answer, sizeof answer, &told)
              == RIBBON_NOT_READY
          && is_no_told(&told));
    CHECK(ribbon_station_key(&station, RIBBON_KEY_CHAR, 'A', answer, sizeof answer, &told) == RIBBON_KEY_REFUSED
          && told.length == 0 && told.place == 0 && told.reason == RIBBON_KEY_IS_LOCKED && IS_FILLED(answer));
    ribbon_station_free(&station);

    station = form_station();
    FILL(told);
    CHECK(ribbon_station_key(&station, RIBBON_KEY_CHAR, 'A', answer, sizeof answer, &told) == RIBBON_DONE
          && is_no_told(&told) && IS_FILLED(answer));
    CHECK(ribbon_station_key(&station, RIBBON_KEY_CHAR, 0x20ac, answer, sizeof answer, &told) == RIBBON_KEY_REFUSED
          && told.reason == RIBBON_KEY_WRONG_CHARACTER);
    CHECK(ribbon_station_key(&station, RIBBON_KEY_AID, RIBBON_AID_ENTER, answer, sizeof answer, &told) == RIBBON_DONE);
    static const uint8_t sent[] = {0x00, 0x11, 0x12, 0xa0, 0x00, 0x00, 0x04, 0x00, 0x00, 0x03,
                                   0x06, 0x36, 0xf1, 0x11, 0x06, 0x35, 0xc1, 0xff, 0xef};
    CHECK(told.length == sizeof sent && memcmp(answer, sent, sizeof sent) == 0
          && all_are(answer + sizeof sent, sizeof answer - sizeof sent, 0xa5));
    ribbon_station_free(&station);
}

static void test_looks(void)
{
    ribbon_station station = form_station(), none = RIBBON_STATION_NONE;
    ribbon_state state;
    uint8_t byte;
    char row[RIBBON_ROW_ROOM];
    ribbon_told told;
    ribbon_field field;
    static ribbon_cell cells[RIBBON_CELLS];

    CHECK(ribbon_station_state(&station, NULL) == RIBBON_NULL);
    FILL(state);
    CHECK(ribbon_station_state(NULL, &state) == RIBBON_NULL && is_no_state(&state));
    FILL(state);
    CHECK(ribbon_station_state(&none, &state) == RIBBON_NOTHING_HELD && is_no_state(&state));
    CHECK(ribbon_station_state(&station, &state) == RIBBON_DONE && state.records == 1 && state.refused_place == 0
          && state.field_count == 1 && state.cursor_field == 0 && state.cursor_row == 6 && state.cursor_column == 53
          && state.pending_read == 2 && state.refused_reason == 0 && state.is_ready && !state.is_locked
          && !state.is_message_lit && !state.is_blinking);

    byte = 0xa5;
    CHECK(ribbon_station_cell(NULL, 1, 1, &byte) == RIBBON_NULL && byte == 0);
    CHECK(ribbon_station_cell(&station, 1, 1, NULL) == RIBBON_NULL);
    byte = 0xa5;
    CHECK(ribbon_station_cell(&none, 1, 1, &byte) == RIBBON_NOTHING_HELD && byte == 0);
    static const uint8_t off[][2] = {{0, 1}, {25, 1}, {1, 0}, {1, 81}, {255, 255}};
    for (size_t at = 0; at < sizeof off / sizeof off[0]; at++) {
        byte = 0xa5;
        CHECK(ribbon_station_cell(&station, off[at][0], off[at][1], &byte) == RIBBON_BAD_ARGUMENT && byte == 0);
    }
    CHECK(ribbon_station_cell(&station, 1, 1, &byte) == RIBBON_DONE && byte == 0x26);
    CHECK(ribbon_station_cell(&station, 24, 80, &byte) == RIBBON_DONE && byte == 0);

    FILL(told);
    FILL(row);
    CHECK(ribbon_station_row(NULL, 1, row, sizeof row, &told) == RIBBON_NULL && is_no_told(&told));
    FILL(told);
    CHECK(ribbon_station_row(&station, 1, NULL, sizeof row, &told) == RIBBON_NULL && is_no_told(&told));
    CHECK(ribbon_station_row(&station, 1, row, sizeof row, NULL) == RIBBON_NULL);
    FILL(told);
    CHECK(ribbon_station_row(&none, 1, row, sizeof row, &told) == RIBBON_NOTHING_HELD && is_no_told(&told));
    FILL(told);
    CHECK(ribbon_station_row(&station, 0, row, sizeof row, &told) == RIBBON_BAD_ARGUMENT && is_no_told(&told));
    CHECK(ribbon_station_row(&station, 25, row, sizeof row, &told) == RIBBON_BAD_ARGUMENT && is_no_told(&told));
    FILL(told);
    CHECK(ribbon_station_row(&station, 1, row, sizeof row - 1, &told) == RIBBON_NO_ROOM && is_no_told(&told)
          && IS_FILLED(row));
    CHECK(ribbon_station_row(&station, 1, row, sizeof row, &told) == RIBBON_DONE && told.length == 80
          && memcmp(row, " Hi  ", 5) == 0 && all_are(row + 80, sizeof row - 80, 0xa5));

    FILL(field);
    CHECK(ribbon_station_field(NULL, 0, &field) == RIBBON_NULL && all_are(&field, sizeof field, 0));
    CHECK(ribbon_station_field(&station, 0, NULL) == RIBBON_NULL);
    FILL(field);
    CHECK(ribbon_station_field(&none, 0, &field) == RIBBON_NOTHING_HELD && all_are(&field, sizeof field, 0));
    FILL(field);
    CHECK(ribbon_station_field(&station, 1, &field) == RIBBON_BAD_ARGUMENT && all_are(&field, sizeof field, 0));
    CHECK(ribbon_station_field(&station, 0, &field) == RIBBON_DONE && field.row == 6 && field.column == 53
          && field.length == 10 && field.format == 0x4000);

    FILL(cells);
    CHECK(ribbon_station_cells(NULL, 1, 24, cells, RIBBON_CELLS) == RIBBON_NULL);
    CHECK(ribbon_station_cells(&station, 1, 24, NULL, RIBBON_CELLS) == RIBBON_NULL);
    CHECK(ribbon_station_cells(&none, 1, 24, cells, RIBBON_CELLS) == RIBBON_NOTHING_HELD);
    CHECK(ribbon_station_cells(&station, 0, 24, cells, RIBBON_CELLS) == RIBBON_BAD_ARGUMENT);
    CHECK(ribbon_station_cells(&station, 1, 25, cells, RIBBON_CELLS) == RIBBON_BAD_ARGUMENT);
    CHECK(ribbon_station_cells(&station, 3, 2, cells, RIBBON_CELLS) == RIBBON_BAD_ARGUMENT);
    CHECK(ribbon_station_cells(&station, 1, 24, cells, RIBBON_CELLS - 1) == RIBBON_NO_ROOM);
    CHECK(IS_FILLED(cells));
    CHECK(ribbon_station_cells(&station, 6, 6, cells, RIBBON_COLUMNS) == RIBBON_DONE);
    CHECK(cells[51].byte == 0x27 && cells[51].attribute == 0x20 && cells[51].field == RIBBON_NO_FIELD);
    CHECK(cells[52].byte == 0 && cells[52].attribute == 0x27 && cells[52].field == 0 && cells[52].character == ' ');
    CHECK(cells[61].field == 0 && cells[62].field == RIBBON_NO_FIELD && cells[62].byte == 0x20);
    CHECK(cells[62].attribute == 0x20 && cells[63].attribute == 0x20);
    CHECK(all_are(cells + RIBBON_COLUMNS, sizeof cells - RIBBON_COLUMNS * sizeof cells[0], 0xa5));
    CHECK(ribbon_station_cells(&station, 1, 24, cells, RIBBON_CELLS) == RIBBON_DONE);
    CHECK(cells[0].byte == 0x26 && cells[0].attribute == 0x20 && cells[0].character == ' ');
    CHECK(cells[1].byte == 0xc8 && cells[1].attribute == 0x26 && cells[1].character == 'H');
    CHECK(cells[2].character == 'i' && cells[3].attribute == 0x20 && cells[4].attribute == 0x20);

    uint32_t rows = 0xa5;
    CHECK(ribbon_station_changed(NULL, &rows) == RIBBON_NULL && rows == 0);
    CHECK(ribbon_station_changed(&station, NULL) == RIBBON_NULL);
    rows = 0xa5;
    CHECK(ribbon_station_changed(&none, &rows) == RIBBON_NOTHING_HELD && rows == 0);
    CHECK(ribbon_station_changed(&station, &rows) == RIBBON_DONE && rows == (1u << 0 | 1u << 5));
    CHECK(ribbon_station_changed(&station, &rows) == RIBBON_DONE && rows == 0);
    uint8_t answer[RIBBON_ANSWER_ROOM];
    CHECK(ribbon_station_key(&station, RIBBON_KEY_CHAR, 'A', answer, sizeof answer, &told) == RIBBON_DONE);
    CHECK(ribbon_station_changed(&station, &rows) == RIBBON_DONE && rows == 1u << 5);
    ribbon_station_free(&station);
}

static void test_texts(void)
{
    uint32_t character = 0xa5;
    uint8_t byte = 0xa5;
    CHECK(strcmp(ribbon_version(), RIBBON_VERSION) == 0);
    for (unsigned number = 0; number < 256; number++) {
        CHECK(ribbon_reason_text((uint8_t)number)[0] != 0 && ribbon_refusal_text((uint8_t)number)[0] != 0
              && ribbon_status_text(number)[0] != 0);
    }
    CHECK(strcmp(ribbon_status_text(0xffffffff), ribbon_status_text(99)) == 0);
    CHECK(strcmp(ribbon_status_text(RIBBON_NULL), ribbon_status_text(99)) != 0);
    CHECK(ribbon_from_037(0xc1, &character) == RIBBON_DONE && character == 'A');
    CHECK(ribbon_from_037(0x3f, &character) == RIBBON_BAD_ARGUMENT && character == 0);
    CHECK(ribbon_from_037(0xff, &character) == RIBBON_BAD_ARGUMENT && ribbon_from_037(0xc1, NULL) == RIBBON_NULL);
    CHECK(ribbon_to_037(0xe9, &byte) == RIBBON_DONE && byte == 0x51);
    byte = 0xa5;
    CHECK(ribbon_to_037(0x20ac, &byte) == RIBBON_BAD_ARGUMENT && byte == 0);
    CHECK(ribbon_to_037(0xd800, &byte) == RIBBON_BAD_ARGUMENT && ribbon_to_037(0x110000, &byte) == RIBBON_BAD_ARGUMENT);
    CHECK(ribbon_to_037('A', NULL) == RIBBON_NULL);
    for (unsigned number = 0x40; number < 0xff; number++)
        CHECK(ribbon_from_037((uint8_t)number, &character) == RIBBON_DONE
              && ribbon_to_037(character, &byte) == RIBBON_DONE && byte == number);
    CHECK(ribbon_reply_room(0) >= RIBBON_REPLY_ROOM && ribbon_reply_room(1) >= ribbon_reply_room(0));
    CHECK(ribbon_reply_room(SIZE_MAX) == SIZE_MAX);
}

/* No push with the room that ribbon_reply_room names lacks room: many SENDs, many commands, cut anywhere. */
static void test_reply_room(void)
{
    static const uint8_t send[] = {0xff, 0xfa, 0x18, 0x01, 0xff, 0xf0};
    uint8_t bytes[600], reply[3 * 600 + 40];
    for (size_t at = 0; at < sizeof bytes; at++)
        bytes[at] = send[at % sizeof send];
    for (size_t first = 0; first < 7; first++)
        for (size_t count = 0; count < 20; count++) {
            ribbon_station station = RIBBON_STATION_NONE;
            ribbon_pushed pushed;
            size_t at = 0;
            ribbon_station_new(&station, "IBM-5251-11");
            ribbon_station_push(&station, opening, 9, reply, sizeof reply, &pushed);
            ribbon_station_push(&station, bytes, first, reply, ribbon_reply_room(first), &pushed);
            for (at = first; at + count <= sizeof bytes && count > 0; at += count)
                if (ribbon_station_push(&station, bytes + at, count, reply, ribbon_reply_room(count), &pushed)
                    != RIBBON_DONE)
                    break;
            CHECK(count == 0 || at + count > sizeof bytes);
            ribbon_station_free(&station);
        }
}

/* Ten thousand stations, hosts and decoders at a time. */
static void test_many(void)
{
    enum { COUNT = 10000 };
    ribbon_station *stations = calloc(COUNT, sizeof *stations);
    ribbon_host *hosts = calloc(COUNT, sizeof *hosts);
    ribbon_decoder *decoders = calloc(COUNT, sizeof *decoders);
    unsigned good = 0;
    uint8_t reply[64];
    ribbon_told told;
    ribbon_pushed pushed;
    ribbon_step step;
    uint8_t unit[RIBBON_UNIT_ROOM];
    for (size_t at = 0; at < COUNT; at++)
        good += ribbon_station_new(&stations[at], "IBM-3179-2") == RIBBON_DONE
                && ribbon_host_new(&hosts[at], reply, sizeof reply, &told) == RIBBON_DONE
                && ribbon_decoder_new(&decoders[at]) == RIBBON_DONE;
    CHECK(good == COUNT);
    good = 0;
    for (size_t at = 0; at < COUNT; at++)
        good += ribbon_station_push(&stations[at], opening, 3, reply, sizeof reply, &pushed) == RIBBON_DONE
                && pushed.replied == 3
                && ribbon_decoder_push(&decoders[at], opening, 3, unit, sizeof unit, &step) == RIBBON_DONE
                && step.kind == RIBBON_STEP_TELNET;
    CHECK(good == COUNT);
    for (size_t at = COUNT; at > 0; at--) {
        ribbon_station_free(&stations[at - 1]);
        ribbon_host_free(&hosts[at - 1]);
        ribbon_decoder_free(&decoders[at - 1]);
    }
    free(stations);
    free(hosts);
    free(decoders);
}

int main(int count, char **words)
{
    test_new();
    test_station_push();
    test_key();
    test_looks();
    test_texts();
    test_reply_room();
    if (count < 2 || strcmp(words[1], "few") != 0)
        test_many();
    return check_end();
}
