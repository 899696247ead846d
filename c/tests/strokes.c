/* Strokes and texts of fields at stations of both kinds, looks, and the host's screen: each call once for each outcome
 * that it names. */
#include "bytes.h"
#include "check.h"
#include "outputs.h"

/* Which kind of station the tests make. */
static ribbon_status (*make)(ribbon_station *station, const char *terminal);

static ribbon_station new_station(void)
{
    ribbon_station station = RIBBON_STATION_NONE;
    CHECK(make(&station, "IBM-3179-2") == RIBBON_DONE);
    return station;
}

/* A station that has carried out a body. */
static ribbon_station station_with(const ribbon_body *body)
{
    ribbon_station station = new_station();
    ribbon_pushed pushed;
    uint8_t reply[256], record[1024] = {0x00, 0x00, 0x12, 0xa0, 0x00, 0x00, 0x04, 0x00, 0x00, 0x03};
    CHECK(body->status == RIBBON_DONE && body->size <= sizeof record - 12);
    record[0] = (uint8_t)((body->size + 10) >> 8);
    record[1] = (uint8_t)(body->size + 10);
    memcpy(record + 10, body->bytes, body->size);
    memcpy(record + 10 + body->size, "\xff\xef", 2);
    CHECK(ribbon_station_push(&station, opening, sizeof opening, reply, sizeof reply, &pushed) == RIBBON_DONE);
    CHECK(ribbon_station_push(&station, record, body->size + 12, reply, sizeof reply, &pushed) == RIBBON_DONE);
    return station;
}

/* Fields of four cells at 2 2, a signed numeric one at 4 2 and one with bypass at 6 2. */
static ribbon_station field_station(void)
{
    static const char *const texts[] = {"ABCD", "123", "WXYZ"};
    static const uint16_t formats[] = {0x4000, 0x4700, 0x6000};
    uint8_t bytes[256];
    ribbon_body body;
    ribbon_body_begin(&body, bytes, sizeof bytes);
    ribbon_body_clear_unit(&body);
    ribbon_body_write(&body, 0x00, 0x08);
    for (uint8_t at = 0; at < 3; at++) {
        ribbon_body_address(&body, (uint8_t)(2 + 2 * at), 1);
        ribbon_body_field(&body, formats[at], 0x20, 4);
        ribbon_body_text(&body, texts[at], strlen(texts[at]));
        if (at == 1)
            ribbon_body_text(&body, "-", 1); /* the sign */
    }
    return station_with(&body);
}

static int stands(ribbon_station *station, uint8_t row, uint8_t column)
{
    ribbon_state state;
    return ribbon_station_state(station, &state) == RIBBON_DONE && state.cursor_row == row
           && state.cursor_column == column;
}

static int holds(ribbon_station *station, uint8_t row, const char *bytes)
{
    uint8_t byte;
    for (uint8_t at = 0; at < 4; at++)
        if (ribbon_station_cell(station, row, (uint8_t)(2 + at), &byte) != RIBBON_DONE || byte != (uint8_t)bytes[at])
            return 0;
    return 1;
}

static void test_refused(void)
{
    ribbon_station station = new_station(), none = RIBBON_STATION_NONE;
    ribbon_told told;
    FILL(told);
    CHECK(ribbon_station_move_cursor(NULL, 1, 1, &told) == RIBBON_NULL && is_no_told(&told));
    CHECK(ribbon_station_move_cursor(&station, 1, 1, NULL) == RIBBON_NULL);
    FILL(told);
    CHECK(ribbon_station_new_line(NULL, &told) == RIBBON_NULL && is_no_told(&told));
    CHECK(ribbon_station_new_line(&station, NULL) == RIBBON_NULL);
    FILL(told);
    CHECK(ribbon_station_erase_eof(NULL, &told) == RIBBON_NULL && is_no_told(&told));
    CHECK(ribbon_station_erase_eof(&station, NULL) == RIBBON_NULL);
    FILL(told);
    CHECK(ribbon_station_move_cursor(&none, 1, 1, &told) == RIBBON_NOTHING_HELD && is_no_told(&told));
    FILL(told);
    CHECK(ribbon_station_new_line(&none, &told) == RIBBON_NOTHING_HELD && is_no_told(&told));
    FILL(told);
    CHECK(ribbon_station_erase_eof(&none, &told) == RIBBON_NOTHING_HELD && is_no_told(&told));
    static const uint8_t off[][2] = {{0, 1}, {25, 1}, {1, 0}, {1, 81}};
    for (size_t at = 0; at < sizeof off / sizeof off[0]; at++) {
        FILL(told);
        CHECK(ribbon_station_move_cursor(&station, off[at][0], off[at][1], &told) == RIBBON_BAD_ARGUMENT
              && is_no_told(&told));
    }

    /* The keyboard of a new station is locked. */
    FILL(told);
    CHECK(ribbon_station_move_cursor(&station, 5, 5, &told) == RIBBON_KEY_REFUSED && told.length == 0 && told.place == 0
          && told.reason == RIBBON_KEY_IS_LOCKED && stands(&station, 1, 1));
    CHECK(ribbon_station_move_cursor(&station, 1, 1, &told) == RIBBON_DONE && is_no_told(&told));
    CHECK(ribbon_station_new_line(&station, &told) == RIBBON_KEY_REFUSED && told.reason == RIBBON_KEY_IS_LOCKED);
    CHECK(ribbon_station_erase_eof(&station, &told) == RIBBON_KEY_REFUSED && told.reason == RIBBON_KEY_IS_LOCKED);

    ribbon_pushed pushed;
    uint8_t reply[64];
    CHECK(ribbon_station_push(&station, (const uint8_t *)"\xff\xf0", 2, reply, sizeof reply, &pushed) == RIBBON_REFUSED);
    FILL(told);
    CHECK(ribbon_station_move_cursor(&station, 5, 5, &told) == RIBBON_FAILED && is_no_told(&told));
    ribbon_station_free(&station);
}

static void test_strokes(void)
{
    ribbon_station station = field_station();
    ribbon_told told;
    CHECK(stands(&station, 2, 2));
    CHECK(ribbon_station_move_cursor(&station, 24, 80, &told) == RIBBON_DONE && is_no_told(&told)
          && stands(&station, 24, 80));
    CHECK(ribbon_station_move_cursor(&station, 1, 1, &told) == RIBBON_DONE && stands(&station, 1, 1));
    CHECK(ribbon_station_new_line(&station, &told) == RIBBON_DONE && is_no_told(&told) && stands(&station, 2, 2));
    CHECK(ribbon_station_new_line(&station, &told) == RIBBON_DONE && stands(&station, 4, 2));
    CHECK(ribbon_station_new_line(&station, &told) == RIBBON_DONE && stands(&station, 2, 2));

    CHECK(ribbon_station_move_cursor(&station, 2, 4, &told) == RIBBON_DONE);
    CHECK(ribbon_station_erase_eof(&station, &told) == RIBBON_DONE && is_no_told(&told) && stands(&station, 2, 4)
          && holds(&station, 2, "\xc1\xc2\0\0"));
    CHECK(holds(&station, 4, "\xf1\xf2\xf3\x60") && ribbon_station_move_cursor(&station, 4, 3, &told) == RIBBON_DONE);
    CHECK(ribbon_station_erase_eof(&station, &told) == RIBBON_DONE && stands(&station, 4, 3)
          && holds(&station, 4, "\xf1\0\0\0"));
    CHECK(ribbon_station_move_cursor(&station, 6, 2, &told) == RIBBON_DONE);
    CHECK(ribbon_station_erase_eof(&station, &told) == RIBBON_KEY_REFUSED && told.length == 0
          && told.reason == RIBBON_KEY_IS_PROTECTED && holds(&station, 6, "\xe6\xe7\xe8\xe9"));
    ribbon_field field;
    CHECK(ribbon_station_field(&station, 0, &field) == RIBBON_DONE && (field.format & RIBBON_FORMAT_MODIFIED) != 0);
    CHECK(ribbon_station_field(&station, 2, &field) == RIBBON_DONE && (field.format & RIBBON_FORMAT_MODIFIED) == 0);
    ribbon_station_free(&station);
}

static int is_text(ribbon_station *station, size_t index, const char *wanted)
{
    char text[RIBBON_FIELD_ROOM];
    ribbon_told told;
    FILL(text);
    return ribbon_station_field_text(station, index, text, sizeof text, &told) == RIBBON_DONE
           && told.length == strlen(wanted) && told.place == 0 && told.reason == 0
           && memcmp(text, wanted, told.length) == 0 && all_are(text + told.length, sizeof text - told.length, 0xa5);
}

static void test_field_texts(void)
{
    ribbon_station station = field_station(), none = RIBBON_STATION_NONE;
    ribbon_told told;
    char text[8];
    FILL(told);
    CHECK(ribbon_station_field_text(NULL, 0, text, sizeof text, &told) == RIBBON_NULL && is_no_told(&told));
    FILL(told);
    CHECK(ribbon_station_field_text(&station, 0, NULL, 8, &told) == RIBBON_NULL && is_no_told(&told));
    CHECK(ribbon_station_field_text(&station, 0, text, sizeof text, NULL) == RIBBON_NULL);
    FILL(text);
    FILL(told);
    CHECK(ribbon_station_field_text(&none, 0, text, sizeof text, &told) == RIBBON_NOTHING_HELD && is_no_told(&told));
    FILL(told);
    CHECK(ribbon_station_field_text(&station, 3, text, sizeof text, &told) == RIBBON_BAD_ARGUMENT && is_no_told(&told));
    CHECK(ribbon_station_field_text(&station, 0, text, 3, &told) == RIBBON_NO_ROOM && told.length == 4 && told.place == 0
          && told.reason == 0 && IS_FILLED(text));
    CHECK(ribbon_station_field_text(&station, 0, text, 4, &told) == RIBBON_DONE && told.length == 4
          && memcmp(text, "ABCD\xa5", 5) == 0);
    CHECK(is_text(&station, 1, "123-") && is_text(&station, 2, "WXYZ"));
    CHECK(ribbon_station_move_cursor(&station, 2, 4, &told) == RIBBON_DONE);
    CHECK(ribbon_station_erase_eof(&station, &told) == RIBBON_DONE && is_text(&station, 0, "AB"));
    uint8_t answer[RIBBON_ANSWER_ROOM];
    CHECK(ribbon_station_move_cursor(&station, 2, 5, &told) == RIBBON_DONE);
    CHECK(ribbon_station_key(&station, RIBBON_KEY_CHAR, 0xe9, answer, sizeof answer, &told) == RIBBON_DONE);
    CHECK(is_text(&station, 0, "AB \xc3\xa9"));
    CHECK(ribbon_station_key(&station, RIBBON_KEY_ERASE_INPUT, 0, answer, sizeof answer, &told) == RIBBON_DONE);
    CHECK(is_text(&station, 0, "") && is_text(&station, 2, "WXYZ"));
    ribbon_station_free(&station);
}

static int is_look(const ribbon_look *look, uint8_t color, const char *flags)
{
    return look->color == color && look->is_hidden == (strchr(flags, 'h') != NULL)
           && look->is_reversed == (strchr(flags, 'r') != NULL) && look->is_intense == (strchr(flags, 'i') != NULL)
           && look->is_underscored == (strchr(flags, 'u') != NULL) && look->is_blinking == (strchr(flags, 'b') != NULL)
           && look->has_separators == (strchr(flags, 's') != NULL);
}

/* An attribute, its colour and its flags on a colour display, and its flags on one without colours. */
static const struct {
    uint8_t attribute, color;
    const char *colored, *plain;
} looks[] = {
    {0x20, RIBBON_COLOR_GREEN, "", ""},
    {0x21, RIBBON_COLOR_GREEN, "r", "r"},
    {0x22, RIBBON_COLOR_WHITE, "", "i"},
    {0x26, RIBBON_COLOR_WHITE, "u", "iu"},
    {0x27, RIBBON_COLOR_GREEN, "h", "h"},
    {0x28, RIBBON_COLOR_RED, "", "b"},
    {0x2b, RIBBON_COLOR_RED, "rb", "rib"},
    {0x2d, RIBBON_COLOR_RED, "ru", "rub"},
    {0x30, RIBBON_COLOR_TURQUOISE, "s", "s"},
    {0x33, RIBBON_COLOR_YELLOW, "rs", "ris"},
    {0x36, RIBBON_COLOR_YELLOW, "u", "ius"},
    {0x38, RIBBON_COLOR_PINK, "", "bs"},
    {0x3e, RIBBON_COLOR_BLUE, "u", "iubs"},
    {0x3f, RIBBON_COLOR_GREEN, "h", "h"},
};

static void test_looks(void)
{
    ribbon_look look;
    for (size_t at = 0; at < sizeof looks / sizeof looks[0]; at++) {
        FILL(look);
        CHECK(ribbon_attribute_look(looks[at].attribute, true, &look) == RIBBON_DONE
              && is_look(&look, looks[at].color, looks[at].colored));
        FILL(look);
        CHECK(ribbon_attribute_look(looks[at].attribute, false, &look) == RIBBON_DONE
              && is_look(&look, RIBBON_COLOR_NONE, looks[at].plain));
    }
    FILL(look);
    CHECK(ribbon_attribute_look(0x1f, true, &look) == RIBBON_BAD_ARGUMENT && is_look(&look, 0, ""));
    FILL(look);
    CHECK(ribbon_attribute_look(0x40, false, &look) == RIBBON_BAD_ARGUMENT && is_look(&look, 0, ""));
    CHECK(ribbon_attribute_look(0x20, true, NULL) == RIBBON_NULL);
}

/* A host at which records are allowed, and that has sent the form. */
static ribbon_host form_host(void)
{
    static const uint8_t up[] = "\xff\xfb\x18\xff\xfa\x18\0IBM-3179-2\xff\xf0\xff\xfb\x19\xff\xfd\x19\xff\xfb\0\xff\xfd\0";
    ribbon_host host = RIBBON_HOST_NONE;
    ribbon_told told;
    ribbon_pushed pushed;
    ribbon_event event;
    uint8_t reply[64];
    CHECK(ribbon_host_new(&host, reply, sizeof reply, &told) == RIBBON_DONE);
    CHECK(ribbon_host_push(&host, up, sizeof up - 1, reply, sizeof reply, &pushed, &event) == RIBBON_DONE
          && event.kind == RIBBON_EVENT_READY);
    CHECK(ribbon_host_send(&host, RIBBON_OPCODE_PUT_GET, form, sizeof form, &told) == RIBBON_DONE);
    return host;
}

static void test_host_screen(void)
{
    ribbon_host host = form_host(), none = RIBBON_HOST_NONE;
    ribbon_station station = new_station();
    ribbon_state state;
    ribbon_field field;
    static ribbon_cell cells[RIBBON_CELLS];
    FILL(state);
    CHECK(ribbon_host_state(NULL, &state) == RIBBON_NULL && state.field_count == 0 && state.cursor_row == 0);
    CHECK(ribbon_host_state(&host, NULL) == RIBBON_NULL);
    FILL(state);
    CHECK(ribbon_host_state((ribbon_host *)(void *)&station, &state) == RIBBON_NOTHING_HELD && state.cursor_row == 0
          && !state.is_ready && !state.is_locked);
    CHECK(ribbon_host_state(&host, &state) == RIBBON_DONE && state.records == 0 && state.refused_reason == 0
          && state.field_count == 1 && state.cursor_field == 0 && state.cursor_row == 6 && state.cursor_column == 53
          && state.pending_read == RIBBON_READ_MDT && state.is_ready && !state.is_locked && !state.is_message_lit);

    FILL(field);
    CHECK(ribbon_host_field(NULL, 0, &field) == RIBBON_NULL && all_are(&field, sizeof field, 0));
    CHECK(ribbon_host_field(&host, 0, NULL) == RIBBON_NULL);
    FILL(field);
    CHECK(ribbon_host_field(&none, 0, &field) == RIBBON_NOTHING_HELD && all_are(&field, sizeof field, 0));
    FILL(field);
    CHECK(ribbon_host_field(&host, 1, &field) == RIBBON_BAD_ARGUMENT && all_are(&field, sizeof field, 0));
    CHECK(ribbon_host_field(&host, 0, &field) == RIBBON_DONE && field.row == 6 && field.column == 53
          && field.length == 10 && field.format == 0x4000);

    FILL(cells);
    CHECK(ribbon_host_cells(NULL, 1, 24, cells, RIBBON_CELLS) == RIBBON_NULL);
    CHECK(ribbon_host_cells(&host, 1, 24, NULL, RIBBON_CELLS) == RIBBON_NULL);
    CHECK(ribbon_host_cells(&none, 1, 24, cells, RIBBON_CELLS) == RIBBON_NOTHING_HELD);
    CHECK(ribbon_host_cells(&host, 0, 24, cells, RIBBON_CELLS) == RIBBON_BAD_ARGUMENT);
    CHECK(ribbon_host_cells(&host, 1, 24, cells, RIBBON_CELLS - 1) == RIBBON_NO_ROOM && IS_FILLED(cells));
    CHECK(ribbon_host_cells(&host, 1, 1, cells, RIBBON_COLUMNS) == RIBBON_DONE && cells[0].byte == 0x26
          && cells[1].character == 'H' && cells[1].attribute == 0x26 && cells[2].character == 'i'
          && cells[1].field == RIBBON_NO_FIELD);
    CHECK(all_are(cells + RIBBON_COLUMNS, sizeof cells - RIBBON_COLUMNS * sizeof cells[0], 0xa5));
    ribbon_station_free(&station);
    ribbon_host_free(&host);
}

static void test_stations(void)
{
    test_refused();
    test_strokes();
    test_field_texts();
}

int main(void)
{
    make = ribbon_station_new_extended;
    test_stations();
    make = ribbon_station_new;
    test_stations();
    test_looks();
    test_host_screen();
    return check_end();
}
