/* The keys that are several of the station's, at a station with a screen of four fields. */
#include "../../c/tests/check.h"
#include "moves.h"

/* Negotiation by a host (RFC 4777), then a record. The fields: 3, 20 of six digits; 5, 75 of ten cells, in two rows;
 * 5, 60 of four, which keys don't enter; 8, 10 of three. The read leaves the cursor at the first. */
static const uint8_t opening[] = {0xff, 0xfd, 0x18, 0xff, 0xfa, 0x18, 0x01, 0xff, 0xf0, 0xff, 0xfd, 0x19,
                                  0xff, 0xfb, 0x19, 0xff, 0xfd, 0x00, 0xff, 0xfb, 0x00};
static const uint8_t record[] = {
    0x00, 0x41, 0x12, 0xa0, 0x00, 0x00, 0x04, 0x00, 0x00, 0x03, 0x04, 0x40, 0x04, 0x11, 0x00, 0x08,
    0x11, 0x03, 0x13, 0x1d, 0x45, 0x00, 0x24, 0x00, 0x06, 0x11, 0x05, 0x3b, 0x1d, 0x60, 0x00, 0x20, 0x00, 0x04,
    0x11, 0x05, 0x4a, 0x1d, 0x40, 0x00, 0x24, 0x00, 0x0a, 0x11, 0x08, 0x09, 0x1d, 0x40, 0x00, 0x24, 0x00, 0x03,
    0x11, 0x14, 0x01, 0xc1, 0xc2, 0xc3, 0xc4, 0xc5, 0xc6, 0x04, 0x52, 0x00, 0x00, 0xff, 0xef};

/* The fields: 3, 20 of three cells, which a key has to leave; 5, 20 of four, which has to be full or empty; 7, 20 of two,
 * which has to be entered. */
static const uint8_t entry_record[] = {
    0x00, 0x2f, 0x12, 0xa0, 0x00, 0x00, 0x04, 0x00, 0x00, 0x03, 0x04, 0x40, 0x04, 0x11, 0x00, 0x08,
    0x11, 0x03, 0x13, 0x1d, 0x40, 0x40, 0x24, 0x00, 0x03, 0x11, 0x05, 0x13, 0x1d, 0x40, 0x07, 0x24, 0x00, 0x04,
    0x11, 0x07, 0x13, 0x1d, 0x40, 0x08, 0x24, 0x00, 0x02, 0x04, 0x52, 0x00, 0x00, 0xff, 0xef};

static void push(ribbon_station *station, const uint8_t *bytes, size_t count)
{
    uint8_t reply[4096];
    ribbon_pushed pushed;
    CHECK(ribbon_station_push(station, bytes, count, reply, sizeof reply, &pushed) == RIBBON_DONE);
}

static ribbon_station begin(void)
{
    ribbon_station station = RIBBON_STATION_NONE;
    CHECK(ribbon_station_new_live(&station, "IBM-3179-2", NULL) == RIBBON_DONE);
    return station;
}

static void type(ribbon_station *station, const char *text)
{
    uint8_t answer[RIBBON_ANSWER_ROOM];
    ribbon_told told;
    for (; *text != 0; text++)
        CHECK(ribbon_station_key(station, RIBBON_KEY_CHAR, (uint32_t)*text, answer, sizeof answer, &told)
              == RIBBON_DONE);
}

static bool is_at(ribbon_station *station, unsigned row, unsigned column)
{
    ribbon_state state;
    bool is = ribbon_station_state(station, &state) == RIBBON_DONE && state.cursor_row == row
              && state.cursor_column == column;
    if (!is)
        printf("the cursor is at %u, %u\n", state.cursor_row, state.cursor_column);
    return is;
}

/* The cells of a row from a column on, in code page 037; `.` for 00. */
static bool holds(ribbon_station *station, uint8_t row, uint8_t column, const char *text)
{
    for (size_t at = 0; text[at] != 0; at++) {
        uint8_t byte, wanted = 0;
        unsigned place = (row - 1U) * 80 + column - 1 + (unsigned)at;
        if (text[at] != '.' && ribbon_to_037((uint32_t)text[at], &wanted) != RIBBON_DONE)
            return false;
        if (ribbon_station_cell(station, (uint8_t)(place / 80 + 1), (uint8_t)(place % 80 + 1), &byte) != RIBBON_DONE
            || byte != wanted)
            return false;
    }
    return true;
}

static void the_cursor_goes_to_each_cell(ribbon_station *station)
{
    uint8_t refusal;
    static const uint8_t cells[][2] = {{1, 1}, {24, 80}, {1, 80}, {24, 1}, {12, 40}, {12, 40}, {3, 20}};
    for (size_t at = 0; at < sizeof cells / sizeof cells[0]; at++) {
        CHECK(moves_to(station, cells[at][0], cells[at][1], &refusal) == RIBBON_DONE && refusal == 0);
        CHECK(is_at(station, cells[at][0], cells[at][1]));
    }
}

/* From, and to. */
static void new_line_goes_below(ribbon_station *station)
{
    static const uint8_t rows[][4] = {{3, 20, 5, 75}, {1, 1, 3, 20}, {3, 80, 5, 75}, {5, 80, 8, 10},
                                      {6, 2, 8, 10}, {8, 10, 3, 20}, {24, 80, 3, 20}, {4, 1, 5, 75}};
    uint8_t refusal;
    for (size_t at = 0; at < sizeof rows / sizeof rows[0]; at++) {
        CHECK(moves_to(station, rows[at][0], rows[at][1], &refusal) == RIBBON_DONE);
        CHECK(moves_new_line(station, &refusal) == RIBBON_DONE && refusal == 0);
        CHECK(is_at(station, rows[at][2], rows[at][3]));
    }
}

static void erase_eof_empties(ribbon_station *station)
{
    uint8_t refusal;
    CHECK(moves_to(station, 5, 75, &refusal) == RIBBON_DONE);
    type(station, "abcdefghij");
    CHECK(holds(station, 5, 75, "abcdefghij"));
    CHECK(moves_to(station, 5, 78, &refusal) == RIBBON_DONE);
    CHECK(moves_erase_eof(station, &refusal) == RIBBON_DONE && refusal == 0);
    CHECK(is_at(station, 5, 78) && holds(station, 5, 75, "abc......."));
    CHECK(moves_to(station, 6, 4, &refusal) == RIBBON_DONE && moves_erase_eof(station, &refusal) == RIBBON_DONE);
    CHECK(moves_to(station, 20, 1, &refusal) == RIBBON_DONE);
    CHECK(moves_erase_eof(station, &refusal) == RIBBON_KEY_REFUSED && refusal == RIBBON_KEY_IS_PROTECTED);
    CHECK(moves_to(station, 5, 60, &refusal) == RIBBON_DONE);
    CHECK(moves_erase_eof(station, &refusal) == RIBBON_KEY_REFUSED && refusal == RIBBON_KEY_IS_PROTECTED);
    CHECK(is_at(station, 5, 60) && holds(station, 20, 1, "ABCDEF"));
}

/* The last field that keys enter begins in cell 8, 10. */
static void a_field_is_further_below(ribbon_station *station)
{
    static const struct {
        uint8_t row, column;
        bool is;
    } places[] = {{1, 1, true}, {3, 20, true}, {5, 75, true}, {8, 9, true}, {8, 10, false}, {8, 12, false},
                  {24, 80, false}};
    uint8_t refusal;
    for (size_t at = 0; at < sizeof places / sizeof places[0]; at++) {
        CHECK(moves_to(station, places[at].row, places[at].column, &refusal) == RIBBON_DONE);
        CHECK(moves_has_next(station) == places[at].is);
    }
}

static void begin_and_end_of_text(ribbon_station *station)
{
    uint8_t refusal;
    CHECK(moves_to(station, 6, 2, &refusal) == RIBBON_DONE);
    CHECK(moves_field_end(station, &refusal) == RIBBON_DONE && is_at(station, 5, 78));
    CHECK(moves_field_begin(station, &refusal) == RIBBON_DONE && is_at(station, 5, 75));
    type(station, "abcdefghij");
    CHECK(moves_to(station, 5, 76, &refusal) == RIBBON_DONE);
    CHECK(moves_field_end(station, &refusal) == RIBBON_DONE && is_at(station, 6, 4));
    CHECK(moves_to(station, 20, 3, &refusal) == RIBBON_DONE);
    CHECK(moves_field_end(station, &refusal) == RIBBON_DONE && is_at(station, 20, 3));
    CHECK(moves_field_begin(station, &refusal) == RIBBON_DONE && is_at(station, 20, 3));
}

/* A field of two rows, with Backspace behind each of its cells. */
static void backspace_at_each_place(ribbon_station *station)
{
    uint8_t refusal;
    bool at_begin;
    for (unsigned offset = 0; offset < 10; offset++) {
        char wanted[] = "abcdefghij";
        unsigned place = 4 * 80 + 74 + offset;
        CHECK(moves_to(station, 5, 75, &refusal) == RIBBON_DONE);
        type(station, wanted);
        CHECK(moves_to(station, (uint8_t)(place / 80 + 1), (uint8_t)(place % 80 + 1), &refusal) == RIBBON_DONE);
        CHECK(moves_backspace(station, &refusal, &at_begin) == RIBBON_DONE && at_begin == (offset == 0));
        if (offset > 0) {
            memmove(wanted + offset - 1, wanted + offset, 10 - offset);
            wanted[9] = '.';
            place--;
        }
        CHECK(holds(station, 5, 75, wanted) && is_at(station, place / 80 + 1, place % 80 + 1));
    }
    CHECK(moves_to(station, 20, 3, &refusal) == RIBBON_DONE);
    CHECK(moves_backspace(station, &refusal, &at_begin) == RIBBON_KEY_REFUSED && refusal == RIBBON_KEY_IS_PROTECTED);
    CHECK(is_at(station, 20, 3) && !at_begin);
}

/* In a full field the cursor stands at the character that was typed last. */
static void backspace_in_a_full_field(ribbon_station *station)
{
    uint8_t refusal;
    bool at_begin;
    CHECK(is_at(station, 3, 20));
    type(station, "abc");
    CHECK(is_at(station, 3, 22));
    CHECK(moves_backspace(station, &refusal, &at_begin) == RIBBON_DONE && !at_begin);
    CHECK(is_at(station, 3, 22) && holds(station, 3, 20, "ab."));
    CHECK(moves_backspace(station, &refusal, &at_begin) == RIBBON_DONE && !at_begin);
    CHECK(is_at(station, 3, 21) && holds(station, 3, 20, "a.."));
}

/* The field that has to be entered comes first cell first, the one that has to be full at its first empty cell. */
static void the_cursor_goes_to_what_lacks(ribbon_station *station)
{
    uint8_t refusal;
    CHECK(moves_to(station, 5, 20, &refusal) == RIBBON_DONE);
    moves_to_missing(station, RIBBON_KEY_MANDATORY_FILL);
    CHECK(is_at(station, 5, 20));
    type(station, "xy");
    CHECK(moves_to(station, 1, 1, &refusal) == RIBBON_DONE);
    moves_to_missing(station, RIBBON_KEY_MANDATORY_FILL);
    CHECK(is_at(station, 5, 22));
    moves_to_missing(station, RIBBON_KEY_MANDATORY_ENTER);
    CHECK(is_at(station, 7, 20));
    moves_to_missing(station, RIBBON_KEY_IS_PROTECTED);
    CHECK(is_at(station, 7, 20));
}

int main(void)
{
    uint8_t refusal;
    bool at_begin;
    ribbon_station station = begin();
    CHECK(moves_to(&station, 2, 1, &refusal) == RIBBON_KEY_REFUSED && refusal == RIBBON_KEY_IS_LOCKED);
    CHECK(moves_new_line(&station, &refusal) == RIBBON_KEY_REFUSED && refusal == RIBBON_KEY_IS_LOCKED);
    CHECK(moves_erase_eof(&station, &refusal) == RIBBON_KEY_REFUSED && refusal == RIBBON_KEY_IS_LOCKED);
    CHECK(moves_backspace(&station, &refusal, &at_begin) == RIBBON_KEY_REFUSED && refusal == RIBBON_KEY_IS_LOCKED);
    push(&station, opening, sizeof opening);
    push(&station, record, sizeof record);
    CHECK(is_at(&station, 3, 20));
    the_cursor_goes_to_each_cell(&station);
    new_line_goes_below(&station);
    erase_eof_empties(&station);
    a_field_is_further_below(&station);
    begin_and_end_of_text(&station);
    backspace_at_each_place(&station);
    push(&station, entry_record, sizeof entry_record);
    backspace_in_a_full_field(&station);
    the_cursor_goes_to_what_lacks(&station);
    ribbon_station_free(&station);
    CHECK(moves_to(&station, 2, 1, &refusal) == RIBBON_NOTHING_HELD && refusal == 0);
    return check_end();
}
