/* The bits of a format word (SC30-3533, Start of Field order): what the keys do in a field that has them. */
#include "bytes.h"
#include "check.h"
#include "ribbonscarp.h"

#define COUNT(list) (sizeof(list) / sizeof((list)[0]))

static uint8_t answer[RIBBON_ANSWER_ROOM];

/* A station that shows a field of six cells at 6 53, which holds the cursor, and is asked for its content. */
static void begin(ribbon_station *station, uint16_t format)
{
    uint8_t record[] = {0x00, 0x1e, 0x12, 0xa0, 0x00, 0x00, 0x04, 0x00, 0x00, 0x03, 0x04,
                        0x11, 0x00, 0x48, 0x11, 0x06, 0x34, 0x1d, 0x40, 0x00, 0x20, 0x00,
                        0x06, 0x14, 0x06, 0x35, 0x04, 0x52, 0x00, 0x00, 0xff, 0xef};
    uint8_t reply[64];
    ribbon_pushed pushed;
    record[18] |= (uint8_t)(format >> 8);
    record[19] = (uint8_t)format;
    CHECK(ribbon_station_new(station, "IBM-3179-2") == RIBBON_DONE);
    CHECK(ribbon_station_push(station, opening, sizeof opening, reply, sizeof reply, &pushed) == RIBBON_DONE);
    CHECK(ribbon_station_push(station, record, sizeof record, reply, sizeof reply, &pushed) == RIBBON_DONE);
}

/* Presses a key, and tells its refusal, 0 where there is none. */
static uint8_t press(ribbon_station *station, uint32_t kind, uint32_t value)
{
    ribbon_told told;
    ribbon_status status = ribbon_station_key(station, kind, value, answer, sizeof answer, &told);
    CHECK(status == RIBBON_DONE || status == RIBBON_KEY_REFUSED);
    return told.reason;
}

/* The refusal of one key in a new field of a format. */
static uint8_t refusal(uint16_t format, uint32_t kind, uint32_t value)
{
    ribbon_station station = RIBBON_STATION_NONE;
    begin(&station, format);
    uint8_t reason = press(&station, kind, value);
    ribbon_station_free(&station);
    return reason;
}

static void test_shifts(void)
{
    /* A field's shift, and which of A, comma, plus and 1 it takes, and whether Field Minus. */
    static const struct {
        uint16_t shift;
        bool takes[4], takes_minus;
    } shifts[] = {
        {RIBBON_SHIFT_ALPHABETIC, {true, true, true, true}, false},
        {RIBBON_SHIFT_ALPHABETIC_ONLY, {true, true, false, false}, false},
        {RIBBON_SHIFT_NUMERIC, {true, true, true, true}, false},
        {RIBBON_SHIFT_NUMERIC_ONLY, {false, true, true, true}, false},
        {RIBBON_SHIFT_DIGITS_ONLY, {false, false, false, true}, false},
        {RIBBON_SHIFT_SIGNED_NUMERIC, {false, false, false, true}, true},
    };
    for (size_t at = 0; at < COUNT(shifts); at++) {
        CHECK((shifts[at].shift & ~RIBBON_FORMAT_SHIFT) == 0);
        for (size_t letter = 0; letter < 4; letter++)
            CHECK(refusal(shifts[at].shift, RIBBON_KEY_CHAR, (uint8_t)"A,+1"[letter])
                  == (shifts[at].takes[letter] ? 0 : RIBBON_KEY_WRONG_CHARACTER));
        CHECK(refusal(shifts[at].shift, RIBBON_KEY_FIELD_MINUS, 0)
              == (shifts[at].takes_minus ? 0 : RIBBON_KEY_WRONG_CHARACTER));
    }
}

static void test_bits(void)
{
    CHECK(refusal(0, RIBBON_KEY_CHAR, 'A') == 0);
    CHECK(refusal(RIBBON_FORMAT_BYPASS, RIBBON_KEY_CHAR, 'A') == RIBBON_KEY_IS_PROTECTED);
    CHECK(refusal(0, RIBBON_KEY_DUP, 0) == RIBBON_KEY_DUP_NOT_ALLOWED);
    CHECK(refusal(RIBBON_FORMAT_DUP, RIBBON_KEY_DUP, 0) == 0);
    CHECK(refusal(0, RIBBON_KEY_AID, RIBBON_AID_ENTER) == 0);
    CHECK(refusal(RIBBON_FORMAT_MANDATORY_ENTER, RIBBON_KEY_AID, RIBBON_AID_ENTER) == RIBBON_KEY_MANDATORY_ENTER);
    CHECK(refusal(RIBBON_FORMAT_MANDATORY_ENTER | RIBBON_FORMAT_MODIFIED, RIBBON_KEY_AID, RIBBON_AID_ENTER) == 0);
}

/* What a field holds after `ab` and Field Exit, and its format word. */
static void test_contents(void)
{
    static const struct {
        uint16_t format;
        uint8_t cells[6];
    } rows[] = {
        {0, {0x81, 0x82, 0x00, 0x00, 0x00, 0x00}},
        {RIBBON_FORMAT_MONOCASE, {0xc1, 0xc2, 0x00, 0x00, 0x00, 0x00}},
        {RIBBON_ADJUST_ZEROS, {0xf0, 0xf0, 0xf0, 0xf0, 0x81, 0x82}},
        {RIBBON_ADJUST_BLANKS, {0x40, 0x40, 0x40, 0x40, 0x81, 0x82}},
        {RIBBON_ADJUST_MANDATORY_FILL, {0x81, 0x82, 0x00, 0x00, 0x00, 0x00}},
    };
    for (size_t at = 0; at < COUNT(rows); at++) {
        ribbon_station station = RIBBON_STATION_NONE;
        ribbon_field field;
        begin(&station, rows[at].format);
        CHECK(ribbon_station_field(&station, 0, &field) == RIBBON_DONE && field.format == (0x4000 | rows[at].format));
        CHECK(press(&station, RIBBON_KEY_CHAR, 'a') == 0 && press(&station, RIBBON_KEY_CHAR, 'b') == 0);
        CHECK(press(&station, RIBBON_KEY_FIELD_EXIT, 0) == 0);
        for (uint8_t column = 0; column < 6; column++) {
            uint8_t byte = 0xa5;
            CHECK(ribbon_station_cell(&station, 6, (uint8_t)(53 + column), &byte) == RIBBON_DONE
                  && byte == rows[at].cells[column]);
        }
        CHECK(ribbon_station_field(&station, 0, &field) == RIBBON_DONE
              && field.format == (0x4000 | RIBBON_FORMAT_MODIFIED | rows[at].format));
        ribbon_station_free(&station);
    }
    CHECK(((RIBBON_ADJUST_ZEROS | RIBBON_ADJUST_BLANKS | RIBBON_ADJUST_MANDATORY_FILL) & ~RIBBON_FORMAT_ADJUST) == 0);
}

int main(void)
{
    test_shifts();
    test_bits();
    test_contents();
    return check_end();
}
