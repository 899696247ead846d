/* Why a key is refused, in the words of the person's field, at a station with a field of each kind; why a record is. */
#include "../../c/tests/check.h"
#include "sentence.h"

#include <locale.h>
#include <stdlib.h>

/* Negotiation by a host (RFC 4777). */
static const uint8_t opening[] = {0xff, 0xfd, 0x18, 0xff, 0xfa, 0x18, 0x01, 0xff, 0xf0, 0xff, 0xfd, 0x19,
                                  0xff, 0xfb, 0x19, 0xff, 0xfd, 0x00, 0xff, 0xfb, 0x00};

/* Fields of three cells in rows 2 to 10, column 10: by their shift alphabetic, alphabetic only, numeric, numeric only,
 * digits only and hidden, signed numeric; then one with field exit required and two with mandatory fill, of which the
 * first has a label. No read waits for a key. */
static const uint8_t record[] = {
    0x00, 0x68, 0x12, 0xa0, 0x00, 0x00, 0x04, 0x00, 0x00, 0x02, 0x04, 0x40, 0x04, 0x11, 0x00, 0x08,
    0x11, 0x02, 0x09, 0x1d, 0x40, 0x00, 0x24, 0x00, 0x03, 0x11, 0x03, 0x09, 0x1d, 0x41, 0x00, 0x24, 0x00, 0x03,
    0x11, 0x04, 0x09, 0x1d, 0x42, 0x00, 0x24, 0x00, 0x03, 0x11, 0x05, 0x09, 0x1d, 0x43, 0x00, 0x24, 0x00, 0x03,
    0x11, 0x06, 0x09, 0x1d, 0x45, 0x00, 0x27, 0x00, 0x03, 0x11, 0x07, 0x09, 0x1d, 0x47, 0x00, 0x24, 0x00, 0x03,
    0x11, 0x08, 0x09, 0x1d, 0x40, 0x40, 0x24, 0x00, 0x03, 0x11, 0x09, 0x02, 0xc3, 0x96, 0x84, 0x85,
    0x11, 0x09, 0x09, 0x1d, 0x40, 0x07, 0x24, 0x00, 0x03, 0x11, 0x0a, 0x09, 0x1d, 0x40, 0x07, 0x24, 0x00, 0x03,
    0xff, 0xef};

static bindings bound;

/* A key at a field, counted from 0, or before them all; `front` is typed before it. */
static const struct {
    int field;
    const char *front;
    uint32_t kind;
    action key;
    const char *sentence;
} refused[] = {
    {0, "", RIBBON_KEY_CHAR, {ACTION_CHARACTER, 0x20ac}, "The host's characters lack '\xe2\x82\xac'."},
    {1, "", RIBBON_KEY_CHAR, {ACTION_CHARACTER, '1'}, "No '1' here: letters , . - only."},
    {2, "", RIBBON_KEY_CHAR, {ACTION_PASTED, 0x4e00}, "The host's characters lack U+4E00."},
    {3, "12", RIBBON_KEY_CHAR, {ACTION_CHARACTER, 'x'}, "No 'x' here: 0-9 + - , . only."},
    {4, "", RIBBON_KEY_INSERT, {ACTION_INSERTED, '-'}, "No such character here: digits only."},
    {4, "", RIBBON_KEY_CHAR, {ACTION_PASTED, 0x20ac}, "The host's characters lack it."},
    {4, "123\t", RIBBON_KEY_INSERT, {ACTION_INSERTED, '4'}, "No room for it: Reset, then type over."},
    {5, "", RIBBON_KEY_CHAR, {ACTION_CHARACTER, '-'}, "No '-' here: digits only, and ^N for minus."},
    {-1, "", RIBBON_KEY_CHAR, {ACTION_CHARACTER, 'y'}, "The cursor isn't in an input field: 'y' went nowhere."},
    {-1, "", RIBBON_KEY_CHAR, {ACTION_PASTED, 'y'}, "The cursor isn't in an input field."},
    {-1, "", RIBBON_KEY_DELETE, {ACTION_DELETE, 0}, "The cursor isn't in an input field."},
    {0, "", RIBBON_KEY_FIELD_MINUS, {ACTION_FIELD_MINUS, 0},
     "Field Minus is for numeric only and signed fields."},
    {3, "1,", RIBBON_KEY_FIELD_MINUS, {ACTION_FIELD_MINUS, 0}, "Field Minus needs a digit at the number's end."},
    {6, "abc", RIBBON_KEY_CHAR, {ACTION_CHARACTER, 'd'}, "The field is full: End leaves it."},
    {6, "abc", RIBBON_KEY_INSERT, {ACTION_PASTED, 'd'}, "The field is full: End leaves it."},
    {6, "abc", RIBBON_KEY_FIELD_MINUS, {ACTION_FIELD_MINUS, 0}, "Field Minus is for numeric only and signed fields."},
    {7, "ab", RIBBON_KEY_FIELD_EXIT, {ACTION_FIELD_EXIT, 0}, "'Code' must be full or empty."},
    {8, "a", RIBBON_KEY_FIELD_EXIT, {ACTION_FIELD_EXIT, 0}, "The field at row 10, column 10 must be full or empty."},
    {0, "abc\t", RIBBON_KEY_INSERT, {ACTION_INSERTED, 'x'}, "No room for 'x': Reset, then type over."},
    {0, "", RIBBON_KEY_DUP, {ACTION_DUP, 0}, "The field doesn't take Dup."},
    {0, "", RIBBON_KEY_AID, {ACTION_AID, RIBBON_AID_ENTER}, "The host asks for nothing."},
};

static void press(ribbon_station *station, uint32_t kind, uint32_t value, ribbon_status wanted, uint8_t *refusal)
{
    uint8_t answer[RIBBON_ANSWER_ROOM];
    ribbon_told told;
    CHECK(ribbon_station_key(station, kind, value, answer, sizeof answer, &told) == wanted);
    *refusal = told.reason;
}

static void check_row(size_t at)
{
    ribbon_station station = RIBBON_STATION_NONE;
    uint8_t reply[4096], refusal;
    ribbon_pushed pushed;
    char text[200];
    CHECK(ribbon_station_new_live(&station, "IBM-3179-2", NULL) == RIBBON_DONE);
    CHECK(ribbon_station_push(&station, opening, sizeof opening, reply, sizeof reply, &pushed) == RIBBON_DONE);
    CHECK(ribbon_station_push(&station, record, sizeof record, reply, sizeof reply, &pushed) == RIBBON_DONE);
    if (refused[at].field < 0)
        press(&station, RIBBON_KEY_UP, 0, RIBBON_DONE, &refusal);
    for (int field = 0; field < refused[at].field; field++)
        press(&station, RIBBON_KEY_TAB, 0, RIBBON_DONE, &refusal);
    for (const char *front = refused[at].front; *front != 0; front++)
        press(&station, *front == '\t' ? RIBBON_KEY_BACK_TAB : RIBBON_KEY_CHAR, *front == '\t' ? 0 : (uint32_t)*front,
              RIBBON_DONE, &refusal);
    press(&station, refused[at].kind, refused[at].key.value, RIBBON_KEY_REFUSED, &refusal);
    sentence_refused(&station, &(refused_key){refused[at].key, refusal, 37, false, &bound}, text, sizeof text);
    if (strcmp(text, refused[at].sentence) != 0)
        printf("row %zu: %s\n", at, text);
    CHECK(strcmp(text, refused[at].sentence) == 0);
    CHECK(mbstowcs(NULL, text, 0) <= 53); /* whole beside four signs and Reset in a status line */
    ribbon_station_free(&station);
}

static void tells_record(uint8_t reason, size_t columns, const char *wanted)
{
    char text[200];
    sentence_record(reason, columns, text, sizeof text);
    if (strcmp(text, wanted) != 0)
        printf("reason %u: %s\n", reason, text);
    CHECK(strcmp(text, wanted) == 0);
}

/* As long as the signs beside it let it be. */
static void each_record_has_its_sentence(void)
{
    char text[200];
    tells_record(33, 71, "Host data refused (reason 33: rolling of the screen); the screen stays.");
    tells_record(33, 70, "Host data refused (reason 33: rolling of the screen).");
    tells_record(30, 71, "Host data refused (reason 30: structured fields); the screen stays.");
    tells_record(24, 71, "Host data refused (reason 24: a row or a column is outside the screen).");
    tells_record(24, 70, "Host data refused (reason 24: see ^]); the screen stays.");
    tells_record(20, 79, "Host data refused (reason 20: see ^]); the screen stays.");
    for (unsigned reason = 10; reason <= 55; reason++) {
        sentence_record((uint8_t)reason, 60, text, sizeof text);
        CHECK(strlen(text) <= 60);
    }
}

int main(void)
{
    CHECK(setlocale(LC_ALL, "C.UTF-8") != NULL);
    bindings_begin(&bound);
    for (size_t at = 0; at < sizeof refused / sizeof refused[0]; at++)
        check_row(at);
    each_record_has_its_sentence();
    return check_end();
}
