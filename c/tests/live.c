/* Live stations: a refused record ends none, each says who it is, and acts on what format words ask of an operator. */
#include "bytes.h"
#include "check.h"
#include "ribbonscarp.h"

#include <stdlib.h>

#define TEXT(text) (const uint8_t *)(text), sizeof(text) - 1

/* What the station of a test has written since it was last looked at. */
static uint8_t line[512];
static size_t line_size;
static uint8_t answer[RIBBON_ANSWER_ROOM];

static ribbon_status push(ribbon_station *station, const uint8_t *bytes, size_t count)
{
    ribbon_pushed pushed;
    ribbon_status status = RIBBON_NO_ROOM;
    for (size_t at = 0; status == RIBBON_NO_ROOM; at += pushed.taken) {
        status = ribbon_station_push(station, bytes + at, count - at, line + line_size, sizeof line - line_size, &pushed);
        line_size += pushed.replied;
    }
    return status;
}

/* These bytes are taken, and those are all that is written then. */
static void answers(ribbon_station *station, const uint8_t *bytes, size_t count, const uint8_t *wanted, size_t size)
{
    line_size = 0;
    CHECK(push(station, bytes, count) == RIBBON_DONE);
    CHECK(line_size == size && memcmp(line, wanted, size) == 0);
}

static ribbon_station begun(const ribbon_identity *identity)
{
    ribbon_station station = RIBBON_STATION_NONE;
    CHECK(ribbon_station_new_live(&station, "ibm-3179-2", identity) == RIBBON_DONE);
    line_size = 0;
    CHECK(push(&station, opening, sizeof opening) == RIBBON_DONE && line_size == 3 + 16 + 12);
    return station;
}

static ribbon_state state_of(ribbon_station *station)
{
    ribbon_state state;
    CHECK(ribbon_station_state(station, &state) == RIBBON_DONE);
    return state;
}

/* Records that are refused: a Roll from row 0 at its first operand, an order of another command at the escape, an address
 * of row 25, and a length past the record. */
static const uint8_t roll[] = "\x00\x0f\x12\xa0\x00\x00\x04\x00\x00\x03\x04\x23\x61\x01\x05\xff\xef";
static const uint8_t unknown[] = "\x00\x0c\x12\xa0\x00\x00\x04\x00\x00\x03\x04\xff\xff\xff\xef";
static const uint8_t address[] = "\x00\x11\x12\xa0\x00\x00\x04\x00\x00\x03\x04\x11\x00\x08\x11\x19\x01\xff\xef";
static const uint8_t short_record[] = "\x00\x0f\x12\xa0\x00\x00\x04\x00\x00\x03\xff\xef";
static const uint8_t to_command[] = "\x00\x0e\x12\xa0\x00\x00\x04\x80\x00\x00\x10\x03\x01\x01\xff\xef";
static const uint8_t to_other[] = "\x00\x0e\x12\xa0\x00\x00\x04\x80\x00\x00\x10\x05\x01\x21\xff\xef";

/* A record is refused with this answer, for a reason at one of its bytes; nothing else comes of it. */
static void refuses(ribbon_station *station, const uint8_t *record, size_t size, const uint8_t *wanted, uint8_t reason,
                    uint64_t place)
{
    ribbon_state before = state_of(station), after;
    answers(station, record, size, wanted, 16);
    after = state_of(station);
    CHECK(after.refused_records == before.refused_records + 1);
    CHECK(after.record_reason == reason && after.record_place == place);
    CHECK(after.records == before.records && after.refused_reason == 0 && after.refused_place == 0 && after.is_ready);
    CHECK(after.cursor_row == before.cursor_row && after.cursor_column == before.cursor_column
          && after.is_locked == before.is_locked && after.field_count == before.field_count);
}

static void test_refused_records(void)
{
    ribbon_station station = begun(NULL);
    ribbon_state state = state_of(&station);
    CHECK(state.refused_records == 0 && state.record_reason == 0 && state.record_place == 0 && state.names_refused == 0);
    CHECK(push(&station, form_record, sizeof form_record) == RIBBON_DONE && state_of(&station).records == 1);
    refuses(&station, roll, sizeof roll - 1, to_command, RIBBON_REASON_ROLL, 12);
    refuses(&station, unknown, sizeof unknown - 1, to_command, RIBBON_REASON_UNKNOWN_COMMAND, 11);
    refuses(&station, address, sizeof address - 1, to_other, RIBBON_REASON_BAD_ADDRESS, 15);
    refuses(&station, short_record, sizeof short_record - 1, to_other, RIBBON_REASON_TOO_SHORT, 10);
    CHECK(push(&station, form_record, sizeof form_record) == RIBBON_DONE && state_of(&station).records == 2);
    CHECK(state_of(&station).refused_records == 4 && state_of(&station).field_count == 1);
    ribbon_station_free(&station);
    CHECK(!station.handle.is_open);
}

/* In whatever pieces a refused record comes, it is answered at its end, and keys act meanwhile. */
static void test_pieces(void)
{
    ribbon_told told;
    for (size_t cut = 1; cut < sizeof roll - 1; cut++) {
        ribbon_station station = begun(NULL);
        CHECK(push(&station, form_record, sizeof form_record) == RIBBON_DONE);
        answers(&station, roll, cut, to_command, 0);
        CHECK(state_of(&station).refused_records == 0);
        CHECK(ribbon_station_key(&station, RIBBON_KEY_CHAR, 'X', answer, sizeof answer, &told) == RIBBON_DONE);
        answers(&station, roll + cut, sizeof roll - 1 - cut, to_command, 16);
        CHECK(state_of(&station).refused_records == 1 && state_of(&station).cursor_column == 54);
        ribbon_station_free(&station);
    }
}

/* Byte by byte, and by one piece, into the smallest buffer. */
static void test_many(unsigned few)
{
    enum { ROUNDS = 10000, SIZE = sizeof roll - 1, PIECE = 50 };
    static uint8_t piece[PIECE * SIZE], reply[RIBBON_REPLY_ROOM];
    ribbon_station station = begun(NULL);
    ribbon_pushed pushed;
    size_t rounds = few ? 10 : ROUNDS / PIECE, written = 0;
    for (size_t at = 0; at < PIECE; at++)
        memcpy(piece + at * SIZE, roll, SIZE);
    for (size_t round = 0; round < rounds; round++) {
        ribbon_status status = RIBBON_NO_ROOM;
        for (size_t at = 0; status == RIBBON_NO_ROOM; at += pushed.taken) {
            status = ribbon_station_push(&station, piece + at, sizeof piece - at, reply, sizeof reply, &pushed);
            written += pushed.replied;
        }
        if (status != RIBBON_DONE)
            break;
    }
    CHECK(written == rounds * PIECE * 16 && state_of(&station).refused_records == rounds * PIECE);
    CHECK(state_of(&station).records == 0 && state_of(&station).is_ready);
    ribbon_station_free(&station);
}

/* What ends a session: a record before records are allowed, and Telnet that is none. */
static void test_ends(void)
{
    ribbon_station station = RIBBON_STATION_NONE;
    ribbon_pushed pushed;
    CHECK(ribbon_station_new_live(&station, "IBM-3179-2", NULL) == RIBBON_DONE);
    CHECK(ribbon_station_push(&station, roll, sizeof roll - 1, answer, sizeof answer, &pushed) == RIBBON_REFUSED
          && pushed.reason == RIBBON_REASON_ROLL && pushed.place == 12 && pushed.taken == 12 && pushed.replied == 0);
    CHECK(state_of(&station).refused_reason == RIBBON_REASON_ROLL && state_of(&station).refused_records == 0);
    CHECK(ribbon_station_push(&station, roll, 1, answer, sizeof answer, &pushed) == RIBBON_FAILED && pushed.taken == 0);
    ribbon_station_free(&station);
    station = begun(NULL);
    CHECK(ribbon_station_push(&station, TEXT("\xff\x01"), answer, sizeof answer, &pushed) == RIBBON_REFUSED
          && pushed.reason == RIBBON_REASON_BAD_COMMAND && pushed.place == sizeof opening + 1 && pushed.taken == 1);
    ribbon_station_free(&station);
}

static const uint8_t may_you[] = "\xff\xfd\x27", will[] = "\xff\xfb\x27", wont[] = "\xff\xfc\x27";
static const uint8_t send[] = "\xff\xfa\x27\x01\xff\xf0";

static void test_identity(void)
{
    static const uint8_t named[] = "\xff\xfa\x27\x00\x03" "DEVNAME\x01" "ANNA1\x03KBDTYPE\x01" "AGB\x03" "CODEPAGE\x01"
                                   "273\x03" "CHARSET\x01" "697\xff\xf0";
    static const uint8_t unnamed[] = "\xff\xfa\x27\x00\x03KBDTYPE\x01" "AGB\x03" "CODEPAGE\x01" "273\x03" "CHARSET\x01"
                                     "697\xff\xf0";
    static const uint8_t plain[] = "\xff\xfa\x27\x00\x03KBDTYPE\x01" "X1Z\x03" "CODEPAGE\x01" "037\x03" "CHARSET\x01"
                                   "697\xff\xf0";
    char device[] = "anna1", keyboard[] = "x1z";
    ribbon_identity anna = {.device = device, .code_page = 273}, other = {.device = "", .keyboard = keyboard};
    ribbon_station station = begun(&anna);
    memset(device, 0, sizeof device); /* no call keeps a pointer */
    answers(&station, may_you, 3, will, 3);
    answers(&station, send, 6, named, sizeof named - 1);
    CHECK(state_of(&station).names_refused == 0);
    answers(&station, send, 6, unnamed, sizeof unnamed - 1);
    CHECK(state_of(&station).names_refused == 1);
    answers(&station, send, 6, unnamed, sizeof unnamed - 1);
    CHECK(state_of(&station).names_refused == 2);
    ribbon_station_free(&station);
    station = begun(&other);
    answers(&station, may_you, 3, will, 3);
    answers(&station, send, 6, plain, sizeof plain - 1);
    answers(&station, send, 6, plain, sizeof plain - 1);
    CHECK(state_of(&station).names_refused == 0);
    ribbon_station_free(&station);
    station = begun(NULL);
    answers(&station, may_you, 3, wont, 3);
    answers(&station, send, 6, wont, 0);
    ribbon_station_free(&station);
}

static void test_bad_identities(void)
{
    static const ribbon_identity bad[] = {
        {.device = "1ANNA"},    {.device = "_ANNA"},     {.device = "ANNA 1"},  {.device = "ANNA1234567"},
        {.device = "ANN\xc4"},  {.keyboard = "US"},      {.keyboard = "USBX"},  {.keyboard = "U-B"},
        {.code_page = 36},      {.code_page = 1139},     {.code_page = 1150},   {.code_page = 65535},
        {.code_page = 870},     {.device = "A", .code_page = 1},
    };
    static const ribbon_identity good[] = {
        {.device = "ANNA123456"}, {.device = "#1_2.$@"}, {.keyboard = "u1B"}, {.code_page = 1149}, {.code_page = 37},
    };
    ribbon_station station = RIBBON_STATION_NONE, none = RIBBON_STATION_NONE;
    for (size_t at = 0; at < sizeof bad / sizeof bad[0]; at++)
        CHECK(ribbon_station_new_live(&station, "IBM-3179-2", &bad[at]) == RIBBON_BAD_ARGUMENT && !station.handle.is_open);
    CHECK(ribbon_station_new_live(&station, "IBM-3179-1", NULL) == RIBBON_BAD_ARGUMENT);
    CHECK(memcmp(&station, &none, sizeof station) == 0);
    for (size_t at = 0; at < sizeof good / sizeof good[0]; at++) {
        CHECK(ribbon_station_new_live(&station, "IBM-3179-2", &good[at]) == RIBBON_DONE);
        CHECK(ribbon_station_new_live(&station, "IBM-3179-2", &bad[0]) == RIBBON_IN_USE && station.handle.is_open);
        ribbon_station_free(&station);
    }
    CHECK(ribbon_station_new_live(NULL, "IBM-3179-2", NULL) == RIBBON_NULL);
    CHECK(ribbon_station_new_live(&station, NULL, NULL) == RIBBON_NULL);
}

/* A station with fields of formats at 6 53 and 8 53, of so many cells, and a read. */
static ribbon_station formed(const ribbon_identity *identity, uint16_t first, uint16_t second, uint8_t cells)
{
    uint8_t record[] = "\x00\x2a\x12\xa0\x00\x00\x04\x00\x00\x03\x04\x40\x04\x11\x00\x08\x11\x06\x34\x1d\x40\x00\x20\x00\x03"
                       "\x11\x08\x34\x1d\x40\x00\x20\x00\x03\x13\x06\x35\x04\x52\x00\x00\xff\xef";
    ribbon_station station = begun(identity);
    record[20] |= (uint8_t)(first >> 8);
    record[21] |= (uint8_t)first;
    record[29] |= (uint8_t)(second >> 8);
    record[30] |= (uint8_t)second;
    record[24] = record[33] = cells;
    record[1] = sizeof record - 3;
    CHECK(push(&station, record, sizeof record - 1) == RIBBON_DONE && state_of(&station).records == 1);
    CHECK(state_of(&station).field_count == 2 && state_of(&station).cursor_field == 0);
    return station;
}

/* Presses a key; its refusal, 0 where there is none. */
static uint8_t press(ribbon_station *station, uint32_t kind, uint32_t value, size_t *sent)
{
    ribbon_told told;
    ribbon_status status = ribbon_station_key(station, kind, value, answer, sizeof answer, &told);
    CHECK(status == (told.reason ? RIBBON_KEY_REFUSED : RIBBON_DONE));
    if (sent != NULL)
        *sent = told.length;
    return told.reason;
}

static void test_field_exit(void)
{
    ribbon_station station = formed(NULL, 0x0040, 0, 2);
    CHECK(press(&station, RIBBON_KEY_CHAR, 'A', NULL) == 0 && !state_of(&station).is_full);
    CHECK(press(&station, RIBBON_KEY_CHAR, 'B', NULL) == 0 && state_of(&station).is_full);
    CHECK(state_of(&station).cursor_column == 54);
    CHECK(press(&station, RIBBON_KEY_CHAR, 'C', NULL) == RIBBON_KEY_FIELD_EXIT_REQUIRED);
    CHECK(press(&station, RIBBON_KEY_FIELD_EXIT, 0, NULL) == 0 && !state_of(&station).is_full);
    CHECK(state_of(&station).cursor_row == 8);
    ribbon_station_free(&station);
}

static void test_auto_enter(void)
{
    size_t sent;
    ribbon_station station = formed(NULL, 0x0080, 0, 2);
    CHECK(press(&station, RIBBON_KEY_CHAR, 'A', &sent) == 0 && sent == 0);
    CHECK(press(&station, RIBBON_KEY_CHAR, 'B', &sent) == 0 && sent == 20 && answer[12] == RIBBON_AID_ENTER);
    CHECK(state_of(&station).is_locked && state_of(&station).pending_read == RIBBON_READ_NONE);
    ribbon_station_free(&station);
}

static void test_missing(void)
{
    uint16_t field;
    ribbon_station station = formed(NULL, 0, RIBBON_FORMAT_MANDATORY_ENTER, 3), extended = RIBBON_STATION_NONE;
    CHECK(press(&station, RIBBON_KEY_AID, RIBBON_AID_ENTER, NULL) == RIBBON_KEY_MANDATORY_ENTER);
    CHECK(ribbon_station_missing(&station, RIBBON_KEY_MANDATORY_ENTER, &field) == RIBBON_DONE && field == 1);
    CHECK(ribbon_station_missing(&station, RIBBON_KEY_MANDATORY_FILL, &field) == RIBBON_DONE && field == RIBBON_NO_FIELD);
    CHECK(ribbon_station_missing(&station, RIBBON_KEY_IS_LOCKED, &field) == RIBBON_DONE && field == RIBBON_NO_FIELD);
    CHECK(ribbon_station_missing(&station, 0, &field) == RIBBON_BAD_ARGUMENT && field == 0);
    CHECK(ribbon_station_missing(&station, 10, &field) == RIBBON_BAD_ARGUMENT && field == 0);
    CHECK(ribbon_station_missing(&station, 7, NULL) == RIBBON_NULL);
    ribbon_station_free(&station);
    CHECK(ribbon_station_missing(&station, 7, &field) == RIBBON_NOTHING_HELD && field == 0);
    CHECK(ribbon_station_missing(NULL, 7, &field) == RIBBON_NULL && field == 0);
    CHECK(ribbon_station_new_extended(&extended, "IBM-3179-2") == RIBBON_DONE);
    CHECK(ribbon_station_missing(&extended, 7, &field) == RIBBON_NOTHING_HELD && field == 0);
    ribbon_station_free(&extended);
    station = formed(NULL, RIBBON_ADJUST_MANDATORY_FILL, RIBBON_ADJUST_MANDATORY_FILL, 3);
    CHECK(press(&station, RIBBON_KEY_CHAR, 'A', NULL) == 0);
    CHECK(press(&station, RIBBON_KEY_FIELD_EXIT, 0, NULL) == RIBBON_KEY_MANDATORY_FILL);
    CHECK(ribbon_station_missing(&station, RIBBON_KEY_MANDATORY_FILL, &field) == RIBBON_DONE && field == 0);
    ribbon_station_free(&station);
}

/* Characters are typed on the page, and shown on it. */
static void test_page(void)
{
    static const ribbon_identity euro = {.code_page = 1141};
    ribbon_station station = formed(&euro, 0, 0, 3), plain;
    ribbon_cell cells[RIBBON_COLUMNS];
    char text[RIBBON_ROW_ROOM];
    uint8_t byte;
    ribbon_told told;
    CHECK(press(&station, RIBBON_KEY_CHAR, 0x20ac, NULL) == 0 && press(&station, RIBBON_KEY_CHAR, 0xdc, NULL) == 0);
    CHECK(press(&station, RIBBON_KEY_CHAR, 0xa4, NULL) == RIBBON_KEY_WRONG_CHARACTER);
    CHECK(ribbon_station_cell(&station, 6, 53, &byte) == RIBBON_DONE && byte == 0x9f);
    CHECK(ribbon_station_cell(&station, 6, 54, &byte) == RIBBON_DONE && byte == 0x5a);
    CHECK(ribbon_station_cells(&station, 6, 6, cells, RIBBON_COLUMNS) == RIBBON_DONE);
    CHECK(cells[52].character == 0x20ac && cells[52].byte == 0x9f && cells[53].character == 0xdc && cells[0].character == ' ');
    CHECK(ribbon_station_row(&station, 6, text, sizeof text, &told) == RIBBON_DONE && told.length == 83
          && memcmp(text + 52, "\xe2\x82\xac\xc3\x9c ", 6) == 0);
    CHECK(ribbon_station_row(&station, 6, text, RIBBON_ROW_ROOM - 1, &told) == RIBBON_NO_ROOM && told.length == 0);
    CHECK(ribbon_station_field_text(&station, 0, text, sizeof text, &told) == RIBBON_DONE && told.length == 5
          && memcmp(text, "\xe2\x82\xac\xc3\x9c", 5) == 0);
    CHECK(ribbon_station_move_cursor(&station, 1, 1, &told) == RIBBON_DONE && state_of(&station).cursor_row == 1);
    CHECK(ribbon_station_new_line(&station, &told) == RIBBON_DONE && state_of(&station).cursor_row == 6);
    CHECK(ribbon_station_erase_eof(&station, &told) == RIBBON_DONE);
    CHECK(ribbon_station_field_text(&station, 0, text, sizeof text, &told) == RIBBON_DONE && told.length == 0);
    ribbon_station_free(&station);
    plain = formed(NULL, 0, 0, 3);
    CHECK(press(&plain, RIBBON_KEY_CHAR, 0x20ac, NULL) == RIBBON_KEY_WRONG_CHARACTER);
    CHECK(press(&plain, RIBBON_KEY_CHAR, 0xa4, NULL) == 0 && press(&plain, RIBBON_KEY_CHAR, '!', NULL) == 0);
    CHECK(ribbon_station_row(&plain, 6, text, sizeof text, &told) == RIBBON_DONE && told.length == 81
          && memcmp(text + 52, "\xc2\xa4! ", 4) == 0);
    ribbon_station_free(&plain);
}

/* Each page's bytes as characters, a euro sign in three bytes, and back. */
static void test_texts(void)
{
    static const uint16_t pages[] = {37,  273, 277, 278, 280,  284,  285,  297,  500,  871,
                                     1140, 1141, 1142, 1143, 1144, 1145, 1146, 1147, 1148, 1149};
    uint8_t bytes[0xff - 0x40], back[3 * sizeof bytes], byte;
    char text[3 * sizeof bytes];
    uint32_t character;
    ribbon_told told;
    for (size_t at = 0; at < sizeof bytes; at++)
        bytes[at] = (uint8_t)(0x40 + at);
    for (size_t at = 0; at < sizeof pages / sizeof pages[0]; at++) {
        CHECK(ribbon_text_from_page(pages[at], bytes, sizeof bytes, text, sizeof text, &told) == RIBBON_DONE);
        CHECK(told.length == 95 + 2 * 96 + (pages[at] >= 1140));
        CHECK(ribbon_text_to_page(pages[at], text, told.length, back, sizeof back, &told) == RIBBON_DONE);
        CHECK(told.length == sizeof bytes && memcmp(back, bytes, sizeof bytes) == 0);
    }
    CHECK(ribbon_from_page(1140, 0x9f, &character) == RIBBON_DONE && character == 0x20ac);
    CHECK(ribbon_to_page(273, 0xdf, &byte) == RIBBON_DONE && byte == 0xa1);
    CHECK(ribbon_to_page(1140, 0xa4, &byte) == RIBBON_BAD_ARGUMENT && byte == 0);
    CHECK(ribbon_from_page(38, 0x40, &character) == RIBBON_BAD_ARGUMENT && character == 0);
    CHECK(ribbon_to_page(0, 'A', &byte) == RIBBON_BAD_ARGUMENT && byte == 0);
    CHECK(ribbon_from_page(37, 0x40, NULL) == RIBBON_NULL && ribbon_to_page(37, 'A', NULL) == RIBBON_NULL);
    CHECK(ribbon_text_from_page(38, NULL, 0, text, 0, &told) == RIBBON_BAD_ARGUMENT && told.place == 0);
    CHECK(ribbon_text_from_page(273, bytes, 2, text, 5, &told) == RIBBON_NO_ROOM && told.length == 0);
    CHECK(ribbon_text_to_page(38, text, 0, bytes, 0, &told) == RIBBON_BAD_ARGUMENT && told.length == 0);
    CHECK(ribbon_text_to_page(1140, "A\xe2\x82\xac\xe2\x82", 6, back, 6, &told) == RIBBON_BAD_ARGUMENT && told.length == 2
          && told.place == 4);
    CHECK(ribbon_identity_size() == sizeof(ribbon_identity));
}

int main(int argc, char **argv)
{
    (void)argv;
    test_refused_records();
    test_pieces();
    test_many(argc > 1);
    test_ends();
    test_identity();
    test_bad_identities();
    test_field_exit();
    test_auto_enter();
    test_missing();
    test_page();
    test_texts();
    return check_end();
}
