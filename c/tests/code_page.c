/* Texts to and from code page 037, and the sizes of structures. */
#include "check.h"
#include "ribbonscarp.h"

static bool is_told(const ribbon_told *told, size_t length, uint64_t place)
{
    return told->length == length && told->place == place && told->reason == 0;
}

static void test_from(void)
{
    static const uint8_t bytes[] = {0xc8, 0x89, 0x40, 0x51, 0xb0, 0x41}; /* H, i, a blank, e acute, ^, a no-break space */
    static const char wanted[] = "Hi \xc3\xa9^\xc2\xa0";
    char text[2 * sizeof bytes];
    ribbon_told told;

    FILL(text);
    FILL(told);
    CHECK(ribbon_text_from_037(bytes, sizeof bytes, text, sizeof text, &told) == RIBBON_DONE
          && is_told(&told, sizeof wanted - 1, 0));
    CHECK(memcmp(text, wanted, sizeof wanted - 1) == 0
          && all_are(text + sizeof wanted - 1, sizeof text - (sizeof wanted - 1), 0xa5));

    FILL(text);
    FILL(told);
    CHECK(ribbon_text_from_037(bytes, sizeof bytes, text, sizeof text - 1, &told) == RIBBON_NO_ROOM
          && is_told(&told, 0, 0) && IS_FILLED(text));
    CHECK(ribbon_text_from_037(bytes, SIZE_MAX, text, sizeof text, &told) == RIBBON_NO_ROOM && IS_FILLED(text));
    CHECK(ribbon_text_from_037(NULL, 0, text, 0, &told) == RIBBON_DONE && is_told(&told, 0, 0) && IS_FILLED(text));

    /* What stands before a byte without a character is there. */
    static const uint8_t bad[][3] = {{0xc8, 0x89, 0x3f}, {0xc8, 0x89, 0x00}, {0xc8, 0x89, 0xff}};
    for (size_t at = 0; at < 3; at++) {
        FILL(text);
        CHECK(ribbon_text_from_037(bad[at], 3, text, sizeof text, &told) == RIBBON_BAD_ARGUMENT
              && is_told(&told, 2, 2));
        CHECK(memcmp(text, "Hi", 2) == 0 && all_are(text + 2, sizeof text - 2, 0xa5));
    }

    FILL(told);
    CHECK(ribbon_text_from_037(NULL, 1, text, sizeof text, &told) == RIBBON_NULL && is_told(&told, 0, 0));
    FILL(told);
    CHECK(ribbon_text_from_037(bytes, 1, NULL, 2, &told) == RIBBON_NULL && is_told(&told, 0, 0));
    CHECK(ribbon_text_from_037(bytes, 1, text, sizeof text, NULL) == RIBBON_NULL);
}

static void test_to(void)
{
    static const char text[] = "Hi \xc3\xa9\xc2\xa0";
    static const uint8_t wanted[] = {0xc8, 0x89, 0x40, 0x51, 0x41};
    uint8_t bytes[sizeof text - 1];
    ribbon_told told;

    FILL(bytes);
    FILL(told);
    CHECK(ribbon_text_to_037(text, sizeof text - 1, bytes, sizeof bytes, &told) == RIBBON_DONE
          && is_told(&told, sizeof wanted, 0));
    CHECK(memcmp(bytes, wanted, sizeof wanted) == 0
          && all_are(bytes + sizeof wanted, sizeof bytes - sizeof wanted, 0xa5));

    FILL(bytes);
    FILL(told);
    CHECK(ribbon_text_to_037(text, sizeof text - 1, bytes, sizeof bytes - 1, &told) == RIBBON_NO_ROOM
          && is_told(&told, 0, 0) && IS_FILLED(bytes));
    CHECK(ribbon_text_to_037(NULL, 0, bytes, 0, &told) == RIBBON_DONE && is_told(&told, 0, 0) && IS_FILLED(bytes));

    /* A character without a byte (a euro, a control, one above U+FFFF), and what is no UTF-8: cut short, a trailing byte
     * alone, another byte where one is due, a longer form than needed, a surrogate. */
    static const char *const bad[] = {"\xe2\x82\xac", "\n",       "\xf0\x9f\x98\x80", "\xc3",
                                      "\x80",         "\xc3" "A", "\xc1\x88",         "\xed\xa0\x80"};
    for (size_t at = 0; at < sizeof bad / sizeof bad[0]; at++) {
        char given[8] = "A\xc3\xa9";
        size_t size = 3 + strlen(bad[at]);
        memcpy(given + 3, bad[at], strlen(bad[at]));
        uint8_t put[8];
        FILL(put);
        CHECK(ribbon_text_to_037(given, size, put, sizeof put, &told) == RIBBON_BAD_ARGUMENT && is_told(&told, 2, 3));
        CHECK(put[0] == 0xc1 && put[1] == 0x51 && all_are(put + 2, sizeof put - 2, 0xa5));
    }

    /* A control character of Latin 1, which has no byte: the bytes behind what is told stay as they were. */
    uint8_t room[20];
    FILL(room);
    CHECK(ribbon_text_to_037("A\xc2\x80", 3, room, sizeof room, &told) == RIBBON_BAD_ARGUMENT && is_told(&told, 1, 1));
    CHECK(room[0] == 0xc1 && all_are(room + 1, sizeof room - 1, 0xa5));

    /* No byte behind the text is looked at. */
    CHECK(ribbon_text_to_037("\xc3\xa9", 1, bytes, sizeof bytes, &told) == RIBBON_BAD_ARGUMENT && is_told(&told, 0, 0));

    FILL(told);
    CHECK(ribbon_text_to_037(NULL, 1, bytes, sizeof bytes, &told) == RIBBON_NULL && is_told(&told, 0, 0));
    FILL(told);
    CHECK(ribbon_text_to_037(text, 1, NULL, 1, &told) == RIBBON_NULL && is_told(&told, 0, 0));
    CHECK(ribbon_text_to_037(text, 1, bytes, sizeof bytes, NULL) == RIBBON_NULL);
}

/* Every byte that has a character comes back, as the calls for one say. */
static void test_all(void)
{
    uint8_t bytes[0xff - 0x40], back[2 * sizeof bytes];
    char text[2 * sizeof bytes];
    ribbon_told told;
    for (size_t at = 0; at < sizeof bytes; at++)
        bytes[at] = (uint8_t)(0x40 + at);
    CHECK(ribbon_text_from_037(bytes, sizeof bytes, text, sizeof text, &told) == RIBBON_DONE);
    size_t length = told.length;
    CHECK(length == 95 + 2 * 96); /* 20 to 7E and A0 to FF */
    CHECK(ribbon_text_to_037(text, length, back, sizeof back, &told) == RIBBON_DONE && told.length == sizeof bytes
          && memcmp(back, bytes, sizeof bytes) == 0);
    for (size_t at = 0; at < sizeof bytes; at++) {
        uint32_t character;
        uint8_t one[2];
        CHECK(ribbon_from_037(bytes[at], &character) == RIBBON_DONE);
        one[0] = (uint8_t)(character < 0x80 ? character : 0xc0 | character >> 6);
        one[1] = (uint8_t)(0x80 | (character & 0x3f));
        CHECK(ribbon_text_from_037(&bytes[at], 1, text, 2, &told) == RIBBON_DONE
              && told.length == (character < 0x80 ? 1 : 2) && memcmp(text, one, told.length) == 0);
    }
}

static void test_sizes(void)
{
    CHECK(ribbon_station_size() == sizeof(ribbon_station) && ribbon_host_size() == sizeof(ribbon_host));
    CHECK(ribbon_decoder_size() == sizeof(ribbon_decoder) && ribbon_told_size() == sizeof(ribbon_told));
    CHECK(ribbon_pushed_size() == sizeof(ribbon_pushed) && ribbon_step_size() == sizeof(ribbon_step));
    CHECK(ribbon_event_size() == sizeof(ribbon_event) && ribbon_answer_size() == sizeof(ribbon_answer));
    CHECK(ribbon_read_field_size() == sizeof(ribbon_read_field) && ribbon_state_size() == sizeof(ribbon_state));
    CHECK(ribbon_cell_size() == sizeof(ribbon_cell) && ribbon_field_size() == sizeof(ribbon_field));
}

int main(void)
{
    test_from();
    test_to();
    test_all();
    test_sizes();
    return check_end();
}
