/* Bodies in the making: what each call appends, and what it refuses. */
#include "bytes.h"
#include "check.h"
#include "ribbonscarp.h"

static uint8_t bytes[64];

static ribbon_body begun(void)
{
    ribbon_body body;
    FILL(body);
    FILL(bytes);
    ribbon_body_begin(&body, bytes, sizeof bytes);
    CHECK(body.bytes == bytes && body.room == sizeof bytes && body.size == 0 && body.status == RIBBON_DONE);
    return body;
}

static int is_body(const ribbon_body *body, const void *wanted, size_t size)
{
    return body->status == RIBBON_DONE && body->size == size && memcmp(bytes, wanted, size) == 0
           && all_are(bytes + size, sizeof bytes - size, 0xa5);
}

/* Nothing is appended, and each further call answers the same. */
static int has_failed(ribbon_body *body, ribbon_status status)
{
    return body->status == status && body->size == 0 && IS_FILLED(bytes) && ribbon_body_clear_unit(body) == status
           && ribbon_body_text(body, "A", 1) == status && ribbon_body_address(body, 0, 0) == status && body->size == 0;
}

#define APPENDS(call, wanted)                                                                                          \
    do {                                                                                                               \
        ribbon_body body = begun();                                                                                    \
        CHECK((call) == RIBBON_DONE && is_body(&body, wanted, sizeof(wanted) - 1));                                    \
    } while (0)

#define REFUSES(call, why)                                                                                             \
    do {                                                                                                               \
        ribbon_body body = begun();                                                                                    \
        CHECK((call) == (why) && has_failed(&body, (why)));                                                            \
    } while (0)

static void test_elements(void)
{
    APPENDS(ribbon_body_clear_unit(&body), "\x04\x40");
    APPENDS(ribbon_body_clear_format(&body), "\x04\x50");
    APPENDS(ribbon_body_write(&body, 0xa0, 0x08), "\x04\x11\xa0\x08");
    APPENDS(ribbon_body_read(&body, RIBBON_READ_INPUT, 0x00, 0x08), "\x04\x42\x00\x08");
    APPENDS(ribbon_body_read(&body, RIBBON_READ_MDT, 0x00, 0x00), "\x04\x52\x00\x00");
    APPENDS(ribbon_body_read(&body, RIBBON_READ_MDT_ALTERNATE, 0x40, 0x00), "\x04\x82\x40\x00");
    APPENDS(ribbon_body_header(&body, NULL, 0), "\x01\x00");
    APPENDS(ribbon_body_header(&body, (const uint8_t *)"\x80\x18\0\x07\x01\x02\x03", 7), "\x01\x07\x80\x18\0\x07\x01\x02\x03");
    APPENDS(ribbon_body_address(&body, 24, 80), "\x11\x18\x50");
    APPENDS(ribbon_body_insert_cursor(&body, 6, 53), "\x13\x06\x35");
    APPENDS(ribbon_body_move_cursor(&body, 1, 1), "\x14\x01\x01");
    APPENDS(ribbon_body_repeat(&body, 2, 80, 0x60), "\x02\x02\x50\x60");
    APPENDS(ribbon_body_erase(&body, 24, 80), "\x03\x18\x50\x02\xff");
    APPENDS(ribbon_body_field(&body, 0x4720, 0x24, 300), "\x1d\x47\x20\x24\x01\x2c");
    APPENDS(ribbon_body_output_field(&body, 0x22, 10), "\x1d\x22\x00\x0a");
    APPENDS(ribbon_body_attribute(&body, 0x3f), "\x3f");
    APPENDS(ribbon_body_text(&body, "Caf\xc3\xa9", 5), "\xc3\x81\x86\x51");
    APPENDS(ribbon_body_text(&body, NULL, 0), "");
    APPENDS(ribbon_body_bytes(&body, (const uint8_t *)"\x1c\x00", 2), "\x1c\x00");
    APPENDS(ribbon_body_bytes(&body, NULL, 0), "");
}

static void test_refusals(void)
{
    static const uint8_t eight[8] = {0};
    REFUSES(ribbon_body_read(&body, RIBBON_READ_NONE, 0, 0), RIBBON_BAD_ARGUMENT);
    REFUSES(ribbon_body_read(&body, 4, 0, 0), RIBBON_BAD_ARGUMENT);
    REFUSES(ribbon_body_header(&body, eight, sizeof eight), RIBBON_BAD_ARGUMENT);
    REFUSES(ribbon_body_header(&body, (const uint8_t *)"\0\0\1", 3), RIBBON_BAD_ARGUMENT);
    REFUSES(ribbon_body_header(&body, NULL, 1), RIBBON_NULL);
    REFUSES(ribbon_body_address(&body, 0, 1), RIBBON_BAD_ARGUMENT);
    REFUSES(ribbon_body_address(&body, 25, 1), RIBBON_BAD_ARGUMENT);
    REFUSES(ribbon_body_insert_cursor(&body, 1, 0), RIBBON_BAD_ARGUMENT);
    REFUSES(ribbon_body_move_cursor(&body, 1, 81), RIBBON_BAD_ARGUMENT);
    REFUSES(ribbon_body_repeat(&body, 1, 1, 0x1d), RIBBON_BAD_ARGUMENT);
    REFUSES(ribbon_body_repeat(&body, 0, 1, 0x40), RIBBON_BAD_ARGUMENT);
    REFUSES(ribbon_body_erase(&body, 1, 81), RIBBON_BAD_ARGUMENT);
    REFUSES(ribbon_body_field(&body, 0x3fff, 0x20, 1), RIBBON_BAD_ARGUMENT);
    REFUSES(ribbon_body_field(&body, 0x8000, 0x20, 1), RIBBON_BAD_ARGUMENT);
    REFUSES(ribbon_body_field(&body, 0x4400, 0x20, 1), RIBBON_BAD_ARGUMENT);
    REFUSES(ribbon_body_field(&body, 0x4600, 0x20, 1), RIBBON_BAD_ARGUMENT);
    REFUSES(ribbon_body_field(&body, 0x4000, 0x40, 1), RIBBON_BAD_ARGUMENT);
    REFUSES(ribbon_body_output_field(&body, 0x1f, 1), RIBBON_BAD_ARGUMENT);
    REFUSES(ribbon_body_attribute(&body, 0x40), RIBBON_BAD_ARGUMENT);
    REFUSES(ribbon_body_text(&body, "A\xe2\x82\xac", 4), RIBBON_BAD_ARGUMENT);
    REFUSES(ribbon_body_text(&body, "A\xc3", 2), RIBBON_BAD_ARGUMENT);
    REFUSES(ribbon_body_text(&body, NULL, 1), RIBBON_NULL);
    REFUSES(ribbon_body_bytes(&body, NULL, 1), RIBBON_NULL);
    ribbon_body_begin(NULL, bytes, sizeof bytes);
    CHECK(ribbon_body_clear_unit(NULL) == RIBBON_NULL && ribbon_body_text(NULL, "A", 1) == RIBBON_NULL);
    CHECK(ribbon_body_repeat(NULL, 0, 0, 0x1d) == RIBBON_NULL && ribbon_body_bytes(NULL, NULL, 1) == RIBBON_NULL);
}

/* The last byte that has room is appended, and nothing behind it. */
static void test_room(void)
{
    ribbon_body body = begun();
    body.room = 5;
    CHECK(ribbon_body_write(&body, 0, 8) == RIBBON_DONE && ribbon_body_text(&body, "AB", 2) == RIBBON_NO_ROOM);
    CHECK(body.size == 4 && ribbon_body_text(&body, "A", 1) == RIBBON_NO_ROOM && body.size == 4);
    CHECK(all_are(bytes + 4, sizeof bytes - 4, 0xa5));
    body = begun();
    body.room = 4;
    CHECK(ribbon_body_text(&body, "\xc3\xa9\xc3\xa9\xc3\xa9\xc3\xa9", 8) == RIBBON_DONE
          && is_body(&body, "\x51\x51\x51\x51", 4));
    CHECK(ribbon_body_attribute(&body, 0x20) == RIBBON_NO_ROOM && body.size == 4);
    ribbon_body_begin(&body, NULL, 0);
    CHECK(ribbon_body_text(&body, "", 0) == RIBBON_DONE && ribbon_body_clear_unit(&body) == RIBBON_NO_ROOM);
    ribbon_body_begin(&body, NULL, 8);
    CHECK(ribbon_body_clear_unit(&body) == RIBBON_NULL && body.size == 0);
}

/* The form of the other tests, made by calls. */
static void test_form(void)
{
    ribbon_body body = begun();
    ribbon_body_clear_unit(&body);
    ribbon_body_write(&body, 0x00, 0x08);
    ribbon_body_address(&body, 1, 1);
    ribbon_body_attribute(&body, 0x26);
    ribbon_body_text(&body, "Hi", 2);
    ribbon_body_attribute(&body, 0x20);
    ribbon_body_address(&body, 6, 52);
    ribbon_body_field(&body, 0x4000, 0x27, 10);
    CHECK(ribbon_body_read(&body, RIBBON_READ_MDT, 0x00, 0x00) == RIBBON_DONE && is_body(&body, form, sizeof form));
}

int main(void)
{
    test_elements();
    test_refusals();
    test_room();
    test_form();
    return check_end();
}
