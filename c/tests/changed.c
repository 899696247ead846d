/* The rows that ribbon_station_changed tells: by a cell's byte, by the attribute in force alone, and of a station made
 * anew. */
#include "bytes.h"
#include "check.h"
#include "ribbonscarp.h"

/* Bits of rows. */
#define ROW(row) (1u << ((row) - 1))
#define ALL_ROWS 0xffffffu

static void begin(ribbon_station *station)
{
    ribbon_pushed pushed;
    uint8_t reply[64];
    CHECK(ribbon_station_new(station, "IBM-3179-2") == RIBBON_DONE);
    CHECK(ribbon_station_push(station, opening, sizeof opening, reply, sizeof reply, &pushed) == RIBBON_DONE);
}

/* Pushes a record of opcode 2, Output Only, with a body of fewer than 200 bytes. */
static void write_body(ribbon_station *station, const uint8_t *body, size_t size)
{
    uint8_t record[256] = {0x00, (uint8_t)(10 + size), 0x12, 0xa0, 0x00, 0x00, 0x04, 0x00, 0x00, 0x02};
    uint8_t reply[64];
    ribbon_pushed pushed;
    memcpy(record + 10, body, size);
    memcpy(record + 10 + size, "\xff\xef", 2);
    CHECK(ribbon_station_push(station, record, size + 12, reply, sizeof reply, &pushed) == RIBBON_DONE);
}

static uint32_t changed(ribbon_station *station)
{
    uint32_t rows = 0xa5a5a5a5;
    CHECK(ribbon_station_changed(station, &rows) == RIBBON_DONE);
    return rows;
}

/* An attribute is in force behind its cell, over the ends of rows, up to the next one (SC30-3533, screen attributes). */
static void test_attribute(void)
{
    static const uint8_t underscore[] = {0x04, 0x11, 0x00, 0x00, 0x11, 0x01, 0x50, 0x24}; /* in cell 1, 80 */
    static const uint8_t green[] = {0x04, 0x11, 0x00, 0x00, 0x11, 0x01, 0x50, 0x20};      /* there too */
    static const uint8_t end[] = {0x04, 0x11, 0x00, 0x00, 0x11, 0x04, 0x01, 0x20};        /* in cell 4, 1 */
    static const uint8_t last[] = {0x04, 0x11, 0x00, 0x00, 0x11, 0x18, 0x50, 0x22};       /* in cell 24, 80 */
    ribbon_station station = RIBBON_STATION_NONE;
    begin(&station);
    CHECK(changed(&station) == 0);

    /* No byte of the rows below is another, and each shows something else. */
    write_body(&station, underscore, sizeof underscore);
    CHECK(changed(&station) == ALL_ROWS);
    CHECK(changed(&station) == 0);
    write_body(&station, underscore, sizeof underscore);
    CHECK(changed(&station) == 0);

    /* From row 4 on it is over, and only what was underscored changes. */
    write_body(&station, end, sizeof end);
    CHECK(changed(&station) == (ALL_ROWS & ~(ROW(1) | ROW(2) | ROW(3))));
    write_body(&station, green, sizeof green);
    CHECK(changed(&station) == (ROW(1) | ROW(2) | ROW(3)));

    /* That of the last cell isn't in force in the first. */
    write_body(&station, last, sizeof last);
    CHECK(changed(&station) == ROW(24));
    ribbon_station_free(&station);
}

/* A station in a struct that held one before is compared with an empty screen, not with the other's. */
static void test_anew(void)
{
    ribbon_station station = RIBBON_STATION_NONE;
    uint8_t reply[64];
    ribbon_pushed pushed;
    for (int times = 0; times < 3; times++) {
        begin(&station);
        CHECK(changed(&station) == 0);
        CHECK(ribbon_station_push(&station, form_record, sizeof form_record, reply, sizeof reply, &pushed)
              == RIBBON_DONE);
        CHECK(changed(&station) == (ROW(1) | ROW(6)));
        CHECK(changed(&station) == 0);
        ribbon_station_free(&station);
    }

    /* One that isn't made, since the struct holds one already, changes nothing of what was seen. */
    begin(&station);
    CHECK(ribbon_station_push(&station, form_record, sizeof form_record, reply, sizeof reply, &pushed) == RIBBON_DONE);
    CHECK(changed(&station) == (ROW(1) | ROW(6)));
    CHECK(ribbon_station_new(&station, "IBM-3179-2") == RIBBON_IN_USE);
    CHECK(changed(&station) == 0);
    ribbon_station_free(&station);
}

int main(void)
{
    test_attribute();
    test_anew();
    return check_end();
}
