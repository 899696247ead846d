/* Work to count the instructions of: `cost WHAT TIMES [KIND]`, under valgrind (run.sh). The kind of the station is
   `profile` without it, `extended` or `live`. */
#include "../tests/bytes.h"
#include "ribbonscarp.h"

#include <stdio.h>
#include <stdlib.h>
#include <string.h>

static ribbon_station station = RIBBON_STATION_NONE;
static ribbon_cell cells[RIBBON_CELLS];

/* The form, without its read at the end, again and again, in pieces of 4,096 bytes. */
static int push(long times)
{
    static uint8_t stream[4096 * sizeof form_record], reply[4096];
    ribbon_pushed pushed;
    for (size_t at = 0; at < sizeof stream; at += sizeof form_record)
        memcpy(stream + at, form_record, sizeof form_record);
    for (long time = 0; time < times; time++)
        for (size_t at = 0; at < sizeof stream; at += 4096)
            if (ribbon_station_push(&station, stream + at, 4096, reply, sizeof reply, &pushed) != RIBBON_DONE)
                return 1;
    return 0;
}

/* A record with much text, in pieces of 4,096 bytes: 20 times a row of 76 letters. */
static int text(long times)
{
    static uint8_t record[4096], reply[4096];
    size_t count = 0;
    ribbon_pushed pushed;
    static const uint8_t head[] = {0, 0, 0x12, 0xa0, 0, 0, 4, 0, 0, 2, 4, 0x40, 4, 0x11, 0, 8};
    memcpy(record, head, sizeof head);
    count = sizeof head;
    for (uint8_t row = 1; row <= 20; row++) {
        const uint8_t order[] = {0x11, row, 1};
        memcpy(record + count, order, sizeof order);
        memset(record + count + sizeof order, 0xc1, 76);
        count += sizeof order + 76;
    }
    record[0] = (uint8_t)(count >> 8);
    record[1] = (uint8_t)count;
    record[count++] = 0xff;
    record[count++] = 0xef;
    fprintf(stderr, "%zu\n", count);
    for (long time = 0; time < times; time++)
        if (ribbon_station_push(&station, record, count, reply, sizeof reply, &pushed) != RIBBON_DONE)
            return 1;
    return 0;
}

static ribbon_status new_station(const char *kind)
{
    ribbon_identity identity = {.code_page = 37};
    if (strcmp(kind, "live") == 0)
        return ribbon_station_new_live(&station, "IBM-3179-2", &identity);
    return strcmp(kind, "extended") == 0 ? ribbon_station_new_extended(&station, "IBM-3179-2")
                                         : ribbon_station_new(&station, "IBM-3179-2");
}

int main(int count, char **words)
{
    uint8_t reply[256], byte;
    ribbon_pushed pushed;
    ribbon_state state;
    ribbon_field field;
    uint32_t rows;
    long times = count > 2 ? atol(words[2]) : 0;
    int failed = count < 3 || new_station(count > 3 ? words[3] : "profile") != RIBBON_DONE
                 || ribbon_station_push(&station, opening, sizeof opening, reply, sizeof reply, &pushed) != RIBBON_DONE
                 || ribbon_station_push(&station, form_record, sizeof form_record, reply, sizeof reply, &pushed)
                        != RIBBON_DONE;
    if (!failed && strcmp(words[1], "push") == 0)
        failed = push(times);
    else if (!failed && strcmp(words[1], "text") == 0)
        failed = text(times);
    else
        for (long time = 0; !failed && time < times; time++)
            switch (words[1][0]) {
            case 'c': failed = ribbon_station_cell(&station, 6, 53, &byte) != RIBBON_DONE; break;
            case 's': failed = ribbon_station_cells(&station, 1, 24, cells, RIBBON_CELLS) != RIBBON_DONE; break;
            case 'S': failed = ribbon_station_state(&station, &state) != RIBBON_DONE; break;
            case 'f': failed = ribbon_station_field(&station, 0, &field) != RIBBON_DONE; break;
            case 'h': failed = ribbon_station_changed(&station, &rows) != RIBBON_DONE; break;
            default: failed = 1;
            }
    ribbon_station_free(&station);
    return failed;
}
