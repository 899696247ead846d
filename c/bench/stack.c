/* How much stack each call uses: it runs on a stack of its own that was filled before, and what is no longer as it was
 * filled is counted. A line for each call, in bytes. */
#define _GNU_SOURCE
#include "../tests/bytes.h"
#include "ribbonscarp.h"

#include <stdio.h>
#include <string.h>
#include <ucontext.h>

enum { ROOM = 1 << 22, MARK = 0xa5 };

static unsigned char room[ROOM];
static ucontext_t home, there;
static void (*work)(void);

static void begin(void)
{
    work();
}

static size_t measured(void (*call)(void))
{
    memset(room, MARK, sizeof room);
    work = call;
    getcontext(&there);
    there.uc_stack.ss_sp = room;
    there.uc_stack.ss_size = sizeof room;
    there.uc_link = &home;
    makecontext(&there, begin, 0);
    swapcontext(&home, &there);
    size_t left = 0;
    while (left < sizeof room && room[left] == MARK)
        left += 1;
    return sizeof room - left;
}

static ribbon_station station = RIBBON_STATION_NONE;
static ribbon_host host = RIBBON_HOST_NONE;
static ribbon_decoder decoder = RIBBON_DECODER_NONE;
static uint8_t bytes[70000], reply[8192], answer[RIBBON_ANSWER_ROOM], big[RIBBON_CELLS * 30];
static size_t count;
static ribbon_told told;
static ribbon_pushed pushed;
static ribbon_event event;
static ribbon_step step;
static ribbon_state state;
static ribbon_cell cells[RIBBON_CELLS];
static ribbon_field field;
static ribbon_look look;
static ribbon_answer came;
static ribbon_read_field read_field;
static char row[RIBBON_ROW_ROOM];
static uint32_t rows;
static uint64_t place;
static ribbon_status status;

static bool is_extended, is_live;
static const ribbon_identity identity = {.device = "ANNA1", .code_page = 1141};
static uint16_t missing;
static void station_new(void)
{
    status = is_live       ? ribbon_station_new_live(&station, "IBM-5251-11", &identity)
             : is_extended ? ribbon_station_new_extended(&station, "IBM-5251-11")
                           : ribbon_station_new(&station, "IBM-5251-11");
}
static void station_missing(void) { status = ribbon_station_missing(&station, RIBBON_KEY_MANDATORY_FILL, &missing); }
static void station_push(void) { status = ribbon_station_push(&station, bytes, count, reply, sizeof reply, &pushed); }
static void station_char(void) { status = ribbon_station_key(&station, RIBBON_KEY_CHAR, 'A', answer, sizeof answer, &told); }
static void station_enter(void)
{
    status = ribbon_station_key(&station, RIBBON_KEY_AID, RIBBON_AID_ENTER, answer, sizeof answer, &told);
}
static void station_state(void) { status = ribbon_station_state(&station, &state); }
static void station_cell(void) { status = ribbon_station_cell(&station, 1, 1, reply); }
static void station_cells(void) { status = ribbon_station_cells(&station, 1, 24, cells, RIBBON_CELLS); }
static void station_changed(void) { status = ribbon_station_changed(&station, &rows); }
static void station_row(void) { status = ribbon_station_row(&station, 1, row, sizeof row, &told); }
static void station_field(void) { status = ribbon_station_field(&station, 0, &field); }
static void station_text(void) { status = ribbon_station_field_text(&station, 0, (char *)reply, sizeof reply, &told); }
static void station_move(void) { status = ribbon_station_move_cursor(&station, 24, 80, &told); }
static void station_line(void) { status = ribbon_station_new_line(&station, &told); }
static void station_erase(void) { status = ribbon_station_erase_eof(&station, &told); }
static void station_free(void) { ribbon_station_free(&station); }
static void host_new(void) { status = ribbon_host_new(&host, reply, sizeof reply, &told); }
static void host_push(void) { status = ribbon_host_push(&host, bytes, count, reply, sizeof reply, &pushed, &event); }
static void host_send(void) { status = ribbon_host_send(&host, RIBBON_OPCODE_PUT_GET, form, sizeof form, &told); }
static void host_send_big(void) { status = ribbon_host_send(&host, RIBBON_OPCODE_PUT_GET, big, sizeof big, &told); }
static void host_sent(void) { status = ribbon_host_sent(&host, bytes, sizeof bytes, &told); }
static void host_cancel(void) { status = ribbon_host_cancel(&host, reply, sizeof reply, &told); }
static void host_answer(void) { status = ribbon_host_answer(&host, &came); }
static void host_field(void) { status = ribbon_host_answer_field(&host, 0, reply, sizeof reply, &read_field); }
static void host_state(void) { status = ribbon_host_state(&host, &state); }
static void host_cells(void) { status = ribbon_host_cells(&host, 1, 24, cells, RIBBON_CELLS); }
static void host_screen_field(void) { status = ribbon_host_field(&host, 0, &field); }
static void attribute_look(void) { status = ribbon_attribute_look(0x2b, true, &look); }
static void host_free(void) { ribbon_host_free(&host); }
static void decoder_new(void)
{
    status = is_extended ? ribbon_decoder_new_extended(&decoder) : ribbon_decoder_new(&decoder);
}
static void decoder_push(void) { status = ribbon_decoder_push(&decoder, bytes, count, reply, sizeof reply, &step); }
static void decoder_finish(void) { status = ribbon_decoder_finish(&decoder, &place); }
static void decoder_free(void) { ribbon_decoder_free(&decoder); }

static size_t most;

static void tell(const char *name, void (*call)(void))
{
    status = RIBBON_DONE;
    size_t used = measured(call);
    if (used > most)
        most = used;
    printf("%-24s %6zu%s%s\n", name, used, status == RIBBON_DONE ? "" : "   ", status == RIBBON_DONE ? "" : ribbon_status_text(status));
}

static void carry(const uint8_t *from, size_t size)
{
    memcpy(bytes, from, size);
    count = size;
}

int main(int count_of_words, char **words)
{
    is_live = count_of_words > 1 && strcmp(words[1], "live") == 0;
    is_extended = is_live || (count_of_words > 1 && strcmp(words[1], "extended") == 0);
    tell("station_new", station_new);
    tell("host_new", host_new);
    tell("decoder_new", decoder_new);
    carry(opening, sizeof opening);
    tell("decoder_push", decoder_push);
    tell("decoder_finish", decoder_finish);
    tell("station_push, options", station_push);
    carry(reply, pushed.replied);
    for (size_t at = 0; at < count; at += pushed.taken) { /* up to `ready` */
        memmove(bytes, bytes + at, count - at);
        count -= at;
        at = 0;
        host_push();
        if (event.kind == RIBBON_EVENT_READY)
            break;
    }
    for (size_t at = 0; at + 30 <= sizeof big; at += 30) { /* clears, again and again */
        memset(big + at, 0, 30);
        for (size_t i = 0; i < 30; i += 2)
            memcpy(big + at + i, "\x04\x40", 2);
    }
    tell("host_send, 57,600 bytes", host_send_big);
    tell("host_sent", host_sent);
    carry(bytes, told.length);
    for (size_t at = 0; at < told.length; at += 30000) {
        ribbon_pushed some;
        ribbon_station_push(&station, bytes + at, told.length - at < 30000 ? told.length - at : 30000, reply, sizeof reply, &some);
    }
    tell("host_send", host_send);
    host_sent();
    carry(bytes, told.length);
    tell("station_push, a record", station_push);
    if (is_extended) {
        carry((const uint8_t *)"\0\x0c\x12\xa0\0\0\x04\0\0\x03\x04\x02\xff\xef", 14);
        tell("station_push, Save", station_push);
        carry((const uint8_t *)"\0\x11\x12\xa0\0\0\x04\0\0\x03\x04\xf3\0\x05\xd9\x70\0\xff\xef", 19);
        tell("station_push, Query", station_push);
    }
    if (is_live) {
        carry((const uint8_t *)"\xff\xfd\x27\xff\xfa\x27\x01\xff\xf0", 9);
        tell("station_push, NEW-ENVIRON", station_push);
        carry((const uint8_t *)"\0\x0f\x12\xa0\0\0\x04\0\0\x03\x04\x23\x61\x01\x05\xff\xef", 17);
        tell("station_push, refused", station_push);
        tell("station_missing", station_missing);
    }
    tell("station_state", station_state);
    tell("station_cell", station_cell);
    tell("station_cells", station_cells);
    tell("station_changed", station_changed);
    tell("station_row", station_row);
    tell("station_field", station_field);
    tell("station_field_text", station_text);
    tell("station_key, a letter", station_char);
    tell("station_move_cursor", station_move);
    tell("station_new_line", station_line);
    tell("station_erase_eof", station_erase);
    tell("station_key, Enter", station_enter);
    carry(answer, told.length);
    tell("host_push, an answer", host_push);
    tell("host_state", host_state);
    tell("host_cells", host_cells);
    tell("host_field", host_screen_field);
    tell("attribute_look", attribute_look);
    tell("host_answer", host_answer);
    tell("host_answer_field", host_field);
    host_send();
    tell("host_cancel", host_cancel);
    tell("station_free", station_free);
    tell("host_free", host_free);
    tell("decoder_free", decoder_free);
    printf("most %zu\n", most);
    return most > 32768;
}
