/* Every allocation refused in turn: each call then says so or does as with memory, nothing is lost or leaked, and what it
 * says is what the header says. Linked with --wrap=malloc and --wrap=realloc. */
#include "bytes.h"
#include "check.h"
#include "ribbonscarp.h"

#include <stdlib.h>

void *__real_malloc(size_t size);
void *__real_realloc(void *block, size_t size);
void *__wrap_malloc(size_t size);
void *__wrap_realloc(void *block, size_t size);

/* How many more are given; refused from then on, once or for good. */
static long given = -1;
static bool for_good;
static bool was_refused;
/* How many bytes were asked for. */
static size_t asked;

static bool is_refused(void)
{
    if (given < 0)
        return false;
    if (given > 0) {
        given -= 1;
        return false;
    }
    was_refused = true;
    if (!for_good)
        given = -1;
    return true;
}

void *__wrap_malloc(size_t size)
{
    asked += size;
    return is_refused() ? NULL : __real_malloc(size);
}

void *__wrap_realloc(void *block, size_t size)
{
    return is_refused() ? NULL : __real_realloc(block, size);
}

/* A whole session: the host sends the form, a name is typed, and the answer comes. Each NO_MEMORY is tried again with
 * memory where the header lets one. */
static bool session(void)
{
    static const uint8_t up[] = "\xff\xfb\x18\xff\xfa\x18\0IBM-3179-2\xff\xf0\xff\xfb\x19\xff\xfd\x19\xff\xfb\0\xff\xfd\0";
    static const uint8_t came[] = {0x00, 0x12, 0x12, 0xa0, 0x00, 0x00, 0x04, 0x00, 0x00, 0x03,
                                   0x06, 0x37, 0xf1, 0x11, 0x06, 0x35, 0xc2, 0xd6, 0xff, 0xef};
    ribbon_station station = RIBBON_STATION_NONE;
    ribbon_host host = RIBBON_HOST_NONE;
    ribbon_decoder decoder = RIBBON_DECODER_NONE;
    ribbon_told told;
    ribbon_pushed pushed;
    ribbon_event event;
    ribbon_answer answer;
    ribbon_read_field field;
    uint8_t reply[64], content[16];
    bool is_good = true;
    ribbon_status status = ribbon_station_new(&station, "IBM-3179-2");
    if (status == RIBBON_NO_MEMORY) {
        is_good = is_good && was_refused && !station.handle.is_open;
        given = -1;
        status = ribbon_station_new(&station, "IBM-3179-2");
    }
    is_good = is_good && status == RIBBON_DONE;
    status = ribbon_decoder_new(&decoder);
    if (status == RIBBON_NO_MEMORY) {
        is_good = is_good && was_refused && !decoder.handle.is_open;
        given = -1;
        status = ribbon_decoder_new(&decoder);
    }
    is_good = is_good && status == RIBBON_DONE;
    status = ribbon_host_new(&host, reply, sizeof reply, &told);
    if (status == RIBBON_NO_MEMORY) {
        is_good = is_good && was_refused && !host.handle.is_open && told.length == 0;
        given = -1;
        status = ribbon_host_new(&host, reply, sizeof reply, &told);
    }
    is_good = is_good && status == RIBBON_DONE && told.length == 3;
    /* What a host takes before its first answer needs no memory; a station's bytes and keys never do. */
    is_good = is_good && ribbon_host_push(&host, up, sizeof up - 1, reply, sizeof reply, &pushed, &event) == RIBBON_DONE
              && event.kind == RIBBON_EVENT_READY;
    is_good = is_good && ribbon_station_push(&station, form_record, 9, reply, sizeof reply, &pushed) == RIBBON_DONE;
    status = ribbon_host_send(&host, RIBBON_OPCODE_PUT_GET, form, sizeof form, &told);
    if (status == RIBBON_NO_MEMORY) { /* nothing was sent, and the host is as it was */
        is_good = is_good && was_refused && told.length == 0 && told.reason == 0
                  && ribbon_host_sent(&host, content, 0, &told) == RIBBON_DONE && told.length == 0;
        given = -1;
        status = ribbon_host_send(&host, RIBBON_OPCODE_PUT_GET, form, sizeof form, &told);
    }
    is_good = is_good && status == RIBBON_DONE && told.length == sizeof form_record;
    status = ribbon_host_push(&host, came, sizeof came, reply, sizeof reply, &pushed, &event);
    if (status == RIBBON_NO_MEMORY) { /* the end has failed, and its last record can still be fetched */
        is_good = is_good && was_refused && pushed.reason == 0 && event.kind == RIBBON_EVENT_NONE
                  && pushed.taken < sizeof came;
        given = -1;
        is_good = is_good && ribbon_host_push(&host, came, 1, reply, sizeof reply, &pushed, &event) == RIBBON_FAILED
                  && ribbon_host_answer(&host, &answer) == RIBBON_NO_ANSWER;
    } else
        is_good = is_good && status == RIBBON_DONE && event.kind == RIBBON_EVENT_ANSWER
                  && ribbon_host_answer_field(&host, 0, content, sizeof content, &field) == RIBBON_DONE
                  && field.length == 2 && memcmp(content, "\xc2\xd6", 2) == 0;
    given = -1;
    ribbon_station_free(&station);
    ribbon_host_free(&host);
    ribbon_decoder_free(&decoder);
    return is_good;
}

/* Each `new` with its first block refused, then with its second: it holds nothing, and nothing is lost. With memory it
 * asks for as much as the header says. */
static void check_each_new(void)
{
    ribbon_station station = RIBBON_STATION_NONE, extended = RIBBON_STATION_NONE, live = RIBBON_STATION_NONE;
    ribbon_host host = RIBBON_HOST_NONE;
    ribbon_decoder decoder = RIBBON_DECODER_NONE, live_decoder = RIBBON_DECODER_NONE;
    ribbon_identity identity = {.device = "ANNA1"};
    ribbon_told told;
    uint8_t reply[RIBBON_REPLY_ROOM];
    static const size_t most[] = {72792, 81552, 3800, 200, 200, 81952};
    const ribbon_handle *const handles[] = {&station.handle, &extended.handle,     &host.handle,
                                            &decoder.handle, &live_decoder.handle, &live.handle};
    for (unsigned kind = 0; kind < 6; kind++)
        for (long at = 0; at <= 2; at++) {
            given = at;
            asked = 0;
            ribbon_status status = kind == 0   ? ribbon_station_new(&station, "IBM-3179-2")
                                   : kind == 1 ? ribbon_station_new_extended(&extended, "IBM-3179-2")
                                   : kind == 2 ? ribbon_host_new(&host, reply, sizeof reply, &told)
                                   : kind == 3 ? ribbon_decoder_new(&decoder)
                                   : kind == 4 ? ribbon_decoder_new_extended(&live_decoder)
                                               : ribbon_station_new_live(&live, "IBM-3179-2", &identity);
            CHECK(status == (at < 2 ? RIBBON_NO_MEMORY : RIBBON_DONE));
            CHECK(handles[kind]->is_open == (at == 2));
            CHECK(asked <= most[kind]);
        }
    given = -1;
    ribbon_station_free(&station);
    ribbon_station_free(&extended);
    ribbon_host_free(&host);
    ribbon_decoder_free(&decoder);
    ribbon_decoder_free(&live_decoder);
    ribbon_station_free(&live);
}

int main(void)
{
    unsigned places = 0;
    check_each_new();
    for (int good = 0; good < 2; good++) {
        for_good = good;
        for (long at = 0;; at++) {
            given = at;
            was_refused = false;
            CHECK(session());
            if (!was_refused)
                break;
            places += 1;
        }
    }
    CHECK(places > 6);
    return check_end();
}
