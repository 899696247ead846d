/* A program by someone else, on what was installed. It is C and C++. */
#include <ribbonscarp.h>
#include <stdio.h>
#include <string.h>

int main(void)
{
    ribbon_station station = RIBBON_STATION_NONE;
    ribbon_host host = RIBBON_HOST_NONE;
    ribbon_decoder decoder = RIBBON_DECODER_NONE;
    ribbon_state state;
    ribbon_told told;
    uint8_t opening[RIBBON_REPLY_ROOM];
    int good = strcmp(ribbon_version(), RIBBON_VERSION) == 0
               && ribbon_station_new(&station, "IBM-3179-2") == RIBBON_DONE
               && ribbon_host_new(&host, opening, sizeof opening, &told) == RIBBON_DONE
               && ribbon_decoder_new(&decoder) == RIBBON_DONE
               && ribbon_station_state(&station, &state) == RIBBON_DONE && state.is_locked && !state.is_ready;
    ribbon_decoder_free(&decoder);
    ribbon_host_free(&host);
    ribbon_station_free(&station);
    puts(good ? "1 passed, 0 failed" : "0 passed, 1 failed");
    return !good;
}
