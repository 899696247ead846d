/* The core of an emulator: it reads captured host streams, and prints the screen that each makes, as the lines of
 * `t5250 show` from `screen` on.
 *
 *     emulator CAPTURE.hex..
 *
 * The capture is hex text, with blanks, tabs and line ends anywhere. A station takes no record before both ends allow
 * records, and a capture may begin later than that: so the station first takes the tokens by which a host opens a
 * session. They touch no screen. Where the station refuses a byte, the last line tells which byte of the capture, and
 * why; the status is then 1. */
#include "hex.h"
#include "ribbonscarp.h"

/* DO TERMINAL-TYPE, its SEND, and DO and WILL of END-OF-RECORD and TRANSMIT-BINARY (RFC 1205, section 2). */
static const uint8_t opening[] = {0xff, 0xfd, 0x18, 0xff, 0xfa, 0x18, 0x01, 0xff, 0xf0, 0xff, 0xfd,
                                  0x19, 0xff, 0xfb, 0x19, 0xff, 0xfd, 0x00, 0xff, 0xfb, 0x00};

/* Gives the station bytes; what it writes in answer is for the host, and there is none here. `pushed->place` tells
 * which byte is refused. */
static ribbon_status push(ribbon_station *station, const uint8_t *bytes, size_t count, ribbon_pushed *pushed)
{
    uint8_t reply[4096];
    ribbon_status status = RIBBON_NO_ROOM;
    for (size_t at = 0; status == RIBBON_NO_ROOM; at += pushed->taken)
        status = ribbon_station_push(station, bytes + at, count - at, reply, sizeof reply, pushed);
    return status;
}

static const char *on_or_off(bool is_on)
{
    return is_on ? "on" : "off";
}

static int print_screen(ribbon_station *station)
{
    ribbon_state screen;
    puts("screen");
    for (uint8_t row = 1; row <= 24; row++) {
        char text[RIBBON_ROW_ROOM];
        ribbon_told told;
        if (ribbon_station_row(station, row, text, sizeof text, &told) != RIBBON_DONE)
            return 2;
        while (told.length > 0 && text[told.length - 1] == ' ')
            told.length -= 1;
        if (told.length > 0)
            printf("%2d %.*s\n", row, (int)told.length, text);
    }
    if (ribbon_station_state(station, &screen) != RIBBON_DONE)
        return 2;
    printf("cursor %d %d, %s, message %s, blink %s, fields %d\n", screen.cursor_row, screen.cursor_column,
           screen.is_locked ? "locked" : "unlocked", on_or_off(screen.is_message_lit), on_or_off(screen.is_blinking),
           screen.field_count);
    return 0;
}

/* Gives the station the opening and then the capture. */
static int run(ribbon_station *station, const uint8_t *bytes, size_t count)
{
    ribbon_pushed pushed;
    if (push(station, opening, sizeof opening, &pushed) != RIBBON_DONE)
        return 2;
    ribbon_status status = push(station, bytes, count, &pushed);
    if (status == RIBBON_REFUSED) {
        printf("refused at %llu: reason %d\n", (unsigned long long)(pushed.place - sizeof opening), pushed.reason);
        return 1;
    }
    return status == RIBBON_DONE ? print_screen(station) : 2;
}

/* Shows one capture. */
static int show(const char *name)
{
    ribbon_station station = RIBBON_STATION_NONE;
    size_t count;
    uint8_t *bytes = hex_file(name, &count);
    if (bytes == NULL) {
        fprintf(stderr, "%s: not read\n", name);
        return 2;
    }
    int result = 2;
    if (ribbon_station_new(&station, "IBM-3179-2") == RIBBON_DONE)
        result = run(&station, bytes, count);
    else
        fputs("memory\n", stderr);
    ribbon_station_free(&station);
    free(bytes);
    return result;
}

int main(int count, char **words)
{
    int worst = 0;
    if (count < 2) {
        fputs("usage: emulator CAPTURE.hex..\n", stderr);
        return 2;
    }
    for (int at = 1; at < count; at++) {
        int result = show(words[at]);
        if (result > worst)
            worst = result;
    }
    return worst;
}
