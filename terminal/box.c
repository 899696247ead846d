/* The box at a session's end. */
#define _GNU_SOURCE
#include "box.h"

#include "menu.h"
#include "window.h"

#include <stdlib.h>

enum {
    BOX_COLUMNS = 72,
    BOX_LEFT = (SCREEN_COLUMNS - BOX_COLUMNS) / 2,
    BOX_TEXT = BOX_COLUMNS - 4, /* the columns of a line */
    BOX_LINES = 12
};

typedef struct {
    wchar_t lines[BOX_LINES][BOX_TEXT + 1];
    int count;
} box_text;

static void put_line(box_text *b, const wchar_t *text, size_t length)
{
    if (b->count == BOX_LINES)
        return;
    wmemcpy(b->lines[b->count], text, length);
    b->lines[b->count++][length] = 0;
}

/* How much of a text is a line: up to a blank, or in a long word as much as there is room for. */
static size_t line_length(const wchar_t *text)
{
    size_t length = wcslen(text);
    if (length <= BOX_TEXT)
        return length;
    for (length = BOX_TEXT; length > 0 && text[length] != L' '; length--)
        ;
    return length > 0 ? length : BOX_TEXT;
}

static void put_wrapped(box_text *b, const char *text)
{
    wchar_t wide[NOTE_ROOM];
    size_t length = mbstowcs(wide, text, NOTE_ROOM - 1);
    if (length == (size_t)-1)
        length = 0;
    wide[length] = 0;
    for (const wchar_t *at = wide; *at != 0;) {
        size_t taken = line_length(at);
        put_line(b, at, taken);
        at += taken;
        at += wcsspn(at, L" ");
    }
}

static box_text text_of(const session *s)
{
    char pause[60];
    box_text b = {.count = 0};
    put_wrapped(&b, s->standing);
    put_line(&b, L"", 0);
    if (s->again.is_due) {
        (void)snprintf(pause, sizeof pause, "It begins again in %u s.", again_left(&s->again, session_clock()));
        put_wrapped(&b, pause);
    }
    put_wrapped(&b, "c connect again   s save   q leave   any other key: the screen");
    return b;
}

void box_draw(const session *s)
{
    box_text b = text_of(s);
    int top = SCREEN_ROWS - 1 - (b.count + 2);
    (void)attron(A_REVERSE);
    for (int row = 0; row < b.count + 2; row++) /* with an empty row above and below */
        (void)mvhline(top + row, BOX_LEFT, ' ', BOX_COLUMNS);
    for (int at = 0; at < b.count; at++)
        (void)mvaddwstr(top + 1 + at, BOX_LEFT + 2, b.lines[at]);
    (void)attroff(A_REVERSE);
    (void)move(top + b.count, BOX_LEFT + 2);
}

void box_key(session *s, stroke key)
{
    uint64_t now = session_clock();
    if (now - s->rung < TYPED_ON) { /* whoever types on hasn't read it */
        s->rings = true;
        s->rung = now;
    } else if (key == 'c' || key == 's' || key == 'q') {
        menu_key(s, key);
    } else {
        s->is_box_open = false;
        s->draws_all = true;
    }
}
