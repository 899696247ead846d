#include "macro.h"

#include "ribbonscarp.h"

#include <stdlib.h>
#include <string.h>
#include <wchar.h>

void macro_record(macro *m)
{
    m->state = MACRO_RECORDS;
    m->count = m->next = 0;
}

void macro_play(macro *m)
{
    m->state = m->count > 0 ? MACRO_PLAYS : MACRO_RESTS;
    m->next = 0;
}

bool macro_add(macro *m, action key)
{
    if (key.kind == ACTION_HIDDEN && m->count > 0 && m->keys[m->count - 1].kind == ACTION_HIDDEN)
        return true;
    if (m->count == MACRO_ROOM)
        return false;
    m->keys[m->count++] = key;
    return true;
}

bool macro_next(const macro *m, action *key)
{
    if (m->state != MACRO_PLAYS)
        return false;
    *key = m->keys[m->next];
    return true;
}

void macro_went_on(macro *m)
{
    m->next++;
    if (m->next == m->count)
        m->state = MACRO_RESTS;
}

size_t macro_stop(macro *m)
{
    if (m->state != MACRO_PLAYS)
        return 0;
    m->state = MACRO_RESTS;
    return m->count - m->next;
}

/* ---- Its file ---- */

static bool is_text(action_kind kind)
{
    return kind == ACTION_CHARACTER || kind == ACTION_INSERTED;
}

/* Characters of one kind in a row; behind them stands `next`. */
static bool write_text(const macro *m, FILE *file, size_t *next)
{
    action_kind kind = m->keys[*next].kind;
    bool is_written = fputs(kind == ACTION_CHARACTER ? "text " : "inserted ", file) >= 0;
    for (; *next < m->count && m->keys[*next].kind == kind; ++*next)
        is_written = is_written && fprintf(file, "%lc", (wint_t)m->keys[*next].value) >= 0;
    return is_written && fputc('\n', file) != EOF;
}

static bool write_key(action key, FILE *file)
{
    char name[24];
    if (key.kind == ACTION_MOVE_TO)
        return fprintf(file, "cursor %u %u\n", (unsigned)key.value / RIBBON_COLUMNS + 1,
                       (unsigned)key.value % RIBBON_COLUMNS + 1) >= 0;
    return fprintf(file, "%s\n", key.kind == ACTION_HIDDEN ? "hidden" : action_name(key, name, sizeof name)) >= 0;
}

bool macro_write(const macro *m, FILE *file)
{
    bool is_written = true;
    for (size_t at = 0; at < m->count && is_written;) {
        if (is_text(m->keys[at].kind))
            is_written = write_text(m, file, &at);
        else
            is_written = write_key(m->keys[at++], file);
    }
    return is_written;
}

/* Adds the characters of a text; what is wrong with it, null where nothing is. */
static const char *read_text(macro *m, action_kind kind, const char *text)
{
    wchar_t character;
    mbstate_t state = {0};
    for (size_t length; *text != 0; text += length) {
        length = mbrtowc(&character, text, strlen(text), &state);
        if (length == 0 || length >= (size_t)-2)
            return "has no characters of this locale";
        if (!macro_add(m, (action){kind, (uint32_t)character}))
            return "is one key too many";
    }
    return NULL;
}

static bool read_cursor(const char *text, action *key)
{
    unsigned row, column;
    char more;
    if (sscanf(text, "cursor %u %u %c", &row, &column, &more) != 2 || row < 1 || row > RIBBON_ROWS || column < 1
        || column > RIBBON_COLUMNS)
        return false;
    *key = (action){ACTION_MOVE_TO, (row - 1) * RIBBON_COLUMNS + column - 1};
    return true;
}

/* Whether a macro can have it: not what ends or shows something, which is no key of the station's. */
static bool is_played(action_kind kind)
{
    return kind != ACTION_NOTHING && kind < ACTION_ITSELF;
}

static const char *read_line(macro *m, const char *text)
{
    action key;
    if (strncmp(text, "text ", 5) == 0)
        return read_text(m, ACTION_CHARACTER, text + 5);
    if (strncmp(text, "inserted ", 9) == 0)
        return read_text(m, ACTION_INSERTED, text + 9);
    if (strcmp(text, "hidden") == 0)
        key = (action){ACTION_HIDDEN, 0};
    else if (!read_cursor(text, &key) && !(action_by_name(text, &key) && is_played(key.kind)))
        return "is no line of a macro";
    return macro_add(m, key) ? NULL : "is one key too many";
}

bool macro_read(macro *m, FILE *file, char *why, size_t room)
{
    char line[4 * RIBBON_CELLS + 16]; /* a text that fills the screen */
    m->state = MACRO_RESTS;
    m->count = 0;
    for (unsigned number = 1; fgets(line, sizeof line, file) != NULL; number++) {
        bool is_cut = strchr(line, '\n') == NULL && !feof(file);
        line[strcspn(line, "\r\n")] = 0;
        const char *wrong = is_cut                             ? "is too long"
                            : line[0] == 0 || line[0] == '#' ? NULL
                                                               : read_line(m, line);
        if (wrong != NULL) {
            (void)snprintf(why, room, "line %u: `%.20s` %s", number, line, wrong);
            return false;
        }
    }
    if (ferror(file))
        (void)snprintf(why, room, "it can't be read");
    else if (m->count == 0)
        (void)snprintf(why, room, "it has no keys");
    return !ferror(file) && m->count > 0;
}
