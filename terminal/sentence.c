#define _GNU_SOURCE
#include "sentence.h"

#include "label.h"
#include "look.h"

#include <stdio.h>
#include <string.h>
#include <wchar.h>
#include <wctype.h>

enum { KEY_ROOM = 24 };

const char *sentence_character(uint32_t character, char *text, size_t room)
{
    int length = -1;
    if (iswprint((wint_t)character) && wcwidth((wchar_t)character) == 1) /* a column each, as the status line counts */
        length = snprintf(text, room, "'%lc'", (wint_t)character);
    if (length < 0)
        (void)snprintf(text, room, "U+%04X", (unsigned)character);
    return text;
}

/* What a field takes, by its shift (SC30-3533, field format word); null where it takes all. A blank goes with the first
 * two. */
static const char *kind_of(unsigned shift)
{
    switch (shift) {
    case RIBBON_SHIFT_ALPHABETIC_ONLY: return "letters , . - only";
    case RIBBON_SHIFT_NUMERIC_ONLY: return "0-9 + - , . only";
    case RIBBON_SHIFT_DIGITS_ONLY: return "digits only";
    case RIBBON_SHIFT_SIGNED_NUMERIC: return "digits only";
    default: return NULL;
    }
}

static bool has_value(action key)
{
    return key.kind == ACTION_CHARACTER || key.kind == ACTION_INSERTED || key.kind == ACTION_PASTED;
}

/* The shift of the cursor's field; without one it is a field that takes all. */
static unsigned shift_here(ribbon_station *station)
{
    ribbon_state state;
    ribbon_field field = {0};
    if (ribbon_station_state(station, &state) == RIBBON_DONE)
        (void)ribbon_station_field(station, state.cursor_field, &field);
    return field.format & RIBBON_FORMAT_SHIFT;
}

/* The first key of an action; nothing where none is bound. */
static const char *key_of(const bindings *keys, action_kind kind, char text[KEY_ROOM])
{
    bindings_keys(keys, (action){kind, 0}, text, KEY_ROOM);
    text[strcspn(text, ",")] = 0;
    return text;
}

static void tell_wrong(ribbon_station *station, const refused_key *refused, char *text, size_t room)
{
    char shown[24], minus[KEY_ROOM];
    uint8_t byte;
    unsigned shift = shift_here(station);
    bool is_hidden = look_hides(station);
    if (!has_value(refused->key)) {
        (void)snprintf(text, room, "Field Minus %s.",
                       refused->is_strict ? "is for signed numeric fields alone"
                       : shift == RIBBON_SHIFT_NUMERIC_ONLY ? "needs a digit at the number's end"
                                                            : "is for numeric only and signed fields");
        return;
    }
    (void)sentence_character(refused->key.value, shown, sizeof shown);
    if (is_hidden)
        (void)snprintf(shown, sizeof shown, "such character");
    (void)key_of(refused->keys, ACTION_FIELD_MINUS, minus);
    if (ribbon_to_page(refused->code_page, refused->key.value, &byte) != RIBBON_DONE)
        (void)snprintf(text, room, "The host's characters lack %s.", is_hidden ? "it" : shown);
    else if (kind_of(shift) == NULL)
        (void)snprintf(text, room, "No %s here: the field doesn't take it.", shown);
    else if (shift == RIBBON_SHIFT_SIGNED_NUMERIC && minus[0] != 0)
        (void)snprintf(text, room, "No %s here: digits only, and %s for minus.", shown, minus);
    else
        (void)snprintf(text, room, "No %s here: %s.", shown, kind_of(shift));
}

/* The field that lacks something: by its label, else by its place. */
static void tell_missing(ribbon_station *station, uint8_t refusal, char *text, size_t room)
{
    const char *what = refusal == RIBBON_KEY_MANDATORY_FILL ? "must be full or empty" : "has to be filled in";
    char label[LABEL_ROOM];
    ribbon_field field;
    if (!label_missing(station, refusal, &field))
        (void)snprintf(text, room, "A field %s.", what);
    else if (label_of(station, &field, label))
        (void)snprintf(text, room, "'%s' %s.", label, what);
    else
        (void)snprintf(text, room, "The field at row %u, column %u %s.", field.row, field.column, what);
}

/* A full field, which a key has to leave. */
static void tell_full(const bindings *keys, char *text, size_t room)
{
    char field_exit[KEY_ROOM];
    (void)key_of(keys, ACTION_FIELD_EXIT, field_exit);
    (void)snprintf(text, room, "The field is full: %s leaves it.", field_exit[0] != 0 ? field_exit : "Field Exit");
}

/* What the library says, as a sentence. */
static void tell_plainly(uint8_t refusal, char *text, size_t room)
{
    const char *why = ribbon_refusal_text(refusal);
    (void)snprintf(text, room, "%c%s.", why[0] >= 'a' && why[0] <= 'z' ? why[0] - 'a' + 'A' : why[0], why + 1);
}

void sentence_refused(ribbon_station *station, const refused_key *refused, char *text, size_t room)
{
    char shown[24] = "it";
    bool is_typed = has_value(refused->key) && refused->key.kind != ACTION_PASTED;
    if (has_value(refused->key) && !look_hides(station))
        (void)sentence_character(refused->key.value, shown, sizeof shown);
    switch (refused->refusal) {
    case RIBBON_KEY_WRONG_CHARACTER: tell_wrong(station, refused, text, room); break;
    case RIBBON_KEY_MANDATORY_ENTER:
    case RIBBON_KEY_MANDATORY_FILL: tell_missing(station, refused->refusal, text, room); break;
    case RIBBON_KEY_FIELD_EXIT_REQUIRED: tell_full(refused->keys, text, room); break;
    case RIBBON_KEY_FIELD_HAS_NO_ROOM:
        (void)snprintf(text, room, "No room for %s: Reset, then type over.", shown);
        break;
    case RIBBON_KEY_IS_PROTECTED:
        if (is_typed)
            (void)snprintf(text, room, "The cursor isn't in an input field: %s went nowhere.", shown);
        else
            tell_plainly(refused->refusal, text, room);
        break;
    default: tell_plainly(refused->refusal, text, room); break;
    }
}

/* The library's words for a reason, without what they say of the profile. */
static int reason_length(const char *words)
{
    const char *end = strstr(words, " isn't part of the profile");
    if (end == NULL)
        end = strstr(words, " aren't part of the profile");
    return (int)(end != NULL ? (size_t)(end - words) : strlen(words));
}

void sentence_record(uint8_t reason, size_t columns, char *text, size_t room)
{
    const char *words = ribbon_reason_text(reason);
    int length = reason_length(words);
    (void)snprintf(text, room, "Host data refused (reason %.*s); the screen stays.", length, words);
    if (strlen(text) > columns)
        (void)snprintf(text, room, "Host data refused (reason %.*s).", length, words);
    if (strlen(text) > columns)
        (void)snprintf(text, room, "Host data refused (reason %u: see ^]); the screen stays.", reason);
}

void sentence_bytes(const uint8_t *bytes, size_t count, char *text, size_t room)
{
    size_t at = 0, had = 0;
    text[0] = 0;
    while (at < count && had + 7 < room) {
        uint8_t byte = bytes[at++];
        int length = byte >= 0x20 && byte < 0x7f ? snprintf(text + had, room - had, "%c", byte)
                                                 : snprintf(text + had, room - had, "\\x%02X", byte);
        had += length > 0 ? (size_t)length : 0;
    }
    if (at < count)
        (void)snprintf(text + had, room - had, "..");
}
