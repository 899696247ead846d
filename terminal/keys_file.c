/* The reading of a keys file. */
#include "bindings.h"

#include <string.h>

static char *trimmed(char *text)
{
    text += strspn(text, " \t\r");
    size_t length = strlen(text);
    while (length > 0 && strchr(" \t\r\n", text[length - 1]) != NULL)
        length--;
    text[length] = 0;
    return text;
}

/* What is wrong with a line, null where nothing is. It may change the line's text. */
static const char *read_line(bindings *b, char *text, const char **about)
{
    /* No action's name has the sign: the last one parts the line, also in `Esc = = f12`. */
    char *sign = strrchr(text, '=');
    *about = text;
    if (sign == NULL || sign == text)
        return "isn't KEY = ACTION";
    *sign = 0;
    char *key_name = trimmed(text), *action_name = trimmed(sign + 1);
    stroke key;
    action does;
    *about = key_name;
    if (!stroke_by_name(key_name, &key))
        return "is no key's name";
    *about = action_name;
    if (!action_by_name(action_name, &does))
        return "is no action";
    *about = key_name;
    if (key == STROKE_MENU && does.kind != ACTION_MENU)
        return "stays the way to the menu";
    return bindings_set(b, key, does) ? NULL : "is one key too many";
}

bool keys_file_read(bindings *b, FILE *file, const char *name, char *why, size_t room)
{
    char line[256];
    for (unsigned number = 1; fgets(line, sizeof line, file) != NULL; number++) {
        const char *about = line, *wrong = NULL;
        if (strchr(line, '\n') == NULL && !feof(file)) {
            snprintf(why, room, "%s, line %u: it has more than %zu characters", name, number, sizeof line - 2);
            return false;
        }
        char *text = trimmed(line);
        if (text[0] != 0 && text[0] != '#')
            wrong = read_line(b, text, &about);
        if (wrong != NULL) {
            snprintf(why, room, "%s, line %u: `%s` %s", name, number, about, wrong);
            return false;
        }
    }
    if (ferror(file)) {
        snprintf(why, room, "%s can't be read", name);
        return false;
    }
    return true;
}
