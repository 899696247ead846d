#define _GNU_SOURCE
#include "macros.h"

#include "look.h"
#include "settings.h"

#include <ctype.h>
#include <dirent.h>
#include <errno.h>
#include <stdlib.h>
#include <string.h>
#include <sys/stat.h>
#include <unistd.h>

static bool enters(action_kind kind)
{
    return kind == ACTION_CHARACTER || kind == ACTION_INSERTED || kind == ACTION_PASTED || kind == ACTION_DUP;
}

bool macros_hides(session *s, action key)
{
    return s->macro.state != MACRO_RESTS && enters(key.kind) && look_hides(&s->station);
}

void macros_record(session *s, action key, bool is_hidden)
{
    if (s->macro.state != MACRO_RECORDS)
        return;
    if (key.kind == ACTION_PASTED)
        key.kind = s->is_inserting ? ACTION_INSERTED : ACTION_CHARACTER;
    if (is_hidden) {
        key = (action){ACTION_HIDDEN, 0};
        session_tell(s, "This field is hidden: the macro stops here when it plays.");
    }
    if (macro_add(&s->macro, key))
        return;
    session_tell(s, "The macro is full: this key isn't recorded.");
    s->rings = true;
}

bool macros_next(session *s, action *key)
{
    if (!macro_next(&s->macro, key))
        return false;
    if (key->kind == ACTION_HIDDEN || macros_hides(s, *key)) {
        (void)macro_stop(&s->macro);
        session_report(s, "The macro stops: this field is hidden. Type it yourself.");
        s->rings = true;
        return false;
    }
    macro_went_on(&s->macro);
    return true;
}

/* ---- Files ---- */

bool macros_is_name(const char *name)
{
    size_t length = strlen(name);
    for (size_t at = 0; at < length; at++)
        if (!isascii(name[at]) || (!isalnum((unsigned char)name[at]) && name[at] != '-' && name[at] != '_'))
            return false;
    return length > 0 && length < MACRO_NAME_ROOM;
}

static bool path_of(const char *name, char *path, size_t room)
{
    char inner[MACRO_NAME_ROOM + 8];
    (void)snprintf(inner, sizeof inner, "macros/%s", name);
    return settings_path(inner, path, room);
}

void macros_keep(session *s, const char *name)
{
    char path[FILE_NAME_ROOM], made[FILE_NAME_ROOM];
    struct stat about;
    FILE *file = NULL;
    if (path_of(name, path, sizeof path)) {
        settings_make_folders(path);
        file = file_made(path, made, sizeof made);
    }
    bool is_written = file != NULL && macro_write(&s->macro, file);
    if (file != NULL && fclose(file) != 0)
        is_written = false;
    if (!is_written) { /* what was recorded isn't lost */
        session_report(s, "The macro can't be written: %s.", strerror(errno));
        s->rings = true;
        if (file != NULL && lstat(made, &about) == 0 && S_ISREG(about.st_mode))
            (void)unlink(made); /* a part of it would be another macro */
        return;
    }
    s->macro.state = MACRO_RESTS;
    session_report(s, "The macro is kept as %s.", strrchr(made, '/') + 1);
}

void macros_play(session *s, const char *name)
{
    char path[FILE_NAME_ROOM], why[200];
    if (s->phase == PHASE_OVER) { /* since its name was asked for */
        session_report(s, "The session is over: no macro plays.");
        s->rings = true;
        return;
    }
    FILE *file = path_of(name, path, sizeof path) ? fopen(path, "r") : NULL;
    if (file == NULL) {
        session_report(s, "There is no macro %s: %s.", name, strerror(errno));
        s->rings = true;
        return;
    }
    if (macro_read(&s->macro, file, why, sizeof why)) {
        macro_play(&s->macro);
    } else {
        session_report(s, "Macro %s, %s.", name, why);
        s->rings = true;
    }
    (void)fclose(file);
}

static int is_macro(const struct dirent *entry)
{
    return macros_is_name(entry->d_name);
}

void macros_list(void (*show)(size_t at, const char *name), size_t most)
{
    char path[FILE_NAME_ROOM];
    struct dirent **entries = NULL;
    int count = path_of("", path, sizeof path) ? scandir(path, &entries, is_macro, alphasort) : 0;
    for (int at = 0; at < count; at++) {
        if ((size_t)at < most)
            show((size_t)at, entries[at]->d_name);
        free(entries[at]);
    }
    free(entries);
}
