/* Where the user's settings are. */
#include "settings.h"

#include <errno.h>
#include <stdlib.h>
#include <string.h>
#include <sys/stat.h>

bool settings_path(const char *name, char *path, size_t room)
{
    const char *folder = getenv("XDG_CONFIG_HOME"), *home = getenv("HOME");
    bool is_set = folder != NULL && folder[0] != 0;
    path[0] = 0;
    errno = ENOENT;
    if (!is_set && (home == NULL || home[0] == 0))
        return false;
    int length = is_set ? snprintf(path, room, "%s/term5250/%s", folder, name)
                        : snprintf(path, room, "%s/.config/term5250/%s", home, name);
    errno = ENAMETOOLONG;
    return length > 0 && (size_t)length < room;
}

FILE *settings_open(const char *name, char *path, size_t room)
{
    return settings_path(name, path, room) ? fopen(path, "r") : NULL;
}

void settings_make_folders(const char *path)
{
    char folder[4096];
    if (strlen(path) >= sizeof folder)
        return;
    for (const char *end = strchr(path + 1, '/'); end != NULL; end = strchr(end + 1, '/')) {
        (void)snprintf(folder, sizeof folder, "%.*s", (int)(end - path), path);
        (void)mkdir(folder, 0700); /* it is there, or the file can't be made either */
    }
}
