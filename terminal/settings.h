/* The user's files of settings: ~/.config/term5250, or term5250 in XDG_CONFIG_HOME. */
#ifndef SETTINGS_H
#define SETTINGS_H

#include <stdbool.h>
#include <stddef.h>
#include <stdio.h>

/* The whole name of a file there. False, by errno, where there is none; by ENOENT where no folder is known, and `path`
 * is empty then. */
bool settings_path(const char *name, char *path, size_t room);

/* Opens a file there, and gives its whole name. Null, by errno as above, where it can't be opened. */
FILE *settings_open(const char *name, char *path, size_t room);

/* Makes the folders of a path that aren't there, for their owner alone. What can't be made the file's opening tells. */
void settings_make_folders(const char *path);

#endif
