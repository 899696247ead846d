#define _GNU_SOURCE
#include "recording.h"

#include <errno.h>
#include <fcntl.h>
#include <inttypes.h>
#include <string.h>
#include <sys/stat.h>
#include <unistd.h>

enum { NAMES_TRIED = 10000, NAME_SHOWN = 24 };

static bool is_special(const char *name)
{
    struct stat about;
    return stat(name, &about) == 0 && !S_ISREG(about.st_mode) && !S_ISDIR(about.st_mode);
}

/* A pipe without a reader is told, and one that isn't read doesn't stop the terminal. */
static int open_special(const char *name, char *made, size_t room)
{
    int length = snprintf(made, room, "%s", name);
    if (length < 0 || (size_t)length >= room) {
        errno = ENAMETOOLONG;
        return -1;
    }
    return open(name, O_WRONLY | O_NONBLOCK | O_NOCTTY | O_CLOEXEC);
}

static int open_new(const char *name, char *made, size_t room)
{
    int handle = -1;
    errno = EEXIST;
    for (unsigned number = 0; number < NAMES_TRIED && handle < 0 && errno == EEXIST; number++) {
        int length = number == 0 ? snprintf(made, room, "%s", name) : snprintf(made, room, "%s-%u", name, number);
        if (length < 0 || (size_t)length >= room) {
            errno = ENAMETOOLONG;
            return -1;
        }
        handle = open(made, O_WRONLY | O_CREAT | O_EXCL | O_CLOEXEC, 0600);
    }
    return handle;
}

FILE *file_made(const char *name, char *made, size_t room)
{
    int handle = is_special(name) ? open_special(name, made, room) : open_new(name, made, room);
    if (handle < 0)
        return NULL;
    FILE *file = fdopen(handle, "w");
    if (file == NULL) {
        int why = errno;
        (void)close(handle);
        errno = why;
    }
    return file;
}

const char *file_shown(const char *name)
{
    size_t length = strlen(name);
    if (length <= NAME_SHOWN)
        return name;
    const char *end = name + length - NAME_SHOWN;
    while (((unsigned char)*end & 0xc0) == 0x80) /* inside a character of UTF-8 */
        end++;
    const char *part = strchr(end - 1, '/'); /* a folder may begin just there */
    return part != NULL && part[1] != 0 ? part + 1 : end;
}

/* Closes the file of a recording that has failed, and keeps errno. A part of a line is cut off where that can be. */
static void give_up(recording *r)
{
    int why = errno, handle = dup(fileno(r->file));
    (void)fclose(r->file); /* which may write more of it */
    r->file = NULL;
    if (handle >= 0) {
        int cut = ftruncate(handle, r->whole); /* no pipe or device can be */
        (void)cut;
        (void)close(handle);
    }
    (void)snprintf(r->broken, sizeof r->broken, "%s", r->name);
    errno = why;
}

bool recording_piece(void *self, const kept_piece *piece, const uint8_t *bytes)
{
    static const char digits[] = "0123456789ABCDEF";
    recording *r = self;
    char hex[2 * KEPT_PIECE + 1];
    r->has_begun = r->has_begun || piece->begins;
    if (r->file == NULL || !r->has_begun)
        return true;
    for (uint32_t at = 0; at < piece->length; at++) {
        hex[2 * at] = digits[bytes[at] >> 4];
        hex[2 * at + 1] = digits[bytes[at] & 15];
    }
    hex[2 * piece->length] = 0;
    const char *side = piece->is_host ? "host" : "station";
    int length = fprintf(r->file, "%" PRIu64 " %s %s\n", piece->milliseconds, side, hex);
    if (length < 0 || fflush(r->file) != 0) {
        give_up(r);
        return false;
    }
    r->whole += length;
    return true;
}

bool recording_begin(recording *r, const char *name, const kept *k)
{
    char made[FILE_NAME_ROOM];
    r->has_begun = false;
    r->whole = 0;
    r->base = name;
    r->file = file_made(name, made, sizeof made);
    (void)snprintf(r->name, sizeof r->name, "%s", r->file != NULL ? made : name);
    return r->file != NULL && kept_walk(k, recording_piece, r);
}

bool recording_end(recording *r)
{
    if (r->file == NULL)
        return true;
    bool is_whole = fclose(r->file) == 0;
    r->file = NULL;
    if (!is_whole)
        (void)snprintf(r->broken, sizeof r->broken, "%s", r->name);
    return is_whole;
}
