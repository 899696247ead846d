/* Where records begin, what is kept of both ends, and the files that it is written to. */
#define _GNU_SOURCE
#include "../../c/tests/check.h"
#include "recording.h"

#include <errno.h>
#include <fcntl.h>
#include <signal.h>
#include <stdlib.h>
#include <sys/resource.h>
#include <sys/stat.h>
#include <unistd.h>

static kept both;

/* `.` for a part of a command, `b` for a byte of a record, `E` for its end; `|` before a byte that may begin one. */
static void scans(const char *bytes, size_t count, const char *wanted)
{
    telnet t = {0};
    char found[64];
    size_t had = 0;
    for (size_t at = 0; at < count && had + 3 < sizeof found; at++) {
        if (telnet_is_between(&t))
            found[had++] = '|';
        found[had++] = ".bE"[telnet_take(&t, (uint8_t)bytes[at])];
    }
    found[had] = 0;
    if (strcmp(found, wanted) != 0)
        printf("found %s, wanted %s\n", found, wanted);
    CHECK(strcmp(found, wanted) == 0);
}

static void records_have_a_begin(void)
{
    scans("ab\xff\xef" "c", 5, "|bb.E|b");
    scans("\xff\xfd\x18" "a", 4, "|...|b");
    scans("\xff\xfd\xff\xff\xff\xff\xef", 7, "|...|.b.E");
    scans("\xff\xfa\x18\x01\xff\xff\xef\xff\xf0" "a", 10, "|.........|b");
    scans("a\xff\xf1" "b\xff\xef", 6, "|b..b.E");
    scans("\xff\xf2\xff\xef", 4, "|..|.E");
}

typedef struct {
    char text[4000];
    size_t had;
} walked;

static bool put_piece(void *self, const kept_piece *piece, const uint8_t *bytes)
{
    walked *w = self;
    w->had += (size_t)snprintf(w->text + w->had, sizeof w->text - w->had, "%u%c%.*s ", (unsigned)piece->milliseconds,
                               piece->is_host ? 'h' : 's', (int)piece->length, (const char *)bytes);
    return true;
}

static void keep(bool is_host, unsigned milliseconds, const char *text)
{
    kept_add(&both, is_host, milliseconds, (const uint8_t *)text, strlen(text), NULL, NULL);
}

static void pieces_end_with_records(void)
{
    walked w = {.had = 0};
    memset(&both, 0, sizeof both);
    keep(false, 1, "early");
    keep(true, 2, "ab\xff\xef" "cd");
    keep(false, 3, "yes");
    keep(true, 4, "e\xff\xef");
    CHECK(kept_walk(&both, put_piece, &w));
    CHECK(strcmp(w.text, "1searly 2hab\xff\xef 2hcd 3syes 4he\xff\xef ") == 0);
}

static bool count_bytes(void *self, const kept_piece *piece, const uint8_t *bytes)
{
    size_t *counts = self;
    if (counts[0] == 0 && !piece->begins)
        return true;
    if (!piece->is_host || piece->begins != (bytes[0] == 'R'))
        return false;
    counts[0] += 1;
    counts[1] += piece->length;
    return true;
}

/* Records of 1,000 bytes in pieces of 700: what is kept is the last of them, from a record's begin on. */
static void the_last_is_kept(void)
{
    size_t counts[2] = {0, 0};
    static char stream[1000 * 1000];
    memset(&both, 0, sizeof both);
    for (size_t at = 0; at < sizeof stream; at++)
        stream[at] = at % 1000 == 0 ? 'R' : at % 1000 == 998 ? '\xff' : at % 1000 == 999 ? '\xef' : 'x';
    for (size_t at = 0; at < sizeof stream; at += 700)
        kept_add(&both, true, at, (const uint8_t *)stream + at, sizeof stream - at < 700 ? sizeof stream - at : 700,
                 NULL, NULL);
    CHECK(both.bytes_used >= KEPT_LEAST && both.bytes_used <= KEPT_ROOM);
    CHECK(kept_walk(&both, count_bytes, counts));
    CHECK(counts[1] % 1000 == 0 && counts[1] + 1000 >= KEPT_LEAST);
    for (unsigned at = 0; at < 2 * KEPT_PIECES; at++)
        keep(false, at, "a");
    CHECK(both.pieces_used == KEPT_PIECES && both.bytes_used == KEPT_PIECES);
}

static void read_file(const char *name, char *text, size_t room)
{
    FILE *file = fopen(name, "r");
    size_t count = 0;
    CHECK(file != NULL);
    if (file != NULL) {
        count = fread(text, 1, room - 1, file);
        CHECK(fclose(file) == 0);
    }
    text[count] = 0;
}

/* A recording has what was kept before it, and nothing is written over. */
static void recordings_are_new_files(const char *folder)
{
    char name[300], text[600];
    recording r = {.file = NULL};
    struct stat about;
    (void)snprintf(name, sizeof name, "%s/host.rec", folder);
    memset(&both, 0, sizeof both);
    keep(false, 4, "early"); /* What stands before the first record of the host isn't written. */
    keep(true, 5, "ab\xff\xef");
    CHECK(recording_begin(&r, name, &both) && strcmp(r.name, name) == 0);
    kept_add(&both, false, 7, (const uint8_t *)"z", 1, recording_piece, &r);
    CHECK(recording_end(&r) && recording_end(&r));
    read_file(name, text, sizeof text);
    CHECK(strcmp(text, "5 host 6162FFEF\n7 station 7A\n") == 0);
    CHECK(stat(name, &about) == 0 && (about.st_mode & 0777) == 0600);
    for (unsigned number = 1; number <= 2; number++) {
        char wanted[310];
        (void)snprintf(wanted, sizeof wanted, "%s-%u", name, number);
        CHECK(recording_begin(&r, name, &both) && strcmp(r.name, wanted) == 0 && recording_end(&r));
    }
    read_file(name, text, sizeof text);
    CHECK(strcmp(text, "5 host 6162FFEF\n7 station 7A\n") == 0);
    (void)snprintf(name, sizeof name, "%s/nowhere/at/all", folder);
    CHECK(!recording_begin(&r, name, &both) && errno == ENOENT && r.file == NULL && strcmp(r.name, name) == 0);
    CHECK(!recording_begin(&r, folder, &both) || strcmp(r.name, folder) != 0);
    (void)recording_end(&r);
}

/* A pipe whose reader goes away ends the recording, and nothing else. */
static void pipes_may_end(const char *folder)
{
    char name[300];
    recording r = {.file = NULL};
    (void)snprintf(name, sizeof name, "%s/pipe", folder);
    CHECK(mkfifo(name, 0600) == 0 && signal(SIGPIPE, SIG_IGN) != SIG_ERR);
    CHECK(!recording_begin(&r, name, &both) && errno == ENXIO);
    int reader = open(name, O_RDONLY | O_NONBLOCK);
    CHECK(reader >= 0 && recording_begin(&r, name, &both) && strcmp(r.name, name) == 0);
    CHECK(close(reader) == 0);
    kept_piece piece = {.length = 1, .is_host = true, .begins = true};
    CHECK(!recording_piece(&r, &piece, (const uint8_t *)"a") && errno == EPIPE && r.file == NULL);
    CHECK(recording_piece(&r, &piece, (const uint8_t *)"a")); /* Nothing is recorded any more. */
    CHECK(recording_begin(&r, "/dev/null", &both) && recording_end(&r));
    CHECK(strcmp(r.broken, name) == 0);
    CHECK(!recording_begin(&r, "/dev/full", &both) && errno == ENOSPC && r.file == NULL);
    CHECK(strcmp(r.broken, "/dev/full") == 0);
}

/* Where there is room for a part of a line, the file ends before it. */
static void no_line_is_left_in_part(const char *folder)
{
    char name[300], text[600];
    recording r = {.file = NULL};
    struct rlimit before;
    const kept_piece piece = {.length = 4, .is_host = true, .begins = true};
    const uint8_t *bytes = (const uint8_t *)"abcd";
    (void)snprintf(name, sizeof name, "%s/full.rec", folder);
    memset(&both, 0, sizeof both);
    CHECK(signal(SIGXFSZ, SIG_IGN) != SIG_ERR && getrlimit(RLIMIT_FSIZE, &before) == 0);
    CHECK(setrlimit(RLIMIT_FSIZE, &(struct rlimit){40, before.rlim_max}) == 0);
    CHECK(recording_begin(&r, name, &both) && recording_piece(&r, &piece, bytes) && recording_piece(&r, &piece, bytes));
    CHECK(!recording_piece(&r, &piece, bytes) && errno == EFBIG && r.file == NULL && strcmp(r.broken, name) == 0);
    CHECK(setrlimit(RLIMIT_FSIZE, &before) == 0 && recording_end(&r));
    read_file(name, text, sizeof text);
    CHECK(strcmp(text, "0 host 61626364\n0 host 61626364\n") == 0);
}

static void a_name_has_room_in_a_sentence(void)
{
    static const char *const names[][2] = {
        {"term5250.rec-1", "term5250.rec-1"}, {"/tmp/tmpabcdefgh/pipe.24", "/tmp/tmpabcdefgh/pipe.24"},
        {"/home/clerk/recordings/may/first.rec", "recordings/may/first.rec"},
        {"a_name_of_a_file_that_is_long.rec", "_a_file_that_is_long.rec"},
        {"/home/clerk/a_name_of_a_file_that_is_long/", "_of_a_file_that_is_long/"},
        {"\xc3\xa4\xc3\xa4\xc3\xa4\xc3\xa4\xc3\xa4\xc3\xa4\xc3\xa4\xc3\xa4\xc3\xa4\xc3\xa4\xc3\xa4\xc3\xa4z",
         "\xc3\xa4\xc3\xa4\xc3\xa4\xc3\xa4\xc3\xa4\xc3\xa4\xc3\xa4\xc3\xa4\xc3\xa4\xc3\xa4\xc3\xa4z"},
    };
    for (size_t at = 0; at < sizeof names / sizeof names[0]; at++) {
        if (strcmp(file_shown(names[at][0]), names[at][1]) != 0)
            printf("%s is shown as %s\n", names[at][0], file_shown(names[at][0]));
        CHECK(strcmp(file_shown(names[at][0]), names[at][1]) == 0);
    }
}

int main(void)
{
    char folder[] = "/tmp/recordingXXXXXX", command[60];
    records_have_a_begin();
    pieces_end_with_records();
    the_last_is_kept();
    a_name_has_room_in_a_sentence();
    CHECK(mkdtemp(folder) != NULL);
    recordings_are_new_files(folder);
    pipes_may_end(folder);
    no_line_is_left_in_part(folder);
    (void)snprintf(command, sizeof command, "rm -rf %s*", folder);
    CHECK(system(command) == 0);
    return check_end();
}
