/* The reading of the hosts file. */
#define _GNU_SOURCE
#include "hosts.h"

#include "settings.h"

#include <errno.h>
#include <stdlib.h>
#include <string.h>

typedef struct {
    FILE *file;
    char path[4096];
    char *text; /* of the line, and how much room it has */
    size_t room;
    unsigned number;
    const char *name, *words; /* of the line */
} reader;

#define BLANKS " \t\r\n"

/* Whether it could be opened; if not, by errno. */
static bool begin(reader *r)
{
    *r = (reader){.text = NULL};
    r->file = settings_open("hosts", r->path, sizeof r->path);
    return r->file != NULL;
}

static void end(reader *r)
{
    free(r->text);
    if (r->file != NULL)
        (void)fclose(r->file); /* it was only read */
}

/* Parts a line; false where it isn't NAME: WORD... */
static bool part(reader *r, char *text)
{
    size_t length = strcspn(text, ":" BLANKS);
    bool is_named = length > 0 && text[0] != '-' && text[length] == ':' && strchr(" \t", text[length + 1]) != NULL;
    if (!is_named)
        return false;
    text[length] = 0;
    r->name = text;
    r->words = text + length + 1 + strspn(text + length + 1, BLANKS);
    return r->words[0] != 0;
}

/* Goes to the next line with a name: HOSTS_NONE at the end, HOSTS_WRONG with `why`. */
static hosts_result next(reader *r, char *why)
{
    while (getline(&r->text, &r->room, r->file) >= 0) {
        char *text = r->text + strspn(r->text, BLANKS);
        r->number++;
        for (size_t length = strlen(text); length > 0 && strchr(BLANKS, text[length - 1]) != NULL; length--)
            text[length - 1] = 0;
        if (text[0] == 0 || text[0] == '#')
            continue;
        if (part(r, text))
            return HOSTS_FOUND;
        (void)snprintf(why, HOSTS_WHY_ROOM, "%s, line %u: it isn't `NAME: WORD..`", r->path, r->number);
        return HOSTS_WRONG;
    }
    if (feof(r->file))
        return HOSTS_NONE;
    (void)snprintf(why, HOSTS_WHY_ROOM, "%s: %s", r->path, strerror(errno));
    return HOSTS_WRONG;
}

/* Parts the words of the line. */
static bool take(reader *r, hosts_line *found)
{
    found->words = (wordexp_t){.we_offs = 1};
    int wrong = wordexp(r->words, &found->words, WRDE_DOOFFS | WRDE_NOCMD | WRDE_UNDEF);
    const char *why = wrong == WRDE_BADVAL ? "a variable of it isn't set" : wrong == WRDE_CMDSUB ? "it has a command"
                    : wrong == WRDE_NOSPACE ? "memory is wanting"
                                            : "quotes have no end, or one of | & ; < > ( ) { } isn't in quotes";
    if (wrong == 0)
        (void)snprintf(found->what, sizeof found->what, "%s, line %u", r->path, r->number);
    else
        (void)snprintf(found->what, sizeof found->what, "%s, line %u: %s", r->path, r->number, why);
    if (wrong == WRDE_NOSPACE)
        wordfree(&found->words);
    return wrong == 0;
}

static hosts_result find(reader *r, const char *name, hosts_line *found)
{
    bool is_found = false;
    hosts_result result;
    while ((result = next(r, found->what)) == HOSTS_FOUND) {
        if (strcmp(r->name, name) != 0)
            continue;
        if (is_found) {
            (void)snprintf(found->what, sizeof found->what, "%s, line %u: %s is there twice", r->path, r->number, name);
            result = HOSTS_WRONG;
            break;
        }
        if (!take(r, found))
            return HOSTS_WRONG;
        is_found = true;
    }
    if (result == HOSTS_WRONG && is_found)
        hosts_end(found);
    return result == HOSTS_NONE && is_found ? HOSTS_FOUND : result;
}

/* That there is no such file, or no folder for it. */
static bool is_missing(int cause)
{
    return cause == ENOENT || cause == ENOTDIR;
}

hosts_result hosts_find(const char *name, hosts_line *found)
{
    reader r;
    hosts_result result = HOSTS_NONE;
    found->what[0] = 0;
    if (begin(&r)) {
        result = find(&r, name, found);
    } else if (!is_missing(errno)) {
        (void)snprintf(found->what, sizeof found->what, "%s: %s", r.path, strerror(errno));
        result = HOSTS_WRONG;
    }
    end(&r);
    return result;
}

void hosts_end(hosts_line *found)
{
    wordfree(&found->words);
}

bool hosts_list(FILE *out, char *why)
{
    reader r;
    hosts_result result = HOSTS_WRONG;
    if (begin(&r))
        while ((result = next(&r, why)) == HOSTS_FOUND)
            (void)fprintf(out, "%s: %s\n", r.name, r.words);
    else
        (void)snprintf(why, HOSTS_WHY_ROOM, "%s: %s", r.path[0] != 0 ? r.path : "no folder is known for hosts",
                       strerror(errno));
    end(&r);
    return result == HOSTS_NONE;
}
