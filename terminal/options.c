/* The reading of a command line, by getopt_long. */
#define _GNU_SOURCE
#include "options.h"

#include <getopt.h>
#include <stdio.h>
#include <stdlib.h>
#include <string.h>

static const char usage[] =
    "usage: term5250 [OPTION].. HOST[:PORT] | NAME\n"
    "       term5250 --list\n"
    "  --terminal NAME     IBM-5251-11, IBM-5291-1, IBM-5292-2, IBM-3196-A1 or\n"
    "                      IBM-3179-2, which is the default\n"
    "  --device NAME       the display's name: 1 to 10 letters, digits, $ # @ . or _;\n"
    "                      without it the host names it\n"
    "  --code-page NUMBER  of what is typed and shown: 37, which is the default, 273,\n"
    "                      277, 278, 280, 284, 285, 297, 500, 871 or 1140 to 1149\n"
    "  --keyboard TYPE     what the host is told of the keyboard, in place of the\n"
    "                      code page's own: three letters and digits, as USB\n"
    "  --record FILE       records what both ends send; FILE-1, FILE-2 .. where FILE\n"
    "                      is there already\n"
    "  --keys FILE         a keys file in place of ~/.config/term5250/keys; tn5250\n"
    "                      for that program's keys\n"
    "  --tls               TLS, with the certificate of the host checked\n"
    "  --ca FILE           of those who sign certificates, in place of the system's\n"
    "  --cert FILE         this end's own certificate\n"
    "  --key FILE          its key, where that isn't in the same file\n"
    "  --insecure          TLS to whoever the host is: nothing is checked\n"
    "  --reconnect         connects again by itself where a session is over, after a\n"
    "                      pause that grows to a minute\n"
    "  --no-hold           a refused key rings, and doesn't hold the keyboard until\n"
    "                      Reset\n"
    "  --type-ahead WHICH  on, which is the default, or off: keys ring while the\n"
    "                      host has the keyboard\n"
    "  --strict            a station of the profile: it refuses what live hosts send\n"
    "                      in addition to that, as a 5250 Query\n"
    "  --mono              no colours, as with NO_COLOR in the environment\n"
    "  --background WHICH  black, or own: the window's; without it black, unless the\n"
    "                      window says that it is dark\n"
    "  --separators HOW    underline, which is the default, or off\n"
    "  --no-mouse          leaves the mouse to the window\n"
    "  --list              the names in ~/.config/term5250/hosts, where a line is a\n"
    "                      name, a colon, and words of a command line\n"
    "  --version, --help\n"
    "PORT is 23 where none is named, and 992 with --tls. ^] opens a menu with the\n"
    "keys; q there leaves.\n";

static const char hint[] = "term5250 --help has all options.\n";

typedef enum {
    WORD_HELP = 'h',
    WORD_VERSION = 0x100,
    WORD_LIST,
    WORD_TERMINAL,
    WORD_DEVICE,
    WORD_CODE_PAGE,
    WORD_KEYBOARD,
    WORD_RECORD,
    WORD_KEYS,
    WORD_TLS,
    WORD_CA,
    WORD_CERT,
    WORD_KEY,
    WORD_INSECURE,
    WORD_RECONNECT,
    WORD_NO_HOLD,
    WORD_TYPE_AHEAD,
    WORD_STRICT,
    WORD_MONO,
    WORD_BACKGROUND,
    WORD_SEPARATORS,
    WORD_NO_MOUSE
} word;

enum {
    OWN_WORDS = 3, /* the first so many aren't for the hosts file */
    CODE_PAGE = 37
};

static const struct option known[] = {
    {"help", no_argument, NULL, WORD_HELP},
    {"version", no_argument, NULL, WORD_VERSION},
    {"list", no_argument, NULL, WORD_LIST},
    {"terminal", required_argument, NULL, WORD_TERMINAL},
    {"device", required_argument, NULL, WORD_DEVICE},
    {"code-page", required_argument, NULL, WORD_CODE_PAGE},
    {"keyboard", required_argument, NULL, WORD_KEYBOARD},
    {"record", required_argument, NULL, WORD_RECORD},
    {"keys", required_argument, NULL, WORD_KEYS},
    {"tls", no_argument, NULL, WORD_TLS},
    {"ca", required_argument, NULL, WORD_CA},
    {"cert", required_argument, NULL, WORD_CERT},
    {"key", required_argument, NULL, WORD_KEY},
    {"insecure", no_argument, NULL, WORD_INSECURE},
    {"reconnect", no_argument, NULL, WORD_RECONNECT},
    {"no-hold", no_argument, NULL, WORD_NO_HOLD},
    {"type-ahead", required_argument, NULL, WORD_TYPE_AHEAD},
    {"strict", no_argument, NULL, WORD_STRICT},
    {"mono", no_argument, NULL, WORD_MONO},
    {"background", required_argument, NULL, WORD_BACKGROUND},
    {"separators", required_argument, NULL, WORD_SEPARATORS},
    {"no-mouse", no_argument, NULL, WORD_NO_MOUSE},
    {NULL, 0, NULL, 0},
};

/* A reading of words, and what it comes to. */
typedef struct {
    options *asked;
    const char *by; /* the program, or a file's line: it stands before what is wrong */
    int status;
} reading;

static options_result end(reading *r, int with)
{
    r->status = with;
    return OPTIONS_END;
}

static options_result complain(reading *r, const char *why)
{
    (void)fprintf(stderr, "%s: %s\n", r->by, why);
    return end(r, 2);
}

static options_result refuse(reading *r, const char *format, const char *about)
{
    (void)fprintf(stderr, "%s: ", r->by);
    (void)fprintf(stderr, format, about);
    (void)fprintf(stderr, "\n%s", hint);
    return end(r, 2);
}

/* Standard output may be a file on a full disk. */
static options_result print(reading *r, const char *text)
{
    bool is_out = fputs(text, stdout) >= 0 && fflush(stdout) == 0;
    if (!is_out)
        perror("term5250");
    return end(r, is_out ? 0 : 2);
}

static options_result print_version(reading *r)
{
    char text[400];
    (void)snprintf(text, sizeof text, "term5250 %s, on ribbonscarp %s, %s\n", RIBBON_VERSION, ribbon_version(),
                   tls_version());
    return print(r, text);
}

static options_result print_hosts(reading *r)
{
    char why[HOSTS_WHY_ROOM];
    return hosts_list(stdout, why) ? print(r, "") : complain(r, why);
}

/* Whether a station takes an identity. Where memory is wanting that is told later. */
static bool is_taken(const ribbon_identity *identity)
{
    ribbon_station station = RIBBON_STATION_NONE;
    ribbon_status status = ribbon_station_new_live(&station, "IBM-3179-2", identity);
    ribbon_station_free(&station);
    return status != RIBBON_BAD_ARGUMENT;
}

static options_result choose_device(reading *r, const char *value)
{
    if (value[0] == 0 || !is_taken(&(ribbon_identity){.device = value}))
        return refuse(r, "--device is 1 to 10 of A to Z, 0 to 9, $ # @ _ and ., not first 0 to 9, _ or ., and not %s",
                      value);
    r->asked->identity.device = value;
    return OPTIONS_RUN;
}

static options_result choose_keyboard(reading *r, const char *value)
{
    if (value[0] == 0 || !is_taken(&(ribbon_identity){.keyboard = value}))
        return refuse(r, "--keyboard is three letters and digits, as USB, and not %s", value);
    r->asked->identity.keyboard = value;
    return OPTIONS_RUN;
}

static options_result choose_code_page(reading *r, const char *value)
{
    size_t digits = strspn(value, "0123456789");
    unsigned long number = digits <= 4 && value[digits] == 0 ? strtoul(value, NULL, 10) : 0;
    ribbon_identity identity = {.code_page = (uint16_t)number};
    if (number == 0 || !is_taken(&identity))
        return refuse(r, "--code-page is 37, 273, 277, 278, 280, 284, 285, 297, 500, 871 or 1140 to 1149, and not %s",
                      value);
    r->asked->identity.code_page = identity.code_page;
    return OPTIONS_RUN;
}

static options_result choose_background(reading *r, const char *value)
{
    bool is_black = strcmp(value, "black") == 0;
    if (!is_black && strcmp(value, "own") != 0)
        return refuse(r, "--background is black or own, and not %s", value);
    r->asked->background = is_black ? BACKGROUND_BLACK : BACKGROUND_OWN;
    return OPTIONS_RUN;
}

/* A value that is what `on` says, or off. */
static options_result choose_off(reading *r, const char *value, const char *on, const char *wrong, bool *is_on)
{
    *is_on = strcmp(value, on) == 0;
    return *is_on || strcmp(value, "off") == 0 ? OPTIONS_RUN : refuse(r, wrong, value);
}

static options_result choose_separators(reading *r, const char *value)
{
    return choose_off(r, value, "underline", "--separators is underline or off, and not %s", &r->asked->separators);
}

static options_result choose_type_ahead(reading *r, const char *value)
{
    return choose_off(r, value, "on", "--type-ahead is on or off, and not %s", &r->asked->types_ahead);
}

static options_result take(reading *r, int which, const char *value)
{
    options *o = r->asked;
    switch (which) {
    case WORD_HELP: return print(r, usage);
    case WORD_VERSION: return print_version(r);
    case WORD_LIST: return print_hosts(r);
    case WORD_TERMINAL: o->terminal = value; return OPTIONS_RUN;
    case WORD_DEVICE: return choose_device(r, value);
    case WORD_CODE_PAGE: return choose_code_page(r, value);
    case WORD_KEYBOARD: return choose_keyboard(r, value);
    case WORD_RECORD: o->record = value; return OPTIONS_RUN;
    case WORD_KEYS: o->keys = value; return OPTIONS_RUN;
    case WORD_TLS: o->tls.is_on = true; return OPTIONS_RUN;
    case WORD_CA: o->tls.authorities = value; return OPTIONS_RUN;
    case WORD_CERT: o->tls.certificate = value; return OPTIONS_RUN;
    case WORD_KEY: o->tls.key = value; return OPTIONS_RUN;
    case WORD_INSECURE: o->tls.is_unchecked = true; return OPTIONS_RUN;
    case WORD_RECONNECT: o->reconnects = true; return OPTIONS_RUN;
    case WORD_NO_HOLD: o->holds = false; return OPTIONS_RUN;
    case WORD_TYPE_AHEAD: return choose_type_ahead(r, value);
    case WORD_STRICT: o->is_strict = true; return OPTIONS_RUN;
    case WORD_MONO: o->is_mono = true; return OPTIONS_RUN;
    case WORD_BACKGROUND: return choose_background(r, value);
    case WORD_SEPARATORS: return choose_separators(r, value);
    case WORD_NO_MOUSE: o->has_mouse = false; return OPTIONS_RUN;
    default: (void)fputs(hint, stderr); return end(r, 2); /* getopt_long has told what is wrong */
    }
}

/* Reads words by the options that they may have. A host is taken where they name one. */
static options_result read_words(reading *r, int count, char **words, const struct option *may_have)
{
    r->by = words[0];
    optind = 0; /* begins anew */
    for (int which; (which = getopt_long(count, words, "h", may_have, NULL)) != -1;)
        if (take(r, which, optarg) == OPTIONS_END)
            return OPTIONS_END;
    if (count - optind > 1)
        return refuse(r, "%s is one host too many", words[optind + 1]);
    if (optind < count)
        r->asked->where = words[optind];
    return OPTIONS_RUN;
}

/* Reads the line of the hosts file that has been found, and over it once more what the command line says. */
static options_result read_line(reading *r, int count, char **words)
{
    options *o = r->asked;
    wordexp_t *line = &o->line.words;
    line->we_wordv[0] = o->line.what;
    o->where = NULL;
    if (read_words(r, (int)line->we_wordc + 1, line->we_wordv, known + OWN_WORDS) == OPTIONS_END)
        return OPTIONS_END;
    const char *host = o->where;
    if (host == NULL)
        return refuse(r, "%s", "it needs a host");
    options_result result = read_words(r, count, words, known);
    o->where = host;
    return result;
}

/* Looks in the hosts file for what could be a name there: all that has no port and no brackets. */
static options_result look_up(reading *r, int count, char **words)
{
    options *o = r->asked;
    if (o->where == NULL)
        return refuse(r, "%s", "it needs a host");
    if (strpbrk(o->where, ":[") != NULL)
        return OPTIONS_RUN;
    hosts_result found = hosts_find(o->where, &o->line);
    if (found == HOSTS_WRONG)
        return complain(r, o->line.what);
    o->is_named = found == HOSTS_FOUND;
    return o->is_named ? read_line(r, count, words) : OPTIONS_RUN;
}

/* Without `--tls` these would go unheard, and the line would be plain. */
static options_result check_tls(reading *r)
{
    const tls_asked *asked = &r->asked->tls;
    bool is_for_tls = asked->authorities != NULL || asked->certificate != NULL || asked->is_unchecked;
    if (asked->key != NULL && asked->certificate == NULL)
        return refuse(r, "%s", "--key is for --cert, which isn't there");
    if (is_for_tls && !asked->is_on)
        return refuse(r, "%s", "--ca, --cert and --insecure are for --tls, which isn't there");
    return OPTIONS_RUN;
}

/* A station of the profile says nothing of itself, and has one code page. */
static options_result check_strict(reading *r)
{
    const ribbon_identity *identity = &r->asked->identity;
    bool is_named = identity->device != NULL || identity->keyboard != NULL || identity->code_page != CODE_PAGE;
    return is_named && r->asked->is_strict ? refuse(r, "%s", "--device, --code-page and --keyboard aren't for --strict")
                                           : OPTIONS_RUN;
}

static options_result read_all(reading *r, int count, char **words)
{
    char why[400];
    options *o = r->asked;
    if (count == 0)
        return refuse(r, "%s", "it needs a host");
    if (read_words(r, count, words, known) == OPTIONS_END || look_up(r, count, words) == OPTIONS_END)
        return OPTIONS_END;
    if (check_tls(r) == OPTIONS_END || check_strict(r) == OPTIONS_END)
        return OPTIONS_END;
    if (address_read(&o->to, o->where, o->tls.is_on ? "992" : "23", why, sizeof why))
        return OPTIONS_RUN;
    return complain(r, why);
}

options_result options_read(options *o, int count, char **words, int *status)
{
    static char name[] = "term5250";
    reading r = {.asked = o, .by = name};
    *o = (options){.terminal = "IBM-3179-2", .holds = true, .types_ahead = true, .has_mouse = true, .separators = true};
    o->identity.code_page = CODE_PAGE;
    if (count > 0)
        words[0] = name;
    options_result result = read_all(&r, count, words);
    *status = r.status;
    return result;
}

void options_free(options *o)
{
    if (o->is_named)
        hosts_end(&o->line);
    o->is_named = false;
}
