/* Addresses, the status line, the title, and texts of characters and bytes. */
#include "../../c/tests/check.h"
#include "address.h"
#include "sentence.h"
#include "status.h"

#include <locale.h>
#include <stdlib.h>

static const struct {
    const char *text, *host, *port;
} addresses[] = {
    {"a", "a", "23"}, {"host:5250", "host", "5250"}, {"127.0.0.1:1", "127.0.0.1", "1"}, {"h:65535", "h", "65535"},
    {"[::1]", "::1", "23"}, {"[::1]:992", "::1", "992"}, {"::1", "::1", "23"}, {"fe80::1:2", "fe80::1:2", "23"},
    {"h:telnet", "h", "telnet"}, {"h:00023", "h", "00023"},
};

static const struct {
    const char *text, *why;
} wrong_addresses[] = {
    {":107333", ":107333 names no host"}, {"h:107333", "port 107333 is out of range: it is 1 to 65535"},
    {"h:0", "port 0 is out of range: it is 1 to 65535"}, {"h:-1", "port -1 is out of range: it is 1 to 65535"},
    {"h:65536", "port 65536 is out of range: it is 1 to 65535"}, {"h:", "h: names no port after its host"},
    {"[::1]:", "[::1]: names no port after its host"}, {"[::1]x", "[::1]x names no port after its host"},
    {"[]:23", "[]:23 names no host"}, {"", " names no host"},
    {"h:99999999999999999999", "port 99999999999999999999 is out of range: it is 1 to 65535"},
};

static void addresses_are_read(void)
{
    address a;
    char why[400], longest[400];
    for (size_t at = 0; at < sizeof addresses / sizeof addresses[0]; at++) {
        CHECK(address_read(&a, addresses[at].text, "23", why, sizeof why));
        CHECK(strcmp(a.host, addresses[at].host) == 0 && strcmp(a.port, addresses[at].port) == 0);
    }
    for (size_t at = 0; at < sizeof wrong_addresses / sizeof wrong_addresses[0]; at++) {
        CHECK(!address_read(&a, wrong_addresses[at].text, "23", why, sizeof why));
        if (strcmp(why, wrong_addresses[at].why) != 0)
            printf("%s\n", why);
        CHECK(strcmp(why, wrong_addresses[at].why) == 0);
    }
    CHECK(address_read(&a, "h", "992", why, sizeof why) && strcmp(a.port, "992") == 0);
    memset(longest, 'h', sizeof longest - 1);
    longest[sizeof longest - 1] = 0;
    CHECK(!address_read(&a, longest, "23", why, sizeof why));
}

static void shows(const status_parts *parts, const char *wanted)
{
    wchar_t line[STATUS_COLUMNS + 1];
    char text[4 * STATUS_COLUMNS + 1];
    status_line(parts, line);
    CHECK(wcslen(line) == STATUS_COLUMNS);
    CHECK(wcstombs(text, line, sizeof text) != (size_t)-1);
    if (strcmp(text, wanted) != 0)
        printf("shown  `%s`\nwanted `%s`\n", text, wanted);
    CHECK(strcmp(text, wanted) == 0);
}

static void the_line_is_in_words(void)
{
    status_parts parts = {.turn = "waiting for the host", .where = "as400:23", .note = "", .way = "^] menu"};
    parts.security = "";
    parts.row = parts.column = 1;
    CHECK(status_room(&parts) == 79);
    shows(&parts, " waiting for the host  as400:23                                 ^] menu  01/001 ");
    parts.turn = "";
    parts.field_length = 10;
    parts.row = 6;
    parts.column = 53;
    parts.is_message_lit = parts.is_inserting = parts.is_recording = parts.waits = true;
    shows(&parts, " as400:23                               MW INS REC T  ^] menu  field 10  06/053 ");
    parts.security = " INSECURE";
    shows(&parts, " as400:23                      INSECURE MW INS REC T  ^] menu  field 10  06/053 ");
    parts.is_macro = true;
    shows(&parts, " as400:23                  INSECURE MW INS REC MAC T  ^] menu  field 10  06/053 ");
    parts.has_refused = parts.is_full = true;
    shows(&parts, " as400:23     INSECURE MW INS REC MAC T refused  ^] menu  field 10 full  06/053 ");
    parts.has_refused = parts.is_full = parts.is_macro = false;
    parts.security = "";
    parts.is_message_lit = parts.is_inserting = parts.is_recording = parts.waits = false;
    parts.note = "This field takes digits only, and not '\xc3\xa9'.";
    shows(&parts, " This field takes digits only, and not '\xc3\xa9'.           ^] menu  field 10  06/053 ");
    parts.note = "A sentence of seventy characters leaves room for the cursor's place al.";
    parts.waits = true;
    shows(&parts, " A sentence of seventy characters leaves room for the cursor's place al.       T");
    parts.way = "Reset: ^R";
    parts.is_way_out = true;
    shows(&parts, " A sentence of seventy characters leaves room for the cursor's pl.. T  Reset: ^R");
    parts.note = "One of fifty-nine characters leaves none for it, and is whole.";
    shows(&parts, " One of fifty-nine characters leaves none for it, and is whole.     T  Reset: ^R");
    parts.has_refused = true;
    parts.note = "One of sixty-four characters is whole, and no sign stands there.";
    CHECK(status_room(&parts) == 69);
    shows(&parts, " One of sixty-four characters is whole, and no sign stands there.      Reset: ^R");
    parts.has_refused = false;
    parts.note = "One of thirty characters or so";
    shows(&parts, " One of thirty characters or so                  T  Reset: ^R  field 10  06/053 ");
}

static void the_title_has_it_too(void)
{
    char text[100];
    status_parts parts = {.turn = "waiting for the host", .where = "h:1", .note = "", .security = ""};
    parts.is_inserting = parts.waits = true;
    status_title(&parts, text, sizeof text);
    CHECK(strcmp(text, "h:1: waiting for the host: INS T - term5250") == 0);
    parts = (status_parts){.turn = "", .where = "h:1", .note = "n", .security = ""};
    status_title(&parts, text, sizeof text);
    CHECK(strcmp(text, "h:1 - term5250") == 0);
}

static void characters_and_bytes_are_shown(void)
{
    char text[40];
    CHECK(strcmp(sentence_character('x', text, sizeof text), "'x'") == 0);
    CHECK(strcmp(sentence_character(0x20ac, text, sizeof text), "'\xe2\x82\xac'") == 0);
    CHECK(strcmp(sentence_character(0x4e00, text, sizeof text), "U+4E00") == 0);
    CHECK(strcmp(sentence_character(0x301, text, sizeof text), "U+0301") == 0);
    CHECK(strcmp(sentence_character(0x1b, text, sizeof text), "U+001B") == 0);
    sentence_bytes((const uint8_t *)"SSH-2\r\n\xff", 8, text, sizeof text);
    CHECK(strcmp(text, "SSH-2\\x0D\\x0A\\xFF") == 0);
    sentence_bytes((const uint8_t *)"abcdefghijklmnopqrstuvwxyz", 26, text, 20);
    CHECK(strcmp(text, "abcdefghijklm..") == 0);
}

int main(void)
{
    CHECK(setlocale(LC_ALL, "C.UTF-8") != NULL);
    addresses_are_read();
    the_line_is_in_words();
    the_title_has_it_too();
    characters_and_bytes_are_shown();
    return check_end();
}
