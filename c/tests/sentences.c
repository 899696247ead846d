/* Each status, reason and refusal has a sentence of its own, and no other number has one. That the sentences of the
 * reasons are those of the crates is looked at by client.py, which reads them there. */
#include "check.h"
#include "ribbonscarp.h"

#include <stdlib.h>

#define COUNT(list) (sizeof(list) / sizeof((list)[0]))

/* A number, and what its sentence has to say. */
typedef struct {
    uint32_t number;
    const char *word;
} sentence;

static const sentence statuses[] = {
    {RIBBON_DONE, "done"},
    {RIBBON_REFUSED, "a byte is refused"},
    {RIBBON_FAILED, "earlier"},
    {RIBBON_NO_MEMORY, "memory"},
    {RIBBON_NOTHING_HELD, "holds nothing"},
    {RIBBON_IN_USE, "already"},
    {RIBBON_NO_ROOM, "short"},
    {RIBBON_BAD_ARGUMENT, "argument"},
    {RIBBON_NOT_READY, "agreed on records"},
    {RIBBON_KEY_REFUSED, "key"},
    {RIBBON_TRUNCATED, "ends inside"},
    {RIBBON_READ_OUTSTANDING, "unanswered"},
    {RIBBON_NO_READ_TO_CANCEL, "no read"},
    {RIBBON_TOO_BIG, "65,535"},
    {RIBBON_NO_ANSWER, "no answer"},
    {RIBBON_NULL, "null"},
};

static const sentence refusals[] = {
    {RIBBON_KEY_IS_LOCKED, "locked"},
    {RIBBON_KEY_IS_PROTECTED, "cursor"},
    {RIBBON_KEY_WRONG_CHARACTER, "character"},
    {RIBBON_KEY_DUP_NOT_ALLOWED, "Dup"},
    {RIBBON_KEY_FIELD_HAS_NO_ROOM, "full"},
    {RIBBON_KEY_NO_READ_PENDING, "asks for nothing"},
    {RIBBON_KEY_MANDATORY_ENTER, "has to be entered"},
    {RIBBON_KEY_FIELD_EXIT_REQUIRED, "leave it"},
    {RIBBON_KEY_MANDATORY_FILL, "has to be filled"},
};

/* The numbers of the reasons, as docs/PROFILE.md has them. */
static const uint8_t reasons[] = {1,  2,  3,  4,  10, 11, 12, 13, 14, 15, 16, 20, 21, 24, 25, 26, 27, 28, 29, 30, 31, 32,
                                  33, 34, 35, 36, 38, 39, 40, 41, 42, 43, 44, 45, 50, 51, 52, 53, 54, 55, 60, 61, 62, 63};

static bool is_sentence(const char *text)
{
    size_t length = strlen(text);
    return length > 3 && text[length - 1] != '.' && text[length - 1] != ' ' && strchr(text, '\n') == NULL;
}

static const char *status_text(uint32_t number)
{
    return ribbon_status_text(number);
}

static const char *refusal_text(uint32_t number)
{
    return ribbon_refusal_text((uint8_t)number);
}

static const char *reason_text(uint32_t number)
{
    return ribbon_reason_text((uint8_t)number);
}

/* How many of the numbers below 256 have a sentence that differs from that of a number that stands for nothing, and that
 * those before don't have. */
static size_t own_sentences(const char *(*text_of)(uint32_t), const char *nothing)
{
    size_t count = 0;
    for (uint32_t number = 0; number < 256; number++) {
        bool is_own = strcmp(text_of(number), nothing) != 0;
        for (uint32_t other = 0; other < number && is_own; other++)
            is_own = strcmp(text_of(number), text_of(other)) != 0;
        count += is_own;
    }
    return count;
}

static void test_words(const sentence *list, size_t count, const char *(*text_of)(uint32_t), const char *nothing)
{
    for (size_t at = 0; at < count; at++) {
        const char *text = text_of(list[at].number);
        CHECK(strcmp(text, nothing) != 0 && is_sentence(text));
        CHECK(strstr(text, list[at].word) != NULL);
    }
}

/* The sentence of a reason begins with its number. */
static void test_reasons(void)
{
    for (size_t at = 0; at < COUNT(reasons); at++) {
        const char *text = ribbon_reason_text(reasons[at]);
        char *end = NULL;
        CHECK(strtoul(text, &end, 10) == reasons[at] && strncmp(end, ": ", 2) == 0 && is_sentence(end));
    }
}

int main(void)
{
    test_words(statuses, COUNT(statuses), status_text, "no such status");
    test_words(refusals, COUNT(refusals), refusal_text, "no such refusal");
    test_reasons();

    /* Beside those above, 0 of the reasons and of the refusals says that nothing is refused. */
    CHECK(own_sentences(status_text, "no such status") == COUNT(statuses));
    CHECK(own_sentences(refusal_text, "no such refusal") == COUNT(refusals) + 1);
    CHECK(own_sentences(reason_text, "no such reason") == COUNT(reasons) + 1);
    CHECK(strcmp(ribbon_reason_text(RIBBON_REASON_NONE), "nothing is refused") == 0);
    CHECK(strcmp(ribbon_refusal_text(0), "nothing is refused") == 0);
    CHECK(strcmp(ribbon_status_text(0xffffffff), "no such status") == 0);
    CHECK(strcmp(ribbon_status_text(15), "no such status") == 0 && strcmp(ribbon_status_text(99), "no such status") == 0);
    CHECK(strcmp(ribbon_reason_text(37), "no such reason") == 0 && strcmp(ribbon_reason_text(64), "no such reason") == 0);
    return check_end();
}
