/* Sentences for a person, without their full stops. */
#include "ribbonscarp.h"

#include "exports.h"

#include <pthread.h>

#define COUNT(list) (sizeof(list) / sizeof((list)[0]))

const char *ribbon_version(void)
{
    return RIBBON_VERSION;
}

const char *ribbon_status_text(ribbon_status status)
{
    static const char *const texts[] = {
        [RIBBON_DONE] = "done",
        [RIBBON_REFUSED] = "a byte is refused",
        [RIBBON_FAILED] = "an earlier byte was refused",
        [RIBBON_NO_MEMORY] = "memory is wanting",
        [RIBBON_NOTHING_HELD] = "the handle holds nothing of the kind",
        [RIBBON_IN_USE] = "the handle holds something already",
        [RIBBON_NO_ROOM] = "a buffer is too short",
        [RIBBON_BAD_ARGUMENT] = "an argument is out of its range",
        [RIBBON_NOT_READY] = "both ends haven't agreed on records yet",
        [RIBBON_KEY_REFUSED] = "the key is refused",
        [RIBBON_TRUNCATED] = "the stream ends inside a command or a record",
        [RIBBON_READ_OUTSTANDING] = "a read is still asked, or a cancel unanswered",
        [RIBBON_NO_READ_TO_CANCEL] = "no read is asked",
        [RIBBON_TOO_BIG] = "the record would be of more than 65,535 bytes",
        [RIBBON_NO_ANSWER] = "no answer has come yet",
    };
    if (status == RIBBON_NULL)
        return "a pointer is null";
    return status < COUNT(texts) ? texts[status] : "no such status";
}

/* The proved sentences, each with a zero after it: one of no byte where no reason has the number. */
enum { REASONS = 64, REASON_ROOM = 96 };
static char reason_texts[REASONS][REASON_ROOM];

static void fetch_reasons(void)
{
    for (uint8_t reason = 1; reason < REASONS; reason++) {
        ribbon_told told;
        ws_c_reason_text(reason, (uint8_t *)reason_texts[reason], REASON_ROOM - 1, &told);
    }
}

const char *ribbon_reason_text(uint8_t reason)
{
    static pthread_once_t once = PTHREAD_ONCE_INIT;
    if (reason == RIBBON_REASON_NONE)
        return "nothing is refused";
    pthread_once(&once, fetch_reasons);
    return reason < REASONS && reason_texts[reason][0] != 0 ? reason_texts[reason] : "no such reason";
}

const char *ribbon_refusal_text(uint8_t refusal)
{
    static const char *const texts[] = {
        "nothing is refused",
        [RIBBON_KEY_IS_LOCKED] = "the keyboard is locked",
        [RIBBON_KEY_IS_PROTECTED] = "the cursor isn't in an input field",
        [RIBBON_KEY_WRONG_CHARACTER] = "the field doesn't take this character",
        [RIBBON_KEY_DUP_NOT_ALLOWED] = "the field doesn't take Dup",
        [RIBBON_KEY_FIELD_HAS_NO_ROOM] = "the field is full",
        [RIBBON_KEY_NO_READ_PENDING] = "the host asks for nothing",
        [RIBBON_KEY_MANDATORY_ENTER] = "a field that has to be entered is empty",
        [RIBBON_KEY_FIELD_EXIT_REQUIRED] = "the field is full, and a key has to leave it",
        [RIBBON_KEY_MANDATORY_FILL] = "a field that has to be filled is partly empty",
    };
    return refusal < COUNT(texts) ? texts[refusal] : "no such refusal";
}
