/* A decoder of host streams: it prints of each capture the line of `t5250 check`, without the name of a reason.
 *
 *     checker CAPTURE.hex.. */
#include "hex.h"
#include "ribbonscarp.h"

/* Counts what a stream holds: records and commands. `step` and `place` tell where it is refused or ends. */
static ribbon_status count_items(ribbon_decoder *decoder, const uint8_t *bytes, size_t count, size_t counts[2],
                                 ribbon_step *step, uint64_t *place)
{
    for (size_t at = 0; at < count; at += step->taken) {
        uint8_t unit[RIBBON_UNIT_ROOM];
        ribbon_status status = ribbon_decoder_push(decoder, bytes + at, count - at, unit, sizeof unit, step);
        if (status != RIBBON_DONE)
            return status;
        counts[0] += step->kind == RIBBON_STEP_RECORD;
        counts[1] += step->kind == RIBBON_STEP_TELNET;
    }
    return ribbon_decoder_finish(decoder, place);
}

static int check(const char *name)
{
    ribbon_decoder decoder = RIBBON_DECODER_NONE;
    ribbon_step step;
    size_t counts[2] = {0, 0}, count;
    uint64_t place = 0;
    uint8_t *bytes = hex_file(name, &count);
    if (bytes == NULL || ribbon_decoder_new(&decoder) != RIBBON_DONE) {
        fprintf(stderr, "%s: not read\n", name);
        free(bytes);
        return 2;
    }
    ribbon_status status = count_items(&decoder, bytes, count, counts, &step, &place);
    ribbon_decoder_free(&decoder);
    free(bytes);
    if (status == RIBBON_DONE)
        printf("accepted: %zu records, %zu commands, %zu bytes\n", counts[0], counts[1], count);
    else if (status == RIBBON_REFUSED)
        printf("refused at %llu: reason %d\n", (unsigned long long)step.place, step.reason);
    else if (status == RIBBON_TRUNCATED)
        printf("truncated at %llu\n", (unsigned long long)place);
    else
        return 2;
    return status == RIBBON_DONE ? 0 : 1;
}

int main(int count, char **words)
{
    int worst = 0;
    for (int at = 1; at < count; at++) {
        int result = check(words[at]);
        if (result > worst)
            worst = result;
    }
    return worst;
}
