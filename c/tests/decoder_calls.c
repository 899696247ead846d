/* Each call for a decoder once for each outcome that it names, with what it leaves in its outputs. */
#include "check.h"
#include "outputs.h"

static void test_decoder(void)
{
    ribbon_decoder decoder = RIBBON_DECODER_NONE, none = RIBBON_DECODER_NONE;
    ribbon_step step;
    uint64_t place = 0xa5;
    uint8_t unit[RIBBON_UNIT_ROOM];
    static const uint8_t stream[] = {0xff, 0xf1, 0x00, 0x0c, 0x12, 0xa0, 0x00, 0x00, 0x04, 0x00, 0x00, 0x03,
                                     0x04, 0x40, 0xff, 0xef, 0x00, 0x09};
    FILL(step);
    CHECK(ribbon_decoder_push(NULL, stream, 1, unit, sizeof unit, &step) == RIBBON_NULL && is_step(&step, 0, 0, 0, 0, 0));
    FILL(step);
    CHECK(ribbon_decoder_push(&none, stream, 1, unit, sizeof unit, &step) == RIBBON_NOTHING_HELD
          && is_step(&step, 0, 0, 0, 0, 0));
    CHECK(ribbon_decoder_finish(&none, &place) == RIBBON_NOTHING_HELD && place == 0);
    CHECK(ribbon_decoder_finish(NULL, &place) == RIBBON_NULL && ribbon_decoder_finish(&none, NULL) == RIBBON_NULL);
    CHECK(ribbon_decoder_new(&decoder) == RIBBON_DONE);
    CHECK(ribbon_decoder_push(&decoder, NULL, 1, unit, sizeof unit, &step) == RIBBON_NULL);
    CHECK(ribbon_decoder_push(&decoder, stream, 1, NULL, sizeof unit, &step) == RIBBON_NULL);
    CHECK(ribbon_decoder_push(&decoder, stream, 1, unit, sizeof unit, NULL) == RIBBON_NULL);
    FILL(step);
    FILL(unit);
    CHECK(ribbon_decoder_push(&decoder, stream, 1, unit, sizeof unit - 1, &step) == RIBBON_NO_ROOM
          && is_step(&step, 0, 0, 0, 0, 0) && IS_FILLED(unit));
    FILL(step);
    CHECK(ribbon_decoder_push(&decoder, NULL, 0, unit, sizeof unit, &step) == RIBBON_DONE
          && is_step(&step, 0, 0, 0, 0, 0));
    CHECK(ribbon_decoder_finish(&decoder, &place) == RIBBON_DONE && place == 0);

    static const struct {
        size_t taken, length;
        uint32_t kind;
    } steps[] = {{2, 2, RIBBON_STEP_TELNET}, {10, 0, RIBBON_STEP_HEADER}, {2, 2, RIBBON_STEP_ELEMENT},
                 {2, 0, RIBBON_STEP_RECORD}};
    size_t at = 0;
    for (size_t i = 0; i < sizeof steps / sizeof steps[0]; i++) {
        FILL(unit);
        CHECK(ribbon_decoder_push(&decoder, stream + at, sizeof stream - at, unit, sizeof unit, &step) == RIBBON_DONE
              && is_step(&step, steps[i].taken, steps[i].kind, steps[i].length, 0, 0));
        CHECK(memcmp(unit, stream + at + step.taken - step.length, step.length) == 0
              && all_are(unit + step.length, sizeof unit - step.length, 0xa5));
        if (step.kind == RIBBON_STEP_HEADER)
            CHECK(step.flags == 0 && step.record_length == 12 && step.opcode == RIBBON_OPCODE_PUT_GET);
        at += step.taken;
    }
    FILL(step);
    CHECK(ribbon_decoder_push(&decoder, stream + at, 1, unit, sizeof unit, &step) == RIBBON_DONE
          && is_step(&step, 1, RIBBON_STEP_MORE, 0, 0, 0));
    CHECK(ribbon_decoder_push(&decoder, stream + at + 1, 1, unit, sizeof unit, &step) == RIBBON_REFUSED
          && is_step(&step, 0, 0, 0, sizeof stream - 1, RIBBON_REASON_LENGTH_BELOW_HEADER));
    CHECK(ribbon_decoder_push(&decoder, stream, 1, unit, sizeof unit, &step) == RIBBON_FAILED
          && is_step(&step, 0, 0, 0, 0, 0));
    CHECK(ribbon_decoder_finish(&decoder, &place) == RIBBON_FAILED && place == 0);
    ribbon_decoder_free(&decoder);

    CHECK(ribbon_decoder_new(&decoder) == RIBBON_DONE);
    CHECK(ribbon_decoder_push(&decoder, stream, 1, unit, sizeof unit, &step) == RIBBON_DONE);
    CHECK(ribbon_decoder_finish(&decoder, &place) == RIBBON_TRUNCATED && place == 1);
    CHECK(ribbon_decoder_finish(&decoder, &place) == RIBBON_FAILED && place == 0);
    ribbon_decoder_free(&decoder);
}

/* What a push has taken, and the cells at the front of what it gave. */
static int is_run(ribbon_decoder *decoder, const uint8_t *bytes, size_t count, size_t room, size_t taken, const char *cells)
{
    uint8_t unit[256];
    ribbon_step step;
    FILL(unit);
    return ribbon_decoder_push(decoder, bytes, count, unit, room, &step) == RIBBON_DONE && step.kind == RIBBON_STEP_MORE
           && step.taken == taken && step.length == 0 && step.cells == strlen(cells)
           && memcmp(unit, cells, step.cells) == 0 && all_are(unit + step.cells, sizeof unit - step.cells, 0xa5);
}

/* Cells are handed out in runs, which end where something else begins, and where the buffer has no room. */
static void test_cells(void)
{
    static const uint8_t stream[] = {0x00, 0x17, 0x12, 0xa0, 0x00, 0x00, 0x04, 0x00, 0x00, 0x03, 0x04, 0x11, 0x00, 0x08,
                                     0xc1, 0xc2, 0x40, 0x11, 0x01, 0x01, 0xc3, 0xff, 0xff, 0xc4, 0xff, 0xef};
    static const uint8_t long_one[] = {0x00, 0x12, 0x12, 0xa0, 0x00, 0x00, 0x04, 0x00, 0x00, 0x03,
                                       0x04, 0x11, 0x00, 0x08, 0xc1, 0xc2, 0xc3, 0xc4, 0xc5};
    ribbon_decoder decoder = RIBBON_DECODER_NONE;
    ribbon_step step;
    uint8_t unit[256];
    for (int is_extended = 0; is_extended < 2; is_extended++) {
        CHECK((is_extended ? ribbon_decoder_new_extended : ribbon_decoder_new)(&decoder) == RIBBON_DONE);
        for (size_t at = 0; at < 14; at += step.taken)
            CHECK(ribbon_decoder_push(&decoder, stream + at, sizeof stream - at, unit, sizeof unit, &step) == RIBBON_DONE
                  && step.cells == 0 && step.taken > 0);
        CHECK(is_run(&decoder, stream + 14, sizeof stream - 14, 134, 2, "\xc1\xc2"));
        CHECK(is_run(&decoder, stream + 16, sizeof stream - 16, 133, 1, "\x40"));
        CHECK(ribbon_decoder_push(&decoder, stream + 17, sizeof stream - 17, unit, sizeof unit, &step) == RIBBON_DONE
              && is_step(&step, 3, RIBBON_STEP_ELEMENT, 3, 0, 0) && step.cells == 0);
        CHECK(is_run(&decoder, stream + 20, sizeof stream - 20, sizeof unit, 1, "\xc3"));
        CHECK(is_run(&decoder, stream + 21, sizeof stream - 21, sizeof unit, 3, "\xff\xc4"));
        CHECK(ribbon_decoder_push(&decoder, stream + 24, 2, unit, sizeof unit, &step) == RIBBON_DONE
              && is_step(&step, 2, RIBBON_STEP_RECORD, 0, 0, 0));
        for (size_t at = 0; at < 14; at += step.taken)
            CHECK(ribbon_decoder_push(&decoder, long_one + at, sizeof long_one - at, unit, sizeof unit, &step)
                  == RIBBON_DONE);
        FILL(unit);
        CHECK(ribbon_decoder_push(&decoder, long_one + 14, sizeof long_one - 14, unit, sizeof unit, &step)
                  == RIBBON_REFUSED
              && is_step(&step, 4, 0, 0, sizeof stream + 18, RIBBON_REASON_TOO_LONG) && step.cells == 4
              && memcmp(unit, long_one + 14, 4) == 0 && all_are(unit + 4, sizeof unit - 4, 0xa5));
        ribbon_decoder_free(&decoder);
    }
}

int main(void)
{
    test_decoder();
    test_cells();
    return check_end();
}
