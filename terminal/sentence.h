/* Sentences for the person at the terminal. */
#ifndef SENTENCE_H
#define SENTENCE_H

#include "bindings.h"
#include "ribbonscarp.h"

/* A key that the station has refused. */
typedef struct {
    action key;
    uint8_t refusal;      /* RIBBON_KEY_... */
    uint16_t code_page;   /* of what is typed */
    bool is_strict;       /* the station is one of the profile */
    const bindings *keys; /* those that are bound */
} refused_key;

/* Why it is refused where the station's cursor stands: it names the character, unless nothing is shown there, the field
 * or its kind, and what to press by the keys that are bound. */
void sentence_refused(ribbon_station *station, const refused_key *refused, char *text, size_t room);

/* Why a record of the host's is refused: as much as has room in so many columns. */
void sentence_record(uint8_t reason, size_t columns, char *text, size_t room);

/* A character between quotes, or its number where it can't be shown in one column. */
const char *sentence_character(uint32_t character, char *text, size_t room);

/* Bytes as text: those of ASCII as they are, others by their number, and `..` where they are cut. */
void sentence_bytes(const uint8_t *bytes, size_t count, char *text, size_t room);

#endif
