/* The last of what both ends sent, in pieces with their times. */
#ifndef KEPT_H
#define KEPT_H

#include "telnet.h"

#include <stddef.h>
#include <stdio.h>

enum {
    KEPT_LEAST = 256 * 1024,     /* so many bytes are always kept, where they came in no more pieces than: */
    KEPT_PIECES = 32 * 1024,
    KEPT_PIECE = 4096,           /* the bytes of a piece, at most */
    KEPT_ROOM = KEPT_LEAST + KEPT_PIECE
};

typedef struct {
    uint64_t milliseconds; /* since the session began */
    uint32_t length;
    bool is_host;          /* the host sent it */
    bool begins;           /* its first byte begins a record, or a Telnet command before one */
} kept_piece;

typedef struct {
    telnet host;
    size_t first_byte, bytes_used;
    size_t first_piece, pieces_used;
    kept_piece pieces[KEPT_PIECES];
    uint8_t bytes[KEPT_ROOM];
} kept;

/* What is done with a piece; false ends the walk. */
typedef bool kept_visit(void *self, const kept_piece *piece, const uint8_t *bytes);

/* Keeps bytes, and hands each piece that they make to `visit`, where that isn't null. A host's piece ends with a
 * record's end. */
void kept_add(kept *k, bool is_host, uint64_t milliseconds, const uint8_t *bytes, size_t count, kept_visit *visit,
              void *self);

/* Hands over each piece, from the oldest on; false where `visit` ended it. */
bool kept_walk(const kept *k, kept_visit *visit, void *self);

#endif
