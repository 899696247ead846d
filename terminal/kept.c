#include "kept.h"

#include <string.h>

static void drop_oldest(kept *k)
{
    size_t length = k->pieces[k->first_piece].length;
    k->first_byte = (k->first_byte + length) % KEPT_ROOM;
    k->bytes_used -= length;
    k->first_piece = (k->first_piece + 1) % KEPT_PIECES;
    k->pieces_used--;
}

static void add_piece(kept *k, const kept_piece *piece, const uint8_t *bytes)
{
    while (k->pieces_used == KEPT_PIECES || k->bytes_used + piece->length > KEPT_ROOM)
        drop_oldest(k);
    size_t at = (k->first_byte + k->bytes_used) % KEPT_ROOM, up = KEPT_ROOM - at;
    size_t front = piece->length < up ? piece->length : up;
    memcpy(k->bytes + at, bytes, front);
    memcpy(k->bytes, bytes + front, piece->length - front);
    k->pieces[(k->first_piece + k->pieces_used) % KEPT_PIECES] = *piece;
    k->pieces_used++;
    k->bytes_used += piece->length;
}

/* How many of the bytes are one piece: of a host up to a record's end. */
static uint32_t piece_length(kept *k, bool is_host, const uint8_t *bytes, size_t count)
{
    uint32_t most = count < KEPT_PIECE ? (uint32_t)count : KEPT_PIECE;
    if (!is_host)
        return most;
    for (uint32_t at = 0; at < most; at++)
        if (telnet_take(&k->host, bytes[at]) == TELNET_EOR)
            return at + 1;
    return most;
}

void kept_add(kept *k, bool is_host, uint64_t milliseconds, const uint8_t *bytes, size_t count, kept_visit *visit,
              void *self)
{
    while (count > 0) {
        kept_piece piece = {.milliseconds = milliseconds, .is_host = is_host};
        piece.begins = is_host && telnet_is_between(&k->host);
        piece.length = piece_length(k, is_host, bytes, count);
        add_piece(k, &piece, bytes);
        if (visit != NULL && !visit(self, &piece, bytes))
            visit = NULL;
        bytes += piece.length;
        count -= piece.length;
    }
}

static const kept_piece *piece_at(const kept *k, size_t at)
{
    return &k->pieces[(k->first_piece + at) % KEPT_PIECES];
}

bool kept_walk(const kept *k, kept_visit *visit, void *self)
{
    uint8_t bytes[KEPT_PIECE];
    size_t place = k->first_byte;
    for (size_t at = 0; at < k->pieces_used; at++) {
        const kept_piece *piece = piece_at(k, at);
        size_t up = KEPT_ROOM - place, front = piece->length < up ? piece->length : up;
        memcpy(bytes, k->bytes + place, front);
        memcpy(bytes + front, k->bytes, piece->length - front);
        place = (place + piece->length) % KEPT_ROOM;
        if (!visit(self, piece, bytes))
            return false;
    }
    return true;
}
