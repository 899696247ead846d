/* A 5250 display station for C programs (RFC 1205, RFC 4777): bytes of a host in, reply bytes and a screen out; keys in,
 * answer bytes out. A host's end: records out; bytes of a station in, its answers out. And a decoder of host streams,
 * which only tells what they hold.
 *
 * Stations come in three kinds, decoders in two:
 *  - a live station, by ribbon_station_new_live, is for an operator at a live host. No record that it can't take ends it,
 *    it says who it is, and it shows the characters of a code page.
 *  - the extended kind, by ribbon_station_new_extended and ribbon_decoder_new_extended, is for the streams of a live
 *    host, which also saves and restores screens, asks what a screen shows and sends error lines.
 *  - the profile's, by ribbon_station_new and ribbon_decoder_new, refuses all that docs/PROFILE.md leaves out.
 * Every other call serves all kinds.
 *
 * A station at a host:
 *
 *     ribbon_station station = RIBBON_STATION_NONE;
 *     uint8_t bytes[4096], reply[4096], answer[RIBBON_ANSWER_ROOM];
 *     ribbon_pushed pushed;
 *     ribbon_told told;
 *     ssize_t count;
 *
 *     if (ribbon_station_new(&station, "IBM-3179-2") != RIBBON_DONE)
 *         return 1;
 *     while ((count = read(host, bytes, sizeof bytes)) > 0) {
 *         ribbon_status status = RIBBON_NO_ROOM;
 *         for (size_t at = 0; status == RIBBON_NO_ROOM; at += pushed.taken) {
 *             status = ribbon_station_push(&station, bytes + at, count - at, reply, sizeof reply, &pushed);
 *             write_all(host, reply, pushed.replied);            // also what came before a refused byte
 *         }
 *         if (status != RIBBON_DONE) {
 *             fprintf(stderr, "byte %llu: %s\n", (unsigned long long)pushed.place, ribbon_reason_text(pushed.reason));
 *             break;
 *         }
 *         draw(&station);                                        // by ribbon_station_cells or ribbon_station_row
 *     }
 *     ribbon_station_free(&station);
 *
 * A key that the user presses there, as Enter; most keys send nothing:
 *
 *     if (ribbon_station_key(&station, RIBBON_KEY_AID, RIBBON_AID_ENTER, answer, sizeof answer, &told)
 *         == RIBBON_KEY_REFUSED)
 *         fprintf(stderr, "%s\n", ribbon_refusal_text(told.reason));
 *     write_all(host, answer, told.length);
 *     draw(&station);
 *
 * A host, to a station:
 *
 *     ribbon_host host = RIBBON_HOST_NONE;
 *     ribbon_body body;
 *     ribbon_event event;
 *     ribbon_answer came;
 *
 *     if (ribbon_host_new(&host, reply, sizeof reply, &told) != RIBBON_DONE)
 *         return 1;
 *     write_all(station, reply, told.length);
 *     while ((count = read(station, bytes, sizeof bytes)) > 0)
 *         for (size_t at = 0; at < (size_t)count; at += pushed.taken) {
 *             ribbon_status status = ribbon_host_push(&host, bytes + at, count - at, reply, sizeof reply, &pushed,
 *                                                     &event);
 *             write_all(station, reply, pushed.replied);
 *             if (status != RIBBON_DONE && status != RIBBON_NO_ROOM)
 *                 return 1;
 *             if (event.kind == RIBBON_EVENT_READY) {
 *                 ribbon_body_begin(&body, elements, sizeof elements);
 *                 ribbon_body_clear_unit(&body);
 *                 ribbon_body_write(&body, 0x00, 0x08);          // the keyboard is unlocked
 *                 ribbon_body_address(&body, 6, 52);
 *                 ribbon_body_field(&body, 0x4000, 0x24, 10);    // ten cells from row 6 and column 53, underscored
 *                 ribbon_body_read(&body, RIBBON_READ_MDT, 0x00, 0x00);
 *                 ribbon_host_send(&host, RIBBON_OPCODE_PUT_GET, elements, body.size, &told);   // told.length bytes
 *                 ribbon_host_sent(&host, record, sizeof record, &told);
 *                 write_all(station, record, told.length);
 *             }
 *             if (event.kind == RIBBON_EVENT_ANSWER)
 *                 ribbon_host_answer(&host, &came);              // cursor, key, number of fields
 *         }
 *     ribbon_host_free(&host);
 *
 * Each function named here calls one that is proved to do what is said of it, for arguments that are what C asks for.
 * What is C alone is small. It turns a null pointer into RIBBON_NULL, compares rows for ribbon_station_changed, and gives
 * sentences and sizes. It puts texts of code page 037 together character by character, and bodies element by element.
 *
 * Outputs. Every call sets every structure that it is given to, in every outcome: where nothing is told, all of it is
 * zero. A buffer is written at its front alone, so many bytes as the structure says; the rest stays as it was. A call
 * that answers RIBBON_NULL zeroes the structures whose pointers aren't null.
 *
 * What the caller upholds:
 *  - A handle begins as RIBBON_STATION_NONE, RIBBON_HOST_NONE or RIBBON_DECODER_NONE (zero bytes), is changed by these
 *    functions alone, and is never copied while it holds something. What `new` puts into it `free` frees, once; a free
 *    handle may be freed again and used again. A call that is given a handle of another kind answers
 *    RIBBON_NOTHING_HELD, and leaves it alone.
 *  - A pointer that is not null leads to a whole object of its type, or to as many bytes as the length that follows it,
 *    and a name to a string that ends with 0. The objects and buffers of one call do not overlap, and nothing else uses
 *    them during the call. No call keeps a pointer after it returns.
 *  - A handle is given to one call at a time. Any thread may call, where a lock or the like lets a call begin only after
 *    the one before has returned.
 *  - malloc, realloc and free come from one allocator, and align as C asks. No call is made in a signal handler, or in
 *    a forked child of a process with threads.
 *
 * Memory. Each `new` asks for what its kind takes, in two blocks: a decoder for at most 200 bytes, a host for 3,800. A
 * station of the profile asks for 72,792, one of the extended kind for 81,552, a live one for 81,952. A station and a
 * decoder ask for no more later. A host does in ribbon_host_push for what an answer holds, and in ribbon_host_send for the
 * elements that it reads and the record that it keeps.
 *
 * Stack, in bytes, as measured on x86-64 (`make bench`): with a station of the profile, one of
 * ribbon_station_new_extended and one of ribbon_station_new_live. All other calls take less than 1,500. A library that
 * isn't proved, as of `make quick`, takes more: 145,000, 162,000 and 412,000 for a new station, and else up to three times
 * as much as is told here, but 75,000 at most.
 *
 *     ribbon_station_new          27,400  42,900  235,000
 *     ribbon_station_push          4,100  36,500   37,200
 *     ribbon_station_key          33,700  33,700   72,100
 *     ribbon_station_move_cursor  12,900  12,900   45,900
 *     ribbon_station_new_line     12,900  12,900   45,900
 *     ribbon_station_erase_eof    13,000  13,000   46,000
 *     ribbon_station_cells         3,400   3,400    3,400
 *     ribbon_station_changed       8,600   8,600    8,600
 *     ribbon_station_row           2,200   2,200    2,200
 *     ribbon_station_field         3,200   3,200    3,200
 *     ribbon_station_field_text   13,300  13,300   13,300
 *     ribbon_station_state         6,500   6,500    6,500
 *     ribbon_station_missing           -       -    4,800
 *     ribbon_host_new             12,400  12,400   12,400
 *     ribbon_host_push             7,400   7,400    7,400
 *     ribbon_host_send            15,500  15,500   15,500
 *     ribbon_host_state            6,500   6,500    6,500
 *     ribbon_host_cells            3,300   3,300    3,300
 *     ribbon_host_field            3,200   3,200    3,200
 *     ribbon_decoder_push          1,600   1,600    1,600
 */
#ifndef RIBBONSCARP_H
#define RIBBONSCARP_H

#include <stdbool.h>
#include <stddef.h>
#include <stdint.h>

#if defined(__GNUC__)
#define RIBBON_API __attribute__((visibility("default")))
#else
#define RIBBON_API
#endif

#ifdef __cplusplus
extern "C" {
#endif

/* The version of this header. ribbon_version tells that of the library. */
#define RIBBON_VERSION "4.0.0"
#define RIBBON_VERSION_MAJOR 4
#define RIBBON_VERSION_MINOR 0
#define RIBBON_VERSION_PATCH 0

/* What a call comes to. */
typedef uint32_t ribbon_status;

enum {
    RIBBON_DONE = 0,         /* the call did what it says */
    RIBBON_REFUSED = 1,      /* a byte is refused, or the item that it ends; `place` and `reason` tell which and why */
    RIBBON_FAILED = 2,       /* an earlier byte was refused */
    RIBBON_NO_MEMORY = 3,    /* memory is wanting */
    RIBBON_NOTHING_HELD = 4, /* the handle holds nothing, or what another kind of handle holds */
    RIBBON_IN_USE = 5,       /* the handle holds something already */
    RIBBON_NO_ROOM = 6,      /* a buffer is shorter than the call asks for */
    RIBBON_BAD_ARGUMENT = 7, /* an argument is out of its range */
    RIBBON_NOT_READY = 8,    /* records aren't allowed yet, and one is to be sent */
    RIBBON_KEY_REFUSED = 9,  /* the keyboard or the field refuses the key; `reason` tells why: RIBBON_KEY_IS_... */
    RIBBON_TRUNCATED = 10,   /* the stream ends inside a token or a record */
    RIBBON_READ_OUTSTANDING = 11,  /* a read is asked or a cancel is unanswered, and a body isn't empty */
    RIBBON_NO_READ_TO_CANCEL = 12, /* no read is asked, or a cancel is unanswered */
    RIBBON_TOO_BIG = 13,           /* a record would be of more than 65,535 bytes */
    RIBBON_NO_ANSWER = 14,         /* no answer has come yet */
    RIBBON_NULL = 100              /* a pointer is null where the call needs one */
};

/* How much room a buffer needs. */
enum {
    RIBBON_REPLY_ROOM = 17,    /* bytes: the least reply buffer, and to be left of it before each byte; what a host
                                * writes at first */
    RIBBON_ANSWER_ROOM = 5404, /* bytes: what a key sends */
    RIBBON_ROW_ROOM = 240,     /* bytes: a row of 80 characters in UTF-8 */
    RIBBON_FIELD_ROOM = 5757,  /* bytes: the longest field's characters in UTF-8 */
    RIBBON_CHARACTER_ROOM = 2, /* bytes: a character of code page 037 in UTF-8 */
    RIBBON_PAGE_CHARACTER_ROOM = 3, /* bytes: a character of any code page in UTF-8 */
    RIBBON_UNIT_ROOM = 133,    /* bytes: what a decoder gives at one byte, but for cells */
    RIBBON_CANCEL_ROOM = 12,   /* bytes: what a cancel sends */
    RIBBON_ROWS = 24,          /* of a screen */
    RIBBON_COLUMNS = 80,       /* of a screen: the cells of a row */
    RIBBON_CELLS = 1920        /* of a screen */
};

/* Keys (SC30-3533, keyboard functions), and whether a key takes a value. */
enum {
    RIBBON_KEY_CHAR = 1,   /* its Unicode scalar value */
    RIBBON_KEY_INSERT = 2, /* its Unicode scalar value */
    RIBBON_KEY_LEFT = 3,
    RIBBON_KEY_RIGHT = 4,
    RIBBON_KEY_UP = 5,
    RIBBON_KEY_DOWN = 6,
    RIBBON_KEY_HOME = 7,
    RIBBON_KEY_TAB = 8,
    RIBBON_KEY_BACK_TAB = 9,
    RIBBON_KEY_FIELD_EXIT = 10,
    RIBBON_KEY_FIELD_MINUS = 11,
    RIBBON_KEY_DUP = 12,
    RIBBON_KEY_DELETE = 13,
    RIBBON_KEY_ERASE_INPUT = 14,
    RIBBON_KEY_AID = 15, /* its byte: RIBBON_AID_... */
    RIBBON_KEY_ATTENTION = 16,
    RIBBON_KEY_SYSTEM_REQUEST = 17,
    RIBBON_KEY_RESET = 18 /* not at a station of the profile: an error's row comes back, and keys are taken again */
};

/* Attention identification (SC30-3533, AID codes): the keys that answer a read. */
enum {
    RIBBON_AID_F1 = 0x31,
    RIBBON_AID_F2 = 0x32,
    RIBBON_AID_F3 = 0x33,
    RIBBON_AID_F4 = 0x34,
    RIBBON_AID_F5 = 0x35,
    RIBBON_AID_F6 = 0x36,
    RIBBON_AID_F7 = 0x37,
    RIBBON_AID_F8 = 0x38,
    RIBBON_AID_F9 = 0x39,
    RIBBON_AID_F10 = 0x3a,
    RIBBON_AID_F11 = 0x3b,
    RIBBON_AID_F12 = 0x3c,
    RIBBON_AID_F13 = 0xb1,
    RIBBON_AID_F14 = 0xb2,
    RIBBON_AID_F15 = 0xb3,
    RIBBON_AID_F16 = 0xb4,
    RIBBON_AID_F17 = 0xb5,
    RIBBON_AID_F18 = 0xb6,
    RIBBON_AID_F19 = 0xb7,
    RIBBON_AID_F20 = 0xb8,
    RIBBON_AID_F21 = 0xb9,
    RIBBON_AID_F22 = 0xba,
    RIBBON_AID_F23 = 0xbb,
    RIBBON_AID_F24 = 0xbc,
    RIBBON_AID_CLEAR = 0xbd,
    RIBBON_AID_ENTER = 0xf1,
    RIBBON_AID_HELP = 0xf3,
    RIBBON_AID_ROLL_DOWN = 0xf4, /* the Page Up key of a keyboard */
    RIBBON_AID_ROLL_UP = 0xf5,   /* the Page Down key of a keyboard */
    RIBBON_AID_PRINT = 0xf6,
    RIBBON_AID_RECORD_BACKSPACE = 0xf8
};

/* Why a key is refused (SC30-3533, operator errors). */
enum {
    RIBBON_KEY_IS_LOCKED = 1,         /* the keyboard is locked */
    RIBBON_KEY_IS_PROTECTED = 2,      /* the cursor stands in no field that keys enter */
    RIBBON_KEY_WRONG_CHARACTER = 3,   /* the field doesn't take the character, or not there */
    RIBBON_KEY_DUP_NOT_ALLOWED = 4,   /* the field doesn't take the Dup key */
    RIBBON_KEY_FIELD_HAS_NO_ROOM = 5, /* the last cell of the field isn't empty */
    RIBBON_KEY_NO_READ_PENDING = 6,   /* no read waits for a key */
    RIBBON_KEY_MANDATORY_ENTER = 7,   /* a field that has to be entered wasn't */
    /* At a live station alone: */
    RIBBON_KEY_FIELD_EXIT_REQUIRED = 8, /* the field is full, and a key such as Field Exit has to leave it */
    RIBBON_KEY_MANDATORY_FILL = 9       /* a field that has to be filled is partly empty */
};

/* Why bytes are refused. 1 to 45 are refusals of the grammar, at a byte; 50 to 63 of a whole item, at its last byte. */
enum {
    RIBBON_REASON_NONE = 0,
    /* Telnet (RFC 854, RFC 1091) */
    RIBBON_REASON_BAD_COMMAND = 1,  /* a byte after FF that begins no Telnet command */
    RIBBON_REASON_STRAY_SE = 2,     /* an end of subnegotiation outside a subnegotiation */
    RIBBON_REASON_BAD_SUB = 3,      /* an FF in a subnegotiation that neither is doubled nor ends it */
    RIBBON_REASON_SUB_TOO_LONG = 4, /* a subnegotiation of more than 64 bytes */
    /* A record's header (RFC 1205, section 3) */
    RIBBON_REASON_LENGTH_BELOW_HEADER = 10,
    RIBBON_REASON_BAD_TYPE = 11,            /* a record type other than 12A0 */
    RIBBON_REASON_BAD_RESERVED = 12,        /* reserved bytes other than 0000 */
    RIBBON_REASON_BAD_VARIABLE_LENGTH = 13, /* a variable header length other than 04 */
    RIBBON_REASON_UNKNOWN_OPCODE = 14,
    RIBBON_REASON_TOO_LONG = 15,  /* a byte past the declared length of its record */
    RIBBON_REASON_TOO_SHORT = 16, /* a record that ends before its declared length */
    /* A body (SC30-3533, commands and orders) */
    RIBBON_REASON_NO_ESCAPE = 20, /* a place for commands only where no escape (04) stands */
    RIBBON_REASON_UNKNOWN_COMMAND = 21,
    RIBBON_REASON_BAD_ADDRESS = 24,    /* a row or a column outside the screen */
    RIBBON_REASON_BAD_SOH_LENGTH = 25, /* a Start of Header of more than 7 bytes */
    RIBBON_REASON_RESEQUENCING = 26,
    RIBBON_REASON_BAD_ERASE_LIST = 27,
    RIBBON_REASON_BAD_REPEAT = 28,      /* a Repeat to Address of an order code */
    RIBBON_REASON_BAD_FORMAT_BYTE = 29, /* a byte that no Start of Field has there */
    RIBBON_REASON_STRUCTURED_FIELD = 30,
    RIBBON_REASON_ALTERNATE_SIZE = 31,
    RIBBON_REASON_SAVE_RESTORE = 32,
    RIBBON_REASON_ROLL = 33,
    RIBBON_REASON_ERROR_CODE = 34,
    RIBBON_REASON_READ_SCREEN = 35,
    RIBBON_REASON_READ_IMMEDIATE = 36,
    RIBBON_REASON_EXTENDED_ATTRIBUTE = 38,
    RIBBON_REASON_TRANSPARENT_DATA = 39,
    RIBBON_REASON_DISPLAY_STRUCTURED_FIELD = 40,
    RIBBON_REASON_TOO_MANY_FCWS = 41,   /* a ninth field control word */
    RIBBON_REASON_LEFT_OUT_SHIFT = 42,  /* a format word whose shift isn't taken */
    RIBBON_REASON_BAD_AID = 43,         /* a byte that no attention key has */
    RIBBON_REASON_ENDED_INSIDE = 44,    /* a record that ends inside a unit of its body */
    RIBBON_REASON_BAD_ANSWER_BYTE = 45, /* an order code in a station's answer */
    /* A screen (SC30-3533, orders) */
    RIBBON_REASON_BACKWARD_ADDRESS = 50, /* an order up to an address before the current one */
    RIBBON_REASON_PAST_END = 51,         /* a write past the last cell */
    RIBBON_REASON_ZERO_LENGTH = 52,      /* an input field of no cells */
    RIBBON_REASON_FIELD_PAST_END = 53,
    RIBBON_REASON_FIELD_OVERLAP = 54,
    RIBBON_REASON_TABLE_FULL = 55, /* a 257th input field */
    /* A session (RFC 4777, RFC 1205) */
    RIBBON_REASON_RECORD_BEFORE_NEGOTIATION = 60,
    RIBBON_REASON_UNSUPPORTED_TERMINAL = 61,
    RIBBON_REASON_UNASKED_ANSWER = 62,
    RIBBON_REASON_ANSWER_MISMATCH = 63
};

/* What a record asks of its receiver (RFC 1205, section 3). Cancel Invite, 0A, is what ribbon_host_cancel sends. */
enum {
    RIBBON_OPCODE_NO_OPERATION = 0x00,
    RIBBON_OPCODE_INVITE = 0x01,
    RIBBON_OPCODE_OUTPUT_ONLY = 0x02,
    RIBBON_OPCODE_PUT_GET = 0x03,
    RIBBON_OPCODE_SAVE_SCREEN = 0x04,
    RIBBON_OPCODE_RESTORE_SCREEN = 0x05,
    RIBBON_OPCODE_READ_IMMEDIATE = 0x06,
    RIBBON_OPCODE_READ_SCREEN = 0x08,
    RIBBON_OPCODE_MESSAGE_LIGHT_ON = 0x0b,
    RIBBON_OPCODE_MESSAGE_LIGHT_OFF = 0x0c
};

/* Terminal types (RFC 1205, section 2). */
enum {
    RIBBON_TERMINAL_NONE = 0,
    RIBBON_TERMINAL_IBM_5251_11 = 1,
    RIBBON_TERMINAL_IBM_5291_1 = 2,
    RIBBON_TERMINAL_IBM_5292_2 = 3,
    RIBBON_TERMINAL_IBM_3196_A1 = 4,
    RIBBON_TERMINAL_IBM_3179_2 = 5
};

/* What a call tells in addition to its status. */
typedef struct {
    size_t length;  /* how many bytes of the buffer were set */
    uint64_t place; /* where a byte is refused; places count from 0 */
    uint8_t reason; /* why: RIBBON_REASON_..., or a key's refusal; 0 where there is none */
} ribbon_told;

/* What a push of bytes tells. */
typedef struct {
    size_t taken;   /* how many bytes were taken */
    size_t replied; /* how many bytes of `reply` were set */
    uint64_t place; /* where a byte is refused; places count from the first byte that was pushed, 0 */
    uint8_t reason; /* why: RIBBON_REASON_...; 0 where none is refused */
} ribbon_pushed;

/* What is complete in a host's stream, but for cells. */
enum {
    RIBBON_STEP_MORE = 0,    /* nothing */
    RIBBON_STEP_HEADER = 1,  /* a record's header: `flags`, `record_length` and `opcode` are set */
    RIBBON_STEP_ELEMENT = 2, /* an element of the record's body; `length` bytes of the buffer are its spelling */
    RIBBON_STEP_RECORD = 3,  /* the record, with its IAC EOR */
    RIBBON_STEP_TELNET = 4   /* a Telnet command; `length` bytes of the buffer are its spelling */
};

typedef struct {
    size_t taken;           /* how many bytes were taken */
    size_t length;          /* how many bytes of the buffer a spelling has; they stand after those of cells */
    size_t cells;           /* how many bytes at the buffer's front are cells: an element of the record's body each */
    uint64_t place;         /* where a byte is refused; places count from 0 */
    uint32_t kind;          /* RIBBON_STEP_... */
    uint16_t flags;         /* of a header, all 16 bits */
    uint16_t record_length; /* of a header, the length that it declares */
    uint8_t opcode;         /* of a header: RIBBON_OPCODE_..., or 0A */
    uint8_t reason;         /* why a byte is refused: RIBBON_REASON_...; 0 where none is */
} ribbon_step;

/* What a byte tells a host. */
enum {
    RIBBON_EVENT_NONE = 0,
    RIBBON_EVENT_READY = 1,          /* records are allowed, and `terminal` says what the station is */
    RIBBON_EVENT_ANSWER = 2,         /* the asked read is answered, and over: ribbon_host_answer tells the answer */
    RIBBON_EVENT_ATTENTION = 3,      /* the Attention key was pressed */
    RIBBON_EVENT_SYSTEM_REQUEST = 4, /* the System Request key was pressed */
    RIBBON_EVENT_CANCELLED = 5       /* the cancel has arrived, and the asked read is over */
};

typedef struct {
    uint32_t kind;     /* RIBBON_EVENT_... */
    uint32_t terminal; /* RIBBON_TERMINAL_...; none of every event but RIBBON_EVENT_READY */
} ribbon_event;

/* What of an answer is no field. */
typedef struct {
    size_t field_count;
    uint8_t cursor_row;    /* 1 to 24 */
    uint8_t cursor_column; /* 1 to 80 */
    uint8_t aid;           /* the key: RIBBON_AID_... */
} ribbon_answer;

/* A field of an answer, without its content. */
typedef struct {
    size_t length;  /* how many bytes its content has */
    uint8_t row;    /* of its first cell, 1 to 24 */
    uint8_t column; /* of its first cell, 1 to 80 */
} ribbon_read_field;

/* Of a state or a cell that no field holds. */
#define RIBBON_NO_FIELD 0xffff

/* What of a station is no cell and no field. A record that a live station refuses isn't what `refused_place` tells of. */
typedef struct {
    uint64_t records;       /* how many records were carried out */
    uint64_t refused_place; /* of the byte that was refused; places count from the first byte that was pushed, 0 */
    uint64_t alarms;        /* how many the host has sounded since the station was made; of a host 0 */
    /* Of a live station; else 0, as where there is none: */
    uint64_t refused_records; /* how many records were refused, and answered by a negative response */
    uint64_t record_place;    /* where the last of them is refused: which of its own bytes, from 0; a doubled FF is one */
    uint64_t names_refused;   /* how often the host has refused the device's name, as one that is in use */
    uint16_t field_count;   /* at most 256 */
    uint16_t cursor_field;  /* index of the field that holds the cursor, or RIBBON_NO_FIELD */
    uint8_t cursor_row;     /* 1 to 24 */
    uint8_t cursor_column;  /* 1 to 80 */
    uint8_t pending_read;   /* RIBBON_READ_... */
    uint8_t refused_reason; /* RIBBON_REASON_...; RIBBON_REASON_NONE where no byte was refused */
    bool is_ready;          /* records are allowed */
    bool is_locked;         /* the keyboard */
    bool is_message_lit;    /* the message light */
    bool is_blinking;       /* the cursor */
    uint8_t error_row;      /* on which an error of the host's stands, 1 to 24; 0 where none does, and of a host */
    /* Of a live station; else 0 and false: */
    uint8_t record_reason;  /* why the last refused record is refused: RIBBON_REASON_... */
    bool is_full;           /* the field that holds the cursor takes no further character: a key has to leave it */
} ribbon_state;

/* A cell of a screen. It holds a character of the code page (40 to FE), of 037 but at a live station that has another. Or
 * it holds an attribute (20 to 3F), nothing (00), Dup (1C), or another byte that a host has sent and that is no order code
 * (01 to 04, 10 to 15 and 1D). That one is shown as a full stop. */
typedef struct {
    uint32_t character; /* what it shows, as a Unicode scalar value */
    uint16_t field;     /* index of the field that holds it, or RIBBON_NO_FIELD */
    uint8_t byte;       /* what it holds */
    uint8_t attribute;  /* what is in force there, 20 to 3F; 20 at an attribute's own cell */
} ribbon_cell;

/* A field of a screen. */
typedef struct {
    uint8_t row;     /* of its first cell */
    uint8_t column;  /* of its first cell */
    uint16_t length; /* its number of cells */
    uint16_t format; /* its format word: RIBBON_FORMAT_... */
} ribbon_field;

/* A field's format word (SC30-3533, Start of Field order), by its bits. The other bits are kept, without effect. */
enum {
    RIBBON_FORMAT_BYPASS = 0x2000,          /* keys don't enter the field */
    RIBBON_FORMAT_DUP = 0x1000,             /* the Dup key is allowed */
    RIBBON_FORMAT_MODIFIED = 0x0800,        /* the modified data tag, MDT: the field was changed */
    RIBBON_FORMAT_SHIFT = 0x0700,           /* the bits that say what the field takes: RIBBON_SHIFT_... */
    RIBBON_FORMAT_MONOCASE = 0x0020,        /* small letters become capitals */
    RIBBON_FORMAT_MANDATORY_ENTER = 0x0008, /* the field has to be changed before an attention key answers */
    RIBBON_FORMAT_ADJUST = 0x0007           /* the bits that say what Field Exit does: RIBBON_ADJUST_..., or nothing */
};

enum {
    RIBBON_SHIFT_ALPHABETIC = 0x0000, /* takes all characters */
    RIBBON_SHIFT_ALPHABETIC_ONLY = 0x0100,
    RIBBON_SHIFT_NUMERIC = 0x0200, /* takes all characters */
    RIBBON_SHIFT_NUMERIC_ONLY = 0x0300,
    RIBBON_SHIFT_DIGITS_ONLY = 0x0500,
    RIBBON_SHIFT_SIGNED_NUMERIC = 0x0700
};

enum {
    RIBBON_ADJUST_ZEROS = 0x0005,         /* right adjust, zeros before */
    RIBBON_ADJUST_BLANKS = 0x0006,        /* right adjust, blanks before */
    RIBBON_ADJUST_MANDATORY_FILL = 0x0007 /* has no effect */
};

/* Reads: what a station's or a host's state has as its pending read, and what ribbon_body_read asks for. */
enum {
    RIBBON_READ_NONE = 0,
    RIBBON_READ_INPUT = 1,        /* Read Input Fields: all fields, as one */
    RIBBON_READ_MDT = 2,          /* Read MDT Fields: those that were changed */
    RIBBON_READ_MDT_ALTERNATE = 3 /* Read MDT Fields Alternate: the same, with nulls as they are */
};

/* Colours of a colour display. */
enum {
    RIBBON_COLOR_NONE = 0,
    RIBBON_COLOR_GREEN = 1,
    RIBBON_COLOR_WHITE = 2,
    RIBBON_COLOR_RED = 3,
    RIBBON_COLOR_TURQUOISE = 4,
    RIBBON_COLOR_YELLOW = 5,
    RIBBON_COLOR_PINK = 6,
    RIBBON_COLOR_BLUE = 7
};

/* What an attribute looks like (SC30-3533, screen attributes; IBM 3179-2, colour attributes). Of one that hides nothing
 * else is set, but for the colour green on a colour display. */
typedef struct {
    uint8_t color;       /* RIBBON_COLOR_...; none on a display without colours */
    bool is_hidden;      /* nothing displays */
    bool is_reversed;    /* character and ground change places */
    bool is_intense;     /* high intensity; on a display without colours alone */
    bool is_underscored;
    bool is_blinking;
    bool has_separators; /* lines stand between the columns */
} ribbon_look;

/* Who a live station says that it is, where a host asks (RFC 4777). Names end with 0, and small letters become
 * capitals; ribbon_station_new_live keeps none of the pointers. */
typedef struct {
    const char *device;   /* its name: 1 to 10 of A to Z, 0 to 9, $, #, @, _ and ., first a letter, $, # or @; NULL or of
                           * no character where the host is to name it */
    const char *keyboard; /* its type: three letters and digits, as USB; NULL or of no character for the code page's */
    uint16_t code_page;   /* of what is typed and shown: 37, 273, 277, 278, 280, 284, 285, 297, 500, 871, 1140 to 1149;
                           * 0 is 37 */
} ribbon_identity;

/* The body of a record in the making, in a buffer of the program's. */
typedef struct {
    uint8_t *bytes;
    size_t room;          /* how many bytes the buffer has */
    size_t size;          /* how many of them stand there */
    ribbon_status status; /* RIBBON_DONE, or what the first call came to that appended nothing */
} ribbon_body;

/* Handles. Their fields are no business of a program. */
typedef struct {
    void *at;
    bool is_open;
} ribbon_handle;

typedef struct {
    ribbon_handle handle;
    uint8_t seen[24][80][2]; /* by ribbon_station_changed */
} ribbon_station;

typedef struct {
    ribbon_handle handle;
} ribbon_host;

typedef struct {
    ribbon_handle handle;
} ribbon_decoder;

#define RIBBON_STATION_NONE {{NULL, false}, {{{0, 0}}}}
#define RIBBON_HOST_NONE {{NULL, false}}
#define RIBBON_DECODER_NONE {{NULL, false}}

/* The version of the library, as RIBBON_VERSION. */
RIBBON_API const char *ribbon_version(void);

/* What a status, a reason of RIBBON_REASON_... or a key's refusal of RIBBON_KEY_... means, in a sentence for a person
 * without its full stop; that of a reason begins with its number, as `30: structured fields ..`. A number that stands for
 * nothing is told so. The text is the library's, and lasts. */
RIBBON_API const char *ribbon_status_text(ribbon_status status);
RIBBON_API const char *ribbon_reason_text(uint8_t reason);
RIBBON_API const char *ribbon_refusal_text(uint8_t refusal);

/* Gives the character of a byte of code page 037, as a Unicode scalar value. RIBBON_BAD_ARGUMENT below 40 and at FF,
 * which have none. */
RIBBON_API ribbon_status ribbon_from_037(uint8_t byte, uint32_t *character);

/* Gives the byte of a character in code page 037. RIBBON_BAD_ARGUMENT where it has none. */
RIBBON_API ribbon_status ribbon_to_037(uint32_t character, uint8_t *byte);

/* Puts the characters of `count` bytes of code page 037 into `text` as UTF-8, `told->length` bytes and no final 0.
 *
 * RIBBON_BAD_ARGUMENT at the first byte that has none, whose index is `told->place`: the characters before it are put.
 * RIBBON_NO_ROOM where `text` has less than RIBBON_CHARACTER_ROOM bytes for each: nothing is put. */
RIBBON_API ribbon_status ribbon_text_from_037(const uint8_t *bytes, size_t count, char *text, size_t room,
                                              ribbon_told *told);

/* Puts the bytes in code page 037 of a text of `size` bytes in UTF-8 into `bytes`, `told->length` of them: one for each
 * character, no more than the text has bytes.
 *
 * RIBBON_BAD_ARGUMENT at the first character that has none, or where no UTF-8 stands: `told->place` is the index of its
 * first byte, and the bytes of those before it are put. RIBBON_NO_ROOM where `room` is less than `size`: nothing is put. */
RIBBON_API ribbon_status ribbon_text_to_037(const char *text, size_t size, uint8_t *bytes, size_t room,
                                            ribbon_told *told);

/* The same of a code page by its number: 37, 273, 277, 278, 280, 284, 285, 297, 500, 871, 1140 to 1149 (IBM Character
 * Data Representation Architecture). RIBBON_BAD_ARGUMENT at another number, with `told->place` 0. A text has room at
 * RIBBON_PAGE_CHARACTER_ROOM bytes for each character. */
RIBBON_API ribbon_status ribbon_from_page(uint16_t page, uint8_t byte, uint32_t *character);
RIBBON_API ribbon_status ribbon_to_page(uint16_t page, uint32_t character, uint8_t *byte);
RIBBON_API ribbon_status ribbon_text_from_page(uint16_t page, const uint8_t *bytes, size_t count, char *text, size_t room,
                                               ribbon_told *told);
RIBBON_API ribbon_status ribbon_text_to_page(uint16_t page, const char *text, size_t size, uint8_t *bytes, size_t room,
                                             ribbon_told *told);

/* How many bytes a handle has, and each structure that calls set or take: for languages that can't read this header. A handle of
 * so many zero bytes, aligned as a pointer is, holds nothing. */
RIBBON_API size_t ribbon_station_size(void);
RIBBON_API size_t ribbon_host_size(void);
RIBBON_API size_t ribbon_decoder_size(void);
RIBBON_API size_t ribbon_told_size(void);
RIBBON_API size_t ribbon_pushed_size(void);
RIBBON_API size_t ribbon_step_size(void);
RIBBON_API size_t ribbon_event_size(void);
RIBBON_API size_t ribbon_answer_size(void);
RIBBON_API size_t ribbon_read_field_size(void);
RIBBON_API size_t ribbon_state_size(void);
RIBBON_API size_t ribbon_identity_size(void);
RIBBON_API size_t ribbon_cell_size(void);
RIBBON_API size_t ribbon_field_size(void);
RIBBON_API size_t ribbon_look_size(void);
RIBBON_API size_t ribbon_body_size(void);

/* Tells what an attribute looks like: on a colour display, or on one without colours. RIBBON_BAD_ARGUMENT unless it is
 * 20 to 3F. */
RIBBON_API ribbon_status ribbon_attribute_look(uint8_t attribute, bool is_color, ribbon_look *look);

/* The room of a reply buffer for a push of `count` bytes, at least RIBBON_REPLY_ROOM. It is the most that so many bytes
 * can bring in answer at a station of the profile and at a host, with the room that a call asks for before a byte, so that
 * there RIBBON_NO_ROOM never comes where none of an answer waits. At a station of the extended kind a record brings as much
 * as it asks for, so there it can come, with a full buffer, and the next call goes on. SIZE_MAX where it is no size. */
RIBBON_API size_t ribbon_reply_room(size_t count);

/* Makes a station with the terminal type of a name (RFC 1091; letters in either case): IBM-5251-11, IBM-5291-1,
 * IBM-5292-2, IBM-3196-A1 or IBM-3179-2. Its screen is empty, its keyboard locked.
 *
 * RIBBON_IN_USE where the handle holds something, RIBBON_BAD_ARGUMENT where no terminal type has the name,
 * RIBBON_NO_MEMORY. The handle then stays as it was. */
RIBBON_API ribbon_status ribbon_station_new(ribbon_station *station, const char *terminal);

/* Makes a station of the extended kind, as ribbon_station_new makes one of the profile, with the same outcomes. It
 * carries out what live hosts send in addition to the profile (SC30-3533, commands): 5250 Query, Save and Restore Screen,
 * Write Error Code, Roll, Read Screen and two immediate reads. */
RIBBON_API ribbon_status ribbon_station_new_extended(ribbon_station *station, const char *terminal);

/* Makes a live station, with the outcomes of ribbon_station_new; RIBBON_BAD_ARGUMENT also where the code page, the device
 * or the keyboard is none. It is of the extended kind, and
 *  - no refused record ends it: where records are allowed one is answered by a negative response at its IAC EOR, the
 *    screen is as it was but for keys that were pressed meanwhile, and the push goes on. The state counts such records,
 *    and tells of the last one;
 *  - it acts on what a field's format word asks of an operator: field exit required, auto enter, mandatory fill, Field
 *    Minus in a numeric only field, capitals beyond A to Z, and a blank at a field's end as room for an insert;
 *  - where `identity` isn't null it answers a host that asks by NEW-ENVIRON (RFC 1572, RFC 4777), the device's name at the
 *    first time alone: each further time the host refuses the name, and the state counts that. What is typed and shown
 *    are characters of the identity's code page, and of 037 where `identity` is null.
 * What ends it is what no record is: Telnet that is none, and a refused record before records are allowed. */
RIBBON_API ribbon_status ribbon_station_new_live(ribbon_station *station, const char *terminal,
                                                 const ribbon_identity *identity);

/* Frees a station. Its handle then holds nothing. A null pointer, a handle that holds nothing and one of another kind
 * are left alone. */
RIBBON_API void ribbon_station_free(ribbon_station *station);

/* Takes bytes of a host, one after another, and puts what the station writes in answer into `reply`. A record is carried
 * out on the screen with its last byte.
 *
 * RIBBON_REFUSED at the first byte after which the bytes begin no stream, or the last byte of a record that comes
 * before records are allowed (reason 60) or that the screen refuses (50 to 55): `taken` counts the bytes before it. The
 * screen is then as it was, can still be looked at, and each further byte or key is answered by RIBBON_FAILED.
 * RIBBON_BAD_ARGUMENT where `room` is less than RIBBON_REPLY_ROOM, whatever the handle holds: nothing is done.
 * RIBBON_NO_ROOM where fewer bytes of `reply` are left before a byte: what was taken was taken, and a further call goes on
 * with the rest. RIBBON_NOTHING_HELD where the handle holds no station.
 *
 * What the station writes goes out in pieces where `reply` has no room for all of it: RIBBON_NO_ROOM then comes with a full
 * buffer, also where all bytes were taken. The next call begins with the rest, also one of no bytes, and takes no byte
 * before all of the rest has gone out. So the bytes that the calls give, one after another, are what the station writes.
 * Only a station of the extended kind and a live one write so much: up to 9,000 bytes at a record.
 *
 * A record that a live station refuses is told by its state: `refused_records` has grown. A program that is to see each of
 * them looks after each IAC EOR. */
RIBBON_API ribbon_status ribbon_station_push(ribbon_station *station, const uint8_t *bytes, size_t count,
                                             uint8_t *reply, size_t room, ribbon_pushed *pushed);

/* Presses a key: RIBBON_KEY_..., with its value or 0. What the key sends to the host is put into `answer`,
 * `told->length` bytes; most keys send nothing.
 *
 * RIBBON_KEY_REFUSED with one of the refusals in `told->reason`; RIBBON_NOT_READY at a key that sends while records
 * aren't allowed; RIBBON_FAILED after a refused byte: the station is then as it was. RIBBON_NO_ROOM where `answer` has
 * fewer than RIBBON_ANSWER_ROOM bytes, and where a rest of what the station wrote waits for ribbon_station_push: the
 * key's record could get into another; RIBBON_BAD_ARGUMENT where there is no such key, as Reset where the handle holds no
 * station of the extended kind; RIBBON_NOTHING_HELD where the handle holds no station. */
RIBBON_API ribbon_status ribbon_station_key(ribbon_station *station, uint32_t kind, uint32_t value, uint8_t *answer,
                                            size_t room, ribbon_told *told);

/* Strokes: each presses several keys of those above, one after another, up to the first that is refused, and sends
 * nothing. That one is told as ribbon_station_key tells it, by RIBBON_KEY_REFUSED and `told->reason` or by RIBBON_FAILED;
 * `told` is else zero. RIBBON_NO_ROOM where a rest of what the station wrote waits for ribbon_station_push: no key is then
 * pressed. RIBBON_NOTHING_HELD where the handle holds no station.
 *
 * The cursor goes to a cell, by Up or Down and then by Left or Right. Rows count from 1 to 24, columns from 1 to 80;
 * RIBBON_BAD_ARGUMENT at another cell. */
RIBBON_API ribbon_status ribbon_station_move_cursor(ribbon_station *station, uint8_t row, uint8_t column,
                                                    ribbon_told *told);

/* New Line: the cursor goes to the first cell of the first field that keys enter and that begins in a row below. Where
 * none does it goes to the first such field of all. Where keys enter no field it goes to column 1 of the row below, from
 * the last row to that of the first. */
RIBBON_API ribbon_status ribbon_station_new_line(ribbon_station *station, ribbon_told *told);

/* Erase EOF: the cells from the cursor to the end of its field become 00, and the cursor stays; in a signed numeric field
 * the sign goes too. RIBBON_KEY_REFUSED where the cursor stands in no field that keys enter. */
RIBBON_API ribbon_status ribbon_station_erase_eof(ribbon_station *station, ribbon_told *told);

/* Tells the index of the first field, by its start, for which a key is refused so, RIBBON_KEY_...: that has to be entered
 * (RIBBON_KEY_MANDATORY_ENTER) or filled (RIBBON_KEY_MANDATORY_FILL). RIBBON_NO_FIELD at every other refusal.
 *
 * RIBBON_BAD_ARGUMENT where no refusal has the number, RIBBON_NOTHING_HELD where the handle holds no live station. */
RIBBON_API ribbon_status ribbon_station_missing(ribbon_station *station, uint8_t refusal, uint16_t *field);

/* Tells whether records are allowed, what was refused, how many records were carried out, the cursor and its field, and
 * the keyboard's lock. It also tells the lights, the read that waits for a key, the number of fields, the row of an error,
 * and how many alarms the host has sounded. An alarm is a Write to Display, in a record that was carried out, whose second
 * control character has the bit 04. A terminal rings where the number has grown. RIBBON_NOTHING_HELD where the handle holds no
 * station. */
RIBBON_API ribbon_status ribbon_station_state(ribbon_station *station, ribbon_state *state);

/* Tells the byte that a cell holds; ribbon_cell says which there are. Rows count from 1 to 24, columns from 1 to 80.
 * RIBBON_BAD_ARGUMENT at another cell, RIBBON_NOTHING_HELD where the handle holds no station. */
RIBBON_API ribbon_status ribbon_station_cell(ribbon_station *station, uint8_t row, uint8_t column, uint8_t *byte);

/* Tells the cells of rows `first_row` to `last_row`, 80 of each, in screen order: `room` is how many `cells` has.
 *
 * RIBBON_BAD_ARGUMENT where the rows aren't 1 to 24 in order, RIBBON_NO_ROOM where `room` is less than 80 for each row,
 * RIBBON_NOTHING_HELD where the handle holds no station. No cell is then set. */
RIBBON_API ribbon_status ribbon_station_cells(ribbon_station *station, uint8_t first_row, uint8_t last_row,
                                              ribbon_cell *cells, size_t room);

/* Tells the rows that show something else than when this was last asked (at first: than an empty screen), as bits: 1
 * for row 1, 2 for row 2, 4 for row 3 and so on. A row shows something else where the byte of one of its cells or the
 * attribute in force at one is another. RIBBON_NOTHING_HELD where the handle holds no station. */
RIBBON_API ribbon_status ribbon_station_changed(ribbon_station *station, uint32_t *rows);

/* Puts what a row shows into `text` as UTF-8, `told->length` bytes and no final 0. These are 80 characters: a blank for
 * 00, for an attribute and for a cell that isn't displayed, `*` for Dup (1C), a full stop for what the code page lacks.
 *
 * RIBBON_BAD_ARGUMENT at a row that isn't 1 to 24, RIBBON_NO_ROOM where `text` has fewer than RIBBON_ROW_ROOM bytes,
 * RIBBON_NOTHING_HELD where the handle holds no station. */
RIBBON_API ribbon_status ribbon_station_row(ribbon_station *station, uint8_t row, char *text, size_t room,
                                            ribbon_told *told);

/* Tells a field by its index, from 0, in the order of the fields' starts. RIBBON_BAD_ARGUMENT where there is none of
 * the index, RIBBON_NOTHING_HELD where the handle holds no station. */
RIBBON_API ribbon_status ribbon_station_field(ribbon_station *station, size_t index, ribbon_field *field);

/* Puts the text of a field into `text` as UTF-8, `told->length` bytes and no final 0, by its index from 0. It is what the
 * field's cells show up to the last that isn't 00, as ribbon_station_row shows it, but also where it isn't displayed.
 *
 * RIBBON_NO_ROOM where `text` has fewer bytes than that: `told->length` says how many they are, and no byte is put; that
 * doesn't come at RIBBON_FIELD_ROOM bytes. RIBBON_BAD_ARGUMENT where there is no field of the index,
 * RIBBON_NOTHING_HELD where the handle holds no station. */
RIBBON_API ribbon_status ribbon_station_field_text(ribbon_station *station, size_t index, char *text, size_t room,
                                                   ribbon_told *told);

/* Makes a host's end and opens its session: the bytes that ask the station for its terminal type are put into
 * `opening`, `told->length` of them, and are to be sent first.
 *
 * RIBBON_IN_USE where the handle holds something, RIBBON_NO_ROOM where `opening` has fewer than RIBBON_REPLY_ROOM bytes,
 * RIBBON_NO_MEMORY. The handle then stays as it was. */
RIBBON_API ribbon_status ribbon_host_new(ribbon_host *host, uint8_t *opening, size_t room, ribbon_told *told);

/* Frees a host's end. Its handle then holds nothing. A null pointer, a handle that holds nothing and one of another
 * kind are left alone. */
RIBBON_API void ribbon_host_free(ribbon_host *host);

/* Takes bytes of a station, one after another, up to the first that tells something, and puts what the host writes into
 * `reply`. `event` says what the last taken byte tells; bytes after it are left, and are pushed by a further call.
 *
 * RIBBON_REFUSED at the first byte after which the bytes begin no stream, or the last byte of an item that the host
 * refuses (reasons 60 to 63): `taken` counts the bytes before it. RIBBON_NO_MEMORY where memory is wanting. Each further
 * byte, send and cancel is then answered by RIBBON_FAILED; the last record and the last answer can still be fetched.
 * RIBBON_BAD_ARGUMENT where `room` is less than RIBBON_REPLY_ROOM, whatever the handle holds: nothing is done.
 * RIBBON_NO_ROOM where fewer bytes of `reply` are left before a byte: what was taken was taken, and a further call goes on
 * with the rest. RIBBON_NOTHING_HELD where the handle holds no host. */
RIBBON_API ribbon_status ribbon_host_push(ribbon_host *host, const uint8_t *bytes, size_t count, uint8_t *reply,
                                          size_t room, ribbon_pushed *pushed, ribbon_event *event);

/* Sends a record of an opcode, with flags 0 and a body: the `size` bytes that spell its elements (SC30-3533, commands
 * and orders), none for an empty one. The host keeps the record, `told->length` bytes; ribbon_host_sent gives them, up
 * to the next send. The host applies the body to a screen of its own, by which it reads the station's answers.
 *
 * RIBBON_BAD_ARGUMENT at an opcode that isn't one of RIBBON_OPCODE_..., or where the bytes spell no body;
 * RIBBON_NOT_READY while records aren't allowed; RIBBON_READ_OUTSTANDING where a read is asked or a cancel is
 * unanswered, and the body isn't empty; RIBBON_REFUSED where the screen refuses an element, by `told->reason` (50 to
 * 55); RIBBON_TOO_BIG at a record of more than 65,535 bytes; RIBBON_NO_MEMORY; RIBBON_FAILED after a refused byte;
 * RIBBON_NOTHING_HELD where the handle holds no host. Nothing is then sent, and the host is as it was. */
RIBBON_API ribbon_status ribbon_host_send(ribbon_host *host, uint8_t opcode, const uint8_t *body, size_t size,
                                          ribbon_told *told);

/* Puts the record that was sent last into `record`, `told->length` bytes with its IAC EOR; none before the first.
 *
 * RIBBON_NO_ROOM where `record` has fewer bytes than ribbon_host_send told, RIBBON_NOTHING_HELD where the handle holds
 * no host. */
RIBBON_API ribbon_status ribbon_host_sent(ribbon_host *host, uint8_t *record, size_t room, ribbon_told *told);

/* Cancels the asked read: the record is put into `record`, `told->length` bytes. The read stays asked until an answer
 * comes, which may have crossed the cancel, or the cancel's end, RIBBON_EVENT_CANCELLED.
 *
 * RIBBON_NO_READ_TO_CANCEL where no read is asked or a cancel is unanswered, RIBBON_NOT_READY while records aren't
 * allowed, RIBBON_NO_ROOM where `record` has fewer than RIBBON_CANCEL_ROOM bytes, RIBBON_FAILED after a refused byte,
 * RIBBON_NOTHING_HELD where the handle holds no host. The host is then as it was. */
RIBBON_API ribbon_status ribbon_host_cancel(ribbon_host *host, uint8_t *record, size_t room, ribbon_told *told);

/* The screen that the host keeps: what a station's is that has carried out what was sent, without the keys that were
 * pressed there. Each call tells what its like tells of a station; of the state no record and no alarm is counted, and the pending read
 * is the one that is asked. */
RIBBON_API ribbon_status ribbon_host_state(ribbon_host *host, ribbon_state *state);
RIBBON_API ribbon_status ribbon_host_cells(ribbon_host *host, uint8_t first_row, uint8_t last_row, ribbon_cell *cells,
                                           size_t room);
RIBBON_API ribbon_status ribbon_host_field(ribbon_host *host, size_t index, ribbon_field *field);

/* Tells the answer that came last: its cursor, key and number of fields. RIBBON_NO_ANSWER where none has come yet,
 * RIBBON_NOTHING_HELD where the handle holds no host. */
RIBBON_API ribbon_status ribbon_host_answer(ribbon_host *host, ribbon_answer *answer);

/* Tells a field of the answer that came last, by its index from 0 in the order of the fields' starts, and puts its
 * content into `content`, `field->length` bytes of code page 037.
 *
 * RIBBON_NO_ROOM where `content` has fewer bytes than that: `field` says how many it has, and no byte is put.
 * RIBBON_BAD_ARGUMENT where there is no field of the index, RIBBON_NO_ANSWER where no answer has come yet,
 * RIBBON_NOTHING_HELD where the handle holds no host. */
RIBBON_API ribbon_status ribbon_host_answer_field(ribbon_host *host, size_t index, uint8_t *content, size_t room,
                                                  ribbon_read_field *field);

/* Bodies for ribbon_host_send (SC30-3533, commands and orders). `ribbon_body_begin` makes an empty one over a buffer, and
 * each of the others appends an element or a text: the body's first `size` bytes are then what is to be sent.
 *
 * RIBBON_NO_ROOM where the buffer's room is too small, RIBBON_BAD_ARGUMENT at a cell off the screen, an attribute other
 * than 20 to 3F, a format word that isn't one, an order code as a byte, or a character that code page 037 lacks,
 * RIBBON_NULL. Nothing is then appended, and each further call answers the same: so a program can look at `status` once,
 * at the end. That an element may stand where it does is checked by ribbon_host_send. */
RIBBON_API void ribbon_body_begin(ribbon_body *body, uint8_t *bytes, size_t room);

/* Commands: Clear Unit, Clear Format Table, Write to Display and a read, RIBBON_READ_..., with their control
 * characters. Of a write's second one 08 unlocks the keyboard; docs/PROFILE.md has all. */
RIBBON_API ribbon_status ribbon_body_clear_unit(ribbon_body *body);
RIBBON_API ribbon_status ribbon_body_clear_format(ribbon_body *body);
RIBBON_API ribbon_status ribbon_body_write(ribbon_body *body, uint8_t cc1, uint8_t cc2);
RIBBON_API ribbon_status ribbon_body_read(ribbon_body *body, uint8_t read, uint8_t cc1, uint8_t cc2);

/* Start of Header, with at most 7 bytes, of which the third is 00. */
RIBBON_API ribbon_status ribbon_body_header(ribbon_body *body, const uint8_t *header, size_t count);

/* Set Buffer Address, Insert Cursor, Move Cursor. */
RIBBON_API ribbon_status ribbon_body_address(ribbon_body *body, uint8_t row, uint8_t column);
RIBBON_API ribbon_status ribbon_body_insert_cursor(ribbon_body *body, uint8_t row, uint8_t column);
RIBBON_API ribbon_status ribbon_body_move_cursor(ribbon_body *body, uint8_t row, uint8_t column);

/* Repeat to Address: the cells up to this one get the byte. Erase to Address: they become empty. */
RIBBON_API ribbon_status ribbon_body_repeat(ribbon_body *body, uint8_t row, uint8_t column, uint8_t byte);
RIBBON_API ribbon_status ribbon_body_erase(ribbon_body *body, uint8_t row, uint8_t column);

/* Start of Field at the address, whose cell gets the attribute: an input field of a format word, RIBBON_FORMAT_... with
 * 0x4000, or an output field. Its cells are the `length` after that one. */
RIBBON_API ribbon_status ribbon_body_field(ribbon_body *body, uint16_t format, uint8_t attribute, uint16_t length);
RIBBON_API ribbon_status ribbon_body_output_field(ribbon_body *body, uint8_t attribute, uint16_t length);

/* Cells from the address on: an attribute; the characters of a text of `size` bytes in UTF-8; bytes as they are, which may
 * spell elements too. */
RIBBON_API ribbon_status ribbon_body_attribute(ribbon_body *body, uint8_t attribute);
RIBBON_API ribbon_status ribbon_body_text(ribbon_body *body, const char *text, size_t size);
RIBBON_API ribbon_status ribbon_body_bytes(ribbon_body *body, const uint8_t *bytes, size_t count);

/* Makes a decoder of a host's stream, which has taken no byte. RIBBON_IN_USE where the handle holds something,
 * RIBBON_NO_MEMORY; the handle then stays as it was. */
RIBBON_API ribbon_status ribbon_decoder_new(ribbon_decoder *decoder);

/* Makes a decoder of the extended kind, which tells the elements that live hosts send in addition to the profile, too,
 * with the outcomes of ribbon_decoder_new. */
RIBBON_API ribbon_status ribbon_decoder_new_extended(ribbon_decoder *decoder);

/* Frees a decoder. Its handle then holds nothing. A null pointer, a handle that holds nothing and one of another kind
 * are left alone. */
RIBBON_API void ribbon_decoder_free(ribbon_decoder *decoder);

/* Takes bytes up to the first with which something is complete, and tells what; `step->taken` says how many, and the
 * rest is pushed by a further call. RIBBON_STEP_MORE where nothing is complete but cells.
 *
 * Cells, elements that are one byte for a cell, a character or an attribute, are handed out as a run: the first
 * `step->cells` bytes of `unit`. A run ends with the last byte, before an order, a command or an FF, and where fewer
 * than RIBBON_UNIT_ROOM bytes of `unit` are left; `taken` then counts the bytes up to its last cell. What follows it is
 * told by the next call, but for a refusal of the byte after it, which is told with it.
 *
 * RIBBON_REFUSED at the first byte after which the bytes begin no stream, with its place and the reason: `taken` counts
 * the bytes before it. RIBBON_FAILED from then on. RIBBON_NO_ROOM where `unit` has fewer than RIBBON_UNIT_ROOM bytes:
 * no byte is taken. RIBBON_NOTHING_HELD where the handle holds no decoder. */
RIBBON_API ribbon_status ribbon_decoder_push(ribbon_decoder *decoder, const uint8_t *bytes, size_t count, uint8_t *unit,
                                             size_t room, ribbon_step *step);

/* Asks whether the stream may end here. RIBBON_TRUNCATED where it ends inside a token or a record, with the number of
 * bytes in `place`; every further call then answers RIBBON_FAILED, as after a refusal. RIBBON_NOTHING_HELD where the
 * handle holds no decoder. */
RIBBON_API ribbon_status ribbon_decoder_finish(ribbon_decoder *decoder, uint64_t *place);

#ifdef __cplusplus
}
#endif

#endif
