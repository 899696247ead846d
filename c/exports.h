/* The proved functions, which stand in crates/ws_c. A slice crosses as a pointer that isn't null and a length. */
#ifndef EXPORTS_H
#define EXPORTS_H

#include "ribbonscarp.h"

/* An element and its operands, as ws_c_spell takes it. */
enum {
    ELEMENT_NONE = 0,
    ELEMENT_CLEAR_UNIT = 1,
    ELEMENT_CLEAR_FORMAT = 2,
    ELEMENT_WRITE = 3,
    ELEMENT_READ_INPUT = 4,
    ELEMENT_READ_MDT = 5,
    ELEMENT_READ_MDT_ALTERNATE = 6,
    ELEMENT_HEADER = 7,
    ELEMENT_REPEAT = 8,
    ELEMENT_ERASE = 9,
    ELEMENT_SET_ADDRESS = 10,
    ELEMENT_INSERT_CURSOR = 11,
    ELEMENT_MOVE_CURSOR = 12,
    ELEMENT_FIELD = 13,
    ELEMENT_OUTPUT_FIELD = 14,
    ELEMENT_ATTRIBUTE = 15
};

enum { SPELLED_ROOM = 32 };

typedef struct {
    uint32_t kind;
    uint16_t format;
    uint16_t length;
    uint8_t row;
    uint8_t column;
    uint8_t cc1;
    uint8_t cc2;
    uint8_t byte;
} ribbon_element;

ribbon_status ws_c_station_new(ribbon_handle *handle, const uint8_t *name, size_t size);
ribbon_status ws_c_station_new_extended(ribbon_handle *handle, const uint8_t *name, size_t size);
ribbon_status ws_c_station_new_live(ribbon_handle *handle, const uint8_t *name, size_t size, uint16_t page,
                                    const uint8_t *device, size_t device_size, const uint8_t *keyboard,
                                    size_t keyboard_size);
void ws_c_station_free(ribbon_handle *handle);
ribbon_status ws_c_station_push(ribbon_handle *handle, const uint8_t *bytes, size_t count, uint8_t *reply, size_t room,
                                ribbon_pushed *pushed);
ribbon_status ws_c_station_key(ribbon_handle *handle, uint32_t kind, uint32_t value, uint8_t *answer, size_t room,
                               ribbon_told *told);
ribbon_status ws_c_station_missing(ribbon_handle *handle, uint8_t refusal, uint16_t *field);
ribbon_status ws_c_station_move_cursor(ribbon_handle *handle, uint8_t row, uint8_t column, ribbon_told *told);
ribbon_status ws_c_station_new_line(ribbon_handle *handle, ribbon_told *told);
ribbon_status ws_c_station_erase_eof(ribbon_handle *handle, ribbon_told *told);
ribbon_status ws_c_station_state(ribbon_handle *handle, ribbon_state *state);
ribbon_status ws_c_station_cell(ribbon_handle *handle, uint8_t row, uint8_t column, uint8_t *byte);
ribbon_status ws_c_station_cells(ribbon_handle *handle, uint8_t first_row, uint8_t last_row, ribbon_cell *cells,
                                 size_t room);
ribbon_status ws_c_station_row(ribbon_handle *handle, uint8_t row, uint8_t *text, size_t room, ribbon_told *told);
ribbon_status ws_c_station_field(ribbon_handle *handle, size_t index, ribbon_field *field);
ribbon_status ws_c_station_field_text(ribbon_handle *handle, size_t index, uint8_t *text, size_t room,
                                      ribbon_told *told);
ribbon_status ws_c_host_new(ribbon_handle *handle, uint8_t *opening, size_t room, ribbon_told *told);
void ws_c_host_free(ribbon_handle *handle);
ribbon_status ws_c_host_push(ribbon_handle *handle, const uint8_t *bytes, size_t count, uint8_t *reply, size_t room,
                             ribbon_pushed *pushed, ribbon_event *event);
ribbon_status ws_c_host_send(ribbon_handle *handle, uint8_t opcode, const uint8_t *body, size_t size,
                             ribbon_told *told);
ribbon_status ws_c_host_sent(ribbon_handle *handle, uint8_t *record, size_t room, ribbon_told *told);
ribbon_status ws_c_host_cancel(ribbon_handle *handle, uint8_t *record, size_t room, ribbon_told *told);
ribbon_status ws_c_host_answer(ribbon_handle *handle, ribbon_answer *answer);
ribbon_status ws_c_host_answer_field(ribbon_handle *handle, size_t index, uint8_t *content, size_t room,
                                     ribbon_read_field *field);
ribbon_status ws_c_host_state(ribbon_handle *handle, ribbon_state *state);
ribbon_status ws_c_host_cells(ribbon_handle *handle, uint8_t first_row, uint8_t last_row, ribbon_cell *cells,
                              size_t room);
ribbon_status ws_c_host_field(ribbon_handle *handle, size_t index, ribbon_field *field);
ribbon_status ws_c_decoder_new(ribbon_handle *handle);
ribbon_status ws_c_decoder_new_extended(ribbon_handle *handle);
void ws_c_decoder_free(ribbon_handle *handle);
ribbon_status ws_c_decoder_push(ribbon_handle *handle, const uint8_t *bytes, size_t count, uint8_t *unit, size_t room,
                                ribbon_step *step);
ribbon_status ws_c_decoder_finish(ribbon_handle *handle, uint64_t *place);
ribbon_status ws_c_attribute_look(uint8_t attribute, bool is_color, ribbon_look *look);
ribbon_status ws_c_from_page(uint16_t page, uint8_t byte, uint32_t *character);
ribbon_status ws_c_to_page(uint16_t page, uint32_t character, uint8_t *byte);
ribbon_status ws_c_reason_text(uint8_t reason, uint8_t *text, size_t room, ribbon_told *told);
ribbon_status ws_c_spell(const ribbon_element *element, const uint8_t *list, size_t count, uint8_t *spelled, size_t room,
                         ribbon_told *told);

#endif
