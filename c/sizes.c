/* How many bytes each structure has, for languages that can't read the header. */
#include "ribbonscarp.h"

size_t ribbon_station_size(void)
{
    return sizeof(ribbon_station);
}

size_t ribbon_host_size(void)
{
    return sizeof(ribbon_host);
}

size_t ribbon_decoder_size(void)
{
    return sizeof(ribbon_decoder);
}

size_t ribbon_told_size(void)
{
    return sizeof(ribbon_told);
}

size_t ribbon_pushed_size(void)
{
    return sizeof(ribbon_pushed);
}

size_t ribbon_step_size(void)
{
    return sizeof(ribbon_step);
}

size_t ribbon_event_size(void)
{
    return sizeof(ribbon_event);
}

size_t ribbon_answer_size(void)
{
    return sizeof(ribbon_answer);
}

size_t ribbon_read_field_size(void)
{
    return sizeof(ribbon_read_field);
}

size_t ribbon_state_size(void)
{
    return sizeof(ribbon_state);
}

size_t ribbon_identity_size(void)
{
    return sizeof(ribbon_identity);
}

size_t ribbon_cell_size(void)
{
    return sizeof(ribbon_cell);
}

size_t ribbon_field_size(void)
{
    return sizeof(ribbon_field);
}

size_t ribbon_look_size(void)
{
    return sizeof(ribbon_look);
}

size_t ribbon_body_size(void)
{
    return sizeof(ribbon_body);
}
