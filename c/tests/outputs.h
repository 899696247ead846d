/* What calls leave in their outputs. */
#ifndef OUTPUTS_H
#define OUTPUTS_H

#include "ribbonscarp.h"

static inline int is_no_told(const ribbon_told *told)
{
    return told->length == 0 && told->place == 0 && told->reason == 0;
}

static inline int is_pushed(const ribbon_pushed *pushed, size_t taken, size_t replied, uint64_t place, uint8_t reason)
{
    return pushed->taken == taken && pushed->replied == replied && pushed->place == place && pushed->reason == reason;
}

static inline int is_step(const ribbon_step *step, size_t taken, uint32_t kind, size_t length, uint64_t place, uint8_t reason)
{
    return step->taken == taken && step->kind == kind && step->length == length && step->place == place
           && step->reason == reason && (kind == RIBBON_STEP_HEADER || (step->flags == 0 && step->opcode == 0));
}

#endif
