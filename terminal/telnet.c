#include "telnet.h"

enum { EOR = 0xef, SE = 0xf0, SB = 0xfa, WILL = 0xfb, DONT = 0xfe, IAC = 0xff };

static telnet_found take_command(telnet *t, uint8_t byte)
{
    t->state = byte == SB ? TELNET_SUB : byte >= WILL && byte <= DONT ? TELNET_OPTION : TELNET_DATA;
    if (byte == IAC) {
        t->is_in_record = true;
        return TELNET_BYTE;
    }
    if (byte != EOR)
        return TELNET_OTHER;
    t->is_in_record = false;
    return TELNET_EOR;
}

telnet_found telnet_take(telnet *t, uint8_t byte)
{
    switch (t->state) {
    case TELNET_IAC: return take_command(t, byte);
    case TELNET_OPTION: t->state = TELNET_DATA; return TELNET_OTHER;
    case TELNET_SUB: t->state = byte == IAC ? TELNET_SUB_IAC : TELNET_SUB; return TELNET_OTHER;
    case TELNET_SUB_IAC: t->state = byte == SE ? TELNET_DATA : TELNET_SUB; return TELNET_OTHER;
    case TELNET_DATA: break;
    }
    if (byte == IAC) {
        t->state = TELNET_IAC;
        return TELNET_OTHER;
    }
    t->is_in_record = true;
    return TELNET_BYTE;
}

bool telnet_is_between(const telnet *t)
{
    return t->state == TELNET_DATA && !t->is_in_record;
}
