/* Calls of the library for C, as often as standard input says (four bytes, the high one first, behind the letter of what is called), and nothing printed:
 *   n  nothing    w  a write of one byte, the page selection    r  a read of one byte    t  a write of ApplyDPInit on four lanes
 *   k  .. and the first work step    a  .. and all five of them */
#include "machine.h"
#include "registers.h"

static registers_u8 image[REGISTERS_IMAGE_LENGTH], state[REGISTERS_STATE_LENGTH], buffer[REGISTERS_READ_LIMIT];

#define MODULE image, sizeof image, state, sizeof state

static registers_u32 write_byte(registers_u8 address, registers_u8 byte)
{
    return registers_write(MODULE, address, &byte, 1);
}

/* An Apply on four lanes, with so many of its work steps. */
static registers_u32 apply(unsigned steps)
{
    registers_u32 answers = write_byte(143, 0x0f);
    while (steps-- > 0)
        answers |= registers_work(MODULE, 3);
    return answers;
}

static registers_u32 call(registers_u8 what)
{
    switch (what) {
    case 'w':
        return write_byte(127, 0x10);
    case 'r':
        return registers_read(MODULE, 145, 1, buffer, sizeof buffer);
    case 't':
        return apply(0);
    case 'k':
        return apply(1);
    case 'a':
        return apply(5);
    default:
        return REGISTERS_DONE;
    }
}

int main(void)
{
    static const registers_u8 staged[] = { 0x10, 0x10, 0x10, 0x10 };
    registers_u8 asked[5];
    image[REGISTERS_LOWER(88)] = 0x44;
    image[REGISTERS_LOWER(89)] = 0x11;
    registers_u32 answers = registers_start(MODULE) | write_byte(127, 0x10) | registers_write(MODULE, 145, staged, sizeof staged);
    if (machine_get(asked, sizeof asked) < sizeof asked)
        return 1;
    for (unsigned k = (unsigned)asked[1] << 24 | asked[2] << 16 | asked[3] << 8 | asked[4]; k > 0; --k)
        answers |= call(asked[0]);
    return answers != REGISTERS_DONE;
}
