/* Replays night files by calls, as the program night does: standard input holds well-formed night files one behind the other, and their lines are printed in
 * that order. It is there to hold the library against night on every target; it does not judge files. */
#include "lines.h"
#include "machine.h"
#include "registers.h"

enum { HEADER = 16, RECORD = 12 };
enum { WRITE = 1, READ, WORK, HARDWARE, CONDITION, SAMPLE, MODULE_EVENT, LINE };

static registers_u8 image[REGISTERS_IMAGE_LENGTH], state[REGISTERS_STATE_LENGTH], buffer[REGISTERS_READ_LIMIT];

#define MODULE image, sizeof image, state, sizeof state

static unsigned number(const registers_u8 *bytes, unsigned length)
{
    unsigned sum = 0;
    for (unsigned k = 0; k < length; ++k)
        sum = sum << 8 | bytes[k];
    return sum;
}

/* A record's event. A count above 8 is refused, whatever bytes the record has for it. */
static registers_u32 call(const registers_u8 *record, unsigned edition)
{
    static registers_u8 many[256];
    switch (record[0]) {
    case WRITE:
        for (unsigned k = 0; k < REGISTERS_WRITE_LIMIT; ++k)
            many[k] = record[3 + k];
        return registers_write(MODULE, record[1], many, record[2]);
    case READ:
        return registers_read(MODULE, record[1], record[2], buffer, sizeof buffer);
    case WORK:
        return registers_work(MODULE, record[1]);
    case HARDWARE:
        return registers_hardware(MODULE, record[1]);
    case CONDITION:
        if (edition < 3)
            return registers_condition(MODULE, record[1], record[2]);
        return registers_lasting(MODULE, record[1], record[2], record[3]);
    case SAMPLE:
        return registers_sample(MODULE, record[1], (registers_u16)number(record + 2, 2));
    case MODULE_EVENT:
        return registers_move_module(MODULE);
    default:
        return registers_set_line(MODULE, record[1]);
    }
}

/* One file behind its header; whether it was whole. */
static int replay(const registers_u8 *header)
{
    registers_u8 record[RECORD];
    unsigned edition = header[2], count = number(header + 4, 4), length = number(header + 12, 4) - HEADER;
    if (length > sizeof image || machine_get(image, length) < length)
        return 0;
    while (length < sizeof image)
        image[length++] = 0;
    unsigned started = REGISTERS_ANSWER(registers_start(MODULE));
    if (started)
        put_bad(started);
    for (unsigned k = 0; k < count; ++k) {
        if (machine_get(record, RECORD) < RECORD)
            return 0;
        if (started)
            continue;
        unsigned answer = REGISTERS_ANSWER(call(record, edition));
        put_line(k, answer, buffer, record[0] == READ && answer == REGISTERS_DONE ? record[2] : 0);
    }
    return 1;
}

int main(void)
{
    registers_u8 header[HEADER];
    while (machine_get(header, HEADER) == HEADER)
        if (!replay(header))
            return 1;
    return 0;
}
