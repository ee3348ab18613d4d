/* What the tests of lent states share. */
#include "lent.h"
#include "machine.h"

enum { LONGEST = 100, DIGITS = 10 };

registers_u8 image[REGISTERS_IMAGE_LENGTH], state[REGISTERS_STATE_LENGTH];

void say(const char *what, unsigned number)
{
    unsigned char line[LONGEST], digits[DIGITS];
    unsigned length = 0, count = 0;
    while (*what)
        line[length++] = (unsigned char)*what++;
    line[length++] = ' ';
    do
        digits[count++] = (unsigned char)('0' + number % 10);
    while (number /= 10);
    while (count > 0)
        line[length++] = digits[--count];
    line[length++] = '\n';
    machine_put(line, length);
}

static void clear(registers_u8 *bytes, unsigned length)
{
    for (unsigned k = 0; k < length; ++k)
        bytes[k] = 0;
}

void clear_image(void)
{
    clear(image, sizeof image);
}

void offer_four_lanes(void)
{
    image[88] = 0x44;
    image[89] = 0x11;
}

void start_blank(void)
{
    clear_image();
    registers_start(MODULE);
}

void start_with_four_lanes(void)
{
    clear_image();
    offer_four_lanes();
    registers_start(MODULE);
}

void lend_idle(void)
{
    clear(state, sizeof state);
}

void lend_progress(unsigned lane, registers_u8 group, registers_u8 set, registers_u8 verdict, registers_u8 number)
{
    registers_u8 *record = state + LANE * lane;
    record[STAGE] = IN_PROGRESS;
    record[GROUP] = group;
    record[TRIGGER] = DP_INIT;
    record[SET] = set;
    record[VERDICT] = verdict;
    record[NUMBER] = number;
}

void lend_on(unsigned lane, registers_u16 on)
{
    state[LANE * lane + ON] = (registers_u8)(on >> 8);
    state[LANE * lane + ON + 1] = (registers_u8)on;
}

unsigned on(unsigned lane)
{
    return 256u * state[LANE * lane + ON] + state[LANE * lane + ON + 1];
}

registers_u32 write_byte(registers_u8 address, registers_u8 byte)
{
    return registers_write(MODULE, address, &byte, 1);
}

registers_u32 write_four(registers_u8 address, registers_u8 byte)
{
    registers_u8 bytes[4] = { byte, byte, byte, byte };
    return registers_write(MODULE, address, bytes, sizeof bytes);
}

registers_u8 read_byte(registers_u8 address)
{
    registers_u8 byte = 0;
    registers_read(MODULE, address, 1, &byte, 1);
    return byte;
}

void apply_four_lanes(void)
{
    write_byte(127, 0x10);
    write_four(145, 0x10);
    write_byte(143, 0x0f);
}

registers_u32 work(unsigned steps)
{
    registers_u32 result = 0;
    while (steps-- > 0)
        result = registers_work(MODULE, 0);
    return result;
}

unsigned status_of_lane_0(void)
{
    return image[REGISTERS_PAGE_11H(202)] % 16;
}

int main(void)
{
    calls();
    commands();
    lasting();
    power();
    sets();
    return 0;
}
