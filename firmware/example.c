/* The night of nights/example-ready.txt by calls: Application 1 is set up on lanes 0 to 3, the module powered up, the path moved. It prints a line for each
 * call, as `./replay nights/example-ready.night` does: the call's index, its answer, and the bytes that were read. */
#include "lines.h"
#include "registers.h"

static registers_u8 image[REGISTERS_IMAGE_LENGTH], state[REGISTERS_STATE_LENGTH], buffer[REGISTERS_READ_LIMIT];
static unsigned calls;

/* The module of this program: its image and its state, as the calls take them. */
#define MODULE image, sizeof image, state, sizeof state

static void done(registers_u32 result)
{
    put_line(calls++, REGISTERS_ANSWER(result), buffer, 0);
}

static void write(registers_u8 address, const registers_u8 *bytes, registers_u8 length)
{
    done(registers_write(MODULE, address, bytes, length));
}

static void read(registers_u8 address, registers_u8 count)
{
    registers_u32 result = registers_read(MODULE, address, count, buffer, sizeof buffer);
    put_line(calls++, REGISTERS_ANSWER(result), buffer, REGISTERS_ANSWER(result) == REGISTERS_DONE ? count : 0);
}

static void work(registers_u8 lane)
{
    done(registers_work(MODULE, lane));
}

int main(void)
{
    static const registers_u8 page_10h[] = { 0x10 }, page_11h[] = { 0x11 }, application_1[] = { 0x10, 0x10, 0x10, 0x10 }, lanes_0_to_3[] = { 0x0f };

    /* Application 1: four host lanes, beginning at lane 0 or 4. */
    image[88] = 0x44;
    image[89] = 0x11;
    if (registers_start(MODULE) != REGISTERS_DONE)
        return 1;

    write(127, page_10h, 1);
    write(145, application_1, 4); /* staged */
    write(143, lanes_0_to_3, 1);  /* ApplyDPInit */
    work(0);
    write(127, page_11h, 1);
    read(202, 4); /* ConfigStatus: in progress */
    work(3);
    work(3);
    work(3);
    work(3); /* the group closes */
    read(202, 4); /* success */
    read(206, 5); /* active */
    read(235, 1); /* pending */
    work(3); /* nothing is in progress */
    done(registers_move_module(MODULE));
    done(registers_move_module(MODULE)); /* ModuleReady */
    done(registers_hardware(MODULE, 0)); /* the path leaves DPDeactivated */
    read(128, 2);
    return 0;
}
