/* How a firmware calls the core: a two-wire handler, a timer and a main loop over one module. What begins with board_ is the firmware's own. This file is
 * compiled for every target and linked into nothing. */
#include "registers.h"

/* Factory bytes: identity, Applications and limits, at their places in an image of zeros. */
void board_load(registers_u8 *image);
/* Start was refused: the factory bytes are no good. */
void board_halt(registers_u8 answer);
/* No two calls on one module at a time: the handlers below do not interrupt each other, and none runs while they are masked. */
void board_mask(void);
void board_unmask(void);
/* The pin that asks for the host's attention, and the one by which the host asks for low power. */
void board_set_interrupt(int due);
registers_u8 board_low_power_pin(void);
/* The byte or the access is not acknowledged on the wire. */
void board_refuse(void);
/* What is measured: power in 0.1 uW, and a bit for each lane without a signal. */
registers_u16 board_received_power(registers_u8 lane);
registers_u8 board_lost_signals(void);
/* Has the hardware done what a state of the module, or of a lane's path, stands for? In a state that can last, it always has. */
int board_module_done(registers_u8 module_state);
int board_path_done(registers_u8 lane, registers_u8 path_state);
/* Active settings of these lanes have changed while their path is up: the hardware takes them over. */
void board_commission(const registers_u8 *image, registers_u8 lanes);

void two_wire_written(const registers_u8 *bytes, registers_u32 length);
registers_u8 two_wire_asked(void);
void timer(void);
int main(void);

static registers_u8 image[REGISTERS_IMAGE_LENGTH], state[REGISTERS_STATE_LENGTH];
static registers_u8 next_address;

#define MODULE image, sizeof image, state, sizeof state

/* An access stays in the half of memory that it begins in. */
static void advance(registers_u32 by)
{
    next_address = (registers_u8)((next_address & 0x80) | ((next_address + by) & 0x7f));
}

/* Lower 3.0 is 0 while an interrupt is due. Looking at the image changes nothing. */
static void show_interrupt(void)
{
    board_set_interrupt(!(image[REGISTERS_LOWER(3)] & 1));
}

/* Handler: the host has written, and the access is at its end. The first byte is the address, and there may be no other. */
void two_wire_written(const registers_u8 *bytes, registers_u32 length)
{
    if (length == 0)
        return;
    next_address = bytes[0];
    if (length == 1)
        return;
    if (REGISTERS_ANSWER(registers_write(MODULE, next_address, bytes + 1, length - 1)) == REGISTERS_DONE)
        advance(length - 1);
    else
        board_refuse();
    show_interrupt();
}

/* Handler: the host asks for a byte. How many it will take is not known, so they are read one by one, which gives what one read of all gives as long as no
 * other call comes between them: the timer waits for the end of the access, or a number of two bytes might be half old and half new. */
registers_u8 two_wire_asked(void)
{
    registers_u8 byte = 0;
    if (REGISTERS_ANSWER(registers_read(MODULE, next_address, 1, &byte, 1)) != REGISTERS_DONE)
        board_refuse();
    advance(1);
    show_interrupt();
    return byte;
}

/* Handler: what the monitors say, some times a second. A signal that is lost is on until it is back. */
void timer(void)
{
    registers_u8 lost = board_lost_signals();
    for (registers_u8 lane = 0; lane < REGISTERS_LANES; ++lane)
        registers_sample(MODULE, lane, board_received_power(lane));
    registers_lasting(MODULE, REGISTERS_LOS_RX, lost, (registers_u8)~lost);
    registers_set_line(MODULE, board_low_power_pin());
    show_interrupt();
}

/* The state of a lane's path: a nibble from 11h:128 on, the even lane low. */
static registers_u8 path_state(registers_u8 lane)
{
    return (image[REGISTERS_PAGE_11H(128) + lane / 2] >> 4 * (lane % 2)) & 15;
}

/* One turn for a lane. Where it has nothing to do, both calls are answered 6 and change nothing. */
static void serve(registers_u8 lane)
{
    board_mask();
    registers_u8 lanes = REGISTERS_COMMISSION(registers_work(MODULE, lane));
    board_unmask();
    if (lanes)
        board_commission(image, lanes);
    if (!board_path_done(lane, path_state(lane)))
        return;
    board_mask();
    registers_hardware(MODULE, lane);
    board_unmask();
}

int main(void)
{
    board_load(image);
    registers_u8 answer = REGISTERS_ANSWER(registers_start(MODULE));
    if (answer != REGISTERS_DONE)
        board_halt(answer);
    for (;;) {
        for (registers_u8 lane = 0; lane < REGISTERS_LANES; ++lane)
            serve(lane);
        board_mask();
        if (board_module_done(image[REGISTERS_LOWER(3)] >> 1 & 7))
            registers_move_module(MODULE);
        show_interrupt();
        board_unmask();
    }
}
