/* Power states: module states and bits that no night can lend, the low-power line in the state after each call, and a reset of a lane in progress. */
#include "lent.h"

/* Lanes 0 to 3 are a path of Application 1 in DPActivated. */
static void activate(void)
{
    for (unsigned lane = 0; lane < 4; ++lane)
        image[REGISTERS_PAGE_11H(206) + lane] = 0x10;
    image[REGISTERS_PAGE_11H(128)] = 0x44;
    image[REGISTERS_PAGE_11H(129)] = 0x44;
}

/* In a module state that is none of the four nothing moves at a module event, no flag is set, and a path is held down. */
static void say_other(const char *what, registers_u8 shown)
{
    start_with_four_lanes();
    activate();
    image[3] = shown;
    registers_move_module(MODULE);
    say(what, image[3]);
    say("lower 8", image[8]);
    registers_hardware(MODULE, 0);
    say("a path in DPActivated goes to", image[REGISTERS_PAGE_11H(128)] % 16);
}

static void other_states(void)
{
    say_other("module state 0, lower 3", 0x01);
    say_other("module state 5, lower 3", 0x0b);
    say_other("module state 6, lower 3", 0x0d);
    say_other("module state 7, lower 3", 0x0f);
}

/* Bits 7 to 4 of a lent lower 3 are kept through every move, and are no part of the state. */
static void reserved_bits(void)
{
    start_blank();
    image[3] = 0xf3;
    registers_move_module(MODULE);
    say("lower 3 from F3h, up", image[3]);
    registers_move_module(MODULE);
    say("lower 3, ready", image[3]);
}

/* SoftwareReset in a lent lower 26 is not shown, and resets nothing: only a write of it does. */
static void lent_reset(void)
{
    start_blank();
    image[26] = 0x48;
    image[3] = 0x07;
    say("lower 26 of 48h shows", read_byte(26));
    registers_move_module(MODULE);
    say("lower 3", image[3]);
    write_byte(31, 0x00);
    say("lower 3 after a write beside it", image[3]);
}

/* Start leaves the line off, and a start that is refused leaves it. */
static void line_at_start(void)
{
    clear_image();
    registers_start(MODULE);
    say("line after start", state[LINE]);
    image[2] = 0x80;
    registers_start(MODULE);
    say("after a start that is refused", state[LINE]);
}

static void say_line_after_module(void)
{
    registers_move_module(MODULE);
    say("line after a module event", state[LINE]);
    registers_hardware(MODULE, 0);
    say("after a hardware event", state[LINE]);
}

/* Each call leaves the line, but for the event of the line. */
static void line(void)
{
    start_blank();
    registers_set_line(MODULE, 1);
    say_line_after_module();
    write_byte(31, 0x00);
    say("after a write", state[LINE]);
    write_byte(26, 0x08);
    say("after a reset", state[LINE]);
    registers_work(MODULE, REGISTERS_LANES);
    say("after a call that is refused", state[LINE]);
    registers_set_line(MODULE, 0);
    say_line_after_module();
}

/* What lane 0 holds, and what the registers say of it. */
static void say_lane_0(void)
{
    say("lane 0 idle", state[STAGE] == IDLE);
    say("on lane 0", on(0));
    say("ConfigStatus of lane 0", status_of_lane_0());
    say("11h:135 holds", image[REGISTERS_PAGE_11H(135)]);
}

/* A reset frees a lane in progress and forgets what is on. */
static void reset(void)
{
    start_blank();
    registers_lasting(MODULE, 135, 0x01, 0x00);
    write_byte(127, 0x10);
    write_byte(145, 0x10);
    write_byte(143, 0x01);
    say_lane_0();
    write_byte(26, 0x08);
    say_lane_0();
    say("lower 26 holds", image[26]);
    say("lower 3", image[3]);
}

void power(void)
{
    other_states();
    reserved_bits();
    lent_reset();
    line_at_start();
    line();
    reset();
}
