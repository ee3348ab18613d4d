/* Flags that last: what a lent state may have on, and what stays on where no night can show it. */
#include "lent.h"

/* What a lent state is answered that has flags on lane 0 on: a read of lower 0, which clears nothing. */
static void say_lent(const char *what, registers_u16 flags)
{
    registers_u8 byte;
    lend_idle();
    lend_on(0, flags);
    say(what, REGISTERS_ANSWER(registers_read(MODULE, 0, 1, &byte, 1)));
}

/* (f): a flag that is on is 1 on its own lane. */
static void without_its_flag(void)
{
    start_blank();
    say_lent("on 11h:135 without its flag", 0x0001);
    image[REGISTERS_PAGE_11H(135)] = 0x02;
    say_lent("on 11h:135 with the flag of lane 1", 0x0001);
    image[REGISTERS_PAGE_11H(135)] = 0x01;
    say_lent("on 11h:135 with its flag", 0x0001);
}

/* (f): only the ten flags that can last are on. */
static void past_the_ten(void)
{
    start_blank();
    image[REGISTERS_PAGE_11H(152)] = 0x01;
    say_lent("on 11h:152 with its flag", 0x0200);
    image[REGISTERS_PAGE_11H(153)] = 0x01;
    say_lent("on past the ten, bit 10", 0x0400);
    say_lent("on past the ten, bit 15", 0x8000);
}

static void start_on_page_11h(void)
{
    registers_start(MODULE);
    write_byte(127, 0x11);
}

/* A condition that comes once, on a flag that lasts on other lanes. */
static void once(void)
{
    clear_image();
    start_on_page_11h();
    registers_lasting(MODULE, 148, 0x81, 0x00);
    registers_condition(MODULE, 148, 0x02);
    say("on lane 0", on(0));
    say("on lane 1", on(1));
    say("read 11h:148", read_byte(148));
    say("11h:148 holds", image[REGISTERS_PAGE_11H(148)]);
}

/* An Apply on a lane with something on. */
static void applied(void)
{
    start_with_four_lanes();
    registers_lasting(MODULE, 135, 0x01, 0x00);
    apply_four_lanes();
    say("ConfigStatus of lane 0, marked", status_of_lane_0());
    say("on lane 0", on(0));
    work(2);
    say("on lane 0, copied", on(0));
    work(3);
    say("ConfigStatus of lane 0, closed", status_of_lane_0());
    say("on lane 0", on(0));
}

/* Limits of 1000h and 2000h, of alarm and warning alike; a sample ends what another began. */
static void sampled(void)
{
    clear_image();
    image[REGISTERS_PAGE_02H(192)] = 0x20;
    image[REGISTERS_PAGE_02H(194)] = 0x10;
    image[REGISTERS_PAGE_02H(196)] = 0x20;
    image[REGISTERS_PAGE_02H(198)] = 0x10;
    start_on_page_11h();
    registers_sample(MODULE, 3, 0x0fff);
    say("on lane 3, below its limits", on(3));
    registers_sample(MODULE, 3, 0x1000);
    say("on lane 3, within its limits", on(3));
    say("read 11h:150", read_byte(150));
    say("11h:150 holds", image[REGISTERS_PAGE_11H(150)]);
}

/* What a read of 11h:135 gives and leaves. */
static void say_read(void)
{
    say("read 11h:135", read_byte(135));
    say("11h:135 holds", image[REGISTERS_PAGE_11H(135)]);
    say("lower 3", image[3]);
}

/* What is on shows again after a read, until it ends; only a read clears its flag. */
static void shown_again(void)
{
    clear_image();
    start_on_page_11h();
    registers_lasting(MODULE, 135, 0x0f, 0x00);
    say_read();
    registers_lasting(MODULE, 135, 0x00, 0xff);
    say("on lane 0, ended", on(0));
    say("lower 3", image[3]);
    say_read();
}

void lasting(void)
{
    without_its_flag();
    past_the_ten();
    once();
    applied();
    sampled();
    shown_again();
}
