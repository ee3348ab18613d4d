/* Command messages: the flags of a lent image that no night can show, and a message through a write. */
#include "lent.h"

/* A read of lower 0, which clears nothing; lower 3.0 is settled after it. */
static unsigned settled(void)
{
    read_byte(0);
    return image[3];
}

/* Of lower 8 and 9 only 8.6 and 8.0 pull the interrupt. */
static void lent_flags(void)
{
    start_blank();
    image[8] = 0xbe;
    image[9] = 0xff;
    say("lower 3 with every flag of 8 and 9 but 8.6 and 8.0", settled());
    image[8] = 0x40;
    say("lower 3 with 8.6", settled());
    image[31] = 0x40;
    say("lower 3 with 8.6 masked", settled());
}

/* 0040h in one access. */
static void message(void)
{
    static const registers_u8 features[8] = { 0x00, 0x40, 0x00, 0x00, 0x00, 0xbf, 0x00, 0x00 };
    start_blank();
    write_byte(127, 0x9f);
    registers_write(MODULE, 128, features, sizeof features);
    say("lower 37 after 0040h", image[37]);
    say("lower 8", image[8]);
    say("lower 3", image[3]);
    say("9Fh:134", image[REGISTERS_PAGE_9FH(134)]);
    say("9Fh:135", image[REGISTERS_PAGE_9FH(135)]);
    say("9Fh:138", image[REGISTERS_PAGE_9FH(138)]);
    say("9Fh:146", image[REGISTERS_PAGE_9FH(146)]);
}

void commands(void)
{
    lent_flags();
    message();
}
