/* The two staged sets, where no night can show them: a group whose lanes name two sets, the set that a lane's record names after each trigger, and a trigger's
 * byte of set 1 that a lent image holds. */
#include "lent.h"

/* The answer to a work step on lane 0 of a rejected group of lanes 0 and 1, held from a set each, lent with its ConfigStatus. */
static unsigned answered(registers_u8 first, registers_u8 second)
{
    start_blank();
    image[REGISTERS_PAGE_11H(202)] = 0xcc;
    lend_progress(0, 0x03, first, REJECT, 7);
    lend_progress(1, 0x03, second, REJECT, 7);
    return REGISTERS_ANSWER(work(1));
}

/* Answer 3: the lanes of one group name one set. */
static void groups(void)
{
    say("a group from set 0", answered(0, 0));
    say("a group from set 1", answered(1, 1));
    say("a group from both sets", answered(0, 1));
}

/* The set that a trigger on page 10h leaves in lane 0's record, 9 where it is idle. */
static unsigned held_by(registers_u8 trigger)
{
    start_blank();
    write_byte(127, 0x10);
    write_byte(trigger, 0x01);
    return state[STAGE] == IDLE ? 9 : state[SET];
}

static void triggers(void)
{
    say("held by 143 from set", held_by(143));
    say("held by 144 from set", held_by(144));
    say("held by 178 from set", held_by(178));
    say("held by 179 from set", held_by(179));
    say("held by 211 from set", held_by(211));
}

/* The triggers' bytes of set 1 that a lent image holds read as 0; the set's own are shown. */
static void lent_triggers(void)
{
    registers_u8 buffer[4];
    start_blank();
    image[127] = 0x10;
    image[REGISTERS_PAGE_10H(178)] = 0xaa;
    image[REGISTERS_PAGE_10H(179)] = 0xab;
    image[REGISTERS_PAGE_10H(180)] = 0xbb;
    registers_read(MODULE, 178, 4, buffer, sizeof buffer);
    say("10h:178 shows", buffer[0]);
    say("10h:179 shows", buffer[1]);
    say("10h:180 shows", buffer[2]);
}

void sets(void)
{
    groups();
    triggers();
    lent_triggers();
}
