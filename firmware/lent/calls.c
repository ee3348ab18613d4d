/* Calls that no night can show: answers 1, 3 and 5, what a start answered 10 leaves, limits back to front in a lent image, an unsound state for each of (a)
 * to (e), buffer bytes beyond a read's count, a trigger's byte that a lent image holds, the lanes to be commissioned, a rejection's record, and a path in
 * DPTxTurnOn with something pending. */
#include "lent.h"

enum { FILL = 7, OLDER_LENGTH = 768 };

static registers_u8 longer[REGISTERS_IMAGE_LENGTH + 1];

static unsigned started(registers_u64 length)
{
    return REGISTERS_ANSWER(registers_start(longer, length, state, sizeof state));
}

/* Answer 1. */
static void lengths(void)
{
    say("start on 0 bytes", started(0));
    say("start on 768 bytes", started(OLDER_LENGTH));
    say("start on 895 bytes", started(REGISTERS_IMAGE_LENGTH - 1));
    say("start on 897 bytes", started(REGISTERS_IMAGE_LENGTH + 1));
    say("start on 896 bytes", started(REGISTERS_IMAGE_LENGTH));
    lend_idle();
    say("work on 768 bytes", REGISTERS_ANSWER(registers_work(longer, OLDER_LENGTH, state, sizeof state, 0)));
}

/* Answer 10: one limit after the other set to 1, of low alarm, low warning, high warning and high alarm. A refused start leaves lower 3. */
static unsigned started_with_1(unsigned limit)
{
    image[limit] = 1;
    return REGISTERS_ANSWER(registers_start(MODULE));
}

static void back_to_front(void)
{
    clear_image();
    image[3] = 0x55;
    say("start, low alarm above low warning", started_with_1(REGISTERS_PAGE_02H(195)));
    say("start, low warning above high warning", started_with_1(REGISTERS_PAGE_02H(199)));
    say("start, high warning above high alarm", started_with_1(REGISTERS_PAGE_02H(197)));
    say("lower 3 holds", image[3]);
    say("start, limits equal", started_with_1(REGISTERS_PAGE_02H(193)));
    say("lower 3 holds", image[3]);
}

static unsigned sampled(void)
{
    return REGISTERS_ANSWER(registers_sample(MODULE, 0, 1));
}

/* Only start asks: a sample above the high alarm and below the low one. */
static void back_to_front_when_lent(void)
{
    start_blank();
    image[REGISTERS_PAGE_02H(195)] = 9;
    say("sample, low alarm above high alarm", sampled());
    say("11h:149 holds", image[REGISTERS_PAGE_11H(149)]);
    say("11h:150 holds", image[REGISTERS_PAGE_11H(150)]);
}

static void lend_lane_0(registers_u8 verdict, registers_u8 number)
{
    lend_idle();
    lend_progress(0, 0x01, 0, verdict, number);
}

/* Answer 3: a state that breaks one condition. */
static void unsound(void)
{
    start_with_four_lanes();
    say("sound", sampled());
    lend_lane_0(PASS, 0);
    say("unsound (a)", sampled());
    image[REGISTERS_PAGE_11H(202)] = 0x0c;
    lend_lane_0(REJECT, 9);
    say("unsound (b)", sampled());
    lend_lane_0(PASS, 0);
    say("sound in progress", sampled());
    image[REGISTERS_PAGE_11H(128)] = 0x12;
    say("unsound (e)", sampled());
}

static void unsound_at_rest(void)
{
    start_with_four_lanes();
    image[REGISTERS_PAGE_11H(235)] = 0x01;
    say("unsound (d)", sampled());
    image[REGISTERS_PAGE_11H(235)] = 0x00;
    image[REGISTERS_PAGE_11H(206)] = 0x20;
    say("unsound (c)", sampled());
}

/* The four bytes from 143 on, into a buffer of fill; its bytes are kept for the caller. */
static unsigned read_four(registers_u8 *buffer, unsigned length)
{
    for (unsigned k = 0; k < length; ++k)
        buffer[k] = FILL;
    return REGISTERS_ANSWER(registers_read(MODULE, 143, 4, buffer, length));
}

/* Answer 5: the buffer stays as it was. */
static void short_buffer(void)
{
    registers_u8 buffer[3];
    start_blank();
    say("read 4 bytes into 3", read_four(buffer, sizeof buffer));
    say("the buffer holds", buffer[0]);
}

/* The buffer beyond a read's count, and a trigger's byte that a lent image holds. */
static void read_triggers(void)
{
    registers_u8 buffer[6];
    start_blank();
    image[127] = 0x10;
    image[REGISTERS_PAGE_10H(143)] = 0xaa;
    image[REGISTERS_PAGE_10H(145)] = 0xbb;
    say("read 4 bytes into 6", read_four(buffer, sizeof buffer));
    say("10h:143 shows", buffer[0]);
    say("10h:145 shows", buffer[2]);
    say("beyond the count", buffer[4]);
}

/* ModuleReady, where a path is not held down. */
static void ready_module(void)
{
    image[3] = 0x07;
}

/* The lanes to be commissioned: an ApplyImmediate that closes in DPInitialized. */
static void commission(void)
{
    start_with_four_lanes();
    apply_four_lanes();
    ready_module();
    say("commissioned by ApplyDPInit", REGISTERS_COMMISSION(work(5)));
    registers_hardware(MODULE, 0);
    registers_hardware(MODULE, 0);
    write_byte(144, 0x0f);
    say("commissioned by ApplyImmediate", REGISTERS_COMMISSION(work(5)));
}

/* The code that lane 0 is rejected with, 0 where it is idle or passes. */
static unsigned code_on_lane_0(void)
{
    return state[STAGE] == IN_PROGRESS && state[VERDICT] == REJECT ? state[NUMBER] : 0;
}

/* A rejection's record, from its trigger to its closing step. */
static void rejection(void)
{
    start_blank();
    apply_four_lanes();
    say("rejected with", code_on_lane_0());
    registers_work(MODULE, 3);
    say("and closed", code_on_lane_0());
}

/* A lent path of Application 1 in DPTxTurnOn, with a DPInitPending bit of lane 2 alone: R without S. */
static void turn_on_with_pending(void)
{
    start_with_four_lanes();
    ready_module();
    for (unsigned lane = 0; lane < 4; ++lane)
        image[REGISTERS_PAGE_11H(206) + lane] = 0x10;
    image[REGISTERS_PAGE_11H(128)] = 0x55;
    image[REGISTERS_PAGE_11H(129)] = 0x55;
    image[REGISTERS_PAGE_11H(235)] = 0x04;
    say("hardware in DPTxTurnOn with something pending", REGISTERS_ANSWER(registers_hardware(MODULE, 1)));
    say("leads to", image[REGISTERS_PAGE_11H(128)] % 16);
    say("condition on 11h:136", REGISTERS_ANSWER(registers_condition(MODULE, 136, 0x0f)));
    say("11h:136 holds", image[REGISTERS_PAGE_11H(136)]);
}

void calls(void)
{
    lengths();
    back_to_front();
    back_to_front_when_lent();
    unsound();
    unsound_at_rest();
    short_buffer();
    read_triggers();
    commission();
    rejection();
    turn_on_with_pending();
}
