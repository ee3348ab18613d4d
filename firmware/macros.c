/* Holds the header against the library that it is linked with: each length by what is answered at it and one beside it, each answer by a call that gets it,
 * pages by what a host reads there, the lanes to be commissioned, the bytes that no call may touch, numbers with something above their own bits, slices at any
 * place; then bare.c, by some sums. It prints what is wrong; 'N passed, M failed' is its last line. */
#include "lines.h"
#include "registers.h"

enum { BEHIND = 8, MARK = 0xa5 };

static registers_u8 image[REGISTERS_IMAGE_LENGTH + 1], state[REGISTERS_STATE_LENGTH + BEHIND], buffer[REGISTERS_READ_LIMIT + BEHIND];
static unsigned passed, failed;

#define IMAGE image, REGISTERS_IMAGE_LENGTH
#define STATE state, REGISTERS_STATE_LENGTH
#define BUFFER buffer, REGISTERS_READ_LIMIT

static void hold(const char *what, int holds)
{
    if (holds) {
        ++passed;
    } else {
        ++failed;
        put_wrong(what);
    }
}

static void fill(registers_u8 *bytes, unsigned length, registers_u8 byte)
{
    for (unsigned k = 0; k < length; ++k)
        bytes[k] = byte;
}

static int all(const registers_u8 *bytes, unsigned length, registers_u8 byte)
{
    for (unsigned k = 0; k < length; ++k)
        if (bytes[k] != byte)
            return 0;
    return 1;
}

/* A module with Application 1, four host lanes beginning at lane 0 or 4, all else 0. */
static registers_u32 begin(void)
{
    fill(image, sizeof image, 0);
    fill(state, sizeof state, MARK);
    fill(buffer, sizeof buffer, MARK);
    image[88] = 0x44;
    image[89] = 0x11;
    return registers_start(IMAGE, STATE);
}

static registers_u32 write_byte(registers_u8 address, registers_u8 byte)
{
    return registers_write(IMAGE, STATE, address, &byte, 1);
}

/* Application 1 staged on lanes 0 to 3, and triggered at an address. */
static registers_u32 apply(registers_u8 address)
{
    static const registers_u8 staged[4] = { 0x10, 0x10, 0x10, 0x10 };
    write_byte(127, 0x10);
    registers_write(IMAGE, STATE, 145, staged, 4);
    return write_byte(address, 0x0f);
}

static registers_u32 work(unsigned steps)
{
    registers_u32 result = 0;
    for (unsigned k = 0; k < steps; ++k)
        result = registers_work(IMAGE, STATE, 2);
    return result;
}

static void lengths(void)
{
    static const registers_u8 many[REGISTERS_WRITE_LIMIT + 1];
    hold("start", begin() == REGISTERS_DONE);
    hold("state is filled", !all(state, REGISTERS_STATE_LENGTH, MARK) && state[REGISTERS_STATE_LENGTH - 1] != MARK);
    hold("nothing behind state", all(state + REGISTERS_STATE_LENGTH, BEHIND, MARK));
    hold("image one too long", registers_start(image, REGISTERS_IMAGE_LENGTH + 1, STATE) == REGISTERS_BAD_LENGTH);
    hold("image one too short", registers_start(image, REGISTERS_IMAGE_LENGTH - 1, STATE) == REGISTERS_BAD_LENGTH);
    hold("image of any length", registers_start(image, ((registers_u64)1 << 32) + REGISTERS_IMAGE_LENGTH, STATE) == REGISTERS_BAD_LENGTH);
    hold("no image", registers_move_module(0, 0, STATE) == REGISTERS_BAD_LENGTH);
    hold("state one too short for start", registers_start(IMAGE, state, REGISTERS_STATE_LENGTH - 1) == REGISTERS_SHORT_BUFFER);
    hold("state one too short for a call", registers_move_module(IMAGE, state, REGISTERS_STATE_LENGTH - 1) == REGISTERS_UNSOUND);
    hold("state longer than it must be", registers_start(IMAGE, state, sizeof state) == REGISTERS_DONE);
    hold("nothing behind a longer state", all(state + REGISTERS_STATE_LENGTH, BEHIND, MARK));
    hold("longest write", registers_write(IMAGE, STATE, 145, many, REGISTERS_WRITE_LIMIT) == REGISTERS_DONE);
    hold("write one too long", registers_write(IMAGE, STATE, 145, many, REGISTERS_WRITE_LIMIT + 1) == REGISTERS_BAD_ACCESS);
    hold("write of no bytes", registers_write(IMAGE, STATE, 145, 0, 0) == REGISTERS_BAD_ACCESS);
    hold("write of a length with nothing in its low bits", registers_write(IMAGE, STATE, 145, many, (registers_u64)1 << 32) == REGISTERS_BAD_ACCESS);
    hold("longest read", registers_read(IMAGE, STATE, 128, REGISTERS_READ_LIMIT, BUFFER) == REGISTERS_DONE);
    hold("nothing behind the buffer", all(buffer + REGISTERS_READ_LIMIT, BEHIND, MARK));
    hold("read one too long", registers_read(IMAGE, STATE, 0, REGISTERS_READ_LIMIT + 1, buffer, sizeof buffer) == REGISTERS_BAD_ACCESS);
    hold("buffer one too short", registers_read(IMAGE, STATE, 128, 4, buffer, 3) == REGISTERS_SHORT_BUFFER);
    fill(buffer, sizeof buffer, MARK);
    hold("buffer that just fits", registers_read(IMAGE, STATE, 128, 4, buffer, 4) == REGISTERS_DONE);
    hold("nothing behind the count", all(buffer + 4, sizeof buffer - 4, MARK));
    hold("last lane", registers_sample(IMAGE, STATE, REGISTERS_LANES - 1, 65535) == REGISTERS_DONE);
    hold("a lane too many", registers_sample(IMAGE, STATE, REGISTERS_LANES, 65535) == REGISTERS_BAD_NAME);
}

/* A page that the host selects, read whole: whether it lies where the header says, and a byte there is what it should be. */
static void page(const char *what, registers_u8 number, unsigned place, registers_u8 address, registers_u8 byte)
{
    unsigned same = 0;
    write_byte(127, number);
    registers_read(IMAGE, STATE, 128, 128, BUFFER);
    for (unsigned k = 0; k < 128; ++k)
        same += buffer[k] == image[place + k];
    hold(what, image[127] == number && same == 128 && buffer[address - 128] == byte);
}

static void places(void)
{
    begin();
    image[REGISTERS_PAGE_00H(200)] = 0x77;
    image[REGISTERS_PAGE_01H(200)] = 0x01;
    image[REGISTERS_PAGE_02H(200)] = 0x02;
    write_byte(127, 0x10);
    write_byte(145, 0x10);
    registers_sample(IMAGE, STATE, 3, 0x11);
    write_byte(127, 0x9f);
    write_byte(200, 0x9f);
    page("page 00h", 0x00, REGISTERS_PAGE_00H(128), 200, 0x77);
    page("page 01h", 0x01, REGISTERS_PAGE_01H(128), 200, 0x01);
    page("page 02h", 0x02, REGISTERS_PAGE_02H(128), 200, 0x02);
    page("page 10h", 0x10, REGISTERS_PAGE_10H(128), 145, 0x10);
    page("page 11h", 0x11, REGISTERS_PAGE_11H(128), 193, 0x11);
    page("page 9Fh", 0x9f, REGISTERS_PAGE_9FH(128), 200, 0x9f);
    registers_read(IMAGE, STATE, 88, 2, BUFFER);
    hold("lower memory", buffer[0] == image[REGISTERS_LOWER(88)] && buffer[1] == 0x11);
}

static void answers(void)
{
    begin();
    image[2] = 0x80;
    hold("flat", registers_move_module(IMAGE, STATE) == REGISTERS_FLAT && registers_start(IMAGE, STATE) == REGISTERS_FLAT);
    image[2] = 0;
    image[REGISTERS_PAGE_02H(194)] = 1;
    hold("limits out of order", registers_start(IMAGE, STATE) == REGISTERS_BAD_LIMITS);
    begin();
    hold("idle: work", registers_work(IMAGE, STATE, 0) == REGISTERS_IDLE);
    hold("idle: hardware", registers_hardware(IMAGE, STATE, 0) == REGISTERS_IDLE);
    hold("end of a half", registers_read(IMAGE, STATE, 127, 2, BUFFER) == REGISTERS_BAD_ACCESS);
    hold("trigger", apply(143) == REGISTERS_DONE);
    hold("busy", work(1) == REGISTERS_DONE && registers_hardware(IMAGE, STATE, 0) == REGISTERS_BUSY);
    fill(state, REGISTERS_STATE_LENGTH, 0xff);
    hold("unsound", registers_work(IMAGE, STATE, 2) == REGISTERS_UNSOUND);
    hold("a refused call changes nothing", all(state, REGISTERS_STATE_LENGTH, 0xff));
}

static void flags(void)
{
    static const registers_u8 named[] = { REGISTERS_FAILURE_TX, REGISTERS_LOS_TX, REGISTERS_CDR_LOL_TX, REGISTERS_ADAPTIVE_EQ_FAIL_TX, REGISTERS_LOS_RX,
                                          REGISTERS_CDR_LOL_RX };
    registers_u8 is_named[256];
    unsigned same = 0;
    begin();
    fill(is_named, sizeof is_named, 0);
    for (unsigned k = 0; k < sizeof named; ++k)
        is_named[named[k]] = 1;
    for (unsigned flag = 0; flag < sizeof is_named; ++flag)
        same += is_named[flag] == (registers_condition(IMAGE, STATE, (registers_u8)flag, 0) == REGISTERS_DONE);
    hold("those flag bytes that are named", same == sizeof is_named);
    write_byte(127, 0x11);
    for (unsigned k = 0; k < sizeof named; ++k) {
        hold("a condition", registers_condition(IMAGE, STATE, named[k], 0x81) == REGISTERS_DONE);
        hold("a lasting one", registers_lasting(IMAGE, STATE, named[k], 0x02, 0x00) == REGISTERS_DONE);
        registers_read(IMAGE, STATE, named[k], 1, BUFFER);
        hold("both are read", buffer[0] == 0x83);
        registers_read(IMAGE, STATE, named[k], 1, BUFFER);
        hold("one is shown again", buffer[0] == 0x02);
    }
}

/* A path brought up, and its settings changed by ApplyImmediate. */
static void commissioning(void)
{
    begin();
    apply(143);
    hold("nothing to commission", work(5) == REGISTERS_DONE);
    registers_move_module(IMAGE, STATE);
    registers_move_module(IMAGE, STATE);
    for (unsigned k = 0; k < 4; ++k)
        registers_hardware(IMAGE, STATE, 0);
    apply(144);
    registers_u32 result = work(5);
    hold("done", REGISTERS_ANSWER(result) == REGISTERS_DONE);
    hold("lanes to be commissioned", REGISTERS_COMMISSION(result) == 0x0f && result == 0x0f00);
    hold("the line", registers_set_line(IMAGE, STATE, 1) == REGISTERS_DONE && registers_hardware(IMAGE, STATE, 0) == REGISTERS_DONE);
    write_byte(127, 0x11);
    registers_read(IMAGE, STATE, 128, 1, BUFFER);
    hold("the line takes a path down", buffer[0] == 0x66);
}

/* The same calls with arguments of 32 bits: what stands above a narrow number is not looked at. */
static void narrow(void)
{
    typedef registers_u32 wide_call(registers_u8 *, registers_u64, registers_u8 *, registers_u64, registers_u32);
    typedef registers_u32 wide_sample(registers_u8 *, registers_u64, registers_u8 *, registers_u64, registers_u32, registers_u32);
    typedef registers_u32 wide_lasting(registers_u8 *, registers_u64, registers_u8 *, registers_u64, registers_u32, registers_u32, registers_u32);
    typedef registers_u32 wide_read(registers_u8 *, registers_u64, registers_u8 *, registers_u64, registers_u32, registers_u32, registers_u8 *, registers_u64);
    const registers_u32 above = 0xdeadbe00;
    void (*volatile any)(void);
    begin();
    any = (void (*)(void))registers_work;
    hold("lane with bits above it", ((wide_call *)any)(IMAGE, STATE, above | 7) == REGISTERS_IDLE);
    any = (void (*)(void))registers_sample;
    hold("power with bits above it", ((wide_sample *)any)(IMAGE, STATE, above | 3, 0xdead0102) == REGISTERS_DONE);
    hold("power is stored", image[REGISTERS_PAGE_11H(192)] == 1 && image[REGISTERS_PAGE_11H(193)] == 2);
    any = (void (*)(void))registers_lasting;
    hold("masks with bits above them", ((wide_lasting *)any)(IMAGE, STATE, above | 135, above | 0x05, above | 0x02) == REGISTERS_DONE);
    hold("masks are taken", image[REGISTERS_PAGE_11H(135)] == 0x05);
    any = (void (*)(void))registers_read;
    hold("address with bits above it", ((wide_read *)any)(IMAGE, STATE, above | 88, above | 2, BUFFER) == REGISTERS_DONE);
    hold("bytes are read", buffer[0] == 0x44 && buffer[1] == 0x11 && buffer[2] == MARK);
}

/* Slices may lie at any place: the same calls leave the same bytes at an image, a state and a buffer that are each so far off a word. */
static void anywhere(unsigned off)
{
    static registers_u8 room[3][REGISTERS_IMAGE_LENGTH + 8];
    static const registers_u8 staged[] = { 0, 0x10, 0x10, 0x10, 0x10 };
    registers_u8 *other = room[0] + off, *others = room[1] + off, *into = room[2] + off;
    unsigned same = 0;
    begin();
    fill(other, REGISTERS_IMAGE_LENGTH, 0);
    other[88] = 0x44;
    other[89] = 0x11;
    registers_start(other, REGISTERS_IMAGE_LENGTH, others, REGISTERS_STATE_LENGTH);
    for (unsigned twice = 0; twice < 2; ++twice) {
        registers_u8 *lent = twice ? other : image, *kept = twice ? others : state, *to = twice ? into : buffer;
        registers_u8 page_10h = 0x10, trigger = 0x0f;
        registers_write(lent, REGISTERS_IMAGE_LENGTH, kept, REGISTERS_STATE_LENGTH, 127, &page_10h, 1);
        registers_write(lent, REGISTERS_IMAGE_LENGTH, kept, REGISTERS_STATE_LENGTH, 145, staged + 1, 4);
        registers_write(lent, REGISTERS_IMAGE_LENGTH, kept, REGISTERS_STATE_LENGTH, 143, &trigger, 1);
        registers_work(lent, REGISTERS_IMAGE_LENGTH, kept, REGISTERS_STATE_LENGTH, 1);
        registers_sample(lent, REGISTERS_IMAGE_LENGTH, kept, REGISTERS_STATE_LENGTH, 6, 0x1234);
        registers_lasting(lent, REGISTERS_IMAGE_LENGTH, kept, REGISTERS_STATE_LENGTH, REGISTERS_LOS_RX, 0x55, 0xaa);
        registers_move_module(lent, REGISTERS_IMAGE_LENGTH, kept, REGISTERS_STATE_LENGTH);
        registers_read(lent, REGISTERS_IMAGE_LENGTH, kept, REGISTERS_STATE_LENGTH, 128, 128, to, REGISTERS_READ_LIMIT);
    }
    for (unsigned k = 0; k < REGISTERS_IMAGE_LENGTH; ++k)
        same += image[k] == other[k] && (k >= REGISTERS_STATE_LENGTH || state[k] == others[k]) && (k >= REGISTERS_READ_LIMIT || buffer[k] == into[k]);
    hold("slices at any place", same == REGISTERS_IMAGE_LENGTH && work(1) == REGISTERS_DONE);
}

/* What bare.c provides where the processor has no instruction for it. */
static void arithmetic(void)
{
    volatile registers_u64 one = 0xfedcba9876543210, other = 0x123456789abcdef1;
    volatile registers_u32 number = 0xfedcba98, by = 1000;
    volatile int shift = 0;
    hold("a product", one * other == 0x224a4396cc6d0110);
    hold("a quotient", number / by == 4275878 && number % by == 552);
    hold("a shift by 0", one << shift == 0xfedcba9876543210 && one >> shift == 0xfedcba9876543210);
    shift = 4;
    hold("a shift by 4", one << shift == 0xedcba98765432100 && one >> shift == 0x0fedcba987654321);
    shift = 32;
    hold("a shift by 32", one << shift == 0x7654321000000000 && one >> shift == 0xfedcba98);
    shift = 60;
    hold("a shift by 60", one << shift == 0 && one >> shift == 0xf);
}

int main(void)
{
    lengths();
    places();
    answers();
    flags();
    commissioning();
    narrow();
    for (unsigned off = 0; off < 8; ++off)
        anywhere(off);
    arithmetic();
    put_tally(passed, failed);
    return failed != 0;
}
