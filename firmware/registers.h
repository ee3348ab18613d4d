/* The register core of an eight-lane optical module, for C: ten calls over memory that the caller lends.
 *
 * A slice is two arguments, a pointer and the number of bytes there; of an empty one the pointer is not used. A caller owes two things, and nothing checks
 * them: each pointer points at as many bytes as its length says, and the slices of one call do not overlap. All else is answered: whatever bytes stand in
 * image and state, whatever the numbers are, the call ends, and it touches nothing but the slices that it is lent. It allocates nothing, keeps nothing from
 * call to call and has no global state, so one program can hold several modules, each with an image and a state of its own.
 *
 * image  REGISTERS_IMAGE_LENGTH bytes: the registers, lower memory and then pages 00h, 01h, 02h, 10h, 11h and 9Fh, as a host sees them.
 * state  at least REGISTERS_STATE_LENGTH bytes: what the core keeps beside the registers. registers_start writes it, the other calls read it and write it
 *        anew; what lies behind the first REGISTERS_STATE_LENGTH bytes is never touched. Its layout is the core's own.
 *
 * Both belong to the core between calls. A caller that changes them itself is not refused for that alone, but it may then meet REGISTERS_UNSOUND.
 *
 * Every call returns 32 bits: the answer in bits 7-0, the lanes to be commissioned in bits 15-8 (bit 8 is lane 0), 0 in the others. A call that is answered
 * with anything but REGISTERS_DONE has changed nothing, neither image nor state nor buffer, and names no lane.
 *
 * Argument types: lengths have 64 bits on every target, 32-bit ones included. Numbers of 8 and 16 bits are declared as such, and the library takes the low
 * 8 or 16 bits of the register or stack word that its target's convention passes them in, whatever stands above; so it does not matter which side of the call
 * a convention has widen them. Results have 32 bits, because of a narrower one a caller may assume that the upper bits are 0.
 *
 * This file includes nothing where the compiler names its own types (GCC, Clang), and the compiler's stdint.h elsewhere.
 */
#ifndef REGISTERS_H
#define REGISTERS_H

#ifdef __UINT64_TYPE__
typedef __UINT8_TYPE__ registers_u8;
typedef __UINT16_TYPE__ registers_u16;
typedef __UINT32_TYPE__ registers_u32;
typedef __UINT64_TYPE__ registers_u64;
#else
#include <stdint.h>
typedef uint8_t registers_u8;
typedef uint16_t registers_u16;
typedef uint32_t registers_u32;
typedef uint64_t registers_u64;
#endif

/* Lengths, in bytes. */
#define REGISTERS_IMAGE_LENGTH 896
#define REGISTERS_STATE_LENGTH 129
#define REGISTERS_WRITE_LIMIT 8
#define REGISTERS_READ_LIMIT 128

/* Lanes count from 0. */
#define REGISTERS_LANES 8

/* The place in an image of an address: 0 to 127 of lower memory, 128 to 255 of a page. Looking there changes nothing and is not a host's read. */
#define REGISTERS_LOWER(address) (address)
#define REGISTERS_PAGE_00H(address) (address)
#define REGISTERS_PAGE_01H(address) ((address) + 128)
#define REGISTERS_PAGE_02H(address) ((address) + 256)
#define REGISTERS_PAGE_10H(address) ((address) + 384)
#define REGISTERS_PAGE_11H(address) ((address) + 512)
#define REGISTERS_PAGE_9FH(address) ((address) + 640)

/* What a result holds. */
#define REGISTERS_ANSWER(result) ((registers_u8)(result))
#define REGISTERS_COMMISSION(result) ((registers_u8)((result) >> 8))

/* Answers. Where more than one would apply, the first of the order 1, 2, 10, 3, 4, 8, 5, 7, 6 is given. */
#define REGISTERS_DONE 0         /* the call is done */
#define REGISTERS_BAD_LENGTH 1   /* the image is not REGISTERS_IMAGE_LENGTH bytes long */
#define REGISTERS_FLAT 2         /* lower 2.7 is 1: flat memory */
#define REGISTERS_UNSOUND 3      /* state is too short or holds no state, or image and state do not fit together: never after a start; start does not ask */
#define REGISTERS_BAD_ACCESS 4   /* no bytes, more than 8 written or 128 read, or beyond the half of memory (last address 127 or 255) it begins in */
#define REGISTERS_SHORT_BUFFER 5 /* a read's buffer is shorter than its count; at start: state is shorter than REGISTERS_STATE_LENGTH */
#define REGISTERS_IDLE 6         /* a work step where the lane has no Apply under way, or a hardware event where it is on no path */
#define REGISTERS_BUSY 7         /* a hardware event while the lane, or another lane of its path, has an Apply under way */
#define REGISTERS_BAD_NAME 8     /* a lane above 7, or a condition on a flag byte that takes none */
#define REGISTERS_BAD_LIMITS 10  /* at start: the limits of received power, 02h:192 to 199, are out of order */

/* Flag bytes of page 11h that a condition may name. */
#define REGISTERS_FAILURE_TX 135
#define REGISTERS_LOS_TX 136
#define REGISTERS_CDR_LOL_TX 137
#define REGISTERS_ADAPTIVE_EQ_FAIL_TX 138
#define REGISTERS_LOS_RX 147
#define REGISTERS_CDR_LOL_RX 148

#ifdef __cplusplus
extern "C" {
#endif

/* Begins with an image that holds what start keeps: lower 0-2, 39-40 and 85-117, pages 00h, 01h and 02h. All other bytes of it, and state, are set as they
 * are after a power-up: ModuleLowPwr, all lanes DPDeactivated, no flag, the low-power line off. Answers 0, 1, 2, 10, 5. */
registers_u32 registers_start(registers_u8 *image, registers_u64 image_length, registers_u8 *state, registers_u64 state_length);

/* The host writes bytes from an address on, at most REGISTERS_WRITE_LIMIT; length is how many. A write can stage settings, trigger an Apply, run a command
 * message, select a page or reset the module. Answers 0, 1, 2, 3, 4. */
registers_u32 registers_write(registers_u8 *image, registers_u64 image_length, registers_u8 *state, registers_u64 state_length, registers_u8 address,
                              const registers_u8 *bytes, registers_u64 length);

/* The host reads count bytes, at most REGISTERS_READ_LIMIT, into the front of buffer; what lies behind them there is not touched. Flags that are read are
 * cleared, and shown again while what they tell of lasts. Answers 0, 1, 2, 3, 4, 5. */
registers_u32 registers_read(registers_u8 *image, registers_u64 image_length, registers_u8 *state, registers_u64 state_length, registers_u8 address,
                             registers_u8 count, registers_u8 *buffer, registers_u64 buffer_length);

/* One work step of the Apply that a lane is part of: a lane of its group is copied, or the group closes. The only call that names lanes to be commissioned:
 * those of a group that an ApplyImmediate has changed while its path is up. Answers 0, 1, 2, 3, 8, 6. */
registers_u32 registers_work(registers_u8 *image, registers_u64 image_length, registers_u8 *state, registers_u64 state_length, registers_u8 lane);

/* The hardware has done what the state of a lane's path stands for: the whole path moves one state on, where it can. Answers 0, 1, 2, 3, 8, 7, 6. */
registers_u32 registers_hardware(registers_u8 *image, registers_u64 image_length, registers_u8 *state, registers_u64 state_length, registers_u8 lane);

/* A condition has occurred, once: the bits of mask are set in a flag byte. Answers 0, 1, 2, 3, 8. */
registers_u32 registers_condition(registers_u8 *image, registers_u64 image_length, registers_u8 *state, registers_u64 state_length, registers_u8 flag,
                                  registers_u8 mask);

/* A condition that lasts has begun on the lanes of on and ended on those of off; a lane of both has it. Answers 0, 1, 2, 3, 8. */
registers_u32 registers_lasting(registers_u8 *image, registers_u64 image_length, registers_u8 *state, registers_u64 state_length, registers_u8 flag,
                                registers_u8 on, registers_u8 off);

/* A lane's received power was measured, in 0.1 uW: it is stored and held against the four limits. Answers 0, 1, 2, 3, 8. */
registers_u32 registers_sample(registers_u8 *image, registers_u64 image_length, registers_u8 *state, registers_u64 state_length, registers_u8 lane,
                               registers_u16 power);

/* The module itself has powered up or down: its state moves one on, where it can. Answers 0, 1, 2, 3. */
registers_u32 registers_move_module(registers_u8 *image, registers_u64 image_length, registers_u8 *state, registers_u64 state_length);

/* The low-power line is now off (0) or on (anything else). Answers 0, 1, 2, 3. */
registers_u32 registers_set_line(registers_u8 *image, registers_u64 image_length, registers_u8 *state, registers_u64 state_length, registers_u8 on);

#ifdef __cplusplus
}
#endif

#endif
