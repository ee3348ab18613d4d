/* Images and states that a test lends to the core as it likes, the calls on them, and lines that say what was found. */
#ifndef LENT_H
#define LENT_H

#include "registers.h"

extern registers_u8 image[REGISTERS_IMAGE_LENGTH], state[REGISTERS_STATE_LENGTH];

/* The module of a test, as the calls take it. */
#define MODULE image, sizeof image, state, sizeof state

/* Where the parts of a lane's 16 bytes of state lie, and the line behind the eight lanes. */
enum { LANE = 16, STAGE = 0, GROUP = 1, TRIGGER = 10, SET = 11, VERDICT = 12, NUMBER = 13, ON = 14, LINE = 128 };
enum { IDLE = 0, IN_PROGRESS = 1, DP_INIT = 0, PASS = 0, REJECT = 1 };

/* A line: what was tried, and a number. */
void say(const char *what, unsigned number);

/* Every byte of the image 0. */
void clear_image(void);

/* Application 1: 4 host lanes, which may begin on lane 0 or 4. */
void offer_four_lanes(void);

/* Start of an image of zeros, and of one with Application 1. */
void start_blank(void);
void start_with_four_lanes(void);

/* A state with every lane idle, nothing on and the line off. */
void lend_idle(void);

/* .. with a lane in progress by ApplyDPInit, and what is on for a lane. */
void lend_progress(unsigned lane, registers_u8 group, registers_u8 set, registers_u8 verdict, registers_u8 number);
void lend_on(unsigned lane, registers_u16 on);

/* What is on for a lane. */
unsigned on(unsigned lane);

/* A write of a byte; of four alike; a read of a byte. */
registers_u32 write_byte(registers_u8 address, registers_u8 byte);
registers_u32 write_four(registers_u8 address, registers_u8 byte);
registers_u8 read_byte(registers_u8 address);

/* Application 1 staged on lanes 0 to 3 and triggered by ApplyDPInit; work steps on lane 0. */
void apply_four_lanes(void);
registers_u32 work(unsigned steps);

/* ConfigStatus of lane 0. */
unsigned status_of_lane_0(void);

/* The tests, in the order in which they are said. */
void calls(void);
void commands(void);
void lasting(void);
void power(void);
void sets(void);

#endif
