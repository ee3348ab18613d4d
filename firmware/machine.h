/* What the programs of this folder ask of the machine that they run on. A start-up file of start/ provides it, and calls main. */
#ifndef MACHINE_H
#define MACHINE_H

/* Bytes from standard input: how many there were, fewer than length at its end alone. */
unsigned machine_get(unsigned char *bytes, unsigned length);

/* Bytes to standard output. */
void machine_put(const unsigned char *bytes, unsigned length);

/* The program; the machine ends with success where it returns 0. */
int main(void);

#endif
