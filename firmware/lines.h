/* Text for standard output: lines as the program night prints them, and what tests end with. */
#ifndef LINES_H
#define LINES_H

/* A record's index, its answer, and the bytes of a read that is done. */
void put_line(unsigned index, unsigned answer, const unsigned char *bytes, unsigned count);

/* The only line of a night whose image start refuses. */
void put_bad(unsigned answer);

/* What a test found wrong, and 'N passed, M failed'. */
void put_wrong(const char *what);
void put_tally(unsigned passed, unsigned failed);

#endif
