/* Text for standard output, a line at a time: numbers in decimal, bytes as two hex digits in lower case. */
#include "lines.h"
#include "machine.h"

/* An index of ten digits, an answer of three, and the 128 bytes of the longest read. */
enum { LONGEST = 10 + 1 + 3 + 3 * 128 + 1 };

static unsigned char line[LONGEST];
static unsigned length;

static void add(char byte)
{
    line[length++] = (unsigned char)byte;
}

static void add_text(const char *text)
{
    for (; *text; ++text)
        add(*text);
}

static void add_number(unsigned number)
{
    if (number > 9)
        add_number(number / 10);
    add((char)('0' + number % 10));
}

static void end_line(void)
{
    add('\n');
    machine_put(line, length);
    length = 0;
}

void put_line(unsigned index, unsigned answer, const unsigned char *bytes, unsigned count)
{
    static const char digits[] = "0123456789abcdef";
    add_number(index);
    add(' ');
    add_number(answer);
    for (unsigned k = 0; k < count; ++k) {
        add(' ');
        add(digits[bytes[k] >> 4]);
        add(digits[bytes[k] & 15]);
    }
    end_line();
}

void put_bad(unsigned answer)
{
    add_text("bad ");
    add_number(answer);
    end_line();
}

void put_wrong(const char *what)
{
    add_text("wrong: ");
    add_text(what);
    end_line();
}

void put_tally(unsigned passed, unsigned failed)
{
    add_number(passed);
    add_text(" passed, ");
    add_number(failed);
    add_text(" failed");
    end_line();
}
