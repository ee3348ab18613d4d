/* Start-up on a bare Cortex-M: the vector table, the memory that a C program expects, and semihosting, by which an emulator or a debugger lends its console. */
#include "machine.h"

enum { SYS_OPEN = 1, SYS_WRITE = 5, SYS_READ = 6, SYS_EXIT = 24 };
enum { TO_READ = 1, TO_WRITE = 5 };
enum { STOPPED = 0x20026, FAILED = 0x20024 };

/* Set by the linker script. */
extern unsigned char stack_top[], data_begin[], data_end[], data_stored[], bss_begin[], bss_end[];

static int console_in, console_out;

void machine_reset(void);

static int semihosting(int operation, const void *argument)
{
    register int r0 __asm__("r0") = operation;
    register const void *r1 __asm__("r1") = argument;
    __asm__ volatile("bkpt 0xab" : "+r"(r0) : "r"(r1) : "memory");
    return r0;
}

static int console(int mode)
{
    const struct { const char *name; int mode, length; } asked = { ":tt", mode, 3 };
    return semihosting(SYS_OPEN, &asked);
}

unsigned machine_get(unsigned char *bytes, unsigned length)
{
    unsigned had = 0;
    while (had < length) {
        const struct { int handle; unsigned char *bytes; unsigned length; } asked = { console_in, bytes + had, length - had };
        unsigned missing = (unsigned)semihosting(SYS_READ, &asked);
        if (missing >= asked.length)
            break;
        had = length - missing;
    }
    return had;
}

void machine_put(const unsigned char *bytes, unsigned length)
{
    const struct { int handle; const unsigned char *bytes; unsigned length; } asked = { console_out, bytes, length };
    semihosting(SYS_WRITE, &asked);
}

static void end(int reason)
{
    for (;;)
        semihosting(SYS_EXIT, (const void *)reason);
}

void machine_reset(void)
{
    for (unsigned char *to = data_begin, *from = data_stored; to < data_end; ++to, ++from)
        *to = *from;
    for (unsigned char *to = bss_begin; to < bss_end; ++to)
        *to = 0;
    console_in = console(TO_READ);
    console_out = console(TO_WRITE);
    end(main() ? FAILED : STOPPED);
}

static void fault(void)
{
    end(FAILED);
}

/* The stack, then the handlers: reset, NMI, hard fault. */
__attribute__((section(".vectors"), used)) static const void *const vectors[] = {
    stack_top, (const void *)machine_reset, (const void *)fault, (const void *)fault,
};
