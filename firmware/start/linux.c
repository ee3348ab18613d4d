/* Start-up on Linux without a C library: the entry point, and three system calls, for the four processors that archives are made for. */
#include "machine.h"

void machine_run(void);

#if defined(__x86_64__)
enum { READ = 0, WRITE = 1, EXIT = 60 };
#elif defined(__arm__)
enum { READ = 3, WRITE = 4, EXIT = 1 };
#else
enum { READ = 63, WRITE = 64, EXIT = 93 };
#endif

static long system_call(long number, long first, const void *second, long third)
{
#if defined(__x86_64__)
    __asm__ volatile("syscall" : "+a"(number) : "D"(first), "S"(second), "d"(third) : "rcx", "r11", "memory");
    return number;
#elif defined(__aarch64__)
    register long x8 __asm__("x8") = number, x0 __asm__("x0") = first, x2 __asm__("x2") = third;
    register const void *x1 __asm__("x1") = second;
    __asm__ volatile("svc 0" : "+r"(x0) : "r"(x1), "r"(x2), "r"(x8) : "memory");
    return x0;
#elif defined(__arm__)
    /* r7 holds the number, and may be the frame pointer. */
    register long r0 __asm__("r0") = first, r2 __asm__("r2") = third, r3 __asm__("r3") = number;
    register const void *r1 __asm__("r1") = second;
    __asm__ volatile("push {r7}\n mov r7, r3\n svc 0\n pop {r7}" : "+r"(r0) : "r"(r1), "r"(r2), "r"(r3) : "memory");
    return r0;
#elif defined(__riscv)
    register long a7 __asm__("a7") = number, a0 __asm__("a0") = first, a2 __asm__("a2") = third;
    register const void *a1 __asm__("a1") = second;
    __asm__ volatile("ecall" : "+r"(a0) : "r"(a1), "r"(a2), "r"(a7) : "memory");
    return a0;
#else
#error "no start-up for this processor"
#endif
}

unsigned machine_get(unsigned char *bytes, unsigned length)
{
    unsigned had = 0;
    while (had < length) {
        long more = system_call(READ, 0, bytes + had, (long)(length - had));
        if (more <= 0)
            break;
        had += (unsigned)more;
    }
    return had;
}

void machine_put(const unsigned char *bytes, unsigned length)
{
    while (length > 0) {
        long done = system_call(WRITE, 1, bytes, (long)length);
        if (done <= 0)
            system_call(EXIT, 1, 0, 0);
        bytes += done;
        length -= (unsigned)done;
    }
}

void machine_run(void)
{
    system_call(EXIT, main() ? 1 : 0, 0, 0);
}

/* The stack is aligned at entry; a call on x86-64 takes 8 bytes of it first. */
__attribute__((naked)) void _start(void)
{
#if defined(__x86_64__) || defined(__riscv)
    __asm__("call machine_run");
#else
    __asm__("bl machine_run");
#endif
}
