/* What compiled code asks of the world where there is no C library: the memory functions, on Arm by the names of its run-time ABI too, and for the smallest Arm
 * cores arithmetic that they have no instructions for. Nothing here is proved. Compile it with -ffreestanding -fno-builtin, or its loops become calls of
 * themselves. */

typedef __SIZE_TYPE__ size;
typedef __UINTPTR_TYPE__ place;
typedef unsigned word __attribute__((may_alias));

/* Words where both places are those of words, then bytes. */
void *memcpy(void *to, const void *from, size count)
{
    unsigned char *t = to;
    const unsigned char *f = from;
    if (((place)to | (place)from) % sizeof(word) == 0)
        for (; count >= sizeof(word); count -= sizeof(word), t += sizeof(word), f += sizeof(word))
            *(word *)(void *)t = *(const word *)(const void *)f;
    for (; count > 0; --count)
        *t++ = *f++;
    return to;
}

void *memmove(void *to, const void *from, size count)
{
    unsigned char *t = to;
    const unsigned char *f = from;
    if (t <= f)
        return memcpy(to, from, count);
    for (; count > 0; --count)
        t[count - 1] = f[count - 1];
    return to;
}

void *memset(void *to, int byte, size count)
{
    unsigned char *t = to;
    for (; count > 0; --count)
        *t++ = (unsigned char)byte;
    return to;
}

#ifdef __ARM_EABI__

#ifndef __ARM_PCS_VFP
/* No floating-point number is passed, so callers may pass theirs as they like. */
__asm__(".eabi_attribute 28, 3");
#endif

/* Each in three forms: for any place, for places of words, and of pairs of words. The byte of a memset comes last there. */
#define IN_EACH_FORM(name, takes, does) \
    void __aeabi_##name takes { does; } \
    void __aeabi_##name##4 takes { does; } \
    void __aeabi_##name##8 takes { does; }

IN_EACH_FORM(memmove, (void *to, const void *from, size count), memmove(to, from, count))
IN_EACH_FORM(memcpy, (void *to, const void *from, size count), memcpy(to, from, count))
IN_EACH_FORM(memset, (void *to, size count, int byte), memset(to, byte, count))
IN_EACH_FORM(memclr, (void *to, size count), memset(to, 0, count))

typedef unsigned long long u64;

static u64 pair(unsigned high, unsigned low)
{
    const union { unsigned halves[2]; u64 whole; } both = { { low, high } };
    return both.whole;
}

static unsigned low(u64 whole)
{
    return (unsigned)whole;
}

static unsigned high(u64 whole)
{
    const union { u64 whole; unsigned halves[2]; } both = { whole };
    return both.halves[1];
}

/* The quotient, and above it the remainder. */
u64 __aeabi_uidivmod(unsigned number, unsigned by)
{
    unsigned quotient = 0, rest = 0;
    for (int k = 31; k >= 0; --k) {
        rest = rest << 1 | (number >> k & 1);
        quotient <<= 1;
        if (rest >= by) {
            rest -= by;
            quotient |= 1;
        }
    }
    return pair(rest, quotient);
}

unsigned __aeabi_uidiv(unsigned number, unsigned by)
{
    return low(__aeabi_uidivmod(number, by));
}

u64 __aeabi_llsl(u64 whole, int by)
{
    if (by == 0)
        return whole;
    return by < 32 ? pair(high(whole) << by | low(whole) >> (32 - by), low(whole) << by) : pair(low(whole) << (by - 32), 0);
}

u64 __aeabi_llsr(u64 whole, int by)
{
    if (by == 0)
        return whole;
    return by < 32 ? pair(high(whole) >> by, low(whole) >> by | high(whole) << (32 - by)) : pair(0, high(whole) >> (by - 32));
}

/* By halves of 16 bits: a product of two of them has 32. */
u64 __aeabi_lmul(u64 one, u64 other)
{
    unsigned a = low(one) & 0xffff, b = low(one) >> 16, c = low(other) & 0xffff, d = low(other) >> 16;
    unsigned middle = b * c + (a * c >> 16), across = a * d + (middle & 0xffff);
    return pair(b * d + (middle >> 16) + (across >> 16) + low(one) * high(other) + high(one) * low(other), across << 16 | (a * c & 0xffff));
}

#endif
