/* The arithmetic that a compiler calls where the machine has no instruction for it: products and quotients of 32 bits without --m, and
 * numbers of 64 bits. gcc brings it as libgcc; a clang is given this. Of it is linked what a program calls.
 *
 * A quotient by zero is all ones, and its remainder the dividend, as of the instructions of RV32M. */
typedef unsigned u32;
typedef unsigned long long u64;

/* A number of 64 bits by its halves: shifts by 32 and more are calls themselves. */
union wide {
    u64 whole;
    struct {
        u32 low, high;
    } half;
};

u32 __mulsi3(u32 a, u32 b)
{
    u32 product = 0;
    for (; b; b >>= 1, a <<= 1)
        if (b & 1)
            product += a;
    return product;
}

/* The quotient, and what remains. */
static u32 divided(u32 a, u32 b, u32 *rest)
{
    u32 quotient = 0, left = 0;
    for (unsigned bit = 32; bit--;) {
        u32 over = left >> 31;
        left = left << 1 | (a >> bit & 1);
        if (over || left >= b) {
            left -= b;
            quotient |= 1u << bit;
        }
    }
    *rest = left;
    return quotient;
}

u32 __udivsi3(u32 a, u32 b)
{
    u32 rest;
    return divided(a, b, &rest);
}

u32 __umodsi3(u32 a, u32 b)
{
    u32 rest;
    divided(a, b, &rest);
    return rest;
}

int __divsi3(int a, int b)
{
    u32 rest, quotient = divided(a < 0 ? 0u - (u32)a : (u32)a, b < 0 ? 0u - (u32)b : (u32)b, &rest);
    return (int)((a < 0) != (b < 0) && b ? 0u - quotient : quotient);
}

int __modsi3(int a, int b)
{
    u32 rest;
    divided(a < 0 ? 0u - (u32)a : (u32)a, b < 0 ? 0u - (u32)b : (u32)b, &rest);
    return (int)(a < 0 ? 0u - rest : rest);
}

u64 __ashldi3(u64 a, int by)
{
    union wide w = { a };
    if (by & 32) {
        w.half.high = w.half.low << (by & 31);
        w.half.low = 0;
    } else if (by) {
        w.half.high = w.half.high << by | w.half.low >> (32 - by);
        w.half.low <<= by;
    }
    return w.whole;
}

u64 __lshrdi3(u64 a, int by)
{
    union wide w = { a };
    if (by & 32) {
        w.half.low = w.half.high >> (by & 31);
        w.half.high = 0;
    } else if (by) {
        w.half.low = w.half.low >> by | w.half.high << (32 - by);
        w.half.high >>= by;
    }
    return w.whole;
}

u64 __ashrdi3(u64 a, int by)
{
    union wide w = { a };
    u32 sign = w.half.high >> 31 ? ~0u : 0;
    if (by & 32) {
        by &= 31;
        w.half.low = w.half.high >> by | (by ? sign << (32 - by) : 0);
        w.half.high = sign;
    } else if (by) {
        w.half.low = w.half.low >> by | w.half.high << (32 - by);
        w.half.high = w.half.high >> by | sign << (32 - by);
    }
    return w.whole;
}

u64 __muldi3(u64 a, u64 b)
{
    u64 product = 0;
    for (; b; b >>= 1, a <<= 1)
        if (b & 1)
            product += a;
    return product;
}

static u64 divided_wide(u64 a, u64 b, u64 *rest)
{
    union wide dividend = { a }, quotient = { 0 };
    u64 left = 0;
    for (unsigned bit = 64; bit--;) {
        u32 over = (u32)(left >> 63);
        u32 next = bit & 32 ? dividend.half.high >> (bit & 31) : dividend.half.low >> bit;
        left = left << 1 | (next & 1);
        if (over || left >= b) {
            left -= b;
            if (bit & 32)
                quotient.half.high |= 1u << (bit & 31);
            else
                quotient.half.low |= 1u << bit;
        }
    }
    *rest = left;
    return quotient.whole;
}

u64 __udivdi3(u64 a, u64 b)
{
    u64 rest;
    return divided_wide(a, b, &rest);
}

u64 __umoddi3(u64 a, u64 b)
{
    u64 rest;
    divided_wide(a, b, &rest);
    return rest;
}

long long __divdi3(long long a, long long b)
{
    u64 rest, quotient = divided_wide(a < 0 ? 0ull - (u64)a : (u64)a, b < 0 ? 0ull - (u64)b : (u64)b, &rest);
    return (long long)((a < 0) != (b < 0) && b ? 0ull - quotient : quotient);
}

long long __moddi3(long long a, long long b)
{
    u64 rest;
    divided_wide(a < 0 ? 0ull - (u64)a : (u64)a, b < 0 ? 0ull - (u64)b : (u64)b, &rest);
    return (long long)(a < 0 ? 0ull - rest : rest);
}
