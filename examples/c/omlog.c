/* The functions of string.h, and `omlog_print`. What a program does not call is not linked. */
#include "omlog.h"
#include "string.h"

#include <stdarg.h>

void *memcpy(void *restrict to, const void *restrict from, size_t n)
{
    char *t = to;
    const char *f = from;
    while (n--)
        *t++ = *f++;
    return to;
}

void *memmove(void *to, const void *from, size_t n)
{
    char *t = to;
    const char *f = from;
    if (t <= f)
        while (n--)
            *t++ = *f++;
    else
        while (n--)
            t[n] = f[n];
    return to;
}

void *memset(void *to, int byte, size_t n)
{
    char *t = to;
    while (n--)
        *t++ = (char)byte;
    return to;
}

int memcmp(const void *a, const void *b, size_t n)
{
    const unsigned char *x = a, *y = b;
    for (; n--; x++, y++)
        if (*x != *y)
            return *x - *y;
    return 0;
}

void *memchr(const void *bytes, int byte, size_t n)
{
    for (const unsigned char *b = bytes; n--; b++)
        if (*b == (unsigned char)byte)
            return (void *)b;
    return NULL;
}

size_t strlen(const char *text)
{
    size_t n = 0;
    while (text[n])
        n++;
    return n;
}

int strcmp(const char *a, const char *b)
{
    while (*a && *a == *b)
        a++, b++;
    return (unsigned char)*a - (unsigned char)*b;
}

int strncmp(const char *a, const char *b, size_t n)
{
    for (; n--; a++, b++)
        if (*a != *b || !*a)
            return (unsigned char)*a - (unsigned char)*b;
    return 0;
}

char *strcpy(char *restrict to, const char *restrict from)
{
    char *t = to;
    while ((*t++ = *from++))
        ;
    return to;
}

char *strncpy(char *restrict to, const char *restrict from, size_t n)
{
    size_t i = 0;
    for (; i < n && from[i]; i++)
        to[i] = from[i];
    for (; i < n; i++)
        to[i] = 0;
    return to;
}

char *strchr(const char *text, int byte)
{
    for (;; text++) {
        if (*text == (char)byte)
            return (char *)text;
        if (!*text)
            return NULL;
    }
}

/* A text as it is made, up to what an output takes. */
struct text {
    char bytes[OMLOG_MAX_BODY];
    unsigned length;
};

static void add(struct text *text, char byte)
{
    if (text->length < OMLOG_MAX_BODY)
        text->bytes[text->length++] = byte;
}

static void add_text(struct text *text, const char *from)
{
    while (*from)
        add(text, *from++);
}

/* The digits of a number, without an instruction that divides. */
static void add_decimal(struct text *text, unsigned number)
{
    static const unsigned POWERS[] = { 1000000000u, 100000000u, 10000000u, 1000000u, 100000u, 10000u, 1000u, 100u, 10u, 1u };
    unsigned begun = 0;
    for (unsigned i = 0; i < sizeof POWERS / sizeof POWERS[0]; i++) {
        char digit = '0';
        for (; number >= POWERS[i]; number -= POWERS[i])
            digit++;
        begun |= digit != '0' || POWERS[i] == 1;
        if (begun)
            add(text, digit);
    }
}

static void add_hexadecimal(struct text *text, unsigned number)
{
    unsigned shift = 28;
    while (shift && !(number >> shift))
        shift -= 4;
    for (;; shift -= 4) {
        add(text, "0123456789abcdef"[(number >> shift) & 15]);
        if (!shift)
            return;
    }
}

unsigned omlog_print(const char *format, ...)
{
    struct text text;
    text.length = 0;
    va_list values;
    va_start(values, format);
    for (; *format; format++) {
        char kind = format[1];
        if (*format != '%' || !kind) {
            add(&text, *format);
            continue;
        }
        format++;
        if (kind == 'd') {
            int number = va_arg(values, int);
            if (number < 0)
                add(&text, '-');
            add_decimal(&text, number < 0 ? 0u - (unsigned)number : (unsigned)number);
        } else if (kind == 'u') {
            add_decimal(&text, va_arg(values, unsigned));
        } else if (kind == 'x') {
            add_hexadecimal(&text, va_arg(values, unsigned));
        } else if (kind == 'c') {
            add(&text, (char)va_arg(values, int));
        } else if (kind == 's') {
            add_text(&text, va_arg(values, const char *));
        } else {
            add(&text, '%');
            if (kind != '%')
                add(&text, kind);
        }
    }
    va_end(values);
    return omlog_output(text.bytes, text.length);
}
