/* Linked with no C library: what the archive wants from outside, all of it taken in, is the two functions that stand
 * here, as include/votrikany.h says. It is linked and not run. */
#include <stddef.h>

void *memcpy(void *to, const void *from, size_t n);
void *memset(void *at, int byte, size_t n);
void _start(void);

void *memcpy(void *to, const void *from, size_t n)
{
    for (size_t i = 0; i < n; i++)
        ((volatile unsigned char *)to)[i] = ((const volatile unsigned char *)from)[i];
    return to;
}

void *memset(void *at, int byte, size_t n)
{
    for (size_t i = 0; i < n; i++)
        ((volatile unsigned char *)at)[i] = (unsigned char)byte;
    return at;
}

void _start(void)
{
    for (;;) {
    }
}
