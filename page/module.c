/* What the page's module has besides the proved calls, which it exports as they are: memory to lend to them, and the functions that the archive needs.
 * It needs no header of a C library, so that the toolchain's own compiler makes it. */

/* Room for two frames of 1,024 x 1,024 samples, one that stays and one of a call, and for the rest that a call is lent, one behind the other. */
enum { LENT = 6 << 20 };

static unsigned char lent[LENT] __attribute__((aligned(16)));

__attribute__((export_name("lent"))) unsigned char *lent_at(void)
{
    return lent;
}

__attribute__((export_name("lent_bytes"))) unsigned long lent_bytes(void)
{
    return LENT;
}

/* With bulk memory each of these is one instruction. */
void *memcpy(void *to, const void *from, unsigned long count)
{
    return __builtin_memcpy(to, from, count);
}

void *memmove(void *to, const void *from, unsigned long count)
{
    return __builtin_memmove(to, from, count);
}

void *memset(void *to, int byte, unsigned long count)
{
    return __builtin_memset(to, byte, count);
}
