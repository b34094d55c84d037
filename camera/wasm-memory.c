/* The C library's memory calls that the module needs, for WebAssembly, which has no C library. */
typedef __SIZE_TYPE__ size;

void *memcpy(void *to, const void *from, size n);
void *memmove(void *to, const void *from, size n);
void *memset(void *to, int c, size n);

void *memcpy(void *to, const void *from, size n)
{
    char *t = to;
    const char *f = from;
    while (n--)
        *t++ = *f++;
    return to;
}

void *memmove(void *to, const void *from, size n)
{
    char *t = to;
    const char *f = from;
    if (t <= f)
        return memcpy(to, from, n);
    while (n--)
        t[n] = f[n];
    return to;
}

void *memset(void *to, int c, size n)
{
    char *t = to;
    while (n--)
        *t++ = (char)c;
    return to;
}
