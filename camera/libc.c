/*
 * What a program's start, and its account of a failed read or write, ask of the C library of x86-64 Linux, for a host that has none. Reads and
 * writes are the host's own.
 */
typedef __INT32_TYPE__ int32;
typedef __INT64_TYPE__ int64;
typedef __UINT32_TYPE__ uint32;
typedef __UINT64_TYPE__ uint64;

int64 __sysv_signal(int32 number, int64 handler);
const void *__x86_get_cpuid_feature_leaf(uint32 leaf);
int64 __write(int32 fd, const void *from, uint64 len);
int32 rattle_errno(void);
int32 __xpg_strerror_r(int32 error, char *to, uint64 len);

/* No signal comes. */
int64 __sysv_signal(int32 number, int64 handler)
{
    (void)number;
    (void)handler;
    return 0;
}

/* Whether the processor has what code for x86-64 may hold. This code is for another, so there is nothing that it lacks. */
const void *__x86_get_cpuid_feature_leaf(uint32 leaf)
{
    static const uint32 all[8] = {~0u, ~0u, ~0u, ~0u, ~0u, ~0u, ~0u, ~0u};
    (void)leaf;
    return all;
}

/* Called where something is lacking, to say so. */
int64 __write(int32 fd, const void *from, uint64 len)
{
    (void)fd;
    (void)from;
    return (int64)len;
}

/* Why a read or a write failed: EIO of Linux, without words. */
int32 rattle_errno(void)
{
    return 5;
}

int32 __xpg_strerror_r(int32 error, char *to, uint64 len)
{
    (void)error;
    if (len > 0)
        *to = 0;
    return 0;
}
