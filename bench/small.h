/* What the programs in C need of the C library: the kit that compiles them has no headers. */
#ifndef SMALL_H
#define SMALL_H

typedef unsigned char u8;
typedef unsigned short u16;
typedef unsigned int u32;
typedef unsigned long u64;

extern long read(int fd, void *to, u64 bytes);
extern long write(int fd, const void *from, u64 bytes);
extern int open(const char *path, int flags, ...);
extern int close(int fd);
extern int rename(const char *from, const char *to);
extern int unlink(const char *path);
extern _Noreturn void exit(int status);
extern void *realloc(void *from, u64 bytes);
extern int *__errno_location(void);
extern char *strerror(int fault);
extern u64 strlen(const char *text);
extern int strcmp(const char *a, const char *b);
extern long clock(void);
extern int memcmp(const void *a, const void *b, u64 bytes);
extern void *memcpy(void *to, const void *from, u64 bytes);
extern void *memset(void *to, int value, u64 bytes);
extern void *memchr(const void *in, int value, u64 bytes);
extern void qsort(void *list, u64 n, u64 bytes, int (*compare)(const void *, const void *));

/* Output, collected and written in one go. */
static char out_bytes[1 << 23];
static u64 out_used;

static inline void put_char(char c) { out_bytes[out_used++] = c; }

static inline void put_bytes(const char *from, u64 bytes)
{
    memcpy(out_bytes + out_used, from, bytes);
    out_used += bytes;
}

static inline void put_text(const char *text)
{
    while (*text)
        put_char(*text++);
}

static inline void put_number(u64 n)
{
    char digits[20];
    int k = 0;
    do
        digits[k++] = (char)('0' + n % 10);
    while (n /= 10);
    while (k)
        put_char(digits[--k]);
}

/* Writes bytes; answers whether all were written. */
static inline int write_all(int fd, const void *from, u64 bytes)
{
    u64 done = 0;
    while (done < bytes) {
        long n = write(fd, (const char *)from + done, bytes - done);
        if (n <= 0)
            return 0;
        done += (u64)n;
    }
    return 1;
}

static inline int flush_to(int fd)
{
    u64 bytes = out_used;
    out_used = 0;
    return write_all(fd, out_bytes, bytes);
}

static inline void flush_output(void) { flush_to(1); }

#endif
