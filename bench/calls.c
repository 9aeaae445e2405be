/* Writes a collection, as bench/collection.c makes it, as lines for treecalls: lent memory, an opening, batches of at most 1,048,576
 * bytes, then the matrix and both consensus trees. */
#include "small.h"

enum { INPUT = 4194304, PIECE = 1048576 };

static u8 input[INPUT];

static void put_hex(const u8 *from, const u8 *end)
{
    for (; from < end; from++) {
        put_char("0123456789abcdef"[*from >> 4]);
        put_char("0123456789abcdef"[*from & 15]);
    }
}

/* Constants that jump about, one for each of n taxa: the same as crate timing's. */
static void put_constants(u64 x, u32 n)
{
    for (u32 i = 0; i < n; i++) {
        x = x % 2147483647 * 48271 % 2147483647;
        put_char(i ? ',' : ' ');
        put_number(x % 8192);
    }
}

int main(void)
{
    u64 used = 0;
    long n;
    while (used < INPUT && 0 < (n = read(0, input + used, INPUT - used)))
        used += (u64)n;
    const u8 *end = input + used, *line = memchr(input, '\n', used);
    if (!line)
        return 1;
    u32 taxa = 1;
    for (const u8 *p = input; p < line; p++)
        taxa += *p == ' ';
    put_text("lend 254472\nopen ");
    put_number(taxa);
    put_text(" 1 1024 4096 8192 ");
    put_hex(input, line);
    put_constants(1, taxa);
    put_constants(2, taxa);
    for (const u8 *p = line + 1; p < end; p += PIECE) {
        put_text("\nbatch 0 ");
        put_hex(p, end - p < PIECE ? end : p + PIECE);
    }
    put_text("\nmatrix\nstrict\nmajority\n");
    flush_output();
    return 0;
}
