/* Writes a collection, as bench/collection.c makes it, as a NEXUS file such as MrBayes writes: a list of keys and names, then a tree a
 * command with keys for names, in quotes or not. Nothing else of a text is changed; `[&U]` stands before it. */
#include "small.h"

enum { INPUT = 4194304, MOST_TAXA = 64 };

static u8 input[INPUT];
static const u8 *names[MOST_TAXA];
static u64 sizes[MOST_TAXA];
static u32 taxa;

/* The names of a line, with a blank between two; answers whether there are at most 64. */
static int read_names(const u8 *from, const u8 *end)
{
    while (from < end) {
        const u8 *to = memchr(from, ' ', (u64)(end - from));
        if (!to)
            to = end;
        if (taxa == MOST_TAXA)
            return 0;
        names[taxa] = from;
        sizes[taxa++] = (u64)(to - from);
        from = to + 1;
    }
    return 1;
}

static void put_list(void)
{
    put_text("#NEXUS\n[ID: 2026111600]\n[Param: tree]\nbegin trees;\n   translate\n");
    for (u32 i = 0; i < taxa; i++) {
        put_text(i < 9 ? "       " : "      ");
        put_number(i + 1);
        put_char('\t');
        put_bytes((const char *)names[i], sizes[i]);
        put_text(i + 1 < taxa ? ",\n" : ";\n");
    }
}

static int is_label_byte(u8 b) { return ' ' < b && b != '(' && b != ')' && b != ',' && b != ':' && b != ';'; }

/* A token of a text: the key of a name, or the token as it is. */
static void put_token(const u8 *from, u64 size)
{
    for (u32 i = 0; i < taxa; i++) {
        if (sizes[i] == size && !memcmp(names[i], from, size)) {
            put_number(i + 1);
            return;
        }
    }
    put_bytes((const char *)from, size);
}

/* A name in quotes, which has none itself: its key. Answers the place behind it. */
static const u8 *put_quoted(const u8 *from)
{
    u8 name[32];
    u64 size = 0;
    for (from++; *from != '\'' && size < 32; from++)
        name[size++] = *from == ' ' ? '_' : *from;
    put_token(name, size);
    return from + 1;
}

/* A text up to and with its semicolon; lengths, which stand behind a colon, are no names. */
static const u8 *put_tree(const u8 *from, const u8 *end)
{
    while (from < end && *from != ';') {
        if (*from == '\'') {
            from = put_quoted(from);
            continue;
        }
        const u8 *to = from;
        while (to < end && is_label_byte(*to))
            to++;
        if (from == to)
            put_char((char)*to++);
        else if (from[-1] == ':')
            put_bytes((const char *)from, (u64)(to - from));
        else
            put_token(from, (u64)(to - from));
        from = to;
    }
    put_text(";\n");
    return from + 1;
}

int main(void)
{
    u64 used = 0;
    long n;
    while (used < INPUT && 0 < (n = read(0, input + used, INPUT - used)))
        used += (u64)n;
    const u8 *end = input + used, *line = memchr(input, '\n', used);
    if (!line || !read_names(input, line))
        return 1;
    put_list();
    u32 trees = 0;
    for (const u8 *p = line + 1; p < end; p++) { /* past the line's end behind each text */
        put_text("   tree gen.");
        put_number(1000 * trees++);
        put_text(" = [&U] ");
        p = put_tree(p, end);
    }
    put_text("end;\n");
    flush_output();
    return 0;
}
