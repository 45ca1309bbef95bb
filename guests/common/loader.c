/* The layout is the policy's: text sections first, in the file's order; then every other allocated section. */
#include "loader.h"

struct section { u32 name, type; u64 flags, at, offset, size; u32 link, info; u64 align, each; };
struct symbol { u32 name; u8 info, other; unsigned short section; u64 value, size; };
struct rela { u64 offset; u32 kind, symbol; u64 addend; };

#define SECTIONS 32
static u64 base[SECTIONS];
static struct section *sections;
static u32 count;
static struct symbol *symbols;
static const char *names;
static u64 object_at;

static int same(const char *a, const char *b)
{
    while (*a && *a == *b)
        a++, b++;
    return *a == *b;
}

void fetch_object(u64 object, u32 n)
{
    u32 status = disk_read(0, object, n);
    if (status != DISK_DONE)
        tell("disk", status);
}

static u64 lay_out(u64 at, int text)
{
    u64 start = at;
    for (u32 i = 0; i < count; i++) {
        struct section *s = &sections[i];
        if (!(s->flags & 2) || (s->type == 1 && (s->flags & 4) != 0) != text)
            continue;
        u64 align = s->align ? s->align : 1;
        at = (at + align - 1) & -align;
        base[i] = at;
        for (u64 j = 0; j < s->size; j++)
            ((u8 *)at)[j] = s->type == 8 ? 0 : ((u8 *)object_at)[s->offset + j];
        at += s->size;
    }
    u64 pages = (at - start + PAGE - 1) / PAGE;
    for (u64 i = 1; i < pages; i++)
        new_page();
    return pages;
}

static u64 value_of(u32 index)
{
    struct symbol *s = &symbols[index];
    if (s->section)
        return base[s->section] + s->value;
    for (const struct export *e = exports; e->name; e++)
        if (same(e->name, names + s->name))
            return (u64)e->at;
    put("no such name\n");
    shutdown();
    return 0;
}

static void set(u64 at, u32 clear, u32 bits) { *(u32 *)at = (*(u32 *)at & ~clear) | bits; }
static void set_u(u64 at, u64 v) { set(at, 0xFFFFF000, (v + 0x800) & 0xFFFFF000); }
static void set_i(u64 at, u64 v) { set(at, 0xFFF00000, (u32)v << 20); }
static void set_s(u64 at, u64 v) { set(at, 0xFE000F80, (v >> 5 & 127) << 25 | (v & 31) << 7); }
static void set_b(u64 at, u64 v)
{
    set(at, 0xFE000F80, (v >> 12 & 1) << 31 | (v >> 5 & 63) << 25 | (v >> 1 & 15) << 8 | (v >> 11 & 1) << 7);
}
static void set_j(u64 at, u64 v)
{
    set(at, 0xFFFFF000, (v >> 20 & 1) << 31 | (v >> 1 & 1023) << 21 | (v >> 11 & 1) << 20 | (v >> 12 & 255) << 12);
}

/* The value of the AUIPC at `at`, to which a low part belongs. */
static u64 high_part(struct rela *all, u64 n, u64 text, u64 at)
{
    for (u64 i = 0; i < n; i++)
        if (all[i].kind == 23 && text + all[i].offset == at)
            return value_of(all[i].symbol) + all[i].addend - at;
    return 0;
}

static void relocate(struct rela *all, u64 n, u64 text)
{
    for (u64 i = 0; i < n; i++) {
        u64 at = text + all[i].offset;
        u64 s = value_of(all[i].symbol) + all[i].addend;
        switch (all[i].kind) {
        case 2: *(u64 *)at = s; break;
        case 16: set_b(at, s - at); break;
        case 17: set_j(at, s - at); break;
        case 18: case 19: set_u(at, s - at); set_i(at + 4, s - at); break;
        case 23: set_u(at, s - at); break;
        case 24: set_i(at, high_part(all, n, text, s)); break;
        case 25: set_s(at, high_part(all, n, text, s)); break;
        default: tell("kind", all[i].kind);
        }
    }
}

struct module place(u64 object)
{
    struct module m;
    object_at = object;
    sections = (struct section *)(object + *(u64 *)(object + 40));
    count = *(unsigned short *)(object + 60);
    m.text = new_page();
    m.pages = lay_out(m.text, 1);
    m.data = new_page();
    lay_out(m.data, 0);
    for (u32 i = 0; i < count; i++)
        if (sections[i].type == 2) {
            symbols = (struct symbol *)(object + sections[i].offset);
            names = (const char *)(object + sections[sections[i].link].offset);
            for (u64 j = 1; j < sections[i].size / 24; j++)
                if (same(names + symbols[j].name, "module_begin"))
                    m.begin = value_of(j);
        }
    for (u32 i = 0; i < count; i++)
        if (sections[i].type == 4 && sections[sections[i].info].flags & 2)
            relocate((struct rela *)(object + sections[i].offset), sections[i].size / 24, base[sections[i].info]);
    return m;
}

struct module fetch_module(void)
{
    u64 object = new_page();
    for (int i = 1; i < 3; i++)
        new_page();
    fetch_object(object, DISK_SECTORS);
    return place(object);
}
