/* A module: it calls the kernel, reads a table of its own and keeps a count. */
void put(const char *text);
void tell(const char *label, long value);

static const char *const names[] = { "first", "second", "third", "fourth" };
static long visits;

int module_begin(void)
{
    put("in the module, for the ");
    put(names[visits & 3]);
    put(" time\n");
    visits++;
    tell("visits", visits);
    return 40 + visits;
}
