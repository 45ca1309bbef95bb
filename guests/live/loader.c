/* A compiled module comes from the disk, is relocated, loaded, called twice and unloaded. A load that SecVisor refuses
   leaves its pages as plain data.
   The attack `module_byte` is this very image, with a disk on which one byte of the module's text is changed.
   Caught by:  load ... code -4
   Unguarded:  the module answers 105 and 106 in place of 41 and 42. */
#include "loader.h"

const struct export exports[] = { { "put", put }, { "tell", tell }, { 0, 0 } };

int main(void)
{
    struct module m = fetch_module();
    tell("text pages", m.pages);
    long code = module_load(0, m.text, m.text, m.data);
    tell("load", code);
    if (code)
        return 0;
    int (*begin)(void) = (int (*)(void))m.begin;
    tell("answer", begin());
    tell("answer", begin());
    tell("unload", module_unload(0));
    *(u64 *)m.text = 0;
    put("the pages are data again\n");
    return 0;
}
