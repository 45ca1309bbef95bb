/* A module is loaded, called and unloaded; then a pointer that was left behind is called.
   Caught by:  demote ... pc and gpa of the module's text; it runs on as user code, up to its first call of the
               kernel, which traps (cause 1)
   Unguarded:  the code of a module that is gone, or of whoever got its page, runs in kernel mode. */
#include "loader.h"

const struct export exports[] = { { "put", put }, { "tell", tell }, { 0, 0 } };

int main(void)
{
    struct module m = fetch_module();
    int (*begin)(void) = (int (*)(void))m.begin;
    tell("load", module_load(0, m.text, m.text, m.data));
    tell("answer", begin());
    tell("unload", module_unload(0));
    tell("answer", begin());
    return 0;
}
