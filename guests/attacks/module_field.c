/* The loader is corrupt: it binds the name `tell` to a function of its own, so one relocated call of the module leads
   there. All other bytes of the text are right, and so is the measure, which is taken with such fields cleared.
   Caught by:  load ... code -4, since each field is compared with the one that the policy gives
   Unguarded:  the module calls what the attacker chose. */
#include "loader.h"

static void chosen(const char *label, long value) { put("the module calls what the attacker chose\n"); }

const struct export exports[] = { { "put", put }, { "tell", chosen }, { 0, 0 } };

int main(void)
{
    struct module m = fetch_module();
    long code = module_load(0, m.text, m.text, m.data);
    tell("load", code);
    if (code == 0)
        ((int (*)(void))m.begin)();
    return 0;
}
