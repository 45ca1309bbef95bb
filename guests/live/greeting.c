/* The smallest kernel: a greeting by calls, one by the console device, and what it is told about SecVisor. */
#include "kernel.h"

int main(void)
{
    put("hello from the kernel\n");
    for (const char *c = "hello from the device\n"; *c; c++)
        *CONSOLE = *c;
    put("SecVisor's calls are here: ");
    put_number(call(0x10, 3, SECVISOR, 0, 0, 0).value);
    put("\n");
    return 0;
}
