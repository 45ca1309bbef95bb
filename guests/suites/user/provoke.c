// SPDX-License-Identifier: GPL-2.0
/* provoke TRIGGER: has the kernel's dump test do one thing that a sound kernel doesn't survive unharmed. The kernel kills this
   process where it notices; else it goes on, and says so. */
#include "nolibc.h"

int main(int count, char **words)
{
	static const char path[] = "/sys/kernel/debug/provoke-crash/DIRECT";
	int file = open(path, O_WRONLY);

	if (count != 2 || file < 0) {
		write(1, "provoke: no such test\n", 22);
		return 1;
	}
	if (write(file, words[1], strlen(words[1])) < 0)
		write(1, "provoke: no such trigger\n", 25);
	else
		write(1, "provoke: the process goes on\n", 29);
	return 0;
}
