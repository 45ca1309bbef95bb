// SPDX-License-Identifier: GPL-2.0
/* mount SOURCE FOLDER KIND: mounts a file system on a folder, which is made where it isn't there.
   umount FOLDER: writes back what is left of it, and unmounts it; the root stays, and can only be read then.
   Both say what the kernel answered. */
#include "nolibc.h"

static void say(const char *text)
{
	write(1, text, strlen(text));
}

int main(int count, char **words)
{
	int code;

	if (count == 4) {
		mkdir(words[2], 0755);
		code = sys_mount(words[1], words[2], words[3], 0, 0);
	} else if (count == 2) {
		code = strcmp(words[1], "/") ? sys_umount2(words[1], 0)
					     : sys_mount("", "/", "", MS_REMOUNT | MS_RDONLY, 0);
	} else {
		say("mount SOURCE FOLDER KIND, or umount FOLDER\n");
		return 1;
	}
	say(words[0]);
	say(" ");
	say(words[count == 4 ? 2 : 1]);
	say(": ");
	say(itoa(code));
	say("\n");
	return code != 0;
}
