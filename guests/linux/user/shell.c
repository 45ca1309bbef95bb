// SPDX-License-Identifier: GPL-2.0
/* The first process and a small shell: runs the lines of /etc/commands, then lines from the console. */
#include "nolibc.h"

enum {
	SYS_DELETE_MODULE = 106,
	SYS_SCHED_SETAFFINITY = 122,
	SYS_GETCPU = 168,
	SYS_FINIT_MODULE = 273,
	DIRECTORY = 4,
	WORDS = 16,
	LINE = 256,
};

static void say(const char *text)
{
	write(1, text, strlen(text));
}

static void tell(const char *label, long number)
{
	say(label);
	say(": ");
	say(itoa(number));
	say("\n");
}

static int opened(const char *path)
{
	int file = open(path, O_RDONLY);

	if (file < 0) {
		say(path);
		say(": not found\n");
	}
	return file;
}

static void cat(const char *path)
{
	char bytes[1024];
	int file = opened(path), length;

	if (file < 0)
		return;
	while ((length = read(file, bytes, sizeof(bytes))) > 0)
		write(1, bytes, length);
	close(file);
}

/* Calls `show` with each entry of a folder. */
static void each(const char *folder, void (*show)(const struct linux_dirent64 *))
{
	static char bytes[2048];
	int file = opened(folder), length;

	if (file < 0)
		return;
	while ((length = getdents64(file, (void *)bytes, sizeof(bytes))) > 0)
		for (int at = 0; at < length;) {
			const struct linux_dirent64 *entry = (void *)(bytes + at);

			show(entry);
			at += entry->d_reclen;
		}
	close(file);
}

static void list(const struct linux_dirent64 *entry)
{
	if (entry->d_name[0] == '.')
		return;
	say(entry->d_name);
	say(entry->d_type == DIRECTORY ? "/\n" : "\n");
}

static void process(const struct linux_dirent64 *entry)
{
	char path[64];

	if (entry->d_name[0] < '0' || entry->d_name[0] > '9')
		return;
	strlcpy(path, "/proc/", sizeof(path));
	strlcat(path, entry->d_name, sizeof(path));
	strlcat(path, "/comm", sizeof(path));
	say(entry->d_name);
	say(" ");
	cat(path);
}

/* Moves to a processor, works there, and says whether it still runs there. */
static int works_on(unsigned int processor)
{
	unsigned long mask = 1ul << processor, sum = 0;
	unsigned int now = -1;

	if (my_syscall3(SYS_SCHED_SETAFFINITY, 0, sizeof(mask), &mask))
		return 0;
	for (unsigned long number = 0; number < 1000; number++)
		sum += number * number;
	my_syscall3(SYS_GETCPU, &now, 0, 0);
	return now == processor && sum == 332833500;
}

/* A process on each of four processors. */
static void processors(void)
{
	int status, all = 0;

	for (int number = 0; number < 4; number++)
		if (!fork())
			exit(works_on(number) ? number : 9);
	for (int number = 0; number < 4; number++) {
		wait(&status);
		if (status >> 8 == 9) {
			say("a processor is missing\n");
		} else {
			all++;
			tell("worked on processor", status >> 8);
		}
	}
	tell("processors that worked", all);
}

static void insert(const char *path, const char *parameters)
{
	int file = opened(path);
	long code;

	if (file < 0)
		return;
	code = my_syscall3(SYS_FINIT_MODULE, file, parameters, 0);
	close(file);
	say(path);
	tell(" insmod", code);
}

static void remove_module(const char *name)
{
	long code = my_syscall2(SYS_DELETE_MODULE, name, 0);

	say(name);
	tell(" rmmod", code);
}

static void echo(int count, char **words)
{
	int file = 1;

	if (count > 2 && !strcmp(words[count - 2], ">")) {
		file = open(words[count - 1], O_WRONLY | O_CREAT | O_TRUNC, 0644);
		count -= 2;
	}
	for (int at = 1; at < count; at++) {
		write(file, words[at], strlen(words[at]));
		write(file, at + 1 < count ? " " : "\n", 1);
	}
	if (file != 1)
		close(file);
}

static void run(char **words)
{
	char path[64], *none[] = { 0 };
	int status = 0;
	long child = fork();

	if (!child) {
		strlcpy(path, "/bin/", sizeof(path));
		strlcat(path, words[0], sizeof(path));
		execve(path, words, none);
		say(words[0]);
		say(": no such command\n");
		exit(127);
	}
	waitpid(child, &status, 0);
	if (status & 127)
		tell("killed by signal", status & 127);
}

static void command(int count, char **words)
{
	const char *name = words[0], *first = count > 1 ? words[1] : "";

	if (!strcmp(name, "echo"))
		echo(count, words);
	else if (!strcmp(name, "cat"))
		cat(first);
	else if (!strcmp(name, "ls"))
		each(count > 1 ? first : "/", list);
	else if (!strcmp(name, "ps"))
		each("/proc", process);
	else if (!strcmp(name, "processors"))
		processors();
	else if (!strcmp(name, "insmod"))
		insert(first, count > 2 ? words[2] : "");
	else if (!strcmp(name, "rmmod"))
		remove_module(first);
	else if (!strcmp(name, "sleep"))
		sleep(atoi(first));
	else if (!strcmp(name, "poweroff"))
		reboot(LINUX_REBOOT_CMD_POWER_OFF);
	else if (!strcmp(name, "help"))
		say("echo cat ls ps processors insmod rmmod sleep poweroff; others from /bin\n");
	else
		run(words);
}

/* Splits a line at its spaces and runs it. */
static void line(char *text)
{
	char *words[WORDS];
	int count = 0;

	while (*text && count < WORDS - 1) {
		while (*text == ' ')
			*text++ = 0;
		if (*text)
			words[count++] = text;
		while (*text && *text != ' ')
			text++;
	}
	words[count] = 0;
	if (count)
		command(count, words);
}

/* Runs the lines of a file, each behind the prompt. */
static void lines(int file, const char *prompt)
{
	char text[LINE], byte;
	int length = 0;

	say(prompt);
	while (read(file, &byte, 1) == 1) {
		if (byte == '\n') {
			text[length] = 0;
			length = 0;
			line(text);
			say(prompt);
		} else if (length < LINE - 1) {
			text[length++] = byte;
		}
	}
}

int main(void)
{
	mount("proc", "/proc", "proc", 0, 0);
	mount("sysfs", "/sys", "sysfs", 0, 0);
	say("the shell runs\n");
	lines(open("/etc/commands", O_RDONLY), "");
	lines(0, "# ");
	reboot(LINUX_REBOOT_CMD_POWER_OFF);
	return 0;
}
