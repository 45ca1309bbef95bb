// SPDX-License-Identifier: GPL-2.0
/* A module with a parameter, constants and zeros, memory of the kernel's, a file in /proc and work on a kernel thread. */
#include <linux/module.h>
#include <linux/proc_fs.h>
#include <linux/seq_file.h>
#include <linux/slab.h>
#include <linux/workqueue.h>

static int start = 41;
module_param(start, int, 0444);
static unsigned long count;
static int *kept;
static const char *const words[] = { "one", "two", "three" };

static void later(struct work_struct *work)
{
	count += 1000;
	pr_info("hello: work of a module on a kernel thread\n");
}
static DECLARE_WORK(work, later);

static int show(struct seq_file *file, void *unused)
{
	count++;
	seq_printf(file, "hello: word %s, count %lu, kept %d\n", words[count % 3], count, *kept);
	return 0;
}

static int __init hello_init(void)
{
	kept = kmalloc(sizeof(*kept), GFP_KERNEL);
	if (!kept)
		return -ENOMEM;
	*kept = start + 1;
	if (!proc_create_single("hello", 0, NULL, show)) {
		kfree(kept);
		return -ENOMEM;
	}
	schedule_work(&work);
	pr_info("hello: loaded, start %d\n", start);
	return 0;
}

static void __exit hello_exit(void)
{
	flush_work(&work);
	remove_proc_entry("hello", NULL);
	kfree(kept);
	pr_info("hello: unloaded\n");
}

module_init(hello_init);
module_exit(hello_exit);
MODULE_LICENSE("GPL");
