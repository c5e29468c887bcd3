// SPDX-License-Identifier: GPL-2.0
/*
 * All that lockdep is told of an acquisition, as lines of the trace. The tracepoint lock:lock_acquire prints no subclass, no
 * key and no place. `witness import ftrace` reads its lines of "la: " and "lr: ".
 */
#include <linux/lockdep.h>
#include <linux/module.h>
#include <linux/string.h>
#include <linux/tracepoint.h>

static struct tracepoint *acquire_point, *release_point;

static notrace void tell_acquire(void *data, struct lockdep_map *map, unsigned int subclass, int try, int read, int check,
				 struct lockdep_map *nest, unsigned long ip)
{
	__trace_printk(0, "la: map=%px sub=%u try=%d rd=%d chk=%d nest=%px key=%px wt=%d ip=%pS name=\"%s\"\n", map, subclass,
		       try, read, check, nest, map->key, map->wait_type_inner, (void *)ip, map->name ?: "?");
}

static notrace void tell_release(void *data, struct lockdep_map *map, unsigned long ip)
{
	__trace_printk(0, "lr: map=%px ip=%pS\n", map, (void *)ip);
}

static void look(struct tracepoint *point, void *data)
{
	if (!strcmp(point->name, "lock_acquire"))
		acquire_point = point;
	if (!strcmp(point->name, "lock_release"))
		release_point = point;
}

static int __init locktap_init(void)
{
	int error;

	for_each_kernel_tracepoint(look, NULL);
	if (!acquire_point || !release_point)
		return -ENOENT;
	/* Makes the buffers of trace_printk(). */
	trace_printk("locktap\n");
	error = tracepoint_probe_register(release_point, tell_release, NULL);
	if (error)
		return error;
	error = tracepoint_probe_register(acquire_point, tell_acquire, NULL);
	if (error) {
		tracepoint_probe_unregister(release_point, tell_release, NULL);
		tracepoint_synchronize_unregister();
	}
	return error;
}

static void __exit locktap_exit(void)
{
	tracepoint_probe_unregister(acquire_point, tell_acquire, NULL);
	tracepoint_probe_unregister(release_point, tell_release, NULL);
	tracepoint_synchronize_unregister();
}

module_init(locktap_init);
module_exit(locktap_exit);
MODULE_DESCRIPTION("Lock events as lines of the trace");
MODULE_LICENSE("GPL");
