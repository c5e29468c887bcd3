#!/usr/sbin/dtrace -qs
/*
 * Not tried here.
 * Locks of a running FreeBSD by its provider lockstat, as the lines of `witness import plain`:
 *   lockstat.d | witness import plain | witness replay
 * A lock's name is its type, and a name with a blank makes its line a bad one. The probes fire after an acquisition and
 * don't tell a try from it: so an order against a try is reported, too.
 */
lockstat:::adaptive-acquire
{
	printf("acq %p %p mtx:%s x ", curthread, arg0, stringof(args[0]->lock_object.lo_name));
	printf("%a\n", caller);
}

lockstat:::spin-acquire
{
	printf("acq %p %p spin:%s x ", curthread, arg0, stringof(args[0]->lock_object.lo_name));
	printf("%a\n", caller);
}

lockstat:::sx-acquire
{
	printf("acq %p %p sx:%s ", curthread, arg0, stringof(args[0]->lock_object.lo_name));
	printf("%s %a\n", arg1 ? "s" : "x", caller);
}

lockstat:::rw-acquire
{
	printf("acq %p %p rw:%s ", curthread, arg0, stringof(args[0]->lock_object.lo_name));
	printf("%s %a\n", arg1 ? "r" : "x", caller);
}

lockstat:::adaptive-release,
lockstat:::spin-release,
lockstat:::sx-release,
lockstat:::rw-release
{
	printf("rel %p %p\n", curthread, arg0);
}
