#include "print_trace.h"

#include <errno.h>
#include <stdio.h>
#include <string.h>
#include <unistd.h>

#include "resolve.h"
#include "stream_file.h"
#include "usage.h"
#include "version.h"

void print_trace(const struct settings *settings, const char *path)
{
    struct settings plain = *settings;
    struct stream stream;
    plain.frames = 1;
    plain.progress = isatty(STDERR_FILENO);
    if (!stream_open(&stream, path, false))
        refuse_target("%s can't be read: %s", path, strerror(errno));
    version_check(path, stream.bytes, stream.length);
    struct resolver *resolver = resolver_new(&plain);
    bool is_written = resolve_trace(resolver, &stream, stdout);
    if (fflush(stdout) != 0)
        fail("the trace can't be written: %s", strerror(errno));
    if (!is_written)
        refuse_target("%s isn't a whole recorder's file", path);
    resolver_end(resolver);
    stream_close(&stream);
}
