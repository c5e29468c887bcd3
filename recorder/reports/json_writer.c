#include "json_writer.h"

#include "escape.h"

static void begin_value(struct objects *objects, const char *name)
{
    if (objects->goes_on)
        fputc(',', objects->to);
    if (objects->depth > 0)
        fprintf(objects->to, "\n%*s", (int)(2 * objects->depth), "");
    if (name) {
        fputc('"', objects->to);
        escape_json(objects->to, name);
        fputs("\": ", objects->to);
    }
    objects->goes_on = true;
}

void object_open(struct objects *objects, const char *name, char bracket)
{
    begin_value(objects, name);
    fputc(bracket, objects->to);
    objects->depth++;
    objects->goes_on = false;
}

void object_close(struct objects *objects, char bracket)
{
    objects->depth--;
    if (objects->goes_on)
        fprintf(objects->to, "\n%*s", (int)(2 * objects->depth), "");
    fputc(bracket == '{' ? '}' : ']', objects->to);
    if (objects->depth == 0)
        fputc('\n', objects->to);
    objects->goes_on = true;
}

void object_text(struct objects *objects, const char *name, const char *text)
{
    begin_value(objects, name);
    if (!text) {
        fputs("null", objects->to);
        return;
    }
    fputc('"', objects->to);
    escape_json(objects->to, text);
    fputc('"', objects->to);
}

void object_number(struct objects *objects, const char *name, long long number)
{
    begin_value(objects, name);
    fprintf(objects->to, "%lld", number);
}

void object_known(struct objects *objects, const char *name, long long number)
{
    if (number)
        object_number(objects, name, number);
    else
        object_text(objects, name, NULL);
}

void object_seconds(struct objects *objects, const char *name, double seconds)
{
    begin_value(objects, name);
    fprintf(objects->to, "%.3f", seconds);
}

void object_truth(struct objects *objects, const char *name, bool truth)
{
    begin_value(objects, name);
    fputs(truth ? "true" : "false", objects->to);
}

void object_maybe(struct objects *objects, const char *name, const char *text)
{
    if (text)
        object_text(objects, name, text);
}
