/* The console without its main: a line in, text out. The page calls these functions. */
#include "desk.h"

#include <stdlib.h>

#define FOR_PAGE(name) __attribute__((export_name(#name)))

static desk d;
static char *memory;

/* A new console, with no card. */
FOR_PAGE(page_start) int page_start(void)
{
    desk_free(&d);
    d = (desk){0};
    d.typed = 1;
    return card_make(&d.card, 0, 0);
}

/* From now on lines come from a script, where one that is not understood is a failure; or somebody types them. */
FOR_PAGE(page_script) void page_script(int is_script)
{
    d.number = 0;
    d.typed = !is_script;
}

/* Whether an `expect` failed, or a line of a script was not understood. */
FOR_PAGE(page_failed) int page_failed(void)
{
    return d.failed;
}

/* Room for a line, until the next is asked for. */
FOR_PAGE(page_memory) char *page_memory(size_t length)
{
    free(memory);
    memory = malloc(length);
    return memory;
}

FOR_PAGE(page_line) void page_line(const char *line)
{
    d.number++;
    script_line(&d, line);
}

/* A line that the page gives by itself, to draw: it is no part of the history. */
FOR_PAGE(page_ask) void page_ask(const char *line)
{
    command_run(&d, line);
    fflush(stdout);
}
