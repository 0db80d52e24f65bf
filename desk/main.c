/* The console. It reads a terminal with line editing (where libedit was there when it was built), a script, or standard input
 * without prompts. Its exit status is 1 if an `expect` of a script failed or a line of it was not understood. What only a
 * terminal has is all here: its width, Ctrl-C, and the stops of a script. */
#include "desk.h"

#include <errno.h>
#include <stdlib.h>
#include <string.h>
#include <unistd.h>
#ifndef __wasi__
#include <signal.h>
#include <sys/ioctl.h>
#include <sys/select.h>
#endif

#ifdef DESK_EDITLINE
#include <editline/readline.h>
#endif

#ifdef __wasi__

/* WebAssembly has no signals and no terminal with a width. */
static int interrupted;

static void take_interrupts(void)
{
}

static size_t look_at_terminal(void)
{
    say_width(0);
    return 0;
}

#else

/* Ctrl-C ends the command at hand, or the line that is being typed. A call of the library is never ended in its middle. */
static volatile sig_atomic_t interrupted;

static void on_interrupt(int number)
{
    (void)number;
    interrupted = 1;
}

static void take_interrupts(void)
{
    struct sigaction action;

    memset(&action, 0, sizeof action);
    action.sa_handler = on_interrupt; /* without SA_RESTART: a file that is waited for is given up */
    sigemptyset(&action.sa_mask);
    sigaction(SIGINT, &action, NULL);
}

/* The width of the terminal, which may have changed since the last line. Gives its lines, 0 where they are not known. */
static size_t look_at_terminal(void)
{
    struct winsize size;
    int known = isatty(STDOUT_FILENO) && ioctl(STDOUT_FILENO, TIOCGWINSZ, &size) == 0;

    say_width(known ? size.ws_col : 0);
    return known ? size.ws_row : 0;
}

#endif

static int was_interrupted(void)
{
    return interrupted;
}

typedef enum { READ_LINE, READ_END, READ_INTERRUPTED } reading;

#ifdef DESK_EDITLINE

static char *typed_line;
static int line_ended;

/* libedit hands over a line that was typed, or NULL at the end of the input. */
static void take_line(char *line)
{
    typed_line = line;
    line_ended = 1;
    rl_callback_handler_remove();
}

/* Waits until something is typed. Ctrl-C is let through only here, so that none is missed between a look and the wait. */
static int wait_for_key(void)
{
    sigset_t blocked, before;
    fd_set input;

    sigemptyset(&blocked);
    sigaddset(&blocked, SIGINT);
    sigprocmask(SIG_BLOCK, &blocked, &before);
    FD_ZERO(&input);
    FD_SET(STDIN_FILENO, &input);
    int ready = interrupted ? -1 : pselect(STDIN_FILENO + 1, &input, NULL, NULL, NULL, &before);
    sigprocmask(SIG_SETMASK, &before, NULL);
    return ready > 0 || !interrupted;
}

static reading read_line(const char *prompt, char **line)
{
    line_ended = 0;
    typed_line = NULL;
    rl_callback_handler_install(prompt, take_line);
    while (!line_ended) {
        if (wait_for_key()) {
            rl_callback_read_char();
        } else {
            rl_callback_handler_remove();
            return READ_INTERRUPTED;
        }
    }
    *line = typed_line;
    if (*line && (*line)[0])
        add_history(*line);
    return *line ? READ_LINE : READ_END;
}

#else

static reading read_line(const char *prompt, char **line)
{
    size_t size = 0;

    *line = NULL;
    fputs(prompt, stdout);
    fflush(stdout);
    ssize_t length = getline(line, &size, stdin);
    if (length < 0) {
        free(*line);
        if (interrupted)
            clearerr(stdin);
        return interrupted ? READ_INTERRUPTED : READ_END;
    }
    (*line)[strcspn(*line, "\n")] = '\0';
    return READ_LINE;
}

#endif

/* What is typed where a script has stopped. Enter goes on: commands that were tried are taken back, so that the script goes on
 * from where it was. 0 if it is to be left. */
static int stop(desk *d)
{
    static const char *const prompt = "-- Enter: go on. A command: try it. leave: end the script> ";
    size_t lowest = d->lowest;
    int typed = d->typed, going = 1, stopped = 1;
    char *line;

    d->lowest = d->taken;
    d->typed = 1;
    while (stopped && !d->over) {
        reading read = read_line(prompt, &line);

        look_at_terminal();
        going = read == READ_LINE && strcmp(line, "leave") != 0;
        stopped = going && line[0];
        if (stopped) {
            script_line(d, line);
            interrupted = 0;
        }
        if (read == READ_LINE)
            free(line);
        else
            say("\n");
    }
    while (going && !d->over && d->taken > d->lowest)
        script_line(d, "undo");
    d->lowest = lowest;
    d->typed = typed;
    return going;
}

/* A script stops where a paragraph of it ends, and before what it printed leaves the screen. */
static int pause_script(desk *d, const char *line)
{
    enum { ROOM = 6 }; /* lines of the next answer, and of the prompt */
    static size_t printed;
    size_t lines = look_at_terminal();

    printed += say_lines();
    if (interrupted) {
        say("(the script is left at line %zu)\n", d->number);
        return 0;
    }
    if (printed == 0 || (line[0] && (lines <= ROOM || printed < lines - ROOM)))
        return 1;
    desk_said said = d->said, offer = d->offer;
    int going = stop(d);
    if (going) {
        d->said = said;
        d->offer = offer;
    }
    say_lines();
    printed = 0;
    return going;
}

static void on_terminal(desk *d)
{
    take_interrupts();
    d->interrupted = was_interrupted;
    if (isatty(STDOUT_FILENO))
        d->pause = pause_script;
    look_at_terminal();
}

static void run_terminal(desk *d)
{
    reading read = READ_LINE;
    char *line;

    say_line("A card at a desk. `help` lists the commands, `fresh 8 4` makes a card of 8 blocks and 4 sheets.");
    while (!d->over && read != READ_END) {
        interrupted = 0;
        d->typed = 1;
        read = read_line(script_prompt(d), &line);
        look_at_terminal();
        say_lines();
        if (read == READ_LINE) {
            script_line(d, line);
            free(line);
        } else {
            say("\n");
        }
    }
}

int main(int count, char **words)
{
    static desk d;
    int read = 1, terminal = isatty(STDIN_FILENO);

    if (count > 2) {
        fputs("usage: desk [SCRIPT]\n", stderr);
        return 2;
    }
    if (!card_make(&d.card, 0, 0)) {
        fputs("desk: there is not enough memory\n", stderr);
        return 2;
    }
    if (terminal)
        on_terminal(&d);
    if (count == 2) {
        read = script_run(&d, words[1]);
        if (!read)
            perror(words[1]);
    } else if (terminal) {
        run_terminal(&d);
    } else {
        script_stream(&d, stdin, 0);
    }
    int failed = d.failed;
    desk_free(&d);
    return !read ? 2 : failed;
}
