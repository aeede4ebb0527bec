/* What replay.c, spans.c and notebook.c share: a recording comes in on standard input, a text goes out on standard output, and there is a
 * status to end with. For a program of one source, to be included before all else. */
#ifndef STREAMS_H
#define STREAMS_H

#define _POSIX_C_SOURCE 200809L

#include "funnelfawn.h"

#include <errno.h>
#include <signal.h>
#include <stdbool.h>
#include <stdio.h>
#include <string.h>
#include <unistd.h>

/* The exit status: 0; 1 where the recording is faulty; 2 where the recording cannot be read, and then nothing is printed, or where not all of
 * the text can be written. A 2 is explained on standard error if that can be written. A program may have others beside them. */
enum { GOOD = 0, FAULTY = 1, BROKEN = 2 };

/* What a program makes of a recording: the text to print, and the status to end with once all of it is printed. */
struct made {
    const uint8_t *text;
    size_t length;
    int status;
};

/* Fills the room from an open file, to its end or as far as there is room; false where a read fails. */
static bool read_input(int file, uint8_t *bytes, size_t room, size_t *length)
{
    *length = 0;
    while (*length < room) {
        ssize_t got = read(file, bytes + *length, room - *length);

        if (got == 0)
            break;
        if (got > 0)
            *length += (size_t)got;
        else if (errno != EINTR)
            return false;
    }
    return true;
}

/* Writes so many bytes, however few are taken at a time; false where no more are taken. To close is part of it, as some file systems tell
 * only then what could not be stored. */
static bool write_output(const uint8_t *bytes, size_t length)
{
    for (size_t done = 0; done < length;) {
        ssize_t taken = write(STDOUT_FILENO, bytes + done, length - done);

        if (taken > 0) {
            done += (size_t)taken;
        } else if (taken == 0) {
            errno = EIO; /* a write that takes nothing says nothing of why */
            return false;
        } else if (errno != EINTR) {
            return false;
        }
    }
    return close(STDOUT_FILENO) == 0;
}

static int broken(const char *program, const char *what, const char *done)
{
    fprintf(stderr, "%s: the %s could not be %s: %s\n", program, what, done, strerror(errno));
    return BROKEN;
}

/* The whole of a program but for what it makes of a recording, and what that is called; its exit status. */
static int run(const char *program, const char *called, struct made (*make)(const uint8_t *recording, size_t length))
{
    /* one byte more than a recording may have: what comes after it changes nothing, so an input without end is left there */
    static uint8_t recording[FUNNELFAWN_MOST_TEXT + 1];
    struct made made;
    size_t length;

    /* a reader that has gone, or a limit on the size of files, is then a write that fails, and ends with 2 like any other */
    signal(SIGPIPE, SIG_IGN);
    signal(SIGXFSZ, SIG_IGN);
    if (!read_input(STDIN_FILENO, recording, sizeof recording, &length))
        return broken(program, "recording", "read");
    made = make(recording, length);
    if (!write_output(made.text, made.length))
        return broken(program, called, "written");
    return made.status;
}

#endif
