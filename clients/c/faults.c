/* The program that PROGRAM names when this is compiled, on a system that misbehaves, as a real one seldom does when it is tried: every other
 * call is interrupted, none moves more than a few bytes, and the call that the environment variable FAULT names fails, a read not before the
 * second. */
#define _POSIX_C_SOURCE 200809L

#include <errno.h>
#include <stdlib.h>
#include <string.h>
#include <unistd.h>

enum { FEW = 1000 };

static int calls;

static int is_fault(const char *call)
{
    const char *fault = getenv("FAULT");

    return fault != NULL && strcmp(fault, call) == 0;
}

static int fail(int error)
{
    errno = error;
    return -1;
}

static ssize_t faulty_read(int descriptor, void *bytes, size_t length)
{
    if (calls++ % 2 == 0)
        return fail(EINTR);
    if (is_fault("read") && calls > 2)
        return fail(EIO);
    return read(descriptor, bytes, length < FEW ? length : FEW);
}

/* The fault of a write is to take nothing. */
static ssize_t faulty_write(int descriptor, const void *bytes, size_t length)
{
    if (calls++ % 2 == 0)
        return fail(EINTR);
    return is_fault("write") ? 0 : write(descriptor, bytes, length < FEW ? length : FEW);
}

static int faulty_close(int descriptor)
{
    return is_fault("close") ? fail(ENOSPC) : close(descriptor);
}

#define read(descriptor, bytes, length) faulty_read(descriptor, bytes, length)
#define write(descriptor, bytes, length) faulty_write(descriptor, bytes, length)
#define close(descriptor) faulty_close(descriptor)

#include PROGRAM
