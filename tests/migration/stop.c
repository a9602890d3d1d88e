/* Kills a program at one of its calls on files. tests/migration.py builds it as a library that is loaded before all others
 * (LD_PRELOAD).
 *
 * It stands in the place of pwrite, fsync, fdatasync and ftruncate. Their calls are counted together, from the moment that the
 * library is loaded: each of them has one number, and a pwrite one more. At the number STOPPED_CALL the process is killed before it
 * makes the call, or at the second number of a pwrite when half of its bytes are written. As a process ends that wasn't killed, it
 * writes how many numbers there were to the file descriptor STOPPED_NOTE, with a line end. Both numbers come from the environment;
 * where the first is missing, or 0, nothing is stopped.
 */
#define _GNU_SOURCE
#include <signal.h>
#include <stdio.h>
#include <stdlib.h>
#include <sys/syscall.h>
#include <unistd.h>

static unsigned long stopped_call;
static int note;
static unsigned long calls;

static unsigned long number_of(const char *name)
{
    const char *text = getenv(name);
    return text ? strtoul(text, NULL, 10) : 0;
}

__attribute__((constructor)) static void begin(void)
{
    note = (int)number_of("STOPPED_NOTE");
    stopped_call = number_of("STOPPED_CALL");
}

__attribute__((destructor)) static void end(void)
{
    if (note != 0)
        dprintf(note, "%lu\n", calls);
}

/* Counts a number; whether it is the one at which the process stops. */
static int is_stopped(void)
{
    calls += 1;
    return calls == stopped_call;
}

static void stop(void)
{
    kill(getpid(), SIGKILL);
}

ssize_t pwrite64(int file, const void *bytes, size_t count, off64_t at)
{
    if (is_stopped())
        stop();
    if (is_stopped()) {
        syscall(SYS_pwrite64, file, bytes, count / 2, at);
        stop();
    }
    return syscall(SYS_pwrite64, file, bytes, count, at);
}

ssize_t pwrite(int file, const void *bytes, size_t count, off_t at)
{
    return pwrite64(file, bytes, count, at);
}

int fsync(int file)
{
    if (is_stopped())
        stop();
    return (int)syscall(SYS_fsync, file);
}

int fdatasync(int file)
{
    if (is_stopped())
        stop();
    return (int)syscall(SYS_fdatasync, file);
}

int ftruncate64(int file, off64_t length)
{
    if (is_stopped())
        stop();
    return (int)syscall(SYS_ftruncate, file, length);
}

int ftruncate(int file, off_t length)
{
    return ftruncate64(file, length);
}
