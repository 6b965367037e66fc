/* Reads and writes that fail, for LD_PRELOAD. A read of the file FAIL_READ_FILE (a number, 0 if absent) takes at most
   FAIL_READ_STEP bytes and fails once FAIL_READ reads were made; a write to standard output takes at most
   FAIL_WRITE_STEP bytes and fails once FAIL_WRITE bytes are written. With FAIL_ONCE only the first of them fails, and
   the next goes on. With FAIL_END a read after the end of the file fails. What is not given does not fail. */
#define _GNU_SOURCE
#include <errno.h>
#include <stdlib.h>
#include <sys/syscall.h>
#include <unistd.h>

static int source, once, end_fails, ended;
static unsigned long read_step, reads_left, write_step, room;

static unsigned long given(const char *name) {
    const char *number = getenv(name);
    return number ? strtoul(number, NULL, 10) : (unsigned long)-1;
}

__attribute__((constructor)) static void begin(void) {
    source = getenv("FAIL_READ_FILE") ? atoi(getenv("FAIL_READ_FILE")) : STDIN_FILENO;
    once = getenv("FAIL_ONCE") != NULL;
    end_fails = getenv("FAIL_END") != NULL;
    read_step = given("FAIL_READ_STEP");
    reads_left = given("FAIL_READ");
    write_step = given("FAIL_WRITE_STEP");
    room = given("FAIL_WRITE");
}

static size_t least(size_t a, size_t b) { return a < b ? a : b; }

/* Fails, and from now on no more where only one may. */
static ssize_t broken(unsigned long *left) {
    if (once) *left = (unsigned long)-1;
    errno = EIO;
    return -1;
}

ssize_t read(int file, void *bytes, size_t count) {
    ssize_t taken;
    if (file != source) return syscall(SYS_read, file, bytes, count);
    if (reads_left == 0 || (end_fails && ended)) return broken(&reads_left);
    if (reads_left != (unsigned long)-1) reads_left--;
    taken = syscall(SYS_read, file, bytes, least(count, read_step));
    if (taken == 0 && count > 0) ended = 1;
    return taken;
}

ssize_t write(int file, const void *bytes, size_t count) {
    ssize_t written;
    if (file != STDOUT_FILENO) return syscall(SYS_write, file, bytes, count);
    if (room == 0 && count > 0) return broken(&room);
    written = syscall(SYS_write, file, bytes, least(count, least(write_step, room)));
    if (written > 0 && room != (unsigned long)-1) room -= written;
    return written;
}
