/* Makes one call of a function fail, for tests: loaded before the C library. FAULT is PROGRAM:FUNCTION:COUNT:ERRNO, the COUNT-th call of the
   function in the program. Where it came to that, the file FAULT_SEEN is made. */
#define _GNU_SOURCE
#include <dlfcn.h>
#include <errno.h>
#include <fcntl.h>
#include <stdio.h>
#include <stdlib.h>
#include <string.h>
#include <sys/stat.h>
#include <unistd.h>

static int due(const char *function) {
    static int left = -1, code;
    static char program[64], name[64];
    if (left == -1) {
        const char *fault = getenv("FAULT");
        if (!fault || sscanf(fault, "%63[^:]:%63[^:]:%d:%d", program, name, &left, &code) != 4) left = 0;
        if (strcmp(program, program_invocation_short_name)) left = 0;
    }
    if (!left || strcmp(name, function) || --left) return 0;
    close(open(getenv("FAULT_SEEN"), O_WRONLY | O_CREAT, 0600));
    errno = code;
    return 1;
}

#define CALL(type, name, parameters, arguments) \
    type name parameters { \
        static type(*own) parameters; \
        if (!own) *(void **)&own = dlsym(RTLD_NEXT, #name); \
        return due(#name) ? (type)-1 : own arguments; \
    }

CALL(ssize_t, read, (int file, void *data, size_t size), (file, data, size))
CALL(ssize_t, write, (int file, const void *data, size_t size), (file, data, size))
CALL(int, fsync, (int file), (file))
CALL(int, fchmod, (int file, mode_t mode), (file, mode))
CALL(int, fchown, (int file, uid_t owner, gid_t group), (file, owner, group))
CALL(int, renameat, (int from, const char *old, int to, const char *new), (from, old, to, new))
