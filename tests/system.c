/* Loaded before a program, this stands between it and the system.

   It refuses one of its allocations: the one that the variable REFUSE numbers, from 1 on. The file that REFUSED names is there
   afterwards where the program came so far.

   It has reads of standard input answer as READS says, and writes to standard output as WRITES says, a word for each call: `N`
   moves at most N bytes, `a` all, and `e` fails; `iN` are N calls that are interrupted. `N*` is no answer of its own: from there
   on each call moves at most N bytes. Behind the last word calls move what they can. To the file that CALLS names, each such
   call adds a line, `r` or `w` with how many bytes it asks for. */
#define _GNU_SOURCE
#include <dlfcn.h>
#include <errno.h>
#include <fcntl.h>
#include <stdint.h>
#include <stdio.h>
#include <stdlib.h>
#include <unistd.h>

struct script {
    const char *variable, *at;
    char letter;
    unsigned long interrupts, most;
};

static ssize_t system_write(int file, const void *bytes, size_t count)
{
    static ssize_t (*next)(int, const void *, size_t);
    if (next == NULL)
        next = (ssize_t (*)(int, const void *, size_t))dlsym(RTLD_NEXT, "write");
    return next(file, bytes, count);
}

static int is_refused(void)
{
    static long count;
    const char *number = getenv("REFUSE");
    if (number == NULL || ++count != atol(number))
        return 0;
    close(open(getenv("REFUSED"), O_CREAT | O_WRONLY, 0600));
    return 1;
}

/* How many of `count` bytes a call may move, or -1 where it fails. */
static ssize_t answer(struct script *script, size_t count)
{
    unsigned long most;
    char *behind, line[24];
    int calls = open(getenv("CALLS"), O_APPEND | O_WRONLY);
    system_write(calls, line, sprintf(line, "%c%zu\n", script->letter, count));
    close(calls);
    if (script->at == NULL) {
        script->at = getenv(script->variable);
        script->most = SIZE_MAX;
    }
    while (script->interrupts == 0) {
        while (*script->at == ' ')
            script->at++;
        most = script->most;
        switch (*script->at) {
        case 'e':
            script->at++;
            errno = EIO;
            return -1;
        case 'i':
            script->interrupts = strtoul(script->at + 1, &behind, 10);
            script->at = behind;
            continue;
        case 'a':
            script->at++;
            /* fall through */
        case 0:
            return most < count ? most : count;
        }
        most = strtoul(script->at, &behind, 10);
        script->at = behind;
        if (*behind != '*')
            return most < count ? most : count;
        script->at++;
        script->most = most;
    }
    script->interrupts--;
    errno = EINTR;
    return -1;
}

ssize_t read(int file, void *bytes, size_t count)
{
    static struct script script = {"READS", NULL, 'r', 0, 0};
    static ssize_t (*next)(int, void *, size_t);
    ssize_t some = count;
    if (next == NULL)
        next = (ssize_t (*)(int, void *, size_t))dlsym(RTLD_NEXT, "read");
    if (file == 0 && getenv("CALLS") != NULL)
        some = answer(&script, count);
    return some < 0 ? some : next(file, bytes, some);
}

ssize_t write(int file, const void *bytes, size_t count)
{
    static struct script script = {"WRITES", NULL, 'w', 0, 0};
    ssize_t some = count;
    if (file == 1 && getenv("CALLS") != NULL)
        some = answer(&script, count);
    return some < 0 ? some : system_write(file, bytes, some);
}

void *malloc(size_t size)
{
    static void *(*next)(size_t);
    if (next == NULL)
        next = (void *(*)(size_t))dlsym(RTLD_NEXT, "malloc");
    return is_refused() ? NULL : next(size);
}

void *realloc(void *block, size_t size)
{
    static void *(*next)(void *, size_t);
    if (next == NULL)
        next = (void *(*)(void *, size_t))dlsym(RTLD_NEXT, "realloc");
    return is_refused() ? NULL : next(block, size);
}
