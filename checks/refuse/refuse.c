/* A library that is preloaded before a program, and refuses it memory: malloc and realloc, by which
 * a built program takes all its memory, return null where they are told to.
 *
 * REFUSE_FROM=N  the Nth allocation is refused, the first being 1, and each after it
 * EACH_FROM=N    the Nth allocation and each after it up to EACH_TO=M is refused in a child, a copy
 *                of the program as it stands at that allocation; the program itself gets the memory
 *                once the child has ended
 * EACH_ONWARD=1  a second child for each of these, to which all after it are refused too
 * EACH_IN=FOLDER where the file `ended` gets a line for each child, 'N alone' or 'N onward' with its
 *                exit status, or the number of a signal with a minus, and the lengths of what it
 *                wrote from then on, on its standard output and error, and behind the line what it
 *                wrote
 * COUNT_TO=FILE  at the program's exit the file gets the number of allocations that were asked for
 *
 * An allocation is a call of malloc or of realloc. It stands on the names by which the GNU C library
 * has its own calls, so that none is looked up. */
#include <errno.h>
#include <fcntl.h>
#include <stddef.h>
#include <stdio.h>
#include <stdlib.h>
#include <sys/wait.h>
#include <unistd.h>

/* How long a child may run. */
enum { SECONDS = 60 };

void *__libc_malloc(size_t size);
void *__libc_realloc(void *block, size_t size);

static unsigned long asked, from, each_from, each_to;
static int is_onward, is_told;
static const char *count_to;
/* The files of what a child writes, and the one where it is gathered. */
static int output, errors, ended;

/* The number in a variable of the environment, or 0, which is that of no allocation. */
static unsigned long number(const char *name) {
    const char *text = getenv(name);
    return text == NULL ? 0 : strtoul(text, NULL, 10);
}

/* Ends the program where a call of the system fails, by a status that none of its own is. */
static void require(int succeeds) {
    if (!succeeds) {
        _exit(125);
    }
}

static void write_all(int file, const char *text, size_t length) {
    require(write(file, text, length) == (ssize_t)length);
}

/* A new file of this name in a folder, that each write adds to. */
static int new_file(const char *folder, const char *name) {
    char path[4096];
    int length = snprintf(path, sizeof path, "%s/%s", folder, name);
    require(length > 0 && (size_t)length < sizeof path);
    int file = open(path, O_RDWR | O_CREAT | O_TRUNC | O_APPEND, 0600);
    require(file >= 0);
    return file;
}

/* Gathers what a file has, and empties it. */
static void gather(int file) {
    char text[4096];
    ssize_t length;
    require(lseek(file, 0, SEEK_SET) == 0);
    while ((length = read(file, text, sizeof text)) > 0) {
        write_all(ended, text, length);
    }
    require(length == 0 && ftruncate(file, 0) == 0);
}

/* Gathers how a child ended, and what it wrote. */
static void tell(const char *how, int status) {
    char line[128];
    long written = lseek(output, 0, SEEK_END), told = lseek(errors, 0, SEEK_END);
    require(written >= 0 && told >= 0);
    int length = snprintf(line, sizeof line, "%lu %s %d %ld %ld\n", asked, how, status, written,
                          told);
    write_all(ended, line, length);
    gather(output);
    gather(errors);
}

/* Makes a child, and says whether this is the child. Where it isn't, the child has ended, and what
 * it read of standard input is there again. */
static int is_child(const char *how) {
    int status;
    off_t read_to = lseek(STDIN_FILENO, 0, SEEK_CUR);
    pid_t child = fork();
    require(child >= 0);
    if (child == 0) {
        alarm(SECONDS);
        require(dup2(output, STDOUT_FILENO) >= 0 && dup2(errors, STDERR_FILENO) >= 0);
        each_to = 0;
        count_to = NULL;
        return 1;
    }
    require(waitpid(child, &status, 0) == child);
    if (read_to >= 0) {
        lseek(STDIN_FILENO, read_to, SEEK_SET);
    }
    tell(how, WIFEXITED(status) ? WEXITSTATUS(status) : -WTERMSIG(status));
    return 0;
}

/* Counts an allocation, and says whether it is refused. */
static int is_refused(void) {
    if (!is_told) {
        return 0;
    }
    asked += 1;
    int is_here = from != 0 && asked >= from;
    if (asked >= each_from && asked <= each_to) {
        if (is_onward && is_child("onward")) {
            from = asked;
            is_here = 1;
        } else if (is_child("alone")) {
            is_here = 1;
        }
    }
    if (is_here) {
        errno = ENOMEM;
    }
    return is_here;
}

void *malloc(size_t size) {
    return is_refused() ? NULL : __libc_malloc(size);
}

void *realloc(void *block, size_t size) {
    return is_refused() ? NULL : __libc_realloc(block, size);
}

/* The allocations of the program's own start, before this is called, are not counted. */
__attribute__((constructor)) static void begin(void) {
    const char *folder = getenv("EACH_IN");
    count_to = getenv("COUNT_TO");
    from = number("REFUSE_FROM");
    if (folder != NULL) {
        each_from = number("EACH_FROM");
        each_to = number("EACH_TO");
        is_onward = number("EACH_ONWARD") != 0;
        output = new_file(folder, "output");
        errors = new_file(folder, "errors");
        ended = new_file(folder, "ended");
    }
    is_told = 1;
}

__attribute__((destructor)) static void report(void) {
    char text[64];
    int length = snprintf(text, sizeof text, "%lu\n", asked);
    int file = count_to == NULL ? -1 : open(count_to, O_WRONLY | O_CREAT | O_TRUNC, 0600);
    if (file < 0) {
        return;
    }
    if (write(file, text, length) != length) {
        unlink(count_to);
    }
    close(file);
}
