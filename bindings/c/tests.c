/* What checks/bindings_c runs: calls of the library, by which circle.h is tested.
 *
 *   tests judge COMMAND                judges standard input, with lines of several lengths, and
 *                                      with null pointers where there are no bytes
 *   tests with N N N N N N N           the same by circle_verify_with and these parameters
 *   tests stark FILE                   the same by circle_stark_verify and the file's statement
 *   tests from STATE WORD..            what the other words say, by the call that goes on from the
 *                                      challenger in this state, and prints the state it leaves
 *   tests moves MOVE..                 has a new challenger observe:HEX, element:N or sample, and
 *                                      prints what each returns and the state
 *   tests once COMMAND [FILE]          judges it by one call, and allocates nothing else
 *   tests threads (COMMAND FILE)..     judges the files in eight threads at once
 *   tests time COMMAND FILE N          prints how many nanoseconds each of N calls took
 *
 * A file behind `once stark_verify`, and one behind the word `statement` in place of a command of
 * threads, has the statement of circle_stark_verify. `judge`, `with`, `stark` and `once` print the
 * line and end with the status. Where a call breaks what circle.h says, standard error says so and
 * the status is 9.
 */
#define _POSIX_C_SOURCE 200809L

#include "circle.h"

#include <fcntl.h>
#include <pthread.h>
#include <stdio.h>
#include <stdlib.h>
#include <string.h>
#include <time.h>
#include <unistd.h>

#define THREADS 8
#define ROUNDS 6
#define GUARD 16
#define MARK 0xa5
#define MOST ((size_t)16 << 20)

typedef struct bytes {
    uint8_t *at;
    size_t len;
} bytes;

/* A text and what is made of it. */
typedef struct task {
    const char *command;
    bytes text;
    bytes line;
    uint8_t status;
} task;

typedef struct work {
    const task *tasks;
    size_t count;
    size_t first;
    const char *fault;
} work;

/* What circle_verify_with and circle_stark_verify take beside the text that is judged. */
static const circle_params *params;
static bytes statement;

/* The challenger that calls go on from, where there is one, and that they left. */
static const circle_challenger *begun;
static _Thread_local circle_challenger left;
static _Thread_local int is_left;

static void fail(const char *why) {
    fprintf(stderr, "%s\n", why);
    exit(9);
}

static void *room(size_t len) {
    void *at = malloc(len == 0 ? 1 : len);
    if (at == NULL) {
        fail("no memory for the test itself");
    }
    return at;
}

static int same_challenger(const circle_challenger *one, const circle_challenger *other) {
    return memcmp(one->state, other->state, sizeof one->state) == 0;
}

/* A call that goes on from the challenger, with a copy of it: circle.h says when it is left as it
 * was, and each call that isn't leaves the same one. */
static uint8_t call_from(const char *command, bytes text, bytes line, size_t *needed) {
    circle_challenger own = *begun;
    int is_proof = 1;
    uint8_t status = 9;
    if (strcmp(command, "prove") == 0) {
        status = circle_prove_from(text.at, text.len, &own, line.at, line.len, needed);
    } else if (strcmp(command, "stark_prove") == 0) {
        status = circle_stark_prove_from(text.at, text.len, &own, line.at, line.len, needed);
    } else if (strcmp(command, "with") == 0) {
        is_proof = 0;
        status = circle_verify_from(text.at, text.len, params, &own, line.at, line.len, needed);
    } else if (strcmp(command, "stark_verify") == 0) {
        is_proof = 0;
        status = circle_stark_verify_from(statement.at, statement.len, text.at, text.len, &own,
                                          line.at, line.len, needed);
    } else {
        fail("no such command goes on from a challenger");
    }
    if (status != 0 || (is_proof && *needed > line.len)) {
        if (!same_challenger(&own, begun)) {
            fail("a challenger isn't as it was");
        }
        return status;
    }
    if (is_left && !same_challenger(&own, &left)) {
        fail("two calls leave two challengers");
    }
    left = own;
    is_left = 1;
    return status;
}

static uint8_t call(const char *command, bytes text, bytes line, size_t *needed) {
    if (begun != NULL) {
        return call_from(command, text, line, needed);
    }
    if (strcmp(command, "commit") == 0) {
        return circle_commit(text.at, text.len, line.at, line.len, needed);
    }
    if (strcmp(command, "values") == 0) {
        return circle_values(text.at, text.len, line.at, line.len, needed);
    }
    if (strcmp(command, "prove") == 0) {
        return circle_prove(text.at, text.len, line.at, line.len, needed);
    }
    if (strcmp(command, "shape") == 0) {
        return circle_shape(text.at, text.len, line.at, line.len, needed);
    }
    if (strcmp(command, "verify") == 0) {
        return circle_verify(text.at, text.len, line.at, line.len, needed);
    }
    if (strcmp(command, "with") == 0) {
        return circle_verify_with(text.at, text.len, params, line.at, line.len, needed);
    }
    if (strcmp(command, "stark_check") == 0) {
        return circle_stark_check(text.at, text.len, line.at, line.len, needed);
    }
    if (strcmp(command, "stark_prove") == 0) {
        return circle_stark_prove(text.at, text.len, line.at, line.len, needed);
    }
    if (strcmp(command, "stark_verify") == 0) {
        return circle_stark_verify(statement.at, statement.len, text.at, text.len, line.at,
                                   line.len, needed);
    }
    fail("no such command");
    return 9;
}

/* Reads to the end, into a block of just as many bytes, so that a byte more is seen by valgrind. */
static bytes read_all(int file) {
    bytes read_in = {room(MOST), 0};
    size_t most = MOST;
    ssize_t now;
    while ((now = read(file, read_in.at + read_in.len, most - read_in.len)) > 0) {
        read_in.len += (size_t)now;
        if (read_in.len == most) {
            most *= 2;
            read_in.at = realloc(read_in.at, most);
            if (read_in.at == NULL) {
                fail("no memory for the test itself");
            }
        }
    }
    bytes text = {room(read_in.len), read_in.len};
    memcpy(text.at, read_in.at, read_in.len);
    free(read_in.at);
    return text;
}

static bytes read_file(const char *path) {
    int file = open(path, O_RDONLY);
    if (file < 0) {
        fail("a file can't be read");
    }
    bytes text = read_all(file);
    close(file);
    return text;
}

static bytes copied(bytes text) {
    bytes copy = {room(text.len), text.len};
    if (text.len > 0) {
        memcpy(copy.at, text.at, text.len);
    }
    return copy;
}

static int same(bytes one, bytes other) {
    return one.len == other.len && (one.len == 0 || memcmp(one.at, other.at, one.len) == 0);
}

static int all_marked(const uint8_t *at, size_t len) {
    for (size_t place = 0; place < len; place++) {
        if (at[place] != MARK) {
            return 0;
        }
    }
    return 1;
}

/* Judges the text with a line of `len` bytes, behind which a guard stands. What is due are the
 * length and the status of an earlier call, unless there was none. */
static bytes judged(const char *command, bytes text, size_t len, const size_t *due,
                    uint8_t *status) {
    bytes line = {room(len + GUARD), len};
    size_t needed = (size_t)-1;
    memset(line.at, MARK, len + GUARD);
    uint8_t now = call(command, text, line, &needed);
    size_t written = needed <= len ? needed : 0;
    if (now > 2 || (due != NULL && (now != *status || needed != *due))) {
        fail("two calls differ, or a status is above 2");
    }
    if (!all_marked(line.at + written, len + GUARD - written)) {
        fail("bytes were written where none are to be");
    }
    if (written > 0 && line.at[written - 1] != '\n') {
        fail("the line doesn't end with a newline");
    }
    *status = now;
    line.len = needed;
    return line;
}

/* Calls with null pointers where there are no bytes: without a line, and without a statement and
 * without a text where they are empty. What is due are the length and the status of an earlier
 * call. */
static void judge_null(const char *command, bytes text, bytes due, uint8_t status) {
    bytes null = {NULL, 0};
    size_t needed = (size_t)-1;
    if (call(command, text, null, &needed) != status || needed != due.len) {
        fail("a call with a line that is null differs from the others");
    }
    if (statement.at != NULL && statement.len == 0) {
        bytes kept = statement;
        statement = null;
        bytes line = judged(command, text, due.len, &due.len, &status);
        if (memcmp(line.at, due.at, due.len) != 0) {
            fail("a call with a statement that is null differs from the others");
        }
        free(line.at);
        judge_null(command, text, due, status);
        statement = kept;
    }
    if (text.len > 0) {
        return;
    }
    bytes line = judged(command, null, due.len, &due.len, &status);
    if (memcmp(line.at, due.at, due.len) != 0) {
        fail("a call with a text that is null differs from the others");
    }
    needed = (size_t)-1;
    if (call(command, null, null, &needed) != status || needed != due.len) {
        fail("a call with a text and a line that are null differs from the others");
    }
    free(line.at);
}

static int judge(const char *command, bytes text) {
    uint8_t status = 0;
    bytes copy = copied(text), stated = copied(statement);
    bytes none = judged(command, text, 0, NULL, &status);
    size_t needed = none.len;
    bytes less = judged(command, text, needed - 1, &needed, &status);
    bytes more = judged(command, text, needed + 1, &needed, &status);
    bytes line = judged(command, text, needed, &needed, &status);
    if (memcmp(line.at, more.at, needed) != 0 || !same(copy, text) || !same(stated, statement)) {
        fail("two lines differ, or a text was changed");
    }
    judge_null(command, text, line, status);
    fwrite(line.at, 1, needed, stdout);
    free(none.at);
    free(less.at);
    free(more.at);
    free(line.at);
    free(copy.at);
    free(stated.at);
    return status;
}

/* Reads to the end, at most MOST bytes, to a place that is there. */
static bytes read_to(int file, uint8_t *at) {
    bytes text = {at, 0};
    ssize_t now;
    while ((now = read(file, at + text.len, MOST - text.len)) > 0) {
        text.len += (size_t)now;
    }
    return text;
}

/* One call, by memory that is there from the start. */
static int once(const char *command, const char *path) {
    static uint8_t given[MOST], stated[MOST], written[MOST];
    bytes text = read_to(0, given), line = {written, MOST};
    size_t needed = 0, done = 0;
    ssize_t now;
    if (path != NULL) {
        int file = open(path, O_RDONLY);
        statement = read_to(file, stated);
        close(file);
    }
    uint8_t status = call(command, text, line, &needed);
    while (needed <= MOST && done < needed && (now = write(1, written + done, needed - done)) > 0) {
        done += (size_t)now;
    }
    return done == needed ? status : 9;
}

static void *work_on(void *given) {
    work *own = given;
    for (size_t turn = 0; turn < ROUNDS * own->count; turn++) {
        const task *due = &own->tasks[(own->first + turn) % own->count];
        bytes line = {room(due->line.len), due->line.len};
        size_t needed = 0;
        uint8_t status = call(due->command, due->text, line, &needed);
        if (status != due->status || needed != line.len ||
            memcmp(line.at, due->line.at, needed) != 0) {
            own->fault = "a call beside others returns another line";
        }
        free(line.at);
    }
    return NULL;
}

static int threads(int count, char **words) {
    size_t number = 0;
    task *tasks = room((size_t)count / 2 * sizeof *tasks);
    for (int at = 0; at < count; at += 2) {
        if (strcmp(words[at], "statement") == 0) {
            free(statement.at);
            statement = read_file(words[at + 1]);
            continue;
        }
        task *now = &tasks[number++];
        now->command = words[at];
        now->text = read_file(words[at + 1]);
        bytes none = judged(now->command, now->text, 0, NULL, &now->status);
        now->line = judged(now->command, now->text, none.len, &none.len, &now->status);
        free(none.at);
    }
    pthread_t ids[THREADS];
    work works[THREADS];
    for (size_t at = 0; at < THREADS; at++) {
        works[at] = (work){tasks, number, at, NULL};
        if (pthread_create(&ids[at], NULL, work_on, &works[at]) != 0) {
            fail("a thread doesn't start");
        }
    }
    for (size_t at = 0; at < THREADS; at++) {
        pthread_join(ids[at], NULL);
    }
    for (size_t at = 0; at < THREADS; at++) {
        if (works[at].fault != NULL) {
            fail(works[at].fault);
        }
    }
    for (size_t at = 0; at < number; at++) {
        free(tasks[at].text.at);
        free(tasks[at].line.at);
    }
    free(tasks);
    free(statement.at);
    return 0;
}

static int time_calls(const char *command, const char *path, size_t calls) {
    bytes text = read_file(path), line = {room(MOST), MOST};
    struct timespec start, end;
    size_t needed = 0;
    uint8_t status = 0;
    clock_gettime(CLOCK_MONOTONIC, &start);
    for (size_t at = 0; at < calls; at++) {
        status |= call(command, text, line, &needed);
    }
    clock_gettime(CLOCK_MONOTONIC, &end);
    double spent = (double)(end.tv_sec - start.tv_sec) * 1e9;
    spent += (double)(end.tv_nsec - start.tv_nsec);
    printf("%.0f\n", spent / (double)calls);
    free(text.at);
    free(line.at);
    return status;
}

/* The bytes of hexadecimal digits, and null where there are none. */
static bytes unhexed(const char *digits) {
    bytes all = {NULL, strlen(digits) / 2};
    if (all.len > 0) {
        all.at = room(all.len);
    }
    for (size_t at = 0; at < all.len; at++) {
        unsigned value = 0;
        if (sscanf(digits + 2 * at, "%2x", &value) != 1) {
            fail("no hexadecimal digits");
        }
        all.at[at] = (uint8_t)value;
    }
    return all;
}

static void print_state(const circle_challenger *challenger) {
    for (size_t at = 0; at < sizeof challenger->state; at++) {
        printf("%02x", challenger->state[at]);
    }
    printf("\n");
}

static int move(int count, char **moves) {
    circle_challenger own = {{0}};
    for (int at = 0; at < count; at++) {
        if (strncmp(moves[at], "observe:", 8) == 0) {
            bytes now = unhexed(moves[at] + 8);
            circle_challenger_observe(&own, now.at, now.len);
            free(now.at);
        } else if (strncmp(moves[at], "element:", 8) == 0) {
            uint32_t element = (uint32_t)strtoul(moves[at] + 8, NULL, 10);
            printf("%u\n", circle_challenger_observe_element(&own, element));
        } else if (strcmp(moves[at], "sample") == 0) {
            uint32_t drawn[5] = {MARK, MARK, MARK, MARK, MARK};
            circle_challenger_sample(&own, drawn + 1);
            if (drawn[0] != MARK || drawn[4] != MARK) {
                fail("more than three numbers were written");
            }
            printf("%u %u %u\n", drawn[1], drawn[2], drawn[3]);
        } else {
            fail("no such move");
        }
    }
    print_state(&own);
    return 0;
}

int main(int argc, char **argv) {
    const char *mode = argc > 1 ? argv[1] : "";
    circle_challenger given;
    circle_params own;
    int status = 9;
    if (strcmp(mode, "moves") == 0) {
        return move(argc - 2, argv + 2);
    }
    if (strcmp(mode, "from") == 0 && argc > 3 && strlen(argv[2]) == 2 * sizeof given.state) {
        bytes state = unhexed(argv[2]);
        memcpy(given.state, state.at, state.len);
        free(state.at);
        begun = &given;
        argc -= 2;
        argv += 2;
        mode = argv[1];
    }
    if (strcmp(mode, "judge") == 0 && argc == 3) {
        bytes text = read_all(0);
        status = judge(argv[2], text);
        free(text.at);
    } else if (strcmp(mode, "with") == 0 && argc == 9) {
        size_t *numbers[] = {&own.batch_pow_bits,     &own.commit_pow_bits, &own.log_blowup,
                             &own.log_final_poly_len, &own.max_log_arity,   &own.num_queries,
                             &own.query_pow_bits};
        for (int at = 0; at < 7; at++) {
            *numbers[at] = strtoull(argv[2 + at], NULL, 10);
        }
        params = &own;
        bytes text = read_all(0);
        status = judge("with", text);
        free(text.at);
    } else if (strcmp(mode, "stark") == 0 && argc == 3) {
        statement = read_file(argv[2]);
        bytes text = read_all(0);
        status = judge("stark_verify", text);
        free(text.at);
        free(statement.at);
    } else if (strcmp(mode, "once") == 0 && (argc == 3 || argc == 4)) {
        status = once(argv[2], argv[3]);
    } else if (strcmp(mode, "threads") == 0 && argc > 3 && argc % 2 == 0) {
        status = threads(argc - 2, argv + 2);
    } else if (strcmp(mode, "time") == 0 && argc == 5) {
        status = time_calls(argv[2], argv[3], strtoull(argv[4], NULL, 10));
    } else {
        fprintf(stderr, "usage: tests judge|with|stark|from|moves|once|threads|time ..\n");
    }
    if (begun != NULL) {
        print_state(is_left ? &left : begun);
    }
    return status;
}
