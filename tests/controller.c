/* Makes every call of libcapi.a on the logs of standard input, each a length of two bytes, low byte first, and so many
 * bytes. Prints the most stack that each call took. Says on standard error what of docs/CONTROLLER.md does not hold: of
 * the areas lent, and of threads that judge at once. */
#define _POSIX_C_SOURCE 200809L
#include <pthread.h>
#include <stdio.h>
#include <stdlib.h>
#include <string.h>

#include "cxl0.h"

enum { STACK = 1 << 16, PAINT = 0xa5, LOGS = 1 << 12, THREADS = 4, ROUNDS = 20 };

struct log {
    size_t length;
    uint8_t *bytes; /* with room for three more */
    uint64_t answer;
    uint8_t file[CXL0_FILE_MOST];
};

static struct log logs[LOGS];
static size_t log_count;
static int faults;

static void hold(int fact, const char *words) {
    if (!fact) {
        fprintf(stderr, "does not hold: %s\n", words);
        faults++;
    }
}
#define HOLD(fact) hold(fact, #fact)

/* Each call has a painted stack of its own: the paint that is gone at the end shows how deep it went. */
struct call {
    const char *name;
    void (*made)(void);
    _Alignas(16) uint8_t stack[STACK];
};
#define CALL(name) {#name, (void (*)(void))name, {0}}
enum { RECORD, READ, CONVERT, REPLAY, JUDGE, VERSION, CALLS };
static struct call calls[CALLS] = {
    CALL(cxl0_record), CALL(cxl0_read), CALL(cxl0_convert), CALL(cxl0_replay), CALL(cxl0_judge), CALL(cxl0_version),
};

uint64_t on_stack(void *top, void (*made)(void), const uint64_t *arguments);
#define MAKE(call, ...) on_stack(calls[call].stack + STACK - 16, calls[call].made, (uint64_t[7]){__VA_ARGS__})
#define AT(pointer) ((uint64_t)(uintptr_t)(pointer))

static size_t deepest(const struct call *call) {
    size_t untouched = 0;
    while (untouched < STACK - 16 && call->stack[untouched] == PAINT) {
        untouched++;
    }
    return STACK - 16 - untouched;
}

/* Records the fields of a log one by one; gives how many bytes they took. */
static size_t record_again(const struct log *log, uint8_t *buffer, size_t room) {
    size_t used = 0;
    for (size_t at = 0; log->length - at >= 3;) {
        const uint8_t *field = log->bytes + at;
        size_t length = field[1] | (size_t)field[2] << 8;
        if (length > log->length - at - 3) {
            break;
        }
        uint64_t answer = MAKE(RECORD, AT(buffer), room, used, field[0], AT(field + 3), length);
        used = cxl0_refused(answer) ? used : cxl0_record_count(answer);
        at += 3 + length;
    }
    return used;
}

/* Makes every call on a log, recording an end after it too, with areas of exactly the sizes that the header names. */
static void measure(struct log *log) {
    static uint8_t buffer[CXL0_LOG_MOST], other[CXL0_CONVERT_LEAST];
    static uint64_t scratch[CXL0_SCRATCH_LEAST];
    const uint64_t bytes = AT(log->bytes), length = log->length;
    int accepted = !cxl0_refused(MAKE(READ, bytes, length));
    size_t used = record_again(log, buffer, sizeof buffer);
    HOLD(!accepted || (used == length && memcmp(buffer, log->bytes, used) == 0));
    MAKE(RECORD, bytes, length + 3, length, 4);
    HOLD(cxl0_refused(MAKE(CONVERT, bytes, length, AT(other), sizeof other)) != CXL0_BUFFER_TOO_SHORT);
    log->answer = MAKE(JUDGE, bytes, length, AT(log->file), sizeof log->file, 0, AT(scratch), CXL0_SCRATCH_LEAST);
    HOLD(accepted == !cxl0_refused(log->answer));
    uint64_t replayed = MAKE(REPLAY, bytes, length, AT(log->file), cxl0_judge_length(log->answer));
    HOLD(cxl0_replay_yes(replayed) == cxl0_judge_allowed(log->answer));
}

/* Areas that are smaller by one are refused. */
static void refuse_less(const struct log *log) {
    static uint8_t out[CXL0_CONVERT_LEAST];
    static uint64_t scratch[CXL0_SCRATCH_LEAST];
    const uint8_t *bytes = log->bytes;
    const size_t length = log->length, most = CXL0_FILE_MOST, least = CXL0_SCRATCH_LEAST;
    HOLD(cxl0_convert(bytes, length, out, CXL0_CONVERT_LEAST - 1) == CXL0_BUFFER_TOO_SHORT);
    HOLD(cxl0_judge(bytes, length, out, most - 1, 0, scratch, least) == CXL0_BUFFER_TOO_SHORT);
    HOLD(cxl0_judge(bytes, length, out, most, 1, scratch, least) == CXL0_BUFFER_TOO_SHORT);
    HOLD(cxl0_judge(bytes, length, out, most, 0, scratch, least - 1) == CXL0_BUFFER_TOO_SHORT);
}

struct thread {
    pthread_t id;
    size_t first, differing;
    uint8_t file[CXL0_FILE_MOST];
    uint64_t scratch[CXL0_SCRATCH_LEAST];
};
static struct thread threads[THREADS];
static pthread_barrier_t start;

/* Judges all logs from the thread's first one on, and counts the answers and files that are not those of one thread. */
static void *judge_all(void *argument) {
    struct thread *own = argument;
    pthread_barrier_wait(&start);
    for (size_t turn = 0; turn < ROUNDS * log_count; turn++) {
        const struct log *log = &logs[(own->first + turn) % log_count];
        uint64_t answer = cxl0_judge(log->bytes, log->length, own->file, CXL0_FILE_MOST, 0, own->scratch,
                                     CXL0_SCRATCH_LEAST);
        own->differing += answer != log->answer || memcmp(own->file, log->file, cxl0_judge_length(answer)) != 0;
    }
    return NULL;
}

static void judge_at_once(void) {
    size_t differing = 0;
    pthread_barrier_init(&start, NULL, THREADS);
    for (size_t n = 0; n < THREADS; n++) {
        threads[n].first = n * log_count / THREADS;
        HOLD(pthread_create(&threads[n].id, NULL, judge_all, &threads[n]) == 0);
    }
    for (size_t n = 0; n < THREADS; n++) {
        pthread_join(threads[n].id, NULL);
        differing += threads[n].differing;
    }
    HOLD(differing == 0);
}

static void read_logs(FILE *file) {
    for (int low; (low = getc(file)) != EOF; log_count++) {
        struct log *log = &logs[log_count];
        log->length = (size_t)low | (size_t)getc(file) << 8;
        log->bytes = malloc(log->length + 3);
        if (log_count == LOGS || !log->bytes || fread(log->bytes, 1, log->length, file) != log->length) {
            fputs("too many logs, or a log that is cut\n", stderr);
            exit(2);
        }
    }
}

int main(void) {
    size_t longest = 0;
    read_logs(stdin);
    for (size_t call = 0; call < CALLS; call++) {
        memset(calls[call].stack, PAINT, STACK);
    }
    MAKE(VERSION, 0);
    for (size_t n = 0; n < log_count; n++) {
        measure(&logs[n]);
        refuse_less(&logs[n]);
        longest = cxl0_refused(logs[n].answer) || logs[n].length < longest ? longest : logs[n].length;
    }
    HOLD(longest == CXL0_LOG_MOST);
    judge_at_once();
    for (size_t call = 0; call < CALLS; call++) {
        printf("%s %zu\n", calls[call].name, deepest(&calls[call]));
    }
    return faults != 0;
}
