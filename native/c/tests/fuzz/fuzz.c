/* Random calls, from two threads at once.
 *
 *     fuzz SECONDS STACK [CASE]
 *
 * The threads have stacks of STACK bytes. With CASE it makes the calls of that case alone, the
 * number that a failed check prints. The library can not write the arguments, nor read beside them,
 * nor write beside its output, without a fault. Checked are the statuses, that nothing else is
 * written, that the forms of an output have the same text, and the calls for editors. */
#define _XOPEN_SOURCE 700
#include "cases.h"
#include "editor.h"
#include "replay.h"
#include "shown.h"
#include <inttypes.h>
#include <pthread.h>
#include <signal.h>
#include <time.h>

enum {
    THREADS = 2,
    OUT_CAPACITY = 1 << 15,
    STATUSES = CODESPAN_INVALID + 1,
    CASES_PER_CLOCK_READ = 64
};

/* A thread, and what it found. */
struct worker {
    uint64_t first, step, cases; /* its cases: first, first + step, .. */
    double seconds;              /* how long it runs */
    struct pages pages;
    uint8_t *buffers[FORMS];        /* of OUT_CAPACITY bytes each */
    uint8_t *expected, *safe;       /* of OUT_CAPACITY bytes each */
    struct outcome outcomes[FORMS]; /* what the calls of a case returned */
    const uint8_t *outs[FORMS];     /* and wrote */
    size_t counts[STATUSES];
    uint8_t signal_stack[1 << 16];
};

/* The number of the case that a thread is at, for the message of a failed check. */
static _Thread_local uint64_t current;

#define REQUIRE(condition)                                                                         \
    do {                                                                                           \
        if (!(condition)) {                                                                        \
            fprintf(stderr, "case %" PRIu64 ": ", current);                                        \
            check_failed(__FILE__, __LINE__, #condition);                                          \
        }                                                                                          \
    } while (0)

/* ---- checks ---- */

/* Checks what a call may return, and what it may have written. */
static void check_outcome(const struct fuzz_case *made, const struct call *call, const uint8_t *out,
                          size_t capacity, const struct outcome *outcome) {
    REQUIRE(outcome->status < STATUSES && outcome->status != CODESPAN_OUT_OF_MEMORY);
    bool has_output = outcome->status <= CODESPAN_TOO_SMALL;
    if (outcome->status == CODESPAN_OK) {
        REQUIRE(outcome->written <= capacity);
        REQUIRE(is_unwritten(out + outcome->written, capacity - outcome->written));
    } else {
        REQUIRE(has_output ? outcome->written > capacity : outcome->written == 0);
        REQUIRE(is_unwritten(out, capacity));
    }
    REQUIRE(has_output == (outcome->detail.argument == CODESPAN_ARGUMENT_NONE));
    REQUIRE(!has_output || (outcome->detail.index == 0 && made->labels_without_file == 0));
    if (outcome->status == CODESPAN_FILE_MISSING) {
        REQUIRE(outcome->detail.argument == CODESPAN_ARGUMENT_LABEL_FILE);
        REQUIRE(outcome->detail.index < call->diagnostic->labels_length);
        REQUIRE(call->diagnostic->labels[outcome->detail.index].file >= call->files_length);
    }
    if (outcome->status == CODESPAN_INVALID)
        REQUIRE(outcome->detail.argument != CODESPAN_ARGUMENT_LABEL_FILE);
    if (made->is_valid && made->labels_without_file > 0)
        REQUIRE(outcome->status == CODESPAN_FILE_MISSING);
    else if (made->is_valid)
        REQUIRE(has_output);
}

/* Makes a call with the last `capacity` bytes of a buffer. Returns the start of the output. */
static const uint8_t *try_call(struct worker *worker, const struct fuzz_case *made, size_t form,
                               size_t capacity, struct outcome *outcome) {
    const struct call *call = &made->calls[form];
    uint8_t *out = worker->buffers[form] + OUT_CAPACITY - capacity;
    memset(out, UNWRITTEN, capacity);
    *outcome = emit(call, out, capacity);
    check_outcome(made, call, out, capacity, outcome);
    worker->counts[outcome->status]++;
    return out;
}

/* Checks that a form is this text, as far as the call has written it. */
static void check_text(const uint8_t *out, const struct outcome *outcome, const uint8_t *text,
                       size_t length) {
    REQUIRE(outcome->written == length);
    if (outcome->status == CODESPAN_OK)
        REQUIRE(memcmp(out, text, length) == 0);
}

/* Checks that a form in colors is a marked output, replayed in these styles. */
static void check_styles(struct worker *worker, const uint8_t *marked, size_t marked_length,
                         const codespan_styles *styles, size_t form) {
    size_t length = replay(marked, marked_length, styles, worker->expected, OUT_CAPACITY);
    check_text(worker->outs[form], &worker->outcomes[form], worker->expected, length);
}

/* Checks three forms: without colors, in default styles and in those of the case. */
static void check_colors(struct worker *worker, const struct fuzz_case *made, const uint8_t *marked,
                         size_t length, size_t form) {
    codespan_styles defaults = codespan_default_styles();
    size_t plain_length = remove_style_marks(marked, length, worker->expected);
    REQUIRE(worker->outcomes[form].status == CODESPAN_OK);
    REQUIRE(is_utf8(worker->expected, plain_length));
    check_text(worker->outs[form], &worker->outcomes[form], worker->expected, plain_length);
    check_styles(worker, marked, length, &defaults, form + 1);
    check_styles(worker, marked, length, &made->styles, form + 2);
}

/* Checks that a reader of a document finds `front`, the safe text and `back` outside its tags. */
static void check_document(struct worker *worker, size_t form, const char *front,
                           const char *back) {
    if (worker->outcomes[form].status != CODESPAN_OK)
        return;
    const struct outcome *safe = &worker->outcomes[SAFE];
    uint8_t *text = worker->expected;
    size_t length = read_markup(worker->outs[form], worker->outcomes[form].written, text);
    REQUIRE(length == strlen(front) + safe->written + strlen(back));
    REQUIRE(memcmp(text, front, strlen(front)) == 0);
    REQUIRE(memcmp(text + strlen(front), worker->outs[SAFE], safe->written) == 0);
    REQUIRE(memcmp(text + length - strlen(back), back, strlen(back)) == 0);
}

/* Renders a valid case in each form, and compares the forms. */
static void check_forms(struct worker *worker, const struct fuzz_case *made) {
    for (size_t form = 0; form < FORMS; form++)
        worker->outs[form] = try_call(worker, made, form, OUT_CAPACITY, &worker->outcomes[form]);
    if (!made->is_valid || worker->outcomes[MARKED].status != CODESPAN_OK)
        return;
    size_t length = worker->outcomes[MARKED].written;
    check_colors(worker, made, worker->outs[MARKED], length, TEXT);
    size_t safe_length = make_safe(worker->outs[MARKED], length, worker->safe);
    check_colors(worker, made, worker->safe, safe_length, SAFE);
    check_document(worker, HTML, "\n", "");
    check_document(worker, SVG, "\n\n", "\n");
    check_document(worker, SVG_IN_STYLES, "\n\n", "\n");
}

/* Renders with some capacity, and where that is too small with exactly the one that is needed. */
static void check_capacity(struct worker *worker, const struct fuzz_case *made, size_t form,
                           size_t capacity) {
    struct outcome first, second;
    try_call(worker, made, form, capacity, &first);
    if (first.status != CODESPAN_TOO_SMALL || first.written > OUT_CAPACITY)
        return;
    try_call(worker, made, form, first.written, &second);
    REQUIRE(second.status == CODESPAN_OK && second.written == first.written);
}

/* ---- faults ---- */

/* Prints the case of a fault, and leaves the fault to end the program. */
static void print_case(int signal_number) {
    fprintf(stderr, "case %" PRIu64 ": signal %d\n", current, signal_number);
    signal(signal_number, SIG_DFL);
}

/* Has the thread print the case of a fault, on a stack of its own: the thread's may be full.
 * Returns the stack that was used for signals before. */
static stack_t watch_faults(struct worker *worker) {
    stack_t stack = {.ss_sp = worker->signal_stack, .ss_size = sizeof worker->signal_stack}, before;
    struct sigaction action = {.sa_handler = print_case, .sa_flags = SA_ONSTACK};
    CHECK(sigaltstack(&stack, &before) == 0);
    CHECK(sigaction(SIGSEGV, &action, NULL) == 0 && sigaction(SIGBUS, &action, NULL) == 0);
    return before;
}

/* ---- threads ---- */

static void run_case(struct worker *worker, uint64_t number) {
    current = number;
    struct fuzz_case made = make_case(number, &worker->pages);
    check_forms(worker, &made);
    check_capacity(worker, &made, number % FORMS, number % 300);
    const char *fault =
        editor_fault(&made, number, &worker->pages, worker->buffers[0], OUT_CAPACITY);
    if (fault != NULL)
        fprintf(stderr, "not true: %s\n", fault);
    REQUIRE(fault == NULL);
    worker->cases++;
}

static double now(void) {
    struct timespec time;
    clock_gettime(CLOCK_MONOTONIC, &time);
    return (double)time.tv_sec + (double)time.tv_nsec / 1e9;
}

static void *run(void *argument) {
    struct worker *worker = argument;
    stack_t before = watch_faults(worker);
    double end = now() + worker->seconds;
    uint64_t number = worker->first;
    do {
        for (int i = 0; i < CASES_PER_CLOCK_READ; i++, number += worker->step)
            run_case(worker, number);
    } while (now() < end);
    CHECK(sigaltstack(&before, NULL) == 0);
    return NULL;
}

static void prepare(struct worker *worker, uint64_t first, double seconds) {
    worker->first = first;
    worker->step = THREADS;
    worker->seconds = seconds;
    worker->pages = new_pages();
    for (size_t form = 0; form < FORMS; form++)
        worker->buffers[form] = new_buffer(OUT_CAPACITY);
    worker->expected = new_buffer(OUT_CAPACITY);
    worker->safe = new_buffer(OUT_CAPACITY);
}

/* What all threads found. */
struct sums {
    uint64_t cases;
    size_t calls, counts[STATUSES];
};

/* Runs the threads, and adds up what they found. */
static struct sums run_all(double seconds, size_t stack) {
    static struct worker workers[THREADS];
    pthread_t threads[THREADS];
    pthread_attr_t attributes;
    struct sums sums = {0};
    CHECK(pthread_attr_init(&attributes) == 0);
    CHECK(pthread_attr_setstacksize(&attributes, stack) == 0);
    for (size_t i = 0; i < THREADS; i++) {
        prepare(&workers[i], i, seconds);
        CHECK(pthread_create(&threads[i], &attributes, run, &workers[i]) == 0);
    }
    for (size_t i = 0; i < THREADS; i++) {
        CHECK(pthread_join(threads[i], NULL) == 0);
        sums.cases += workers[i].cases;
        for (size_t status = 0; status < STATUSES; status++) {
            sums.counts[status] += workers[i].counts[status];
            sums.calls += workers[i].counts[status];
        }
    }
    return sums;
}

int main(int argc, char **argv) {
    CHECK(argc == 3 || argc == 4);
    if (argc == 4) {
        static struct worker worker;
        prepare(&worker, 0, 0);
        stack_t before = watch_faults(&worker);
        run_case(&worker, strtoull(argv[3], NULL, 10));
        CHECK(sigaltstack(&before, NULL) == 0);
        return 0;
    }
    struct sums sums = run_all(strtod(argv[1], NULL), strtoul(argv[2], NULL, 10));
    const size_t *counts = sums.counts;
    printf("fuzz: %" PRIu64 " cases, %zu calls: ok %zu, too small %zu, no file %zu, invalid %zu\n",
           sums.cases, sums.calls, counts[CODESPAN_OK], counts[CODESPAN_TOO_SMALL],
           counts[CODESPAN_FILE_MISSING], counts[CODESPAN_INVALID]);
    CHECK(counts[CODESPAN_OK] > 0 && counts[CODESPAN_TOO_SMALL] > 0);
    CHECK(counts[CODESPAN_FILE_MISSING] > 0 && counts[CODESPAN_INVALID] > 0);
    return 0;
}
