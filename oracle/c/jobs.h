/* One call of the library with its input at hand, to be measured. */
#ifndef JOBS_H
#define JOBS_H

#include "stack.h"
#include <time.h>

typedef struct Job Job;
struct Job {
    const char *call;
    void (*run)(Job *);
    State x, y, out; /* what is read, in the order of the parameters; what is written */
    Text text;
    uint64_t request, principal, resource;
    uint64_t number, value, first, second; /* what was answered */
    char *stack_pointer;
};

/* Before each call the place of the stack pointer is kept. */
#define CALLING(job) STACK_POINTER((job)->stack_pointer)
#define VALUE &j->value
#define VALUES &j->value, &j->first, &j->second

#define JOB(name, ...)                                 \
    static inline void job_##name(Job *j) {            \
        CALLING(j);                                    \
        j->number = terbagyl_##name(__VA_ARGS__);      \
    }

JOB(empty_manifest, LENT(j->out), VALUE)
JOB(add, LENT(j->out), LENT(j->x), VALUE)
JOB(union_manifests, LENT(j->x), LENT(j->y), LENT(j->out), VALUE)
JOB(union_contributions, LENT(j->x), LENT(j->y), LENT(j->out), VALUE)
JOB(unite_manifests, LENT(j->out), LENT(j->x), VALUE)
JOB(has_in_manifest, LENT(j->x), LENT(j->y), VALUE)
JOB(has_in_contribution, LENT(j->x), LENT(j->y), VALUE)
JOB(read_manifest, BYTES(j->text), LENT(j->out), VALUE)
JOB(read_contribution, BYTES(j->text), LENT(j->out), VALUE)
JOB(write_manifest, LENT(j->x), (uint8_t *)j->out.words, j->out.len * 8, VALUE)
JOB(write_contribution, LENT(j->x), (uint8_t *)j->out.words, j->out.len * 8, VALUE)
JOB(read_schema, BYTES(j->text), LENT(j->out), VALUE)
JOB(analyse, LENT(j->x), j->request, BYTES(j->text), LENT(j->out), VALUE)
JOB(add_policy, LENT(j->x), BYTES(j->text), LENT(j->out), VALUE)
JOB(type, LENT(j->x), LENT(j->y), LENT(j->out), VALUE)
JOB(trip_bound, LENT(j->x), j->request, VALUES)
JOB(load_begin, LENT(j->x), j->request, j->principal, j->resource, LENT(j->y), LENT(j->out), VALUES)
JOB(load_batch, LENT(j->x), LENT(j->out), VALUES)
JOB(load_answer, LENT(j->out), LENT(j->x), VALUES)
JOB(load_ancestors, LENT(j->x), LENT(j->out), VALUES)
JOB(load_ancestors_answer, LENT(j->out), LENT(j->x), VALUES)
JOB(load_result, LENT(j->x), LENT(j->out), VALUES)

#define CALL(name) .call = #name, .run = job_##name

/* What a call took: bytes of stack below the caller's frame, and the processor's seconds. */
typedef struct {
    size_t bytes;
    double seconds;
} Cost;

static inline double processor_seconds(void) {
    struct timespec t;
    clock_gettime(CLOCK_THREAD_CPUTIME_ID, &t);
    return (double)t.tv_sec + (double)t.tv_nsec / 1e9;
}

static inline void run_job(void *job) {
    Job *j = job;
    j->run(j);
}

static inline void copy_words(uint64_t *to, const uint64_t *from, size_t n) {
    if (n > 0) memcpy(to, from, n * 8);
}

/* The call made on a painted stack; three times on the same input, for the least time, but once where it takes long. */
static inline Cost measured(Stack s, Job *j) {
    State x = state(j->x.len + 1), out = state(j->out.len + 1);
    copy_words(x.words, j->x.words, j->x.len);
    copy_words(out.words, j->out.words, j->out.len);
    Cost least = {0, 1e9};
    for (int n = 0; n < 3 && (n == 0 || least.seconds < 2); n++) {
        if (n > 0) {
            copy_words(j->x.words, x.words, j->x.len);
            copy_words(j->out.words, out.words, j->out.len);
        }
        paint(s);
        double began = processor_seconds();
        on_stack(s, run_job, j);
        double took = processor_seconds() - began;
        size_t bytes = (size_t)(j->stack_pointer - lowest_written(s));
        if (took < least.seconds) least.seconds = took;
        if (bytes > least.bytes) least.bytes = bytes;
    }
    free(x.words);
    free(out.words);
    return least;
}

#endif
