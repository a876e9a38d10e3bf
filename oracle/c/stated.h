/* The stack that each call takes below the caller's frame, as docs/FORMS.md states it: 'Stack'. */
#ifndef STATED_H
#define STATED_H

#include <stddef.h>
#include <string.h>

static const struct {
    const char *call;
    size_t bytes;
} stated[] = {
    {"empty_manifest", 4096},
    {"has_in_manifest", 4096},
    {"has_in_contribution", 4096},
    {"trip_bound", 4096},
    {"write_manifest", 4096},
    {"write_contribution", 4096},
    {"read_schema", 4096},
    {"union_manifests", 8192},
    {"union_contributions", 8192},
    {"read_manifest", 36864},
    {"read_contribution", 36864},
    {"add", 36864},
    {"unite_manifests", 36864},
    {"type", 53248},
    {"load_begin", 102400},
    {"load_batch", 299008},
    {"load_ancestors_answer", 299008},
    {"load_result", 368640},
    {"load_answer", 397312},
    {"load_ancestors", 499712},
    {"analyse", 860160},
    {"add_policy", 860160},
};

/* 0 for a name that is not stated, so that whatever it takes is too much. */
static inline size_t stated_bytes(const char *call) {
    for (size_t n = 0; n < sizeof stated / sizeof *stated; n++)
        if (!strcmp(stated[n].call, call)) return stated[n].bytes;
    return 0;
}

/* A thread's own share: its frames, and what the C library keeps on its stack. */
enum { THREAD_OWN = 16384 };

static inline size_t thread_bytes(const char *call) { return stated_bytes(call) + THREAD_OWN; }

#endif
