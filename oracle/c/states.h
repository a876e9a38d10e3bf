/* States, texts and values for the C programs, made as docs/FORMS.md says. */
#ifndef STATES_H
#define STATES_H

#include "../../include/terbagyl.h"
#include <stdio.h>
#include <stdlib.h>
#include <string.h>

enum { F, P, A, R, C, E };                       /* the steps of a listing */
enum { NUMBER, EXTENSION, ENTITY, SET, RECORD }; /* the kinds of values */

static inline void cannot(const char *why) {
    fprintf(stderr, "cannot: %s\n", why);
    exit(2);
}

static inline uint64_t request_type(uint64_t principal, uint64_t action, uint64_t resource) {
    return (principal * 65536 + action) * 65536 + resource;
}

/* A run of words with its count in front: a manifest, a contribution, a schema or a context. */
typedef struct {
    uint64_t *words;
    size_t len;
} State;

static inline State state(size_t len) {
    State s = {calloc(len, sizeof(uint64_t)), len};
    if (!s.words) cannot("find memory");
    return s;
}

static inline void put_word(State s, uint64_t word) {
    if (s.words[0] + 1 >= s.len) cannot("put another row into a state");
    s.words[++s.words[0]] = word;
}

static inline void put_entry(State s, uint64_t request) { put_word(s, request * 64); }

static inline void put_node(State s, uint64_t depth, uint64_t kind, uint64_t id, uint64_t mark) {
    put_word(s, depth + 32 * mark + 64 * (kind * 65536 + id));
}

static inline uint64_t value_row(uint64_t depth, uint64_t key, uint64_t kind, uint64_t number) {
    return number + (kind << 16) + (key << 19) + (depth << 35);
}

/* Answers, or sets of ancestor ids, one after the other behind their count. */
typedef struct {
    uint64_t *words;
    size_t len, used;
} Answers;

static inline Answers answers(void) {
    Answers a = {calloc(TERBAGYL_ANSWERS_LEN, sizeof(uint64_t)), TERBAGYL_ANSWERS_LEN, 1};
    if (!a.words) cannot("find memory");
    return a;
}

static inline void put_answer(Answers *a, uint64_t word) {
    if (a->used >= a->len) cannot("put another word into the answers");
    a->words[a->used++] = word;
}

static inline void begin_answer(Answers *a, uint64_t parents, uint64_t rows) {
    a->words[0]++;
    put_answer(a, 1 + (parents << 16) + (rows << 32));
}

static inline void begin_set(Answers *a, uint64_t ids) {
    a->words[0]++;
    put_answer(a, ids);
}

/* A text that grows. */
typedef struct {
    char *bytes;
    size_t len, room;
} Text;

static inline Text text(void) {
    Text t = {malloc(1 << 16), 0, 1 << 16};
    if (!t.bytes) cannot("find memory");
    return t;
}

#define SAY(t, ...)                                                     \
    do {                                                                \
        if ((t)->len + 256 > (t)->room) {                               \
            (t)->room *= 2;                                             \
            if (!((t)->bytes = realloc((t)->bytes, (t)->room))) cannot("find memory"); \
        }                                                               \
        (t)->len += (size_t)snprintf((t)->bytes + (t)->len, 256, __VA_ARGS__); \
    } while (0)

#define BYTES(t) (const uint8_t *)(t).bytes, (t).len
#define LENT(s) (s).words, (s).len

#endif
