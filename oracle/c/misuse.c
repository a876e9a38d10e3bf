/* What a C caller may do and Rust's borrows do not speak of: the same input twice, NULL with length 0, words that are not aligned, threads
   on one schema; and a manifest united in place. A line a check, and 'N passed, M failed'; ends with 1 where one failed. */
#include "states.h"
#include <pthread.h>

static int passed, failed;

static void check(const char *what, int good) {
    printf("%-7s %s\n", good ? "ok" : "FAILED", what);
    *(good ? &passed : &failed) += 1;
}

static int same(const uint64_t *a, const uint64_t *b, size_t n) { return memcmp(a, b, n * 8) == 0; }

static int same_rows(State a, State b) { return a.words[0] == b.words[0] && same(a.words, b.words, 1 + a.words[0]); }

static State copy_of(State s) {
    State c = state(s.len);
    memcpy(c.words, s.words, s.len * 8);
    return c;
}

static const char *const SCHEMA = "T\t0\t3\nT\t1\t7\nF\t1\t0\nF\t2\t0\nT\t2\t8\nE\t10\nF\t1\t1\nF\t7\t1\nE\t20\nF\t3\t1\nL\t500\t2\nC\t500\t1\n";
static const char *const STEPS = "var\tp\nattr\t7\nvar\tp\nvar\tr\nattr\t3\nin\nunion\ndrop\n";
static const char *const POLICY = "A\t10\t500\t20\nvar\tp\nattr\t7\nA\t10\t500\t20\nvar\tp\nvar\tr\nattr\t3\nin\n";
static const char *const LISTING = "A\t10\t500\t20\nN\t1\tp\t0\t0\nN\t2\tf\t7\t0\nN\t2\tr\t0\t0\nN\t3\tf\t3\t1\nN\t1\tr\t0\t0\nN\t2\tf\t3\t0\n";

#define STRING(s) (const uint8_t *)(s), strlen(s)

static State schema(void) {
    State s = state(TERBAGYL_SCHEMA_LEN);
    uint64_t value;
    if (terbagyl_read_schema(STRING(SCHEMA), LENT(s), &value)) cannot("read the schema");
    return s;
}

/* Case *L of document 01, as a manifest or a contribution. */
static State case_l(size_t words) {
    State m = state(words);
    uint64_t value;
    uint64_t n = words == TERBAGYL_MANIFEST_LEN ? terbagyl_read_manifest(STRING(LISTING), LENT(m), &value)
                                         : terbagyl_read_contribution(STRING(LISTING), LENT(m), &value);
    if (n) cannot("read case *L");
    return m;
}

/* One entry with n roots e from `first` on. */
static State roots(size_t words, uint64_t request, uint64_t first, uint64_t n) {
    State m = state(words);
    put_entry(m, request);
    for (uint64_t k = 0; k < n; k++) put_node(m, 1, E, first + k, 0);
    return m;
}

/* ---------------------------------------------------------------- the same input twice, and inputs that overlap */

static void equal_inputs(void) {
    uint64_t value;
    State m = case_l(TERBAGYL_MANIFEST_LEN), out = state(TERBAGYL_MANIFEST_LEN), before = copy_of(m);
    uint64_t n = terbagyl_union_manifests(LENT(m), LENT(m), LENT(out), &value);
    check("union_manifests of a manifest with itself is that manifest", n == 0 && value == 0 && same_rows(m, out) && same(m.words, before.words, m.len));

    State c = case_l(TERBAGYL_CONTRIBUTION_LEN), out_c = state(TERBAGYL_CONTRIBUTION_LEN);
    n = terbagyl_union_contributions(LENT(c), LENT(c), LENT(out_c), &value);
    check("union_contributions of a contribution with itself is that contribution", n == 0 && value == 0 && same_rows(c, out_c));

    /* a place that lies in the state, behind its rows */
    uint64_t *place = m.words + 100;
    place[0] = request_type(10, 500, 20);
    place[1] = P * 65536;
    place[2] = R * 65536;
    place[3] = 3;
    n = terbagyl_has_in_manifest(LENT(m), place, 4, &value);
    check("has_in_manifest of a place inside the manifest's buffer", n == 0 && value == 2);

    /* a schema whose buffer is the manifest's too: both empty */
    State zero = state(TERBAGYL_SCHEMA_LEN), typed = state(TERBAGYL_MANIFEST_LEN);
    n = terbagyl_type(LENT(zero), LENT(zero), LENT(typed), &value);
    check("type of an empty manifest by an empty schema, one buffer for both", n == 0 && value == 0 && typed.words[0] == 0);

    State load = state(TERBAGYL_LOAD_LEN);
    uint64_t first, second;
    n = terbagyl_load_begin(LENT(zero), request_type(10, 500, 20), 1, 2, LENT(zero), LENT(load), &value, &first, &second);
    check("load_begin of an empty manifest and an empty context, one buffer for both", n == 0 && value == 0 && first == 0 && second == 0);
}

/* ---------------------------------------------------------------- NULL with length 0 */

static void null_with_zero(void) {
    uint64_t value = 9, first = 9, second = 9;
    State m = case_l(TERBAGYL_MANIFEST_LEN), c = case_l(TERBAGYL_CONTRIBUTION_LEN), s = schema(), before = copy_of(m);
    uint64_t request = request_type(10, 500, 20);
    uint8_t *bytes = malloc(TERBAGYL_MANIFEST_TEXT_LEN);
    State out = state(TERBAGYL_MANIFEST_LEN), context = state(TERBAGYL_CONTEXT_LEN), load = state(TERBAGYL_LOAD_LEN), batch = state(TERBAGYL_BATCH_LEN);

    uint64_t n = terbagyl_read_manifest(NULL, 0, LENT(out), &value);
    check("read_manifest of no text is the empty manifest", n == 0 && value == 0 && out.words[0] == 0);
    State out_c = state(TERBAGYL_CONTRIBUTION_LEN);
    n = terbagyl_read_contribution(NULL, 0, LENT(out_c), &value);
    check("read_contribution of no text is 1 at 0", n == 1 && value == 0);
    State out_s = state(TERBAGYL_SCHEMA_LEN);
    n = terbagyl_read_schema(NULL, 0, LENT(out_s), &value);
    check("read_schema of no text is a schema without types", n == 0 && value == 0 && out_s.words[0] == 0);
    n = terbagyl_analyse(LENT(s), request, NULL, 0, LENT(out_c), &value);
    check("analyse of no text is 6 at 0", n == 6 && value == 0);
    n = terbagyl_add_policy(LENT(s), NULL, 0, LENT(m), &value);
    check("add_policy of no text leaves the manifest", n == 0 && value == 0 && same(m.words, before.words, m.len));
    n = terbagyl_has_in_manifest(LENT(m), NULL, 0, &value);
    check("has_in_manifest of no place is missing", n == 0 && value == 0);
    n = terbagyl_has_in_contribution(LENT(c), NULL, 0, &value);
    check("has_in_contribution of no place is missing", n == 0 && value == 0);

#define SHORT(what, call)                                  \
    do {                                                   \
        value = 9;                                         \
        n = call;                                          \
        check(what " NULL with 0 is 31 at 0", n == 31 && value == 0); \
    } while (0)
    SHORT("empty_manifest,", terbagyl_empty_manifest(NULL, 0, &value));
    SHORT("add, manifest", terbagyl_add(NULL, 0, LENT(c), &value));
    SHORT("add, contribution", terbagyl_add(LENT(m), NULL, 0, &value));
    SHORT("union_manifests, left", terbagyl_union_manifests(NULL, 0, LENT(m), LENT(out), &value));
    SHORT("union_manifests, right", terbagyl_union_manifests(LENT(m), NULL, 0, LENT(out), &value));
    SHORT("union_manifests, out", terbagyl_union_manifests(LENT(m), LENT(m), NULL, 0, &value));
    SHORT("union_contributions, left", terbagyl_union_contributions(NULL, 0, LENT(c), LENT(out_c), &value));
    SHORT("union_contributions, right", terbagyl_union_contributions(LENT(c), NULL, 0, LENT(out_c), &value));
    SHORT("union_contributions, out", terbagyl_union_contributions(LENT(c), LENT(c), NULL, 0, &value));
    SHORT("has_in_manifest, state", terbagyl_has_in_manifest(NULL, 0, &request, 1, &value));
    SHORT("has_in_contribution, state", terbagyl_has_in_contribution(NULL, 0, &request, 1, &value));
    SHORT("read_manifest, out", terbagyl_read_manifest(STRING(LISTING), NULL, 0, &value));
    SHORT("read_contribution, out", terbagyl_read_contribution(STRING(LISTING), NULL, 0, &value));
    SHORT("write_manifest, state", terbagyl_write_manifest(NULL, 0, bytes, TERBAGYL_MANIFEST_TEXT_LEN, &value));
    SHORT("write_manifest, out", terbagyl_write_manifest(LENT(m), NULL, 0, &value));
    SHORT("write_contribution, state", terbagyl_write_contribution(NULL, 0, bytes, TERBAGYL_MANIFEST_TEXT_LEN, &value));
    SHORT("write_contribution, out", terbagyl_write_contribution(LENT(c), NULL, 0, &value));
    SHORT("read_schema, out", terbagyl_read_schema(STRING(SCHEMA), NULL, 0, &value));
    SHORT("analyse, schema", terbagyl_analyse(NULL, 0, request, STRING(STEPS), LENT(out_c), &value));
    SHORT("analyse, out", terbagyl_analyse(LENT(s), request, STRING(STEPS), NULL, 0, &value));
    SHORT("add_policy, schema", terbagyl_add_policy(NULL, 0, STRING(POLICY), LENT(m), &value));
    SHORT("add_policy, manifest", terbagyl_add_policy(LENT(s), STRING(POLICY), NULL, 0, &value));
    SHORT("type, schema", terbagyl_type(NULL, 0, LENT(m), LENT(out), &value));
    SHORT("type, manifest", terbagyl_type(LENT(s), NULL, 0, LENT(out), &value));
    SHORT("type, out", terbagyl_type(LENT(s), LENT(m), NULL, 0, &value));
    SHORT("trip_bound, manifest", terbagyl_trip_bound(NULL, 0, request, &value, &first, &second));
    SHORT("load_begin, manifest", terbagyl_load_begin(NULL, 0, request, 1, 2, LENT(context), LENT(load), &value, &first, &second));
    SHORT("load_begin, context", terbagyl_load_begin(LENT(m), request, 1, 2, NULL, 0, LENT(load), &value, &first, &second));
    SHORT("load_begin, state", terbagyl_load_begin(LENT(m), request, 1, 2, LENT(context), NULL, 0, &value, &first, &second));
    SHORT("load_batch, state", terbagyl_load_batch(NULL, 0, LENT(batch), &value, &first, &second));
    SHORT("load_batch, out", terbagyl_load_batch(LENT(load), NULL, 0, &value, &first, &second));
    SHORT("load_answer, state", terbagyl_load_answer(NULL, 0, LENT(out_s), &value, &first, &second));
    SHORT("load_answer, answers", terbagyl_load_answer(LENT(load), NULL, 0, &value, &first, &second));
    SHORT("load_ancestors, state", terbagyl_load_ancestors(NULL, 0, LENT(out_s), &value, &first, &second));
    SHORT("load_ancestors, out", terbagyl_load_ancestors(LENT(load), NULL, 0, &value, &first, &second));
    SHORT("load_ancestors_answer, state", terbagyl_load_ancestors_answer(NULL, 0, LENT(out_s), &value, &first, &second));
    SHORT("load_ancestors_answer, sets", terbagyl_load_ancestors_answer(LENT(load), NULL, 0, &value, &first, &second));
    SHORT("load_result, state", terbagyl_load_result(NULL, 0, LENT(out_s), &value, &first, &second));
    SHORT("load_result, out", terbagyl_load_result(LENT(load), NULL, 0, &value, &first, &second));
    check("after all these the manifest is as it was", same(m.words, before.words, m.len));
    free(bytes);
}

/* ---------------------------------------------------------------- all calls one after the other, in buffers at any address */

/* Every buffer that a round of all calls needs, each `shift` bytes past an address that is aligned; and what the calls answered. */
typedef struct {
    uint64_t *schema, *contribution, *manifest, *united, *typed, *context, *load, *batch, *answers, *requests, *sets, *slice;
    uint8_t *text;
    uint64_t said[128];
    int count;
} Round;

enum { ROOM = 64 };

static uint64_t *at_shift(size_t words, size_t shift) {
    char *at = calloc(words * 8 + ROOM, 1);
    if (!at) cannot("find memory");
    return (uint64_t *)(at + shift);
}

/* A word behind a pointer that need not be aligned. */
static void set_word(uint64_t *at, uint64_t word) { memcpy((char *)at, &word, 8); }

static Round new_round(size_t shift) {
    Round r = {.schema = at_shift(TERBAGYL_SCHEMA_LEN, shift), .contribution = at_shift(TERBAGYL_CONTRIBUTION_LEN, shift), .manifest = at_shift(TERBAGYL_MANIFEST_LEN, shift),
               .united = at_shift(TERBAGYL_MANIFEST_LEN, shift), .typed = at_shift(TERBAGYL_MANIFEST_LEN, shift), .context = at_shift(TERBAGYL_CONTEXT_LEN, shift),
               .load = at_shift(TERBAGYL_LOAD_LEN, shift), .batch = at_shift(TERBAGYL_BATCH_LEN, shift), .answers = at_shift(TERBAGYL_ANSWERS_LEN, shift),
               .requests = at_shift(TERBAGYL_ANCESTORS_LEN, shift), .sets = at_shift(TERBAGYL_ANCESTORS_ANSWERS_LEN, shift), .slice = at_shift(TERBAGYL_SLICE_LEN, shift),
               .text = (uint8_t *)at_shift(TERBAGYL_MANIFEST_TEXT_LEN / 8, shift)};
    return r;
}

static void free_round(Round r, size_t shift) {
    uint64_t *all[] = {r.schema, r.contribution, r.manifest, r.united, r.typed, r.context, r.load, r.batch, r.answers, r.requests, r.sets, r.slice, (uint64_t *)r.text};
    for (size_t n = 0; n < sizeof all / sizeof *all; n++) free((char *)all[n] - shift);
}

static void heard(Round *r, uint64_t number, uint64_t value) {
    r->said[r->count++] = number;
    r->said[r->count++] = value;
}

/* A round: a schema (or one that is shared), a policy, a contribution, unions, typing, a listing, and a load to its slice. */
static void all_calls(Round *r, const uint64_t *shared) {
    uint64_t value = 0, first = 0, second = 0, request = request_type(10, 500, 20), n;
    const uint64_t *s = shared ? shared : r->schema;
    r->count = 0;
#define HEAR(call) n = call, heard(r, n, value)
#define HEAR3(call) n = call, heard(r, n, value), heard(r, first, second)
    if (!shared) HEAR(terbagyl_read_schema(STRING(SCHEMA), r->schema, TERBAGYL_SCHEMA_LEN, &value));
    HEAR(terbagyl_empty_manifest(r->manifest, TERBAGYL_MANIFEST_LEN, &value));
    HEAR(terbagyl_add_policy(s, TERBAGYL_SCHEMA_LEN, STRING(POLICY), r->manifest, TERBAGYL_MANIFEST_LEN, &value));
    HEAR(terbagyl_analyse(s, TERBAGYL_SCHEMA_LEN, request, STRING(STEPS), r->contribution, TERBAGYL_CONTRIBUTION_LEN, &value));
    HEAR(terbagyl_add(r->manifest, TERBAGYL_MANIFEST_LEN, r->contribution, TERBAGYL_CONTRIBUTION_LEN, &value));
    HEAR(terbagyl_read_manifest(STRING(LISTING), r->united, TERBAGYL_MANIFEST_LEN, &value));
    HEAR(terbagyl_union_manifests(r->manifest, TERBAGYL_MANIFEST_LEN, r->united, TERBAGYL_MANIFEST_LEN, r->typed, TERBAGYL_MANIFEST_LEN, &value));
    HEAR(terbagyl_type(s, TERBAGYL_SCHEMA_LEN, r->united, TERBAGYL_MANIFEST_LEN, r->typed, TERBAGYL_MANIFEST_LEN, &value));
    HEAR(terbagyl_has_in_manifest(r->typed, TERBAGYL_MANIFEST_LEN, &request, 1, &value));
    HEAR(terbagyl_write_contribution(r->contribution, TERBAGYL_CONTRIBUTION_LEN, r->text, TERBAGYL_MANIFEST_TEXT_LEN, &value));
    HEAR(terbagyl_write_manifest(r->typed, TERBAGYL_MANIFEST_LEN, r->text, TERBAGYL_MANIFEST_TEXT_LEN, &value));

    HEAR3(terbagyl_load_begin(r->typed, TERBAGYL_MANIFEST_LEN, request, 1, 2, r->context, TERBAGYL_CONTEXT_LEN, r->load, TERBAGYL_LOAD_LEN, &value, &first, &second));
    HEAR3(terbagyl_load_batch(r->load, TERBAGYL_LOAD_LEN, r->batch, TERBAGYL_BATCH_LEN, &value, &first, &second));
    /* the principal has field 7, the resource field 3: records, and a set of entities where a mark stands */
    set_word(r->answers, 2);
    set_word(r->answers + 1, 1 + ((uint64_t)1 << 32));
    set_word(r->answers + 2, value_row(1, 7, RECORD, 0));
    set_word(r->answers + 3, 1 + ((uint64_t)3 << 32));
    set_word(r->answers + 4, value_row(1, 3, SET, 0));
    set_word(r->answers + 5, value_row(2, 0, ENTITY, 70));
    set_word(r->answers + 6, value_row(2, 1, ENTITY, 71));
    HEAR3(terbagyl_load_answer(r->load, TERBAGYL_LOAD_LEN, r->answers, TERBAGYL_ANSWERS_LEN, &value, &first, &second));
    HEAR3(terbagyl_load_ancestors(r->load, TERBAGYL_LOAD_LEN, r->requests, TERBAGYL_ANCESTORS_LEN, &value, &first, &second));
    set_word(r->sets, 2);
    set_word(r->sets + 1, 1);
    set_word(r->sets + 2, 71);
    set_word(r->sets + 3, 0);
    HEAR3(terbagyl_load_ancestors_answer(r->load, TERBAGYL_LOAD_LEN, r->sets, TERBAGYL_ANCESTORS_ANSWERS_LEN, &value, &first, &second));
    HEAR3(terbagyl_load_result(r->load, TERBAGYL_LOAD_LEN, r->slice, TERBAGYL_SLICE_LEN, &value, &first, &second));
    HEAR3(terbagyl_trip_bound(r->typed, TERBAGYL_MANIFEST_LEN, request, &value, &first, &second));
}

static int same_round(const Round *a, const Round *b, int with_schema) {
    return a->count == b->count && !memcmp(a->said, b->said, (size_t)a->count * 8) && (!with_schema || !memcmp(a->schema, b->schema, TERBAGYL_SCHEMA_LEN * 8)) &&
           !memcmp(a->manifest, b->manifest, TERBAGYL_MANIFEST_LEN * 8) && !memcmp(a->contribution, b->contribution, TERBAGYL_CONTRIBUTION_LEN * 8) &&
           !memcmp(a->typed, b->typed, TERBAGYL_MANIFEST_LEN * 8) && !memcmp(a->text, b->text, TERBAGYL_MANIFEST_TEXT_LEN) && !memcmp(a->load, b->load, TERBAGYL_LOAD_LEN * 8) &&
           !memcmp(a->batch, b->batch, TERBAGYL_BATCH_LEN * 8) && !memcmp(a->requests, b->requests, TERBAGYL_ANCESTORS_LEN * 8) && !memcmp(a->slice, b->slice, TERBAGYL_SLICE_LEN * 8);
}

static int none_refused(const Round *r, int calls) {
    for (int n = 0; n < calls; n++)
        if (r->said[2 * n] != 0) return 0;
    return 1;
}

static void unaligned(void) {
    Round aligned = new_round(0);
    all_calls(&aligned, NULL);
    check("all calls one after the other, in buffers that are aligned: none refused, two entities loaded",
          none_refused(&aligned, 12) && aligned.slice[0] == 2);
    for (size_t shift = 1; shift < 8; shift++) {
        Round r = new_round(shift);
        all_calls(&r, NULL);
        char what[100];
        snprintf(what, sizeof what, "the same in buffers %zu bytes past an aligned address: the same answers and words", shift);
        check(what, same_round(&aligned, &r, 1));
        free_round(r, shift);
    }
    free_round(aligned, 0);
}

/* ---------------------------------------------------------------- threads */

enum { THREADS = 4, ROUNDS = 50 };

typedef struct {
    const uint64_t *schema;
    const Round *expected;
    int good;
} Worker;

static void *work(void *argument) {
    Worker *w = argument;
    Round r = new_round(0);
    w->good = 1;
    for (int n = 0; n < ROUNDS; n++) {
        all_calls(&r, w->schema);
        w->good &= same_round(w->expected, &r, 0);
    }
    free_round(r, 0);
    return NULL;
}

static void threads(void) {
    State s = schema(), before = copy_of(s);
    Round expected = new_round(0);
    all_calls(&expected, s.words);
    pthread_t all[THREADS];
    Worker workers[THREADS];
    for (int n = 0; n < THREADS; n++) {
        workers[n] = (Worker){s.words, &expected, 0};
        if (pthread_create(&all[n], NULL, work, &workers[n])) cannot("start a thread");
    }
    for (int n = 0; n < THREADS; n++) pthread_join(all[n], NULL);
    for (int n = 0; n < THREADS; n++) {
        char what[100];
        snprintf(what, sizeof what, "thread %d of four on one schema: 50 rounds of all calls, each as by one thread alone", n + 1);
        check(what, workers[n].good);
    }
    check("the schema is as it was", same(s.words, before.words, s.len));
    free_round(expected, 0);
}

/* ---------------------------------------------------------------- a manifest united in place */

/* What unite_manifests answers to these two, and that it leaves what union_manifests gives, or the manifest. */
static void united(const char *what, State m, State other, uint64_t number) {
    State expected = state(TERBAGYL_MANIFEST_LEN), got = copy_of(m), before = copy_of(other);
    uint64_t value = 9, unused;
    uint64_t n = terbagyl_union_manifests(LENT(m), LENT(other), LENT(expected), &unused);
    uint64_t k = terbagyl_unite_manifests(LENT(got), LENT(other), &value);
    int left = number ? same(got.words, m.words, m.len) : same_rows(got, expected);
    check(what, n == number && k == number && value == 0 && left && same(other.words, before.words, other.len));
}

static void in_place(void) {
    uint64_t r = request_type(10, 500, 20), value = 9;
    State l = case_l(TERBAGYL_MANIFEST_LEN), empty = state(TERBAGYL_MANIFEST_LEN);
    united("unite_manifests with an empty one", l, empty, 0);
    united("unite_manifests of an empty one", empty, l, 0);
    united("unite_manifests of two that share an entry", l, roots(TERBAGYL_MANIFEST_LEN, r, 5, 9), 0);
    united("unite_manifests with a copy of itself", l, copy_of(l), 0);
    united("unite_manifests up to 4,096 nodes", roots(TERBAGYL_MANIFEST_LEN, r, 0, 4000), roots(TERBAGYL_MANIFEST_LEN, r, 3000, 1096), 0);
    united("unite_manifests over 4,096 nodes is 4", roots(TERBAGYL_MANIFEST_LEN, r, 0, 4000), roots(TERBAGYL_MANIFEST_LEN, r, 3000, 1097), 4);
    State many = state(TERBAGYL_MANIFEST_LEN), more = state(TERBAGYL_MANIFEST_LEN);
    for (uint64_t n = 0; n < 64; n++) put_entry(many, n);
    put_entry(more, 64);
    united("unite_manifests with a 65th request type is 5", many, more, 5);
    State bad = copy_of(l);
    bad.words[2] = bad.words[1];
    united("unite_manifests with what is no manifest is 1", l, bad, 1);
    united("unite_manifests of what is no manifest is 1", bad, l, 1);
    check("unite_manifests, manifest too short is 31", terbagyl_unite_manifests(l.words, TERBAGYL_MANIFEST_LEN - 1, LENT(empty), &value) == 31 && value == 0);
    check("unite_manifests, other too short is 31", terbagyl_unite_manifests(LENT(l), empty.words, TERBAGYL_MANIFEST_LEN - 1, &value) == 31 && value == 0);
    check("unite_manifests, other NULL with 0 is 31", terbagyl_unite_manifests(LENT(l), NULL, 0, &value) == 31 && value == 0);
    check("unite_manifests, manifest NULL with 0 is 31", terbagyl_unite_manifests(NULL, 0, LENT(l), &value) == 31 && value == 0);
}

int main(void) {
    equal_inputs();
    null_with_zero();
    unaligned();
    threads();
    in_place();
    printf("misuse: %d passed, %d failed\n", passed, failed);
    return failed > 0;
}
