/* What each call takes on hard inputs: the stack below the caller's frame, and the processor's time. A line for each, then the most for each name.
   Ends with 1 where a call takes more than a second, or more stack than docs/FORMS.md states (stated.h).
   costs threads: each call on a thread with exactly the stated stack, and on one with too little, which must end the process.
   costs manifests | schemas | loads: a part of it. */
#include "jobs.h"
#include "stated.h"
#include <pthread.h>
#include <signal.h>
#include <sys/wait.h>
#include <unistd.h>

static Stack the_stack;
static int on_threads; /* each call on a thread of its own, and nothing is measured */
static int passed, failed;
static size_t text_bytes = 65536; /* the bytes that a program takes */

enum { NAMES = 32 };
static struct {
    const char *call;
    size_t bytes;
    double seconds;
} most[NAMES];
static int too_much;

static void keep_most(const char *call, Cost c) {
    int n = 0;
    while (n < NAMES - 1 && most[n].call && strcmp(most[n].call, call)) n++;
    most[n].call = call;
    if (c.bytes > most[n].bytes) most[n].bytes = c.bytes;
    if (c.seconds > most[n].seconds) most[n].seconds = c.seconds;
}

static void say(const char *call, const char *input, const Job *j, Cost c) {
    if (on_threads) {
        printf("ok      %s on a thread of %zu bytes: %s\n", call, thread_bytes(call), input);
        fflush(stdout);
        passed++;
        return;
    }
    keep_most(call, c);
    const char *over = c.seconds > 1.0 ? "  OVER A SECOND" : c.bytes > stated_bytes(call) ? "  MORE THAN STATED" : "";
    too_much += *over != 0;
    printf("%-24s %9zu bytes %10.2f ms  %2llu at %-7llu %s%s\n", call, c.bytes, c.seconds * 1e3, (unsigned long long)j->number,
           (unsigned long long)j->value, input, over);
    fflush(stdout);
}

static void *thread_run(void *job) {
    run_job(job);
    return NULL;
}

/* The call made on a thread with a stack of exactly so many bytes, whole pages, and a page below it that nobody may touch: the C library would
   lend a larger stack that is left over. */
static void on_a_thread(Job *j, size_t bytes) {
    enum { PAGE = 4096 };
    pthread_attr_t attr;
    pthread_t thread;
    Stack s = new_stack(PAGE + bytes);
    if (mprotect(s.low, PAGE, PROT_NONE) || pthread_attr_init(&attr) || pthread_attr_setstack(&attr, s.low + PAGE, bytes) ||
        pthread_create(&thread, &attr, thread_run, j))
        cannot("start a thread");
    pthread_join(thread, NULL);
    pthread_attr_destroy(&attr);
    munmap(s.low, s.bytes);
}

static Cost made(Job *j) {
    Cost none = {0, 0};
    if (!on_threads) return measured(the_stack, j);
    on_a_thread(j, thread_bytes(j->call));
    return none;
}

static Cost cost_of(Job *j, const char *input) {
    Cost c = made(j);
    say(j->call, input, j, c);
    return c;
}

#define COST(input, ...)              \
    do {                              \
        Job j_ = {__VA_ARGS__};       \
        cost_of(&j_, input);          \
    } while (0)

/* ---------------------------------------------------------------- manifests */

/* 64 entries of 64 nodes, in chains of 24 steps that alternate fields and roots; `other`: other ids. */
static State full_manifest(uint64_t other) {
    State m = state(TERBAGYL_MANIFEST_LEN);
    for (uint64_t e = 0; e < 64; e++) {
        put_entry(m, request_type(e, 500, 20));
        uint64_t nodes = 0;
        for (uint64_t id = other; nodes < 64; id += 2)
            for (uint64_t d = 1; d <= 24 && nodes < 64; d++, nodes++) {
                if (d == 1)
                    put_node(m, d, E, id, 0);
                else
                    put_node(m, d, d % 3 == 0 ? E : F, 65535, d % 2);
            }
    }
    return m;
}

/* One entry, `nodes` nodes: roots of 24 steps each. */
static State one_entry(size_t words, uint64_t nodes, uint64_t first, uint64_t by) {
    State m = state(words);
    put_entry(m, request_type(10, 500, 20));
    for (uint64_t id = first; nodes > 0; id += by)
        for (uint64_t d = 1; d <= 24 && nodes > 0; d++, nodes--) put_node(m, d, d == 1 ? E : F, d == 1 ? id : 65535, 1);
    return m;
}

static Text listing_of(State m, int contribution) {
    State out = state(TERBAGYL_MANIFEST_TEXT_LEN / 8);
    uint64_t bytes = 0;
    uint64_t n = contribution ? terbagyl_write_contribution(LENT(m), (uint8_t *)out.words, TERBAGYL_MANIFEST_TEXT_LEN, &bytes)
                              : terbagyl_write_manifest(LENT(m), (uint8_t *)out.words, TERBAGYL_MANIFEST_TEXT_LEN, &bytes);
    if (n) cannot("write a listing");
    Text t = {(char *)out.words, bytes, TERBAGYL_MANIFEST_TEXT_LEN};
    return t;
}

static void manifests(void) {
    State out = state(TERBAGYL_MANIFEST_LEN), out_c = state(TERBAGYL_CONTRIBUTION_LEN), bytes = state(TERBAGYL_MANIFEST_TEXT_LEN / 8);
    COST("", CALL(empty_manifest), .out = out);
    State a = full_manifest(0), b = full_manifest(1);
    COST("4,096 nodes each, all the same", CALL(union_manifests), .x = a, .y = a, .out = out);
    COST("4,096 nodes each, 64 entries, none the same: 4", CALL(union_manifests), .x = a, .y = b, .out = out);
    State l = one_entry(TERBAGYL_MANIFEST_LEN, 2048, 0, 2), r = one_entry(TERBAGYL_MANIFEST_LEN, 2048, 1, 2);
    COST("2,048 nodes each in one entry, in turn", CALL(union_manifests), .x = l, .y = r, .out = out);
    State c = one_entry(TERBAGYL_CONTRIBUTION_LEN, 512, 0, 2), d = one_entry(TERBAGYL_CONTRIBUTION_LEN, 512, 1, 2);
    COST("512 nodes each, in turn", CALL(union_contributions), .x = c, .y = d, .out = out_c);
    State e = one_entry(TERBAGYL_CONTRIBUTION_LEN, 1024, 0, 1);
    COST("1,024 nodes each, all the same", CALL(union_contributions), .x = e, .y = e, .out = out_c);

    State m = one_entry(TERBAGYL_MANIFEST_LEN, 3072, 0, 2);
    State more = one_entry(TERBAGYL_CONTRIBUTION_LEN, 1024, 1, 2);
    COST("1,024 nodes to 3,072, in turn", CALL(add), .x = more, .out = m);
    State u = one_entry(TERBAGYL_MANIFEST_LEN, 2048, 0, 2);
    COST("2,048 nodes to 2,048, in turn", CALL(unite_manifests), .x = r, .out = u);
    State v = full_manifest(0);
    COST("4,096 nodes each, 64 entries, none the same: 4", CALL(unite_manifests), .x = b, .out = v);

    State place = state(25);
    place.words[0] = request_type(63, 500, 20);
    COST("the last entry of 64", CALL(has_in_manifest), .x = a, .y = {place.words, 1});
    State deep = state(25);
    deep.words[0] = request_type(10, 500, 20);
    for (uint64_t n = 1; n < 25; n++) deep.words[n] = n == 1 ? E * 65536 + 84 : 65535;
    COST("a position of 24 steps", CALL(has_in_manifest), .x = l, .y = deep);
    COST("a position of 24 steps", CALL(has_in_contribution), .x = e, .y = deep);

    State whole = one_entry(TERBAGYL_MANIFEST_LEN, 4096, 0, 1);
    COST("the last entry of 64", CALL(trip_bound), .x = a, .request = request_type(63, 500, 20));
    COST("4,096 nodes in one entry, 24 deep", CALL(trip_bound), .x = whole, .request = request_type(10, 500, 20));
    COST("no entry of 64", CALL(trip_bound), .x = a, .request = request_type(64, 500, 20));

    Text t = listing_of(a, 0), tc = listing_of(e, 1);
    COST("4,096 nodes", CALL(read_manifest), .text = t, .out = out);
    COST("1,024 nodes", CALL(read_contribution), .text = tc, .out = out_c);
    COST("4,096 nodes", CALL(write_manifest), .x = a, .out = bytes);
    COST("1,024 nodes", CALL(write_contribution), .x = e, .out = bytes);
}

/* ---------------------------------------------------------------- schemas, steps and typing */

/* The largest schema: 142,336 items less the attributes of type 0, which can have none. */
static Text largest_schema(void) {
    Text t = text();
    SAY(&t, "T\t0\t7\n");
    for (int n = 1; n < 1024; n++) {
        SAY(&t, "T\t%d\t7\n", n);
        for (int f = 0; f < 64; f++) SAY(&t, "F\t%d\t0\n", f);
    }
    for (int n = 0; n < 1024; n++) {
        SAY(&t, "E\t%d\n", n);
        for (int f = 0; f < 64; f++) SAY(&t, "F\t%d\t1023\n", f);
    }
    for (int n = 0; n < 8192; n++) SAY(&t, "L\t%d\t1023\n", n);
    for (int n = 0; n < 1024; n++) SAY(&t, "C\t%d\t1023\n", n);
    return t;
}

/* A type of 951 nodes and 23 steps: 30 records of 30 fields below a chain of 21. */
static Text wide_schema(void) {
    Text t = text();
    SAY(&t, "T\t0\t3\nT\t1\t7\n");
    for (int f = 0; f < 30; f++) SAY(&t, "F\t%d\t0\n", f);
    SAY(&t, "T\t2\t7\n");
    for (int f = 0; f < 30; f++) SAY(&t, "F\t%d\t1\n", f);
    for (int n = 3; n < 24; n++) SAY(&t, "T\t%d\t7\nF\t1\t%d\n", n, n - 1);
    return t;
}

static State schema_of(Text t) {
    State s = state(TERBAGYL_SCHEMA_LEN);
    uint64_t value;
    if (terbagyl_read_schema(BYTES(t), LENT(s), &value)) cannot("read a schema");
    return s;
}

/* 127 paths of 8 nodes in one union, 253 path nodes and a trie of 1,016, wrapped by `rec 1`. */
static Text many_paths(const char *before) {
    Text t = text();
    SAY(&t, "%s", before);
    for (int n = 0; n < 127; n++) SAY(&t, "lit\t%d\n%s", n, n ? "union\n" : "");
    for (int n = 0; n < 7; n++) SAY(&t, "attr\t%d\n", n);
    SAY(&t, "rec\t1\n");
    return t;
}

/* A trie of 42 paths with 24 steps; then so many roots of those paths, which gain the 23 fields again, and again and again. Of 127 the first fill
   the small stack, of 36 the last lines: the text is then run again from its first line. */
static Text fields_gained(const char *before, int paths) {
    Text t = text();
    SAY(&t, "%snone\n", before);
    for (int round = 0; t.len + 2048 < text_bytes || round < 3; round++) {
        for (int n = 0; n < (round < 2 ? 21 : paths); n++) SAY(&t, "lit\t%d\nunion\n", (n + 21 * round) % 42);
        for (int n = 0; n < 23; n++) SAY(&t, "attr\t%d\n", n % 10);
        SAY(&t, "drop\n");
    }
    SAY(&t, "lit\t0\n");
    for (int n = 0; n < 23; n++) SAY(&t, "attr\t%d\n", n % 10);
    SAY(&t, "union\n");
    return t;
}

/* These lines again and again, up to the bytes that a program takes. */
static Text filled(Text t, const char *again) {
    while (t.len + strlen(again) <= text_bytes) SAY(&t, "%s", again);
    return t;
}

/* 32 results of 256 path nodes and as long paths as there can be: the large stack. */
static Text large_stack(const char *before) {
    Text t = text();
    SAY(&t, "%s", before);
    for (int r = 0; r < 31; r++) {
        SAY(&t, "lit\t%d\n", r);
        for (int n = 0; n < 22; n++) SAY(&t, "attr\t%d\n", n);
        for (int n = 0; n < 120; n++) SAY(&t, "set\n");
    }
    for (int r = 1; r < 31; r++) SAY(&t, "in\n");
    return t;
}

/* 30 results, each 20 chains of 24 nodes from own roots, then united from the top. */
static Text wide_results(const char *before) {
    Text t = text();
    SAY(&t, "%s", before);
    for (int r = 0; r < 30; r++) {
        for (int n = 0; n < 40; n++) SAY(&t, "lit\t%d\n%s", n, n ? "union\n" : "");
        for (int n = 0; n < 22; n++) SAY(&t, "attr\t%d\n", n);
        SAY(&t, "rec\t1\n");
    }
    for (int r = 1; r < 30; r++) SAY(&t, "drop\nunion\n");
    return t;
}

/* After a result that fills the small stack: `in` of 20 paths with 21 steps and 14 with two, or `full` of 30 paths and a type of 30 fields. Two
   results are left: 6. */
static Text on_large_stack(const char *before, int in) {
    Text t = many_paths(before);
    for (int n = 0; n < (in ? 20 : 30); n++) SAY(&t, "lit\t%d\n%s", n, n ? "union\n" : "");
    if (!in) {
        SAY(&t, "full\t1\n");
        return t;
    }
    for (int n = 0; n < 20; n++) SAY(&t, "attr\t%d\n", n);
    for (int n = 0; n < 14; n++) SAY(&t, "lit\t%d\n%s", 100 + n, n ? "union\n" : "");
    SAY(&t, "attr\t1\nin\n");
    return t;
}

static void step_texts(State schema) {
    static const struct {
        const char *what, *again;
    } rounds[] = {
        {"127 paths gain 23 fields in a trie of 1,008 nodes, again and again", ""},
        {"36 paths gain 23 fields in a trie of 1,008 nodes, again and again, and all of it on both stacks", ""},
        {"127 paths, a trie of 1,016 nodes, `attr` of a field that the literal lacks, again and again", "attr\t9\n"},
        {"the same, `attr` of the literal's field and `rec`, again and again", "attr\t1\nrec\t1\n"},
        {"the same, `none` and `union`, again and again", "drop\nnone\nunion\n"},
        {"a type of 951 nodes and `in`, again and again", "drop\nvar\tp\nfull\t23\nin\n"},
        {"a type of 951 nodes united, again and again", "drop\nvar\tp\nfull\t23\nunion\n"},
    };
    State out = state(TERBAGYL_CONTRIBUTION_LEN);
    uint64_t request = request_type(10, 500, 20);
    char input[200];
    for (size_t n = 0; n < sizeof rounds / sizeof *rounds; n++) {
        for (int policy = 0; policy < 2; policy++) {
            Text t;
            if (n < 2) {
                t = fields_gained(policy ? "A\t10\t500\t20\n" : "", n == 0 ? 127 : 36);
            } else if (n < 5) {
                t = filled(many_paths(policy ? "A\t10\t500\t20\n" : ""), rounds[n].again);
            } else {
                t = text();
                SAY(&t, "%svar\tp\nfull\t23\n", policy ? "A\t10\t500\t20\n" : "");
                t = filled(t, rounds[n].again);
            }
            snprintf(input, sizeof input, "%s (%zu bytes)", rounds[n].what, t.len);
            State m = state(TERBAGYL_MANIFEST_LEN);
            if (policy)
                COST(input, CALL(add_policy), .x = schema, .text = t, .out = m);
            else
                COST(input, CALL(analyse), .x = schema, .request = request, .text = t, .out = out);
            free(m.words);
            free(t.bytes);
        }
    }
    for (int policy = 0; policy < 2; policy++) {
        const char *before = policy ? "A\t10\t500\t20\n" : "";
        Text texts[] = {large_stack(before), wide_results(before), on_large_stack(before, 1), on_large_stack(before, 0)};
        const char *what[] = {"31 results of 121 path nodes and 23 steps, then `in`", "30 results of 40 paths of 23 steps",
                              "`in` of 20 paths with 21 steps and 14 with two, on the large stack", "`full` of 30 paths, on the large stack"};
        for (int n = 0; n < 4; n++) {
            snprintf(input, sizeof input, "%s (%zu bytes)", what[n], texts[n].len);
            State m = state(TERBAGYL_MANIFEST_LEN);
            if (policy)
                COST(input, CALL(add_policy), .x = schema, .text = texts[n], .out = m);
            else
                COST(input, CALL(analyse), .x = schema, .request = request, .text = texts[n], .out = out);
            free(m.words);
            free(texts[n].bytes);
        }
    }
    /* a policy of two steps, to a full manifest */
    State m = full_manifest(0);
    Text t = text();
    SAY(&t, "A\t0\t500\t20\nvar\tp\nlit\t0\nin\n");
    COST("two steps and `in`, to 4,096 nodes", CALL(add_policy), .x = schema, .text = t, .out = m);
    t.len = 0;
    while (t.len + 40 < text_bytes) SAY(&t, "A\t0\t500\t20\nlit\t0\nattr\t65535\n");
    COST("contributions of two steps to 4,096 nodes, again and again", CALL(add_policy), .x = schema, .text = t, .out = m);
    t.len = 0;
    while (t.len + 40 < text_bytes) SAY(&t, "A\t0\t500\t20\nvar\tp\nfull\t23\n");
    State n = one_entry(TERBAGYL_MANIFEST_LEN, 3000, 0, 1);
    COST("contributions of 952 nodes to 3,000, again and again", CALL(add_policy), .x = schema, .text = t, .out = n);
}

static void schemas(void) {
    State out = state(TERBAGYL_SCHEMA_LEN);
    Text t = largest_schema();
    COST("the largest schema", CALL(read_schema), .text = t, .out = out);
    State largest = schema_of(t), wide = schema_of(wide_schema());
    Text names = text();
    for (int n = 0; n < 4; n++) {
        SAY(&names, "T\t%d\t9", n);
        for (int k = 0; k < 65536; k++) SAY(&names, "\t%d", k);
        SAY(&names, "\n");
    }
    COST("four types of 65,536 names each", CALL(read_schema), .text = names, .out = out);

    State typed = state(TERBAGYL_MANIFEST_LEN);
    State m = state(TERBAGYL_MANIFEST_LEN);
    put_entry(m, request_type(10, 500, 20));
    for (uint64_t n = 0; n < 4096; n++) put_node(m, 1, E, 4096 + n, 0);
    COST("the largest schema, 4,096 literals", CALL(type), .x = largest, .y = m, .out = typed);
    State k = state(TERBAGYL_MANIFEST_LEN);
    put_entry(k, request_type(1023, 1023, 1023));
    for (uint64_t n = 0; n < 63; n++) {
        put_node(k, 1, E, 8000 + n, 0);
        for (uint64_t f = 0; f < 64; f++) put_node(k, 2, F, f, 0);
    }
    COST("the largest schema, 63 literals with 64 fields each", CALL(type), .x = largest, .y = k, .out = typed);
    State v = state(TERBAGYL_MANIFEST_LEN);
    put_entry(v, request_type(1023, 1023, 1023));
    put_node(v, 1, P, 0, 0);
    for (uint64_t f = 0; f < 64; f++) {
        put_node(v, 2, F, f, 0);
        for (uint64_t g = 0; g < 62; g++) put_node(v, 3, F, g, 0);
    }
    COST("the largest schema, principal with 64 fields of 62", CALL(type), .x = largest, .y = v, .out = typed);
    State s = state(TERBAGYL_CONTRIBUTION_LEN);
    Text small = text();
    SAY(&small, "var\tp\nattr\t7\n");
    COST("the largest schema, two steps", CALL(analyse), .x = largest, .request = request_type(10, 500, 20), .text = small, .out = s);
    step_texts(wide);
}

/* ---------------------------------------------------------------- loads */

/* A load, and how it is answered. */
typedef struct Load Load;
struct Load {
    const char *what;
    State manifest, context;
    uint64_t principal, resource;
    /* puts the answer to row `row` of the batch; may look at anything */
    void (*answer)(Answers *a, uint64_t batch, uint64_t row, uint64_t entity, uint64_t node);
    /* how many ids each ancestors request is answered with, and whether they are other ids each time */
    uint64_t ids, others;
    int refused; /* a call may be refused: the load ends there */
};

static Cost larger(Cost a, Cost b) {
    Cost c = {a.bytes > b.bytes ? a.bytes : b.bytes, a.seconds > b.seconds ? a.seconds : b.seconds};
    return c;
}

/* All calls of a load; of batches and answers the most. */
static void load(const Load *l) {
    State st = state(TERBAGYL_LOAD_LEN), batch = state(TERBAGYL_BATCH_LEN), requests = state(TERBAGYL_ANCESTORS_LEN), slice = state(TERBAGYL_SLICE_LEN);
    Job begin = {CALL(load_begin), .x = l->manifest, .y = l->context, .out = st, .request = request_type(10, 500, 20), .principal = l->principal,
                 .resource = l->resource};
    cost_of(&begin, l->what);
    if (begin.number) goto end;
    Cost batches = {0, 0}, answered = {0, 0};
    Job b = {CALL(load_batch), .x = st, .out = batch}, a = {CALL(load_answer), .out = st};
    for (uint64_t n = 0; st.words[0] == 1; n++) {
        batches = larger(batches, made(&b));
        if (b.number) cannot("take a batch");
        Answers given = answers();
        for (uint64_t row = 0; row < b.value; row++) l->answer(&given, n, row, batch.words[row] % 65536, batch.words[row] / 65536);
        State lent = {given.words, given.len};
        a.x = lent;
        answered = larger(answered, made(&a));
        free(given.words);
        if (a.number) break;
    }
    say("load_batch", l->what, &b, batches);
    say("load_answer", l->what, &a, answered);
    if (a.number) goto end;
    Job asks = {CALL(load_ancestors), .x = st, .out = requests};
    cost_of(&asks, l->what);
    if (asks.number) goto end;
    Answers sets = answers();
    for (uint64_t n = 0; n < asks.value; n++) {
        begin_set(&sets, l->ids);
        for (uint64_t k = 0; k < l->ids; k++) put_answer(&sets, 20000 + k + (l->others ? n * l->ids : 0));
    }
    State lent = {sets.words, sets.len};
    Job told = {CALL(load_ancestors_answer), .x = lent, .out = st};
    cost_of(&told, l->what);
    free(sets.words);
    if (told.number) goto end;
    Job result = {CALL(load_result), .x = st, .out = slice};
    cost_of(&result, l->what);
end:
    if ((begin.number || a.number) && !l->refused) cannot("make the load that was meant");
    free(st.words), free(batch.words), free(requests.words), free(slice.words);
}

static State entry_with_p(void) {
    State m = state(TERBAGYL_MANIFEST_LEN);
    put_entry(m, request_type(10, 500, 20));
    put_node(m, 1, P, 0, 0);
    return m;
}

static void answer_empty(Answers *a, uint64_t batch, uint64_t row, uint64_t entity, uint64_t node) {
    (void)batch, (void)row, (void)entity, (void)node;
    begin_answer(a, 0, 0);
}

/* Values in values, as deep as there are rows: records or sets of one. */
static uint64_t nested(uint64_t n, uint64_t of, uint64_t kind) {
    if (n == 1 && of > 1) return value_row(1, 3, kind, 0);
    return n < of ? value_row(n, kind == SET ? 0 : 3, kind, 0) : value_row(n, kind == SET ? 0 : 3, NUMBER, 7);
}

static State nested_context(uint64_t kind) {
    State c = state(TERBAGYL_CONTEXT_LEN);
    for (uint64_t n = 1; n <= 8192; n++) put_word(c, nested(n, 8192, kind));
    return c;
}

/* A set of two sets of two, and so on: the two differ in their last element alone. */
static void pairs_of_sets(State c, uint64_t levels, uint64_t last, uint64_t depth, uint64_t key) {
    if (levels == 0) {
        put_word(c, value_row(depth, key, NUMBER, last));
        return;
    }
    put_word(c, value_row(depth, key, SET, 0));
    pairs_of_sets(c, levels - 1, 1, depth + 1, 0);
    pairs_of_sets(c, levels - 1, last + 1, depth + 1, 1);
}

/* A set of two long records that differ in their last field alone. */
static State two_long_records(void) {
    State c = state(TERBAGYL_CONTEXT_LEN);
    put_word(c, value_row(1, 0, SET, 0));
    for (uint64_t e = 0; e < 2; e++) {
        put_word(c, value_row(2, e, RECORD, 0));
        for (uint64_t f = 0; f < 4093; f++) put_word(c, value_row(3, f, NUMBER, f == 4092 ? e : 1));
    }
    return c;
}

/* The principal with n fields. */
static State fan(uint64_t n) {
    State m = entry_with_p();
    for (uint64_t f = 0; f < n; f++) put_node(m, 2, F, f, 0);
    return m;
}

/* The principal has so many fields, all the entity 1; that one has `values` fields and `parents` parents in each answer. */
static uint64_t fan_fields, fan_values, fan_parents, fan_other_keys;

static void answer_fan(Answers *a, uint64_t batch, uint64_t row, uint64_t entity, uint64_t node) {
    (void)entity, (void)node;
    if (batch == 0) {
        begin_answer(a, 0, fan_fields);
        for (uint64_t f = 0; f < fan_fields; f++) put_answer(a, value_row(1, f, ENTITY, 1));
    } else {
        begin_answer(a, fan_parents, fan_values);
        for (uint64_t p = 0; p < fan_parents; p++) put_answer(a, p);
        for (uint64_t v = 0; v < fan_values; v++) put_answer(a, value_row(1, v + (fan_other_keys ? row * fan_values : 0), NUMBER, 7));
    }
}

/* The same rows from the context, whose values are not counted: so many fields, all the entity 1. */
static void context_fan(uint64_t fields, State *manifest, State *context) {
    *manifest = state(TERBAGYL_MANIFEST_LEN);
    *context = state(TERBAGYL_CONTEXT_LEN);
    put_entry(*manifest, request_type(10, 500, 20));
    put_node(*manifest, 1, C, 0, 0);
    for (uint64_t f = 0; f < fields; f++) {
        put_node(*manifest, 2, F, f, 0);
        put_word(*context, value_row(1, f, ENTITY, 1));
    }
}

static void answer_context_fan(Answers *a, uint64_t batch, uint64_t row, uint64_t entity, uint64_t node) {
    answer_fan(a, batch + 1, row, entity, node);
}

/* One answer of sets of one, as deep as the lent words: judged for its form before 15. */
static void answer_too_deep(Answers *a, uint64_t batch, uint64_t row, uint64_t entity, uint64_t node) {
    (void)batch, (void)row, (void)entity, (void)node;
    begin_answer(a, 0, 24575);
    for (uint64_t n = 1; n <= 24575; n++) put_answer(a, nested(n, 24575, SET));
}

static void answer_fan_apart(Answers *a, uint64_t batch, uint64_t row, uint64_t entity, uint64_t node) {
    (void)row, (void)entity, (void)node;
    if (batch == 0) {
        begin_answer(a, 0, fan_fields);
        for (uint64_t f = 0; f < fan_fields; f++) put_answer(a, value_row(1, f, ENTITY, 60000 - f));
    } else {
        begin_answer(a, 0, 1);
        put_answer(a, value_row(1, 0, NUMBER, 7));
    }
}

/* Two answers to one entity, both 4,096 deep. */
static uint64_t deep_kind;

static void answer_deep(Answers *a, uint64_t batch, uint64_t row, uint64_t entity, uint64_t node) {
    (void)batch, (void)row, (void)entity, (void)node;
    begin_answer(a, 0, 4096);
    for (uint64_t n = 1; n <= 4096; n++) put_answer(a, nested(n, 4096, deep_kind));
}

static void answer_parents(Answers *a, uint64_t batch, uint64_t row, uint64_t entity, uint64_t node) {
    (void)batch, (void)row, (void)entity, (void)node;
    begin_answer(a, 4096, 0);
    for (uint64_t n = 0; n < 4096; n++) put_answer(a, n);
}

/* 178 chains of 23 fields, every entity the same. */
static void answer_chain(Answers *a, uint64_t batch, uint64_t row, uint64_t entity, uint64_t node) {
    (void)row, (void)entity, (void)node;
    uint64_t fields = batch == 0 ? 178 : 1;
    begin_answer(a, 0, fields);
    for (uint64_t f = 0; f < fields; f++) put_answer(a, value_row(1, f, ENTITY, 1));
}

/* The principal has a field for each request and then `sets` fields with sets of 256 ids; all else has nothing. */
static uint64_t asked_rows, asked_sets, asked_apart;

static void answer_asked(Answers *a, uint64_t batch, uint64_t row, uint64_t entity, uint64_t node) {
    (void)row, (void)entity, (void)node;
    if (batch > 0) {
        begin_answer(a, 0, 0);
        return;
    }
    begin_answer(a, 0, asked_rows + asked_sets * 257);
    for (uint64_t f = 0; f < asked_rows; f++) put_answer(a, value_row(1, f, ENTITY, asked_apart ? 1 + f : 1));
    for (uint64_t s = 0; s < asked_sets; s++) {
        put_answer(a, value_row(1, 30000 + s, SET, 0));
        for (uint64_t n = 0; n < 256; n++) put_answer(a, value_row(2, n, ENTITY, 7 * n));
    }
}

/* Requests whose ancestors tries ask for the sets of the principal, who is the resource too. */
static State asking(uint64_t rows, uint64_t sets) {
    State m = entry_with_p();
    for (uint64_t f = 0; f < rows; f++) {
        put_node(m, 2, F, f, 0);
        put_node(m, 3, R, 0, 0);
        for (uint64_t s = 0; s < sets; s++) put_node(m, 4, F, 30000 + s, 1);
    }
    return m;
}

/* A walk through entities: below each of some rows r.f.f.f .., all fields of the principal itself. */
static State walking(uint64_t rows, uint64_t steps) {
    State m = entry_with_p();
    for (uint64_t f = 0; f < rows; f++) {
        put_node(m, 2, F, f, 0);
        put_node(m, 3, R, 0, 0);
        for (uint64_t s = 0; s < steps; s++) put_node(m, 4 + s, F, 30000, s + 1 == steps);
    }
    return m;
}

static void answer_walking(Answers *a, uint64_t batch, uint64_t row, uint64_t entity, uint64_t node) {
    (void)row, (void)node;
    uint64_t fields = batch == 0 ? asked_rows : 0;
    begin_answer(a, 0, fields + 1);
    for (uint64_t f = 0; f < fields; f++) put_answer(a, value_row(1, f, ENTITY, 1 + f));
    put_answer(a, value_row(1, 30000, ENTITY, entity == 0 ? 65535 : entity - 1));
}

/* Roots e, each asking for the principal among its ancestors. */
static State literals(uint64_t n, int ask) {
    State m = state(TERBAGYL_MANIFEST_LEN);
    put_entry(m, request_type(10, 500, 20));
    for (uint64_t e = 0; e < n; e++) {
        put_node(m, 1, E, e, 0);
        if (ask) put_node(m, 2, P, 0, 1);
    }
    return m;
}

static void answer_two(Answers *a, uint64_t batch, uint64_t row, uint64_t entity, uint64_t node) {
    (void)batch, (void)row, (void)entity, (void)node;
    begin_answer(a, 0, 1);
    put_answer(a, value_row(1, 0, NUMBER, 1));
}

/* The principal alone has all values, and the manifest asks for the last of them. */
static void answer_wide(Answers *a, uint64_t batch, uint64_t row, uint64_t entity, uint64_t node) {
    (void)batch, (void)row, (void)entity, (void)node;
    begin_answer(a, 0, 8192);
    put_answer(a, value_row(1, 0, SET, 0));
    for (uint64_t n = 0; n < 4096; n++) put_answer(a, value_row(2, n, NUMBER, n));
    for (uint64_t n = 1; n < 4096; n++) put_answer(a, value_row(1, 60000 + n, NUMBER, n));
}

static void loads(void) {
    State none = state(TERBAGYL_CONTEXT_LEN), p = entry_with_p();
    State both = state(TERBAGYL_MANIFEST_LEN);
    put_entry(both, request_type(10, 500, 20));
    put_node(both, 1, P, 0, 0);
    put_node(both, 1, R, 0, 0);

    load(&(Load){"a context of records, 8,192 deep", p, nested_context(RECORD), 1, 2, answer_empty, 0, 0, 0});
    load(&(Load){"a context of sets of one, 8,192 deep", p, nested_context(SET), 1, 2, answer_empty, 0, 0, 0});
    State pairs = state(TERBAGYL_CONTEXT_LEN);
    pairs_of_sets(pairs, 11, 1, 1, 0);
    load(&(Load){"a context of sets of two, alike but for the last, 11 deep", p, pairs, 1, 2, answer_empty, 0, 0, 0});
    load(&(Load){"a context with a set of two records of 4,093 fields, alike but for the last", p, two_long_records(), 1, 2, answer_empty, 0, 0, 0});

    deep_kind = RECORD;
    load(&(Load){"two answers to one entity, records 4,096 deep", both, none, 1, 1, answer_deep, 0, 0, 0});
    deep_kind = SET;
    load(&(Load){"two answers to one entity, sets of one 4,096 deep", both, none, 1, 1, answer_deep, 0, 0, 0});
    load(&(Load){"two answers to one entity, 4,096 parents", both, none, 1, 1, answer_parents, 0, 0, 0});

    static const struct {
        const char *what;
        uint64_t fields, values, parents, other_keys;
    } fans[] = {
        {"4,095 answers to one entity, one value each", 4095, 1, 0, 0},
        {"4,095 answers to one entity, one value each under another key", 4095, 1, 0, 1},
        {"4,095 answers to one entity, one parent each", 4095, 0, 1, 0},
        {"4,095 answers to one entity, nothing in them", 4095, 0, 0, 0},
        {"2,730 answers to one entity, two values each", 2730, 2, 0, 0},
        {"2,048 answers to one entity, three values each under other keys", 2048, 3, 0, 1},
        {"1,638 answers to one entity, four values each", 1638, 4, 0, 0},
        {"512 answers to one entity, 15 values each", 512, 15, 0, 0},
        {"89 answers to one entity, 91 values each", 89, 91, 0, 0},
    };
    for (size_t n = 0; n < sizeof fans / sizeof *fans; n++) {
        fan_fields = fans[n].fields, fan_values = fans[n].values, fan_parents = fans[n].parents, fan_other_keys = fans[n].other_keys;
        load(&(Load){fans[n].what, fan(fan_fields), none, 65535, 2, answer_fan, 0, 0, 0});
    }
    static const struct {
        const char *what;
        uint64_t fields, values, parents, other_keys;
    } by_context[] = {
        {"4,095 answers to one entity of the context, two values each", 4095, 2, 0, 0},
        {"4,095 answers to one entity of the context, two values each under other keys", 4095, 2, 0, 1},
        {"4,095 answers to one entity of the context, two parents each", 4095, 0, 2, 0},
        {"2,730 answers to one entity of the context, three values each under other keys", 2730, 3, 0, 1},
    };
    for (size_t n = 0; n < sizeof by_context / sizeof *by_context; n++) {
        State m, c;
        fan_values = by_context[n].values, fan_parents = by_context[n].parents, fan_other_keys = by_context[n].other_keys;
        context_fan(by_context[n].fields, &m, &c);
        load(&(Load){by_context[n].what, m, c, 65535, 2, answer_context_fan, 0, 0, 0});
        free(m.words), free(c.words);
    }
    load(&(Load){"an answer of sets of one, 24,575 deep: 15", p, none, 1, 2, answer_too_deep, 0, 0, 1});
    fan_fields = 4095;
    load(&(Load){"4,095 answers to as many entities", fan(4095), none, 65535, 2, answer_fan_apart, 0, 0, 0});

    State chain = entry_with_p();
    for (uint64_t c = 0; c < 178; c++)
        for (uint64_t d = 2; d <= 24; d++) put_node(chain, d, F, d == 2 ? c : 0, 0);
    load(&(Load){"24 batches, 178 rows each of one entity", chain, none, 65535, 2, answer_chain, 0, 0, 0});

    static const struct {
        const char *what;
        uint64_t rows, sets, apart, ids;
    } asks[] = {
        {"1,365 requests of one entity for a set of 256 ids", 1365, 1, 0, 4},
        {"1,365 requests of as many entities for a set of 256 ids", 1365, 1, 1, 4},
        {"125 requests for 29 sets of 256 ids", 125, 29, 1, 5},
        {"409 requests for 8 sets of 256 ids", 409, 8, 1, 13},
    };
    for (size_t n = 0; n < sizeof asks / sizeof *asks; n++) {
        asked_rows = asks[n].rows, asked_sets = asks[n].sets, asked_apart = asks[n].apart;
        load(&(Load){asks[n].what, asking(asked_rows, asked_sets), none, 65535, 65535, answer_asked, asks[n].ids, 1, 0});
    }
    State sets = state(TERBAGYL_CONTEXT_LEN), ask = state(TERBAGYL_MANIFEST_LEN);
    for (uint64_t n = 0; n < 31; n++) {
        put_word(sets, value_row(1, n, SET, 0));
        for (uint64_t k = 0; k < 256; k++) put_word(sets, value_row(2, k, ENTITY, 7 * k));
    }
    put_entry(ask, request_type(10, 500, 20));
    for (uint64_t e = 0; e < 124; e++) {
        put_node(ask, 1, E, e, 0);
        put_node(ask, 2, C, 0, 0);
        for (uint64_t n = 0; n < 31; n++) put_node(ask, 3, F, n, 1);
    }
    load(&(Load){"124 requests for 31 sets of 256 ids in the context", ask, sets, 1, 2, answer_empty, 5, 1, 0});
    asked_rows = 178;
    load(&(Load){"178 requests, each through 21 entities", walking(178, 21), none, 65535, 65535, answer_walking, 4, 1, 0});
    asked_rows = 1000;
    load(&(Load){"1,000 requests, each through two entities", walking(1000, 2), none, 65535, 65535, answer_walking, 4, 1, 0});
    load(&(Load){"4,096 entities, one value each", literals(4096, 0), none, 1, 2, answer_two, 0, 0, 0});
    load(&(Load){"2,048 entities that ask for the principal, an id each", literals(2048, 1), none, 1, 2, answer_two, 1, 1, 0});
    State wide = entry_with_p();
    for (uint64_t n = 1; n < 4096; n++) put_node(wide, 2, F, n, 0);
    load(&(Load){"4,095 fields looked for in an answer of 8,192 values that has none of them", wide, none, 1, 2, answer_wide, 0, 0, 0});
}

/* ---------------------------------------------------------------- threads */

/* Runs a part on threads in a process of its own, since too little stack would end it. */
static void part_on_threads(const char *what, void (*part)(void)) {
    int counts[2];
    if (pipe(counts)) cannot("make a pipe");
    fflush(stdout);
    pid_t child = fork();
    if (child == 0) {
        passed = 0;
        part();
        if (write(counts[1], &passed, sizeof passed) != sizeof passed) _exit(2);
        _exit(0);
    }
    int status, more = 0;
    waitpid(child, &status, 0);
    close(counts[1]);
    if (WIFEXITED(status) && WEXITSTATUS(status) == 0 && read(counts[0], &more, sizeof more) == sizeof more) {
        passed += more;
    } else {
        printf("FAILED  %s: the process ended, by signal %d, in the call behind the last line\n", what, WIFSIGNALED(status) ? WTERMSIG(status) : 0);
        failed++;
    }
    close(counts[0]);
}

/* Half of what a call takes: the page below a thread's stack ends the process. */
static void too_little(void) {
    State m = one_entry(TERBAGYL_MANIFEST_LEN, 3072, 0, 2);
    State more = one_entry(TERBAGYL_CONTRIBUTION_LEN, 1024, 1, 2);
    Job j = {CALL(add), .x = more, .out = m};
    fflush(stdout);
    pid_t child = fork();
    if (child == 0) {
        on_a_thread(&j, stated_bytes("add") / 2 / 4096 * 4096);
        _exit(0);
    }
    int status;
    waitpid(child, &status, 0);
    int good = WIFSIGNALED(status) && WTERMSIG(status) == SIGSEGV;
    printf("%-7s add on a thread with half of that: the process is ended by SIGSEGV\n", good ? "ok" : "FAILED");
    *(good ? &passed : &failed) += 1;
}

static int all_on_threads(void) {
    on_threads = 1;
    text_bytes = 4096;
    part_on_threads("manifests", manifests);
    part_on_threads("schemas", schemas);
    part_on_threads("loads", loads);
    too_little();
    printf("threads: %d passed, %d failed\n", passed, failed);
    return failed > 0;
}

int main(int argc, char **argv) {
    const char *only = argc > 1 ? argv[1] : "";
    if (!strcmp(only, "threads")) return all_on_threads();
    the_stack = new_stack(16 << 20);
    if (!*only || !strcmp(only, "manifests")) manifests();
    if (!*only || !strcmp(only, "schemas")) schemas();
    if (!*only || !strcmp(only, "loads")) loads();
    printf("\nthe most for each name\n");
    for (int n = 0; n < NAMES && most[n].call; n++)
        printf("%-24s %9zu bytes of %9zu stated, %10.2f ms\n", most[n].call, most[n].bytes, stated_bytes(most[n].call), most[n].seconds * 1e3);
    printf("%d over a second or over what is stated\n", too_much);
    return too_much > 0;
}
