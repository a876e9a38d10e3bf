/* The clinic of examples/README.md from C: policy texts to a listing, questions about it, a load, and a refusal of each kind.
 * Its argument is the folder examples/clinic. A buffer is static, since some are larger than a stack should hold. */
#include <inttypes.h>
#include <stdio.h>
#include <stdlib.h>
#include <string.h>

#include "terbagyl.h"

static uint64_t schema[TERBAGYL_SCHEMA_LEN];
static uint64_t manifest[TERBAGYL_MANIFEST_LEN];
static uint64_t typed[TERBAGYL_MANIFEST_LEN];
static uint64_t contribution[TERBAGYL_CONTRIBUTION_LEN];
static uint64_t context[TERBAGYL_CONTEXT_LEN]; /* a count of 0: no rows */
static uint64_t load[TERBAGYL_LOAD_LEN];
static uint64_t batch[TERBAGYL_BATCH_LEN];
static uint64_t answers[TERBAGYL_ANSWERS_LEN];
static uint64_t requests[TERBAGYL_ANCESTORS_LEN];
static uint64_t sets[TERBAGYL_ANCESTORS_ANSWERS_LEN];
static uint64_t slice[TERBAGYL_SLICE_LEN];
static uint8_t listing[TERBAGYL_MANIFEST_TEXT_LEN];

static const char *folder;
static uint64_t value, first, second;

/* ---- Files, and what must not be refused */

static void fail(const char *what)
{
    fprintf(stderr, "clinic: %s\n", what);
    exit(1);
}

static void must(uint64_t number, const char *what)
{
    if (number != TERBAGYL_DONE) {
        fprintf(stderr, "clinic: %s: refused %" PRIu64 " at %" PRIu64 ": %s\n", what, number, value, terbagyl_reason(number));
        exit(1);
    }
}

/* A file of the folder; its bytes stand in `text` until the next is read. */
static uint8_t text[65536];
static size_t text_len;

static void read_file(const char *name)
{
    char path[4096];
    if (snprintf(path, sizeof path, "%s/%s", folder, name) >= (int)sizeof path)
        fail("the folder's name is too long");
    FILE *file = fopen(path, "rb");
    if (file == NULL)
        fail(path);
    text_len = fread(text, 1, sizeof text, file);
    fclose(file);
}

/* A text that is made: lines are put behind one another. */
static void begin_text(void) { text_len = 0; }

static void put(const char *line)
{
    memcpy(text + text_len, line, strlen(line));
    text_len += strlen(line);
}

/* ---- Policy texts to a manifest */

static void empty(void)
{
    must(terbagyl_empty_manifest(manifest, TERBAGYL_MANIFEST_LEN, &value), "the empty manifest");
}

static void add_policy(const char *name)
{
    read_file(name);
    must(terbagyl_add_policy(schema, TERBAGYL_SCHEMA_LEN, text, text_len, manifest, TERBAGYL_MANIFEST_LEN, &value), name);
}

/* The same of steps that stand in the program, under the request type of openFitting. */
static uint64_t add_steps(const char *steps)
{
    uint64_t open_fitting = terbagyl_request_type(10, 500, 20);
    uint64_t number = terbagyl_analyse(schema, TERBAGYL_SCHEMA_LEN, open_fitting, (const uint8_t *)steps, strlen(steps),
                                       contribution, TERBAGYL_CONTRIBUTION_LEN, &value);
    if (number == TERBAGYL_DONE)
        number = terbagyl_add(manifest, TERBAGYL_MANIFEST_LEN, contribution, TERBAGYL_CONTRIBUTION_LEN, &value);
    return number;
}

static void show_listing(void)
{
    must(terbagyl_write_manifest(manifest, TERBAGYL_MANIFEST_LEN, listing, TERBAGYL_MANIFEST_TEXT_LEN, &value), "the listing");
    fwrite(listing, 1, (size_t)value, stdout);
}

/* ---- Questions */

static void ask(const char *question, const uint64_t *place, size_t place_len)
{
    static const char *const words[] = {"missing", "there", "there and marked"};
    must(terbagyl_has_in_manifest(manifest, TERBAGYL_MANIFEST_LEN, place, place_len, &value), "has");
    printf("%s: %s\n", question, words[value]);
}

static void ask_questions(void)
{
    const uint64_t open_fitting = terbagyl_request_type(10, 500, 20);
    const uint64_t role[] = {open_fitting, terbagyl_principal(), terbagyl_field(7)};
    const uint64_t licence[] = {open_fitting, terbagyl_principal(), terbagyl_field(5)};
    const uint64_t clinic[] = {open_fitting, terbagyl_principal(), terbagyl_resource(), terbagyl_field(3)};
    ask("openFitting reads something", role, 1);
    ask("openFitting reads principal.role", role, 3);
    ask("openFitting reads principal.licence", licence, 3);
    ask("openFitting asks whether the principal is in resource.clinic", clinic, 4);
}

/* For many questions: the rows, walked once. */
static void count_rows(void)
{
    uint64_t entries = 0, marked = 0;
    for (uint64_t i = 1; i <= manifest[0]; i++) {
        if (terbagyl_row_depth(manifest[i]) == 0)
            entries++;
        else
            marked += (uint64_t)terbagyl_row_is_marked(manifest[i]);
    }
    printf("%" PRIu64 " rows, %" PRIu64 " entries, %" PRIu64 " marks\n", manifest[0], entries, marked);
}

/* ---- A store: what the clinic has of an entity. Aray, 701, is in the clinic 901, and so is the fitting 801. */

static uint64_t answers_end;

static void begin_answers(void)
{
    answers[0] = 0;
    answers_end = 1;
}

static void put_answer(uint64_t word) { answers[answers_end++] = word; }

static void answer_for(uint16_t entity)
{
    answers[0]++;
    switch (entity) {
    case 701:
        put_answer(terbagyl_answer_head(1, 2));
        put_answer(901);
        put_answer(terbagyl_value_row(1, 3, TERBAGYL_VALUE_ENTITY, 901));
        put_answer(terbagyl_value_row(1, 7, TERBAGYL_VALUE_PRIMITIVE, 1));
        break;
    case 801:
        put_answer(terbagyl_answer_head(0, 1));
        put_answer(terbagyl_value_row(1, 3, TERBAGYL_VALUE_ENTITY, 901));
        break;
    case 901:
        put_answer(terbagyl_answer_head(1, 0));
        put_answer(950);
        break;
    default:
        put_answer(TERBAGYL_ABSENT);
    }
}

/* Whether an entity has an ancestor. */
static int is_in(uint16_t entity, uint64_t ancestor)
{
    return (entity == 701 && (ancestor == 901 || ancestor == 950)) || (entity == 901 && ancestor == 950);
}

/* ---- A load */

static uint64_t begin_load(void)
{
    return terbagyl_load_begin(manifest, TERBAGYL_MANIFEST_LEN, terbagyl_request_type(10, 500, 20), 701, 801,
                               context, TERBAGYL_CONTEXT_LEN, load, TERBAGYL_LOAD_LEN, &value, &first, &second);
}

static uint64_t take_answers(void)
{
    return terbagyl_load_answer(load, TERBAGYL_LOAD_LEN, answers, TERBAGYL_ANSWERS_LEN, &value, &first, &second);
}

/* Hands out the batch that waits, and prints it. */
static uint64_t ask_batch(void)
{
    must(terbagyl_load_batch(load, TERBAGYL_LOAD_LEN, batch, TERBAGYL_BATCH_LEN, &value, &first, &second), "a batch");
    for (uint64_t i = 0; i < value; i++)
        printf("batch %" PRIu64 " asks for %u, by node %" PRIu64 "\n", first, terbagyl_asked_entity(batch[i]), terbagyl_asked_node(batch[i]));
    return value;
}

/* Answers the ancestors requests: of each entity those of the ids that it is in. */
static void answer_ancestors(void)
{
    must(terbagyl_load_ancestors(load, TERBAGYL_LOAD_LEN, requests, TERBAGYL_ANCESTORS_LEN, &value, &first, &second), "ancestors");
    const uint64_t *ids = requests + 1 + requests[0];
    uint64_t end = 1;
    sets[0] = requests[0];
    for (uint64_t i = 1; i <= requests[0]; i++) {
        uint16_t entity = terbagyl_ancestors_entity(requests[i]);
        uint64_t at = end++;
        sets[at] = 0;
        for (uint64_t left = terbagyl_ancestors_ids(requests[i]); left > 0; left--, ids++) {
            printf("is %u in %" PRIu64 "?\n", entity, *ids);
            if (is_in(entity, *ids)) {
                sets[at]++;
                sets[end++] = *ids;
            }
        }
    }
    must(terbagyl_load_ancestors_answer(load, TERBAGYL_LOAD_LEN, sets, TERBAGYL_ANCESTORS_ANSWERS_LEN, &value, &first, &second),
         "ancestors' answers");
}

static void show_slice(void)
{
    must(terbagyl_load_result(load, TERBAGYL_LOAD_LEN, slice, TERBAGYL_SLICE_LEN, &value, &first, &second), "the slice");
    const uint64_t *word = slice + 1;
    for (uint64_t left = slice[0]; left > 0; left--) {
        uint64_t head = *word++;
        printf("entity %u\n", terbagyl_slice_entity(head));
        for (uint64_t parents = terbagyl_slice_parents(head); parents > 0; parents--)
            printf("  parent %" PRIu64 "\n", *word++);
        for (uint64_t rows = terbagyl_slice_rows(head); rows > 0; rows--, word++)
            printf("  field %u is %c %u\n", terbagyl_value_key(*word), "nxesr"[terbagyl_value_kind(*word)], terbagyl_value_number(*word));
    }
    printf("%" PRIu64 " batches, %" PRIu64 " rows\n", first, second);
}

/* Goes on with a load that has begun, to its slice. */
static void go_on(void)
{
    while (load[0] == TERBAGYL_TURN_BATCH) {
        uint64_t rows = ask_batch();
        begin_answers();
        for (uint64_t i = 0; i < rows; i++)
            answer_for(terbagyl_asked_entity(batch[i]));
        must(take_answers(), "answers");
    }
    if (load[0] == TERBAGYL_TURN_ANCESTORS)
        answer_ancestors();
    show_slice();
}

/* ---- A refusal of each kind. Each function answers the number, its place in `value`. */

static uint64_t a_listing_of(const char *line)
{
    begin_text();
    put(line);
    return terbagyl_read_manifest(text, text_len, manifest, TERBAGYL_MANIFEST_LEN, &value);
}

static uint64_t a_form(void) { return a_listing_of("A\t10\t500\n"); }
static uint64_t an_order(void) { return a_listing_of("N\t1\tp\t0\t0\n"); }

static uint64_t a_position_too_deep(void)
{
    char steps[512] = "var\tp\n";
    for (unsigned i = 0; i < TERBAGYL_MOST_STEPS; i++)
        strcat(steps, "attr\t1\n");
    return add_steps(steps);
}

static uint64_t a_node_too_many(void)
{
    char line[32];
    begin_text();
    put("A\t10\t500\t20\n");
    for (unsigned i = 0; i <= TERBAGYL_MOST_NODES_OF_CONTRIBUTION; i++) {
        snprintf(line, sizeof line, "N\t1\te\t%u\t0\n", i);
        put(line);
    }
    return terbagyl_read_contribution(text, text_len, contribution, TERBAGYL_CONTRIBUTION_LEN, &value);
}

static uint64_t a_request_type_too_many(void)
{
    char line[32];
    begin_text();
    for (unsigned i = 0; i <= TERBAGYL_MOST_REQUEST_TYPES; i++) {
        snprintf(line, sizeof line, "A\t10\t500\t%u\n", i);
        put(line);
    }
    return terbagyl_read_manifest(text, text_len, manifest, TERBAGYL_MANIFEST_LEN, &value);
}

static uint64_t too_few_results(void) { return add_steps("var\tp\nunion\n"); }
static uint64_t a_set_dereferenced(void) { return add_steps("none\nset\nattr\t5\n"); }
static uint64_t a_literal_against_its_type(void) { return add_steps("none\nset\nfull\t0\n"); }

/* Types the manifest of a policy that reads these steps. */
static uint64_t typed_steps(const char *steps)
{
    empty();
    must(add_steps(steps), "steps");
    return terbagyl_type(schema, TERBAGYL_SCHEMA_LEN, manifest, TERBAGYL_MANIFEST_LEN, typed, TERBAGYL_MANIFEST_LEN, &value);
}

static uint64_t a_missing_entity(void) { return typed_steps("var\tp\nlit\t600\nin\n"); }
static uint64_t a_field_of_a_leaf(void) { return typed_steps("var\tp\nattr\t7\nattr\t1\n"); }

static uint64_t a_type_not_strict(void)
{
    must(a_listing_of("A\t99\t500\t20\nN\t1\tp\t0\t0\nN\t2\tf\t7\t0\n"), "a listing");
    return terbagyl_type(schema, TERBAGYL_SCHEMA_LEN, manifest, TERBAGYL_MANIFEST_LEN, typed, TERBAGYL_MANIFEST_LEN, &value);
}

/* Begins a load of what these steps read, and hands its batch out. */
static void begin_steps(const char *steps)
{
    empty();
    must(add_steps(steps), "steps");
    must(begin_load(), "begin");
    must(terbagyl_load_batch(load, TERBAGYL_LOAD_LEN, batch, TERBAGYL_BATCH_LEN, &value, &first, &second), "a batch");
    begin_answers();
}

static uint64_t another_count(void)
{
    begin_steps("var\tp\nattr\t7\nvar\tr\nattr\t3\nunion\n");
    answer_for(701);
    return take_answers();
}

static uint64_t answers_that_do_not_agree(void)
{
    begin_steps("var\tp\nattr\t7\nlit\t701\nattr\t3\nunion\n");
    answer_for(701);
    answers[0]++;
    put_answer(terbagyl_answer_head(2, 0));
    put_answer(901);
    put_answer(902);
    return take_answers();
}

static uint64_t a_value_of_another_kind(void)
{
    begin_steps("var\tp\nattr\t7\nattr\t1\n");
    answer_for(701);
    return take_answers();
}

static uint64_t a_path_node_too_many(void)
{
    char steps[2048] = "var\tp\n";
    for (unsigned i = 0; i < TERBAGYL_MOST_PATH_NODES / 2; i++)
        strcat(steps, "var\tp\nunion\n");
    return add_steps(steps);
}

static uint64_t a_call_out_of_turn(void)
{
    begin_steps("var\tp\nattr\t7\n");
    return terbagyl_load_result(load, TERBAGYL_LOAD_LEN, slice, TERBAGYL_SLICE_LEN, &value, &first, &second);
}

static uint64_t a_buffer_too_short(void) { return terbagyl_empty_manifest(manifest, TERBAGYL_MANIFEST_LEN - 1, &value); }

static void show_refusals(void)
{
    static const struct {
        const char *name;
        uint64_t (*call)(void);
    } kinds[] = {
        {"a line that is not of its form", a_form},
        {"a node before any entry", an_order},
        {"a position of 25 steps", a_position_too_deep},
        {"a contribution of 1,025 nodes", a_node_too_many},
        {"65 request types", a_request_type_too_many},
        {"a union of one result", too_few_results},
        {"a set that is dereferenced", a_set_dereferenced},
        {"a set against a primitive type", a_literal_against_its_type},
        {"a literal that the schema lacks", a_missing_entity},
        {"an entity type that the schema lacks", a_type_not_strict},
        {"a field of a primitive type", a_field_of_a_leaf},
        {"one answer to two rows", another_count},
        {"two answers that do not agree", answers_that_do_not_agree},
        {"a primitive value with a field", a_value_of_another_kind},
        {"257 path nodes", a_path_node_too_many},
        {"the result of a load that has not ended", a_call_out_of_turn},
        {"a buffer that is too short", a_buffer_too_short},
    };
    for (size_t i = 0; i < sizeof kinds / sizeof kinds[0]; i++) {
        uint64_t number = kinds[i].call();
        printf("%s: refused %" PRIu64 " at %" PRIu64, kinds[i].name, number, value);
        if (number == TERBAGYL_REFUSED_COUNT)
            printf(", expected %" PRIu64 ", got %" PRIu64, first, second);
        printf("\n");
    }
}

int main(int count, char **words)
{
    if (count != 2) {
        fprintf(stderr, "usage: clinic FOLDER\n");
        return 2;
    }
    folder = words[1];
    read_file("schema");
    must(terbagyl_read_schema(text, text_len, schema, TERBAGYL_SCHEMA_LEN, &value), "the schema");

    printf("-- the listing\n");
    empty();
    add_policy("same-clinic.policy");
    add_policy("role.policy");
    show_listing();

    printf("-- questions\n");
    ask_questions();
    count_rows();

    printf("-- a load\n");
    must(begin_load(), "begin");
    go_on();

    printf("-- a load that is refused, and goes on with better answers\n");
    printf("refused %" PRIu64, answers_that_do_not_agree());
    printf(" at %" PRIu64 "\n", value);
    begin_answers();
    answer_for(701);
    answer_for(701);
    must(take_answers(), "better answers");
    go_on();

    printf("-- refusals\n");
    show_refusals();
    return 0;
}
