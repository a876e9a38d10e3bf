/* Terbagyl: entity manifests of Cedar policies, as C calls.
 *
 * The library is libentity_manifest.a, which `tools/staticlib` writes to target/staticlib. It is compiled for x86-64 alone, with
 * the calling convention of System V (Linux), and takes memcpy and memset from the C library. It allocates nothing and keeps nothing between
 * calls: each works in the buffers that it is lent and on the stack, so threads may call it at the same time with buffers of their own.
 *
 * docs/FORMS.md says what every text, word, buffer and number is; docs/PROMISES.md what each call promises, which is proved.
 *
 * What all calls share
 * - A buffer is a pointer and a length in elements. Its length is at least the constant TERBAGYL_..._LEN that is named beside it; a longer
 *   one serves, and what lies past that length is neither read nor changed. A shorter one is refused with 31. A text that is read has any length.
 * - A pointer may be NULL only where its length is 0.
 * - A buffer that is written, and what the values are written through, overlap nothing else that is passed. Buffers that are only read may
 *   be the same.
 * - The answer is 0 (TERBAGYL_DONE), or the number of a refusal. After a refusal every lent buffer is as it was.
 * - `*value` receives what the call says beside 0 (0 where it says nothing), or the place of the refusal. It is always written.
 *
 * Stack: a thread of 1 MiB serves every call; docs/FORMS.md, 'Stack', says what each takes. Too little stack is not refused: it ends the process.
 */
#ifndef TERBAGYL_H
#define TERBAGYL_H

#if !defined(__x86_64__)
#error "terbagyl: the library is compiled for x86-64 alone, and this compiler makes code for another processor"
#endif

#include <stddef.h>
#include <stdint.h>

#ifdef __cplusplus
#define TERBAGYL_RESTRICT __restrict
extern "C" {
#else
#define TERBAGYL_RESTRICT restrict
#endif

/* ---- Lengths of lent buffers, in elements: uint64_t, or bytes for the two texts. */
#define TERBAGYL_CONTRIBUTION_LEN 1026u
#define TERBAGYL_MANIFEST_LEN 4161u
#define TERBAGYL_MANIFEST_TEXT_LEN 62720u
#define TERBAGYL_CONTRIBUTION_TEXT_LEN 15380u
#define TERBAGYL_SCHEMA_LEN 142337u
#define TERBAGYL_CONTEXT_LEN 8193u
#define TERBAGYL_LOAD_LEN 36874u
#define TERBAGYL_BATCH_LEN 4096u
#define TERBAGYL_ANSWERS_LEN 24577u
#define TERBAGYL_ANCESTORS_LEN 528385u
#define TERBAGYL_ANCESTORS_ANSWERS_LEN 24577u
#define TERBAGYL_SLICE_LEN 12289u

/* ---- Limits. */
#define TERBAGYL_MOST_STEPS 24u
#define TERBAGYL_MOST_REQUEST_TYPES 64u
#define TERBAGYL_MOST_NODES_OF_CONTRIBUTION 1024u
#define TERBAGYL_MOST_NODES_OF_MANIFEST 4096u
#define TERBAGYL_MOST_RESULTS 32u
#define TERBAGYL_MOST_PATH_NODES 256u
#define TERBAGYL_MOST_ANCESTOR_IDS 256u
#define TERBAGYL_MOST_LOADED 8192u

/* ---- Numbers given back. docs/FORMS.md, 'Numbers given back', says what the place of each is. */
enum {
    TERBAGYL_DONE = 0,
    TERBAGYL_REFUSED_FORM = 1,           /* a line or field is not of the stated form; a lent state is not lawful */
    TERBAGYL_REFUSED_ORDER = 2,          /* listing order, or depth more than one above the line before; N before any A */
    TERBAGYL_REFUSED_DEPTH = 3,          /* a position would exceed 24 steps */
    TERBAGYL_REFUSED_NODES = 4,          /* over 1,024 nodes in a contribution or 4,096 in a manifest */
    TERBAGYL_REFUSED_REQUEST_TYPES = 5,  /* a 65th request type */
    TERBAGYL_REFUSED_RESULTS = 6,        /* too few results, over 32, or not one at the end */
    TERBAGYL_REFUSED_SET = 7,            /* a set is dereferenced */
    TERBAGYL_REFUSED_LITERAL = 8,        /* a literal against its type */
    TERBAGYL_REFUSED_MISSING = 9,        /* the schema has no such entity */
    TERBAGYL_REFUSED_NOT_STRICT = 10,    /* any-entity, an entity type with several names, or an unknown one */
    TERBAGYL_REFUSED_LEAF = 11,          /* children on a leaf type */
    TERBAGYL_REFUSED_COUNT = 12,         /* another count of answers than of rows */
    TERBAGYL_REFUSED_MERGE = 13,         /* two answers to one entity do not agree */
    TERBAGYL_REFUSED_VALUE = 14,         /* a value is not of a kind that the manifest can read there */
    TERBAGYL_REFUSED_LIMIT = 15,         /* over 256 path nodes in a result, 8,192 loaded values, or 256 ids in an ancestors request */
    TERBAGYL_REFUSED_TURN = 16,          /* a load call out of turn */
    TERBAGYL_REFUSED_BUFFER = 31         /* a lent buffer is too short */
};

/* What a number says, in words. Not for a program to compare: the number is the promise. */
static inline const char *terbagyl_reason(uint64_t number)
{
    switch (number) {
    case TERBAGYL_DONE: return "done";
    case TERBAGYL_REFUSED_FORM: return "a line or field is not of the stated form, or a lent state is not lawful";
    case TERBAGYL_REFUSED_ORDER: return "listing order, or depth more than one above the line before, or N before any A";
    case TERBAGYL_REFUSED_DEPTH: return "a position would exceed 24 steps";
    case TERBAGYL_REFUSED_NODES: return "over 1,024 nodes in a contribution or 4,096 in a manifest";
    case TERBAGYL_REFUSED_REQUEST_TYPES: return "a 65th request type";
    case TERBAGYL_REFUSED_RESULTS: return "too few results, over 32, or not one at the end";
    case TERBAGYL_REFUSED_SET: return "a set is dereferenced";
    case TERBAGYL_REFUSED_LITERAL: return "a literal against its type";
    case TERBAGYL_REFUSED_MISSING: return "the schema lacks this entity";
    case TERBAGYL_REFUSED_NOT_STRICT: return "not strict: any-entity, an entity type with several names, or an unknown one";
    case TERBAGYL_REFUSED_LEAF: return "children on a leaf type";
    case TERBAGYL_REFUSED_COUNT: return "another count of answers than of rows";
    case TERBAGYL_REFUSED_MERGE: return "two answers to one entity do not agree";
    case TERBAGYL_REFUSED_VALUE: return "a value is not of a kind that the manifest can read there";
    case TERBAGYL_REFUSED_LIMIT:
        return "over 256 path nodes in a result, 8,192 loaded values, parents and ancestor ids, or 256 distinct ids in one ancestors request";
    case TERBAGYL_REFUSED_TURN: return "a load call out of turn";
    case TERBAGYL_REFUSED_BUFFER: return "a lent buffer is too short";
    default: return "a number that docs/FORMS.md does not have";
    }
}

/* ---- The version: the first number times 65,536, and the second. This header is of version 0.3. */
#define TERBAGYL_VERSION 3u

/* The version of the library that is linked. */
uint64_t terbagyl_version(void);

/* ---- What `has` says beside 0. */
enum { TERBAGYL_MISSING = 0, TERBAGYL_THERE = 1, TERBAGYL_MARKED = 2 };

/* ---- Words. Ids, entity types, names and actions are numbers up to 65,535. */

/* A request type: a principal of this type asks for this action on a resource of this type. */
static inline uint64_t terbagyl_request_type(uint16_t principal_type, uint16_t action, uint16_t resource_type)
{
    return ((uint64_t)principal_type << 32) | ((uint64_t)action << 16) | resource_type;
}

/* The steps of a position: a root, then fields; a root below the first step enters the ancestors trie of the node above. */
enum {
    TERBAGYL_STEP_FIELD = 0,
    TERBAGYL_STEP_PRINCIPAL = 1,
    TERBAGYL_STEP_ACTION = 2,
    TERBAGYL_STEP_RESOURCE = 3,
    TERBAGYL_STEP_CONTEXT = 4,
    TERBAGYL_STEP_LITERAL = 5
};
static inline uint64_t terbagyl_field(uint16_t name) { return name; }
static inline uint64_t terbagyl_principal(void) { return (uint64_t)TERBAGYL_STEP_PRINCIPAL << 16; }
static inline uint64_t terbagyl_action(void) { return (uint64_t)TERBAGYL_STEP_ACTION << 16; }
static inline uint64_t terbagyl_resource(void) { return (uint64_t)TERBAGYL_STEP_RESOURCE << 16; }
static inline uint64_t terbagyl_context(void) { return (uint64_t)TERBAGYL_STEP_CONTEXT << 16; }
static inline uint64_t terbagyl_literal(uint16_t entity) { return ((uint64_t)TERBAGYL_STEP_LITERAL << 16) | entity; }

/* A row of a contribution or manifest: an entry where its depth is 0, otherwise a node. Word 0 of the state is the count of rows. A node's
 * type is 0 for none, t + 1 for type t, and 1,025 and 1,026 for the entity types of the entry's principal and resource. */
static inline unsigned terbagyl_row_depth(uint64_t row) { return (unsigned)(row & 31); }
static inline uint64_t terbagyl_row_request_type(uint64_t entry) { return entry >> 6; }
static inline int terbagyl_row_is_marked(uint64_t node) { return (int)((node >> 5) & 1); }
static inline uint64_t terbagyl_row_step(uint64_t node) { return (node >> 6) & 0x7ffff; }
static inline unsigned terbagyl_row_type(uint64_t node) { return (unsigned)((node >> 25) & 0x7ff); }
static inline unsigned terbagyl_step_kind(uint64_t step) { return (unsigned)(step >> 16); }
static inline uint16_t terbagyl_step_id(uint64_t step) { return (uint16_t)step; }

/* A row of a value: rows stand in preorder, fields of a record by name ascending, elements of a set keyed 0, 1, 2 .. in the order of their
 * rows. The number is the id of a primitive, an extension or an entity, and 0 for a set or a record. */
enum {
    TERBAGYL_VALUE_PRIMITIVE = 0,
    TERBAGYL_VALUE_EXTENSION = 1,
    TERBAGYL_VALUE_ENTITY = 2,
    TERBAGYL_VALUE_SET = 3,
    TERBAGYL_VALUE_RECORD = 4
};
static inline uint64_t terbagyl_value_row(unsigned depth, uint16_t key, unsigned kind, uint16_t number)
{
    return ((uint64_t)depth << 35) | ((uint64_t)key << 19) | ((uint64_t)kind << 16) | number;
}
static inline uint64_t terbagyl_value_depth(uint64_t row) { return row >> 35; }
static inline uint16_t terbagyl_value_key(uint64_t row) { return (uint16_t)(row >> 19); }
static inline unsigned terbagyl_value_kind(uint64_t row) { return (unsigned)((row >> 16) & 7); }
static inline uint16_t terbagyl_value_number(uint64_t row) { return (uint16_t)row; }

/* A row of a batch: an entity, and the node that asks for it by its number among all nodes of the manifest. */
static inline uint16_t terbagyl_asked_entity(uint64_t row) { return (uint16_t)row; }
static inline uint64_t terbagyl_asked_node(uint64_t row) { return row >> 16; }

/* The head of an answer: the entity is absent, or its parents, ascending, and the rows of its attributes follow. */
#define TERBAGYL_ABSENT UINT64_C(0)
static inline uint64_t terbagyl_answer_head(uint16_t parents, uint32_t rows)
{
    return 1 | ((uint64_t)parents << 16) | ((uint64_t)rows << 32);
}

/* The head of an ancestors request: the entity, and how many ids are asked for. */
static inline uint16_t terbagyl_ancestors_entity(uint64_t head) { return (uint16_t)head; }
static inline uint64_t terbagyl_ancestors_ids(uint64_t head) { return head >> 16; }

/* The head of an entity in a slice: its id, and how many parents and rows of attributes follow. */
static inline uint16_t terbagyl_slice_entity(uint64_t head) { return (uint16_t)head; }
static inline uint64_t terbagyl_slice_parents(uint64_t head) { return (head >> 16) & 0xffff; }
static inline uint64_t terbagyl_slice_rows(uint64_t head) { return head >> 32; }

/* ---- Manifests and contributions */

/* Makes `manifest` (MANIFEST_LEN) the empty manifest. Refused: 31. */
uint64_t terbagyl_empty_manifest(uint64_t *TERBAGYL_RESTRICT manifest, size_t manifest_len, uint64_t *TERBAGYL_RESTRICT value);

/* Adds a contribution (CONTRIBUTION_LEN) to a manifest (MANIFEST_LEN). Refused: 31; 1, 5 and 4 at 0. */
uint64_t terbagyl_add(uint64_t *TERBAGYL_RESTRICT manifest, size_t manifest_len,
                      const uint64_t *contribution, size_t contribution_len,
                      uint64_t *TERBAGYL_RESTRICT value);

/* Adds another manifest to a manifest (MANIFEST_LEN both). Refused: 31; 1, 5 and 4 at 0. */
uint64_t terbagyl_unite_manifests(uint64_t *TERBAGYL_RESTRICT manifest, size_t manifest_len,
                                  const uint64_t *other, size_t other_len,
                                  uint64_t *TERBAGYL_RESTRICT value);

/* The union of two manifests in a third (MANIFEST_LEN each). Where both have a node the left one's type stays. Refused: 31; 1, 5 and 4 at 0. */
uint64_t terbagyl_union_manifests(const uint64_t *left, size_t left_len,
                                  const uint64_t *right, size_t right_len,
                                  uint64_t *TERBAGYL_RESTRICT out, size_t out_len,
                                  uint64_t *TERBAGYL_RESTRICT value);

/* The union of two contributions in a third (CONTRIBUTION_LEN each). Refused: 31; 1, 5 (two request types) and 4 at 0. */
uint64_t terbagyl_union_contributions(const uint64_t *left, size_t left_len,
                                      const uint64_t *right, size_t right_len,
                                      uint64_t *TERBAGYL_RESTRICT out, size_t out_len,
                                      uint64_t *TERBAGYL_RESTRICT value);

/* Whether a manifest (MANIFEST_LEN) has a place: a request type and then the steps of a position; the request type alone is the entry.
 * Beside 0: TERBAGYL_MISSING, TERBAGYL_THERE or TERBAGYL_MARKED. Each call checks the whole manifest first: for many questions walk its
 * rows once. Refused: 31; 1 at 0. */
uint64_t terbagyl_has_in_manifest(const uint64_t *manifest, size_t manifest_len,
                                  const uint64_t *place, size_t place_len,
                                  uint64_t *TERBAGYL_RESTRICT value);

/* The same of a contribution (CONTRIBUTION_LEN). */
uint64_t terbagyl_has_in_contribution(const uint64_t *contribution, size_t contribution_len,
                                      const uint64_t *place, size_t place_len,
                                      uint64_t *TERBAGYL_RESTRICT value);

/* ---- Texts */

/* Reads the listing of a manifest into `out` (MANIFEST_LEN). Refused: 31; by line 1, 2, 3, 5, 4. */
uint64_t terbagyl_read_manifest(const uint8_t *text, size_t text_len,
                                uint64_t *TERBAGYL_RESTRICT out, size_t out_len,
                                uint64_t *TERBAGYL_RESTRICT value);

/* Reads the listing of a contribution into `out` (CONTRIBUTION_LEN). Refused: 31; by line 1, 2, 3, 4. */
uint64_t terbagyl_read_contribution(const uint8_t *text, size_t text_len,
                                    uint64_t *TERBAGYL_RESTRICT out, size_t out_len,
                                    uint64_t *TERBAGYL_RESTRICT value);

/* Writes the listing of a manifest (MANIFEST_LEN) to `out` (MANIFEST_TEXT_LEN). Beside 0: how many bytes. Refused: 31; 1 at 0. */
uint64_t terbagyl_write_manifest(const uint64_t *manifest, size_t manifest_len,
                                 uint8_t *TERBAGYL_RESTRICT out, size_t out_len,
                                 uint64_t *TERBAGYL_RESTRICT value);

/* Writes the listing of a contribution (CONTRIBUTION_LEN) to `out` (CONTRIBUTION_TEXT_LEN). Beside 0: how many bytes. Refused: 31; 1 at 0. */
uint64_t terbagyl_write_contribution(const uint64_t *contribution, size_t contribution_len,
                                     uint8_t *TERBAGYL_RESTRICT out, size_t out_len,
                                     uint64_t *TERBAGYL_RESTRICT value);

/* Reads a schema's text into `out` (SCHEMA_LEN). Refused: 31; by line 1. */
uint64_t terbagyl_read_schema(const uint8_t *text, size_t text_len,
                              uint64_t *TERBAGYL_RESTRICT out, size_t out_len,
                              uint64_t *TERBAGYL_RESTRICT value);

/* ---- Analysis and typing */

/* Analyses a step text under a request type, with a schema (SCHEMA_LEN), and stores the contribution in `out` (CONTRIBUTION_LEN).
 * Refused: 31; 1 at 0; by line 1, 6, 7, 8, 15, 3, 4; 6 at the end. */
uint64_t terbagyl_analyse(const uint64_t *schema, size_t schema_len, uint64_t request_type,
                          const uint8_t *text, size_t text_len,
                          uint64_t *TERBAGYL_RESTRICT out, size_t out_len,
                          uint64_t *TERBAGYL_RESTRICT value);

/* Adds all contributions of a policy text to a manifest (MANIFEST_LEN), with a schema (SCHEMA_LEN): all of them, or none and a refusal.
 * Refused: 31; 1 at 0; by line as for analysing; where a contribution ends 6, 5, 4. */
uint64_t terbagyl_add_policy(const uint64_t *schema, size_t schema_len,
                             const uint8_t *text, size_t text_len,
                             uint64_t *TERBAGYL_RESTRICT manifest, size_t manifest_len,
                             uint64_t *TERBAGYL_RESTRICT value);

/* Types a manifest (MANIFEST_LEN) by a schema (SCHEMA_LEN), and stores what stays in `out` (MANIFEST_LEN).
 * Refused: 31; 1 at 0; by node 9, 10, 11. */
uint64_t terbagyl_type(const uint64_t *schema, size_t schema_len,
                       const uint64_t *manifest, size_t manifest_len,
                       uint64_t *TERBAGYL_RESTRICT out, size_t out_len,
                       uint64_t *TERBAGYL_RESTRICT value);

/* ---- Loading: begin, then batch and answer until no row waits, then ancestors, their answers, and the result. Word 0 of a load says whose
 * turn it is. `*value` receives what the call counts, `*first` and `*second` the batches and the rows asked so far. Beside a refusal
 * they are its place, 0 and 0; beside 12 they are 0, the expected count and the one that was got. A refusal leaves the load as it was, so
 * that it can go on with better answers. */
enum {
    TERBAGYL_TURN_BATCH = 1,
    TERBAGYL_TURN_ANSWER = 2,
    TERBAGYL_TURN_ANCESTORS = 3,
    TERBAGYL_TURN_ANCESTORS_ANSWER = 4,
    TERBAGYL_TURN_RESULT = 5
};

/* Tells what a load for a request type takes at most by a manifest (MANIFEST_LEN). Beside 0: the ancestors calls, 1 where the manifest has
 * an entry for the request type and 0 where it has none; in `*first` the batches and in `*second` their rows. Refused: 31; 1 at 0. */
uint64_t terbagyl_trip_bound(const uint64_t *manifest, size_t manifest_len, uint64_t request_type,
                             uint64_t *TERBAGYL_RESTRICT value,
                             uint64_t *TERBAGYL_RESTRICT first,
                             uint64_t *TERBAGYL_RESTRICT second);

/* Begins a load of what a manifest (MANIFEST_LEN) has a request read; the context (CONTEXT_LEN) is a count of rows and the rows of a record.
 * The load (LOAD_LEN) is written. Beside 0: how many nodes the entry has. Refused: 31; 1 and 14 at 0. */
uint64_t terbagyl_load_begin(const uint64_t *manifest, size_t manifest_len,
                             uint64_t request_type, uint64_t principal, uint64_t resource,
                             const uint64_t *context, size_t context_len,
                             uint64_t *TERBAGYL_RESTRICT load, size_t load_len,
                             uint64_t *TERBAGYL_RESTRICT value,
                             uint64_t *TERBAGYL_RESTRICT first,
                             uint64_t *TERBAGYL_RESTRICT second);

/* Hands out the rows that wait (BATCH_LEN). Beside 0: how many. Refused: 31; 1, 16 at 0. */
uint64_t terbagyl_load_batch(uint64_t *TERBAGYL_RESTRICT load, size_t load_len,
                             uint64_t *TERBAGYL_RESTRICT rows, size_t rows_len,
                             uint64_t *TERBAGYL_RESTRICT value,
                             uint64_t *TERBAGYL_RESTRICT first,
                             uint64_t *TERBAGYL_RESTRICT second);

/* Takes the answers to a batch (ANSWERS_LEN): their count, then each with its head, in the order of the rows. Beside 0: how many rows wait
 * next. Refused: 31; 1, 16 at 0; by row 1; 12; 15; by row 14, 13. */
uint64_t terbagyl_load_answer(uint64_t *TERBAGYL_RESTRICT load, size_t load_len,
                              const uint64_t *answers, size_t answers_len,
                              uint64_t *TERBAGYL_RESTRICT value,
                              uint64_t *TERBAGYL_RESTRICT first,
                              uint64_t *TERBAGYL_RESTRICT second);

/* Hands out the ancestors requests (ANCESTORS_LEN): their count, a head each, and then the ids of each, ascending. Beside 0: how many.
 * Refused: 31; 1, 16 at 0; by request 14, 15. */
uint64_t terbagyl_load_ancestors(uint64_t *TERBAGYL_RESTRICT load, size_t load_len,
                                 uint64_t *TERBAGYL_RESTRICT requests, size_t requests_len,
                                 uint64_t *TERBAGYL_RESTRICT value,
                                 uint64_t *TERBAGYL_RESTRICT first,
                                 uint64_t *TERBAGYL_RESTRICT second);

/* Takes the answers to the ancestors requests (ANCESTORS_ANSWERS_LEN): the count of sets, then each with its count and its ids, ascending.
 * Beside 0: how many sets were taken. Refused: 31; 1, 16 at 0; by set 1, 15. */
uint64_t terbagyl_load_ancestors_answer(uint64_t *TERBAGYL_RESTRICT load, size_t load_len,
                                        const uint64_t *sets, size_t sets_len,
                                        uint64_t *TERBAGYL_RESTRICT value,
                                        uint64_t *TERBAGYL_RESTRICT first,
                                        uint64_t *TERBAGYL_RESTRICT second);

/* Hands out the slice (SLICE_LEN) of a load that has ended: the count of entities, then each, ascending: its head, its parents and the rows of
 * its attributes. Beside 0: how many entities. Refused: 31; 1, 16 at 0. */
uint64_t terbagyl_load_result(const uint64_t *load, size_t load_len,
                              uint64_t *TERBAGYL_RESTRICT slice, size_t slice_len,
                              uint64_t *TERBAGYL_RESTRICT value,
                              uint64_t *TERBAGYL_RESTRICT first,
                              uint64_t *TERBAGYL_RESTRICT second);

#ifdef __cplusplus
}
#endif

#endif
