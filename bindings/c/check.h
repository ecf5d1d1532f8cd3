/* What the tests share. They compile as C99 and as C++. */
#ifndef CHECK_H
#define CHECK_H
#include "kdl.h"
#include <stdio.h>
#include <stdlib.h>
#include <string.h>

#define CHECK(condition)                                                            \
    do {                                                                            \
        if (!(condition)) {                                                         \
            fprintf(stderr, "%s:%d: fails: %s\n", __FILE__, __LINE__, #condition);  \
            exit(1);                                                                \
        }                                                                           \
    } while (0)

/* The bytes and the length of a literal without a NUL in it. */
#define T(text) (const uint8_t *)(text), strlen(text)

/* Returns a struct without a document. */
static inline struct kdl_document none(void) {
    struct kdl_document document;
    memset(&document, 0, sizeof document);
    return document;
}

/* Returns a buffer of exactly that size, so that a memory checker reports a byte too far. */
static inline uint8_t *buffer(size_t size) {
    uint8_t *made = (uint8_t *)malloc(size ? size : 1);
    CHECK(made);
    return made;
}

static inline uint8_t *read_all(const char *name, size_t *len) {
    FILE *file = fopen(name, "rb");
    CHECK(file);
    fseek(file, 0, SEEK_END);
    *len = (size_t)ftell(file);
    rewind(file);
    uint8_t *text = buffer(*len);
    CHECK(fread(text, 1, *len, file) == *len);
    fclose(file);
    return text;
}

/* Returns the text of the document. */
static inline uint8_t *printed(struct kdl_document *document, size_t *len) {
    uint8_t nothing;
    uint32_t status = kdl_print(document, &nothing, 0, len);
    CHECK(status == (*len ? KDL_TOO_SMALL : KDL_OK));
    uint8_t *out = buffer(*len);
    CHECK(kdl_print(document, out, *len, len) == KDL_OK);
    return out;
}

static inline bool is_text(const uint8_t *text, size_t len, const uint8_t *want, size_t want_len) {
    return len == want_len && memcmp(text, want, len) == 0;
}

/* Checks that the document prints that text. */
static inline void prints(struct kdl_document *document, const char *want) {
    size_t len;
    uint8_t *out = printed(document, &len);
    if (!is_text(out, len, T(want))) {
        fprintf(stderr, "got %.*s\nnot %s\n", (int)len, (const char *)out, want);
        exit(1);
    }
    free(out);
}

/* The rows of a document, and their strings. */
struct rows {
    struct kdl_row *all;
    uint8_t *strings;
    size_t count, len;
};

static inline struct rows rows_of(struct kdl_document *document) {
    struct rows made;
    struct kdl_row first;
    uint8_t nothing;
    uint32_t status = kdl_tree(document, &first, 0, &made.count, &nothing, 0, &made.len);
    CHECK(status == (made.count || made.len ? KDL_TOO_SMALL : KDL_OK));
    made.all = (struct kdl_row *)malloc((made.count + 1) * sizeof *made.all);
    CHECK(made.all);
    made.strings = buffer(made.len);
    CHECK(kdl_tree(document, made.all, made.count, &made.count, made.strings, made.len, &made.len) ==
          KDL_OK);
    return made;
}

static inline void drop_rows(struct rows *rows) {
    free(rows->all);
    free(rows->strings);
}
#endif
