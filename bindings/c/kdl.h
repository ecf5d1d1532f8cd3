/* KDL 2 documents from C: the library `kdl`, proved in Rattle.
 *
 *     struct kdl_document document = {0};
 *     if (kdl_parse(text, text_len, &document) == KDL_OK) {
 *         ...
 *         kdl_free(&document);
 *     }
 *
 * Each call but kdl_free and kdl_version returns a status: `KDL_OK` or another constant of the enum
 * below.
 *
 * Texts. A text is bytes of UTF-8 and a length; no NUL ends it. A call that writes a text takes a
 * buffer of the caller, `room` bytes long, and sets `*needed` (or `*.._len`) to the whole length.
 * If that is more than `room`, the call returns KDL_TOO_SMALL: call again with that much room. The
 * exceptions are kdl_faults, kdl_faults_of and kdl_reports. They return KDL_FAULTS even then, and
 * the counts say whether the room was enough. No call keeps a pointer that it was given, and none
 * returns a pointer. KDL_TEXT passes a string literal: `kdl_parse(KDL_TEXT("a 1"), &document)`.
 *
 * Ownership. A `struct kdl_document` belongs to the caller and begins as {0}, without a document.
 * kdl_parse puts a document in and frees the one before; kdl_free frees it, and may be called
 * twice. What the struct holds belongs to the library: never write into it, never copy a struct
 * that has a document, and free each one before its storage ends. It may be moved: copied, if the
 * old struct is set to {0} before the next call. The memory comes from the program's malloc,
 * realloc and free, which have to align to 16 bytes.
 *
 * Threads. A call on a document takes the document out of the struct while it runs, even if it only
 * reads: make one call at a time on each document. Different documents may be used on different
 * threads at the same time. Make no call from a signal handler, nor in the forked child of a
 * process with threads.
 *
 * Pointers. Each pointer has to be valid and aligned, even if its length is 0: then pass the
 * address of any object, never NULL. The bytes that a call writes must not overlap bytes of another
 * argument. A path of length 0 has no bytes, so `kdl_find(d, path, 0, .., &path[0])` is right.
 * Begin a path as `size_t path[N] = {0};`, or compilers may warn. The bytes of an argument are at
 * most PTRDIFF_MAX. No call checks any of this.
 */
#ifndef KDL_H
#define KDL_H
#include <stdbool.h>
#include <stddef.h>
#include <stdint.h>
#ifdef __cplusplus
extern "C" {
#endif

/* The number of this interface. A later library with the same calls and structs, or more of them,
 * returns the same number or a larger one from kdl_version. */
#define KDL_VERSION 2
uint32_t kdl_version(void);

/* A string literal as the two arguments of a text: its bytes without the NUL, and their number. */
#define KDL_TEXT(literal) (const uint8_t *)("" literal), sizeof(literal) - 1

/* Statuses. */
enum {
    KDL_OK = 0,
    KDL_FAULTS = 1,        /* the text has faults: kdl_faults and kdl_reports list them; of a value,
                              entry or node: kdl_faults_of */
    KDL_NOT_UTF8 = 2,      /* the text is not UTF-8, or the name, key, type or indent */
    KDL_OUT_OF_MEMORY = 3, /* an allocation failed */
    KDL_TOO_SMALL = 4,     /* a buffer has too little room; the counts say how much is needed */
    KDL_NO_DOCUMENT = 5,   /* the struct has no document */
    KDL_NOT_FOUND = 6      /* what the call names is not there: a node, block, entry, index, offset
                              or kind */
};

/* The statuses that a call can return, besides KDL_OK:
 *
 *     KDL_FAULTS         each call that takes a document, node, entry or value in KDL, a query, a PATH
 *                        or an indent
 *     KDL_NOT_UTF8       each call that takes a text
 *     KDL_OUT_OF_MEMORY  each call but kdl_position, kdl_node_count, kdl_node, kdl_find and
 *                        kdl_find_entry
 *     KDL_TOO_SMALL      each call that takes `room` or `strings_room`, but kdl_faults, kdl_faults_of
 *                        and kdl_reports
 *     KDL_NO_DOCUMENT    each call that takes a document struct, but kdl_parse
 *     KDL_NOT_FOUND      each call that takes a path or a PATH, kdl_get, kdl_position, kdl_faults_of
 */

/* The text of a status, as "out of memory"; of another number, "unknown status". It ends in a NUL,
 * and lasts as long as the program. */
static inline const char *kdl_status_text(uint32_t status) {
    switch (status) {
    case KDL_OK: return "success";
    case KDL_FAULTS: return "the text has faults";
    case KDL_NOT_UTF8: return "the text is not UTF-8";
    case KDL_OUT_OF_MEMORY: return "out of memory";
    case KDL_TOO_SMALL: return "a buffer has too little room";
    case KDL_NO_DOCUMENT: return "there is no document";
    case KDL_NOT_FOUND: return "not found";
    default: return "unknown status";
    }
}

struct kdl_document { bool live; void *at; };

/* ---- Documents ---- */

/* Parses a text into `document`, and frees the document that was there. The document keeps every
 * byte of the text. After any status but KDL_OK, the struct has what it had before. */
uint32_t kdl_parse(const uint8_t *text, size_t text_len, struct kdl_document *document);

/* Frees the document. Does nothing if the struct has none. */
void kdl_free(struct kdl_document *document);

/* Writes the text of the document. If it was only parsed, that is the text that was read. */
uint32_t kdl_print(struct kdl_document *document, uint8_t *out, size_t room, size_t *needed);

/* Lays the document out, with its comments and without empty lines. Its data do not change, and the
 * text that it then prints has its data. If an allocation fails, a part of the document may already
 * be laid out; if each piece of the text that it printed was read as that piece, as after kdl_parse,
 * that is still so. A document without nodes gets one newline after its comments. */
uint32_t kdl_format(struct kdl_document *document);

/* Lays the document out, without its comments. Two documents then print the same text if and only
 * if they have the same data. If an allocation fails, it is as after kdl_format. */
uint32_t kdl_strip(struct kdl_document *document);

/* How kdl_layout lays a document out. A flag is set if it is not 0. {0} is the layout of
 * kdl_format, but all comments stay, also inside a type, after it and around `=`, and a document
 * or a block without nodes gets no newline in their place: without comments, the block is {}. */
struct kdl_layout_options {
    size_t blank_lines;     /* the greatest number of empty lines that are kept between two nodes or
                               comments */
    uint32_t no_comments;   /* set: comments and slashdashed pieces are removed */
    uint32_t keep_spelling; /* set: values, names, keys and types keep their spellings, as 0x10 and
                               "a" for 16 and a */
    uint32_t keep_one_line; /* set: a block that is on one line stays on one line */
};

/* Lays the document out, with the indent once for each level: a text of spaces and tabs. Its data do
 * not change. Returns KDL_NOT_UTF8 if the indent is not UTF-8, and KDL_FAULTS if it has another
 * character than the spaces of KDL; the document is then as it was. If an allocation fails, it is as
 * after kdl_format. Since version 2. */
uint32_t kdl_layout(struct kdl_document *document, const struct kdl_layout_options *layout,
                    const uint8_t *indent, size_t indent_len);

/* Parses a text, and writes the text that kdl_format lays out. */
uint32_t kdl_format_text(const uint8_t *text, size_t text_len,
                         uint8_t *out, size_t room, size_t *needed);

/* ---- Faults ---- */

/* A fault: bytes start .. start + len of the text, and a message, in bytes of `strings`. */
struct kdl_fault { size_t start, len, message_start, message_len; };

/* Lists the faults of a text, in the order in which they are found. Returns KDL_FAULTS if there are
 * any, and KDL_OK if there are none. An unclosed block comes after the faults inside it: sort by
 * `start` for the order of the text. `start` and `start + len` are at most `text_len`, and are not
 * inside a character.
 *
 * Sets `*count` and `*strings_len` to the whole counts. If one of them is more than its room, the
 * rest is missing: call again with that much room. The first `room` faults are written, and the
 * strings up to the first that does not fit. So a message is there if `message_start + message_len`
 * is at most `strings_room`. After any status but KDL_FAULTS, both counts are 0, and no fault and
 * no string is written. */
uint32_t kdl_faults(const uint8_t *text, size_t text_len,
                    struct kdl_fault *faults, size_t room, size_t *count,
                    uint8_t *strings, size_t strings_room, size_t *strings_len);

/* How kdl_faults_of reads a text: as kdl_parse, kdl_insert_node, kdl_insert_entry, kdl_set_value and
 * kdl_query do. */
enum {
    KDL_AS_DOCUMENT = 0,
    KDL_AS_NODE = 1,
    KDL_AS_ENTRY = 2,
    KDL_AS_VALUE = 3,
    KDL_AS_QUERY = 4 /* since version 2 */
};

/* Lists the faults of a text of the given kind, as kdl_faults does. A query has one fault: the first
 * one. For any other kind, returns KDL_NOT_FOUND and sets both counts to 0. */
uint32_t kdl_faults_of(uint32_t kind, const uint8_t *text, size_t text_len,
                       struct kdl_fault *faults, size_t room, size_t *count,
                       uint8_t *strings, size_t strings_room, size_t *strings_len);

/* A fault with its message, a label for its place, and a help. The length of a label or help is 0
 * if the fault has none. */
struct kdl_report {
    size_t start, len;
    size_t message_start, message_len;
    size_t label_start, label_len;
    size_t help_start, help_len;
};

/* Lists the faults of a text, as kdl_faults does, with labels and helps. The strings are the
 * message, label and help of the first fault, then those of the second, and so on. */
uint32_t kdl_reports(const uint8_t *text, size_t text_len,
                     struct kdl_report *reports, size_t room, size_t *count,
                     uint8_t *strings, size_t strings_room, size_t *strings_len);

/* Finds the line and column of a byte of the text, both counted from 1. A line ends at a newline of
 * KDL; CR LF is one newline. A column is counted in characters: a BOM is one character, and the LF
 * of a CR LF is a column of the line that it ends. The end of the text has a position too. Returns
 * KDL_NOT_FOUND for an offset after the end or inside a character, and KDL_NOT_UTF8 if the text is
 * not UTF-8. */
uint32_t kdl_position(const uint8_t *text, size_t text_len, size_t offset,
                      size_t *line, size_t *column);

/* ---- Reading ---- */

/* Kinds of rows, and of values. */
enum { KDL_NODE = 1, KDL_ARGUMENT = 2, KDL_PROPERTY = 3, KDL_END = 4 };
enum {
    KDL_NO_VALUE = 0,      /* of a node, and of an end */
    KDL_STRING = 1,        /* its text */
    KDL_INTEGER = 2,       /* in `integer` */
    KDL_LARGE_INTEGER = 3, /* beyond 64 bits, within 128; a larger one is a fault. Its decimal text,
                              of at most 40 bytes */
    KDL_FLOAT = 4,         /* its text as it was spelled, without '_': 1.5e3, #inf, #-inf, #nan */
    KDL_BOOL = 5,          /* 0 or 1 in `integer` */
    KDL_NULL = 6
};

/* A node, an entry, or the end of a node's block. Each text is bytes of `strings`. A field that a
 * row does not have is 0, and so are the start and the length of a text that it does not have. */
struct kdl_row {
    uint32_t kind, value;
    uint32_t has_type;     /* 1 if it has a type, which may be empty */
    uint32_t has_block;    /* of a node: 1 if it has a block of children, which may be empty */
    int64_t integer;       /* of KDL_INTEGER and KDL_BOOL */
    size_t name_start, name_len; /* the name of a node, or the key of a property: 0, 0 of an
                                    argument and of an end */
    size_t type_start, type_len; /* 0, 0 if `has_type` is 0 */
    size_t text_start, text_len; /* the text of KDL_STRING, KDL_LARGE_INTEGER and KDL_FLOAT: 0, 0 of
                                    KDL_INTEGER, KDL_BOOL, KDL_NULL and KDL_NO_VALUE */
    size_t start, len;     /* its place in the text that it was read from, in bytes: of an inserted
                              node or entry the whole text of that insert, and of what the node has
                              the place in that text. Edits do not change it. 0, 0 of an end. A
                              node begins at its type or name, and ends before its terminator:
                              spaces, block comments and `/-` entries before that are part of it */
};

/* Writes the whole document as rows: each node, its entries, and, if it has a block, the rows of
 * its children and an end. Sets both counts to the whole counts. After KDL_OK all rows and strings
 * are written. After KDL_TOO_SMALL, read only the counts. A text of n bytes has at most n rows, and
 * at most n bytes of strings if its numbers fit into 64 bits; n / 6 rows and n bytes are a good
 * first guess. */
uint32_t kdl_tree(struct kdl_document *document,
                  struct kdl_row *rows, size_t room, size_t *row_count,
                  uint8_t *strings, size_t strings_room, size_t *strings_len);

/* Paths. A path is indices from 0: of a node in the document, of a node in that one's block, and
 * so on.
 *
 * kdl_node_count, kdl_find, kdl_insert_node and kdl_remove_node act on the nodes of the document or
 * of a block. Their `path` is that of the parent, the node which has the block; the empty path,
 * with `path_len` 0, is the document. An `index` is a node's place there: node 2 of the document is
 * `path_len` 0, `index` 2.
 *
 * The other calls act on one node, its type, its name or its entries. Their `path` is the node's
 * own: node 2 of the document is the path {2}. They return KDL_NOT_FOUND for the empty path. An
 * `index` is the place of an entry in the node. */

/* Counts the nodes in the document or in the parent's block. Returns KDL_NOT_FOUND if the parent
 * has no block. `path` is the parent's. */
uint32_t kdl_node_count(struct kdl_document *document, const size_t *path, size_t path_len,
                        size_t *count);

/* Writes the row of a node, and the number of its entries. `path` is the node's own. After
 * KDL_TOO_SMALL, `*entry_count` and `*row` are set too; read nothing of `strings`. */
uint32_t kdl_node(struct kdl_document *document, const size_t *path, size_t path_len,
                  size_t *entry_count, struct kdl_row *row,
                  uint8_t *strings, size_t strings_room, size_t *strings_len);

/* Writes a node with its entries and its block as rows, as kdl_tree does for a whole document. `path`
 * is the node's own. Since version 2. */
uint32_t kdl_node_tree(struct kdl_document *document, const size_t *path, size_t path_len,
                       struct kdl_row *rows, size_t room, size_t *row_count,
                       uint8_t *strings, size_t strings_room, size_t *strings_len);

/* Writes the row of an entry. `path` is the node's own. Arguments and properties are counted
 * together, from 0. After KDL_TOO_SMALL, `*row` is set too; read nothing of `strings`. */
uint32_t kdl_entry(struct kdl_document *document, const size_t *path, size_t path_len,
                   size_t index, struct kdl_row *row,
                   uint8_t *strings, size_t strings_room, size_t *strings_len);

/* Finds the index of the first node of that name in the document or in the parent's block. `path`
 * is the parent's. Returns KDL_NOT_UTF8 if the name is not UTF-8. */
uint32_t kdl_find(struct kdl_document *document, const size_t *path, size_t path_len,
                  const uint8_t *name, size_t name_len, size_t *index);

/* Finds the index of the last property of that key, the one that counts in KDL. `path` is the
 * node's own. Returns KDL_NOT_UTF8 if the key is not UTF-8. */
uint32_t kdl_find_entry(struct kdl_document *document, const size_t *path, size_t path_len,
                        const uint8_t *name, size_t name_len, size_t *index);

/* Writes the row of the first argument of the first node of that name in the document. Returns
 * KDL_NOT_UTF8 if the name is not UTF-8. After KDL_TOO_SMALL, `*row` is set too; read nothing of
 * `strings`. */
uint32_t kdl_get(struct kdl_document *document, const uint8_t *name, size_t name_len,
                 struct kdl_row *row, uint8_t *strings, size_t strings_room, size_t *strings_len);

/* Writes the row of an argument of a node: arguments alone are counted, from 0. `path` is the node's
 * own. Returns KDL_NOT_FOUND if there is no such node or argument. After KDL_TOO_SMALL, `*row` is set
 * too; read nothing of `strings`. Since version 2. */
uint32_t kdl_argument(struct kdl_document *document, const size_t *path, size_t path_len,
                      size_t number, struct kdl_row *row,
                      uint8_t *strings, size_t strings_room, size_t *strings_len);

/* ---- Queries, and PATHs ---- */

/* Finds the nodes that a query selects:
 *
 *     a, (t), (t)a, []       a name, a type, both, any node
 *     [val()], [val(1)]      with a first argument, with a second one
 *     [k], [tag()]           with a property `k`, with a type
 *     [val() >= 1024]        whose first argument compares so: = and != any values, < <= > >= numbers,
 *     [k ^= "x"]             ^= $= *= strings, by their start, end and parts; the same of `k`
 *     a > b, a >> b          a `b` in the block of an `a`, at any depth in it; top() is the document
 *     a + b, a ++ b          a `b` directly after an `a`, any later `b` beside it
 *     a || b                 what one of both selects
 *
 * Writes their paths into `indices`, in the order of the document, one after another: each path as
 * its length, and then its indices. Sets `*count` to the number of paths, and `*needed` to the
 * number of `size_t` that they take. Each is the path of the node itself, as kdl_node takes it:
 *
 *     for (size_t i = 0; i < needed; i += 1 + indices[i]) {
 *         kdl_node(&document, &indices[i + 1], indices[i], ..);
 *     }
 *
 * After KDL_TOO_SMALL, `indices` is as it was, and both counts are set. Returns KDL_FAULTS if the
 * text is not a query: kdl_faults_of with KDL_AS_QUERY says why. Returns KDL_NOT_UTF8 if it is not
 * UTF-8. After any status but KDL_OK and KDL_TOO_SMALL, both counts are 0. Since version 2. */
uint32_t kdl_query(struct kdl_document *document, const uint8_t *query, size_t query_len,
                   size_t *indices, size_t room, size_t *count, size_t *needed);

/* A PATH is a text that names a node by the names down to it, and may name an entry of that node:
 *
 *     server/port      the first node `port` in the block of the first node `server`; as an entry,
 *                      its argument 0
 *     server[2]/port   the same in the third `server`: nodes of one name are counted from 0
 *     server/port#1    its argument 1: arguments are counted from 0
 *     server/@host     the last property `host` of `server`
 *
 * A name is a KDL string. One that contains `/`, `[`, `]` or `#`, or begins with `@`, or is not a
 * bare string, is written in quotes. The two calls return KDL_FAULTS if the text is not a PATH,
 * KDL_NOT_UTF8 if it is not UTF-8, and KDL_NOT_FOUND if the document does not have what it names;
 * it never has `/`, which is the document itself. */

/* Finds the path of the node that a PATH leads to. If the PATH names an entry, that is the node of
 * the entry, whether or not it has it. Sets `*needed` to the number of indices. After any status but
 * KDL_OK, `path` is as it was; after any but KDL_OK and KDL_TOO_SMALL, `*needed` is 0. Since
 * version 2. */
uint32_t kdl_find_path(struct kdl_document *document, const uint8_t *place, size_t place_len,
                       size_t *path, size_t room, size_t *needed);

/* Writes the row of the entry that a PATH names. After KDL_TOO_SMALL, `*row` is set too; read nothing
 * of `strings`. Since version 2. */
uint32_t kdl_get_path(struct kdl_document *document, const uint8_t *place, size_t place_len,
                      struct kdl_row *row, uint8_t *strings, size_t strings_room,
                      size_t *strings_len);

/* ---- Edits ---- */

/* An edit changes what it describes, and no other byte of the text. After any status but KDL_OK,
 * the document is as it was. The status is KDL_FAULTS if the given text is not exactly one value,
 * entry or node. A value has nothing around it. An entry or a node may have spaces, newlines and
 * comments around it, and `/-` pieces before it: kdl_insert_entry drops them, kdl_insert_node keeps
 * them. */

/* Sets the value of an entry, and its spelling, both from a text in KDL: "a b", 0x10, #true. The
 * text is the value alone. With a key, a type, a space or a comment it is refused: the status is
 * KDL_FAULTS. `path` is the node's own. An entry that kdl_insert_entry inserted, or that kdl_format
 * or kdl_strip laid out, is printed in the library's spelling, whatever the text: only its value is
 * set. */
uint32_t kdl_set_value(struct kdl_document *document, const size_t *path, size_t path_len,
                       size_t index, const uint8_t *value, size_t value_len);

/* Sets the key of an entry, or removes it if `has_key` is 0. The key is the string itself, not its
 * spelling. `path` is the node's own. */
uint32_t kdl_set_key(struct kdl_document *document, const size_t *path, size_t path_len,
                     size_t index, uint32_t has_key, const uint8_t *key, size_t key_len);

/* Sets the type of an entry, or of the node if `index` is SIZE_MAX. Removes the type if `has_type`
 * is 0. The type is the string itself. `path` is the node's own. */
uint32_t kdl_set_type(struct kdl_document *document, const size_t *path, size_t path_len,
                      size_t index, uint32_t has_type, const uint8_t *type, size_t type_len);

/* Sets the name of a node. The name is the string itself. `path` is the node's own. */
uint32_t kdl_set_name(struct kdl_document *document, const size_t *path, size_t path_len,
                      const uint8_t *name, size_t name_len);

/* Inserts an entry, given in KDL as 8080 or port=(u16)8080, before the one at the index, or as the
 * last if `index` is the number of entries. `path` is the node's own. The entry is printed after
 * one space, in the library's spelling: 0x10 is inserted as 16. The spaces, newlines, comments and
 * `/-` entries of the text are dropped, also those inside the entry. For another spelling, print the
 * document, parse that text, and then call kdl_set_value. */
uint32_t kdl_insert_entry(struct kdl_document *document, const size_t *path, size_t path_len,
                          size_t index, const uint8_t *entry, size_t entry_len);

/* Removes the entry at the index, with the spaces, comments and `/-` entries between it and what is
 * before it. `path` is the node's own. What is after it stays: `a 1 /-x 2 // c` without entry 1 is
 * `a 1 // c`, and without entry 0 `a /-x 2 // c`. */
uint32_t kdl_remove_entry(struct kdl_document *document, const size_t *path, size_t path_len,
                          size_t index);

/* Inserts a node, given in KDL, into the document or the parent's block: before the one at the
 * index, and before the comments and `/-` nodes in front of that one. So at index 0 of a document
 * it is inserted before a licence comment. If `index` is the number of nodes, it is inserted after
 * the last node and the newline or `;` that ends it, and before comments and `/-` nodes after that.
 * `path` is the parent's: the empty path for the document.
 *
 * The text is inserted as it is, with its spaces and comments. Newlines are added only if they are
 * needed to separate it from its neighbours. After a node that ends in a newline, "    port 8080\n"
 * has a line of its own. At index 0 of a block it follows the `{`, and after a `;` it follows that,
 * on the same line: there, begin the text with a newline, as in "\n    port 8080\n". The node ends
 * by its own newline or `;`, and the newline after the `{` belongs to the node that was first: so at
 * index 0 an empty line comes after it, unless the text ends in `;`.
 *
 * A parent without a block gets `{`, a newline, the text, a newline unless the text ends in one or
 * in `;`, and `}`. No space is added before the `{`: `a` becomes `a{`. */
uint32_t kdl_insert_node(struct kdl_document *document, const size_t *path, size_t path_len,
                         size_t index, const uint8_t *node, size_t node_len);

/* Removes the node at the index from the document or from the parent's block. `path` is the
 * parent's: the empty path for the document. Node 2 of the document is `path_len` 0, `index` 2.
 *
 * What is before the node is removed with it: spaces, newlines, comments and `/-` nodes, back to
 * the end of the node before, to the `{`, or to the start of the document. So a licence comment or
 * a version marker before the first node of a document is removed with that node; a BOM stays. Its
 * end is removed too: the newline or `;` after it, and the spaces and comments before that. What is
 * after its end stays. Without node 1, "a\n// of b\nb // end\n// of c\nc" is "a\n// of c\nc".
 * Without node 0 of its block, "a {\n    b\n    c\n}" is "a {    c\n}". */
uint32_t kdl_remove_node(struct kdl_document *document, const size_t *path, size_t path_len,
                         size_t index);

#ifdef __cplusplus
}
#endif
#endif
