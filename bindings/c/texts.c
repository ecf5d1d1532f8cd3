/* texts FILE N: tries each text of the file, which bindings/rows.py writes, and N texts made from
 * these by random changes, all in one process. Checks for each:
 * - an accepted text prints itself, and its rows are those that calls for single nodes and entries
 *   write; layout keeps its data, and a second layout changes nothing; an edited document prints a
 *   text that reads back with the document's data;
 * - a refused text has faults, each in the text and between characters;
 * - a text is refused as not UTF-8 if and only if it is not UTF-8.
 * The first line of the file is the number of its texts. */
#include "check.h"

/* The longest text that changes make or start from. */
enum { MOST = 3000, BASE = 1500 };

struct text {
    uint8_t *bytes;
    size_t len;
};

/* ---- What has to hold ---- */

static bool is_continued(const uint8_t *text, size_t len, size_t at) {
    return at < len && (text[at] & 0xC0) == 0x80;
}

/* Returns whether the bytes are UTF-8. */
static bool is_utf8(const uint8_t *text, size_t len) {
    for (size_t at = 0; at < len;) {
        uint32_t first = text[at], more = first < 0x80 ? 0 : first < 0xE0 ? 1 : first < 0xF0 ? 2 : 3;
        static const uint32_t least[] = {0, 0x80, 0x800, 0x10000};
        uint32_t c = more ? first & (0x3F >> more) : first;
        if ((first >= 0x80 && first < 0xC2) || first > 0xF4 || at + more >= len) {
            return false;
        }
        for (uint32_t i = 1; i <= more; i++) {
            if (!is_continued(text, len, at + i)) {
                return false;
            }
            c = c << 6 | (text[at + i] & 0x3F);
        }
        if (c < least[more] || c > 0x10FFFF || (c >= 0xD800 && c <= 0xDFFF)) {
            return false;
        }
        at += more + 1;
    }
    return true;
}

static bool is_same(const struct kdl_row *a, const uint8_t *as, const struct kdl_row *b,
                    const uint8_t *bs) {
    return a->kind == b->kind && a->value == b->value && a->has_type == b->has_type &&
           a->has_block == b->has_block && a->integer == b->integer &&
           is_text(as + a->name_start, a->name_len, bs + b->name_start, b->name_len) &&
           is_text(as + a->type_start, a->type_len, bs + b->type_start, b->type_len) &&
           is_text(as + a->text_start, a->text_len, bs + b->text_start, b->text_len);
}

/* Checks that both documents have the same data. */
static bool have_same_data(struct kdl_document *d, struct kdl_document *e) {
    struct rows a = rows_of(d), b = rows_of(e);
    bool same = a.count == b.count;
    for (size_t i = 0; same && i < a.count; i++) {
        same = is_same(&a.all[i], a.strings, &b.all[i], b.strings);
    }
    drop_rows(&a);
    drop_rows(&b);
    return same;
}

/* Checks that the rows from `at` on are those of the block at the path, by calls for one node or
 * entry each, which write their strings to `s`, and that `*next` has the paths of their nodes.
 * Returns the first row after the block, and moves `*next` to the paths after it. */
static size_t block(struct kdl_document *d, const struct rows *rows, size_t at, size_t *path,
                    size_t depth, uint8_t *s, const size_t **next) {
    struct kdl_row row;
    size_t count, entries, len, found;
    CHECK(kdl_node_count(d, path, depth, &count) == KDL_OK);
    for (size_t i = 0; i < count; i++) {
        const struct kdl_row *node = &rows->all[at++];
        path[depth] = i;
        CHECK(at <= rows->count);
        CHECK(**next == depth + 1 && memcmp(*next + 1, path, (depth + 1) * sizeof *path) == 0);
        *next += depth + 2;
        size_t arguments = 0;
        CHECK(kdl_node(d, path, depth + 1, &entries, &row, s, rows->len, &len) == KDL_OK);
        CHECK(is_same(&row, s, node, rows->strings));
        CHECK(row.start == node->start && row.len == node->len);
        CHECK(kdl_find(d, path, depth, rows->strings + node->name_start, node->name_len, &found) ==
              KDL_OK);
        CHECK(found <= i);
        for (size_t j = 0; j < entries; j++) {
            const struct kdl_row *entry = &rows->all[at++];
            CHECK(at <= rows->count);
            CHECK(kdl_entry(d, path, depth + 1, j, &row, s, rows->len, &len) == KDL_OK);
            CHECK(is_same(&row, s, entry, rows->strings));
            CHECK(row.start == entry->start && row.len == entry->len);
            if (entry->kind == KDL_PROPERTY) {
                CHECK(kdl_find_entry(d, path, depth + 1, rows->strings + entry->name_start,
                                     entry->name_len, &found) == KDL_OK);
                CHECK(found >= j && found < entries);
            } else {
                CHECK(kdl_argument(d, path, depth + 1, arguments++, &row, s, rows->len, &len) ==
                      KDL_OK);
                CHECK(is_same(&row, s, entry, rows->strings) && row.start == entry->start);
            }
        }
        CHECK(kdl_argument(d, path, depth + 1, arguments, &row, s, rows->len, &len) ==
              KDL_NOT_FOUND);
        if (node->has_block) {
            at = block(d, rows, at, path, depth + 1, s, next);
            CHECK(at < rows->count && rows->all[at].kind == KDL_END);
            at++;
        }
    }
    return at;
}

static size_t depth_of(const struct rows *rows) {
    size_t depth = 0, most = 0;
    for (size_t i = 0; i < rows->count; i++) {
        depth += rows->all[i].has_block;
        depth -= rows->all[i].kind == KDL_END;
        most = depth > most ? depth : most;
    }
    return most;
}

/* Returns the paths of all nodes, as a query for them writes them, and sets the count of `size_t`. */
static size_t *all_paths(struct kdl_document *d, size_t *needed) {
    size_t count, none;
    uint32_t status = kdl_query(d, T("[]"), &none, 0, &count, needed);
    CHECK(status == (*needed ? KDL_TOO_SMALL : KDL_OK));
    size_t *paths = (size_t *)(void *)buffer(*needed * sizeof *paths);
    CHECK(kdl_query(d, T("[]"), paths, *needed, &count, needed) == KDL_OK);
    return paths;
}

/* Checks that the rows, the query for all nodes, and the calls for single nodes and entries agree. */
static void rows_agree(struct kdl_document *d) {
    struct rows rows = rows_of(d);
    size_t needed, *paths = all_paths(d, &needed);
    size_t *path = (size_t *)calloc(depth_of(&rows) + 2, sizeof *path);
    CHECK(path);
    uint8_t *s = buffer(rows.len);
    const size_t *next = paths;
    CHECK(block(d, &rows, 0, path, 0, s, &next) == rows.count && next == paths + needed);
    free(s);
    free(paths);
    free(path);
    drop_rows(&rows);
}

/* Lays the document out by the call, and returns the text. Checks that the text has the same data,
 * and that a second layout does not change it. */
static uint8_t *lays(uint32_t (*call)(struct kdl_document *), const struct text *text, size_t *len) {
    struct kdl_document d = none(), e = none();
    CHECK(kdl_parse(text->bytes, text->len, &d) == KDL_OK);
    CHECK(call(&d) == KDL_OK);
    uint8_t *out = printed(&d, len);
    CHECK(kdl_parse(out, *len, &e) == KDL_OK);
    CHECK(have_same_data(&d, &e));
    CHECK(call(&e) == KDL_OK);
    size_t more;
    uint8_t *again = printed(&e, &more);
    CHECK(is_text(again, more, out, *len));
    free(again);
    kdl_free(&d);
    kdl_free(&e);
    return out;
}

/* Checks an accepted text. The expected layouts are null if they are not known. */
static void accepted(struct kdl_document *d, const struct text *text, const struct text *strip,
                     const struct text *fmt) {
    size_t n, m, k;
    uint8_t *out = printed(d, &n);
    CHECK(is_text(out, n, text->bytes, text->len));
    free(out);
    out = lays(kdl_strip, text, &n);
    uint8_t *laid = lays(kdl_format, text, &m);
    struct text inner = {laid, m};
    uint8_t *same = lays(kdl_strip, &inner, &k);
    CHECK(is_text(out, n, same, k));
    CHECK(!strip || is_text(out, n, strip->bytes, strip->len));
    CHECK(!fmt || is_text(laid, m, fmt->bytes, fmt->len));
    free(same);
    same = buffer(m);
    CHECK(kdl_format_text(text->bytes, text->len, same, m, &k) == KDL_OK);
    CHECK(is_text(same, k, laid, m));
    free(same);
    free(laid);
    free(out);
}

/* Checks a refused text. */
static void refused(const struct text *text) {
    struct kdl_report one;
    uint8_t nothing;
    size_t count, len, more, line, column;
    CHECK(kdl_reports(text->bytes, text->len, &one, 0, &count, &nothing, 0, &len) == KDL_FAULTS);
    CHECK(count > 0);
    struct kdl_report *all = (struct kdl_report *)calloc(count, sizeof *all);
    uint8_t *s = buffer(len);
    CHECK(all);
    CHECK(kdl_reports(text->bytes, text->len, all, count, &more, s, len, &len) == KDL_FAULTS);
    CHECK(more == count);
    for (size_t i = 0; i < count; i++) {
        const struct kdl_report *it = &all[i];
        CHECK(it->start <= text->len && it->len <= text->len - it->start);
        CHECK(!is_continued(text->bytes, text->len, it->start));
        CHECK(!is_continued(text->bytes, text->len, it->start + it->len));
        CHECK(it->message_len > 0 && it->message_start + it->message_len <= len);
        CHECK(it->label_start + it->label_len <= len && it->help_start + it->help_len <= len);
        if (i < 20) { /* each call reads the text from its start */
            CHECK(kdl_position(text->bytes, text->len, it->start, &line, &column) == KDL_OK);
            CHECK(line >= 1 && column >= 1 && line - 1 <= it->start && column - 1 <= it->start);
        }
    }
    free(all);
    free(s);
}

/* ---- Changes ---- */

static uint64_t state = 88172645463325252u;

static size_t below(size_t n) {
    state ^= state << 13;
    state ^= state >> 7;
    state ^= state << 17;
    return (size_t)((state >> 11) % n);
}

static const char *const pieces[] = {
    "{", "}", ";", "\n", "\r\n", "\r", "\"", "#", "\\", "/-", "/*", "*/", "//", "(", ")", "(t)", "=",
    " ", "\t", "0x", "0b1", "0o7", "_", "-", "+", ".", "1", "1e9", "\"\"\"", "\"\"\"\n", "#\"", "\"#",
    "##\"", "\\u{41}", "\\u{", "\\n", "#true", "#false", "#null", "#inf", "#-inf", "#nan", "true",
    "k=", "a", "\xc3\xa9", "\xe2\x80\xa8", "\xef\xbb\xbf", "\xe2\x80\xae", "\xf0\x9f\x98\x80",
    "\xc2\xa0", "\x7f", "\x01", "\\\n", "/- {", " {\n    b 1\n}", "/*a*/", "99999999999999999999",
};

/* Replaces the bytes between two places by `len` others, if the text has room. */
static void splice(struct text *text, size_t from, size_t to, const uint8_t *bytes, size_t len) {
    if (text->len - (to - from) + len > MOST) {
        return;
    }
    memmove(text->bytes + from + len, text->bytes + to, text->len - to);
    memcpy(text->bytes + from, bytes, len);
    text->len += len - (to - from);
}

/* Returns a random place between characters. */
static size_t place(const struct text *text) {
    size_t at = below(text->len + 1);
    while (is_continued(text->bytes, text->len, at)) {
        at++;
    }
    return at;
}

static void change(struct text *text, const struct text *bases, size_t count) {
    uint8_t copy[MOST];
    size_t from = place(text), to = place(text), swap = from;
    const char *piece = pieces[below(sizeof pieces / sizeof *pieces)];
    if (to < from) {
        from = to;
        to = swap;
    }
    if (to - from > 40) {
        to = from;
    }
    switch (below(8)) {
    case 0: splice(text, from, to, T("")); break;
    case 1: splice(text, from, to, T(piece)); break;
    case 2: case 3: case 4: splice(text, from, from, T(piece)); break;
    case 5:
        memcpy(copy, text->bytes + from, to - from);
        splice(text, from, from, copy, to - from);
        break;
    case 6: {
        const struct text *other = &bases[below(count)];
        size_t start = place(other), end = place(other);
        if (start < end) {
            splice(text, from, from, other->bytes + start, end - start);
        }
        break;
    }
    default: /* one byte in sixteen, so that most texts stay UTF-8 */
        if (text->len && below(16) == 0) {
            text->bytes[below(text->len)] = (uint8_t)below(256);
        }
    }
}

/* Sets `path` to the path of the node at that row. Returns the length of the path. */
static size_t path_to(const struct rows *rows, size_t row, size_t *path) {
    size_t depth = 0;
    path[0] = 0;
    for (size_t i = 0; i < row; i++) {
        const struct kdl_row *it = &rows->all[i];
        if (it->kind == KDL_END) {
            path[--depth]++;
        } else if (it->kind == KDL_NODE && it->has_block) {
            path[++depth] = 0;
        } else if (it->kind == KDL_NODE) {
            path[depth]++;
        }
    }
    return depth + 1;
}

/* Makes a random edit at a random node. Checks that the document prints a text that reads back with
 * its data, or after a refused edit the text that it printed before. */
static void edited(struct kdl_document *d) {
    static const char *const names[] = {"a", "a b", "", "true", "1", "-1", "\xc3\xa9"};
    static const char *const values[] = {"1", "\"x y\"", "x", "0x1F", "#null", "\"\"", "#\"r\"#"};
    static const char *const entries[] = {"1", "k=2", "(u8)3", "/* c */ x", "\"a b\"=#true", "x"};
    static const char *const nodes[] = {"n", "n 1 k=2", "n { m; }", "(t)n", "n;", "n // c", "/-m\nn"};
    struct rows rows = rows_of(d);
    size_t count, len, more, row = rows.count ? below(rows.count) : 0, choice = below(7);
    size_t *path = (size_t *)calloc(depth_of(&rows) + 2, sizeof *path), depth, index = below(3);
    CHECK(path);
    while (row > 0 && rows.all[row].kind != KDL_NODE) {
        row--;
    }
    depth = rows.count ? path_to(&rows, row, path) : 0;
    drop_rows(&rows);
    uint8_t *before = printed(d, &len);
    uint32_t status;
    switch (below(8)) {
    case 0: status = kdl_set_value(d, path, depth, index, T(values[choice])); break;
    case 1: status = kdl_set_key(d, path, depth, index, choice != 0, T(names[choice])); break;
    case 2:
        status = kdl_set_type(d, path, depth, index ? index - 1 : SIZE_MAX, choice != 0,
                              T(names[choice]));
        break;
    case 3: status = kdl_set_name(d, path, depth, T(names[choice])); break;
    case 4: status = kdl_insert_entry(d, path, depth, index, T(entries[choice % 6])); break;
    case 5: status = kdl_remove_entry(d, path, depth, index); break;
    case 6: status = kdl_insert_node(d, path, depth - (depth && index), index, T(nodes[choice])); break;
    default: status = kdl_remove_node(d, path, depth - (depth && index), index);
    }
    CHECK(status == KDL_OK || status == KDL_NOT_FOUND);
    uint8_t *after = printed(d, &more);
    if (status == KDL_OK) {
        struct kdl_document e = none();
        CHECK(kdl_parse(after, more, &e) == KDL_OK);
        CHECK(have_same_data(d, &e));
        kdl_free(&e);
    } else {
        CHECK(is_text(after, more, before, len));
    }
    CHECK(kdl_node_count(d, path, 0, &count) == KDL_OK);
    free(path);
    free(before);
    free(after);
}

/* ---- The runs ---- */

/* The text that is tried, for the message if it fails. */
static struct text tried;
static size_t tried_number;

static void told(void) {
    if (tried.bytes) {
        fprintf(stderr, "the text number %zu, in hexadecimal: ", tried_number);
        for (size_t i = 0; i < tried.len && i < MOST; i++) {
            fprintf(stderr, "%02x", tried.bytes[i]);
        }
        fputc('\n', stderr);
    }
}

/* Tries a text, and returns whether it was accepted. */
static bool try_text(const struct text *text, const struct text *strip, const struct text *fmt,
                     bool with_calls) {
    struct kdl_document d = none();
    struct kdl_fault fault;
    uint8_t nothing;
    size_t count, len;
    tried = *text;
    uint32_t status = kdl_parse(text->bytes, text->len, &d);
    uint32_t found = kdl_faults(text->bytes, text->len, &fault, 0, &count, &nothing, 0, &len);
    CHECK(found == status && (count > 0) == (status == KDL_FAULTS));
    CHECK((status == KDL_NOT_UTF8) == !is_utf8(text->bytes, text->len));
    CHECK(d.live == (status == KDL_OK));
    if (status == KDL_OK) {
        accepted(&d, text, strip, fmt);
        if (with_calls) {
            rows_agree(&d);
        }
        for (int i = 0; i < 2; i++) {
            edited(&d);
        }
        kdl_free(&d);
    } else if (status == KDL_FAULTS) {
        refused(text);
    }
    tried.bytes = NULL;
    return status == KDL_OK;
}

static struct text read_text(FILE *file, long len) {
    struct text text = {buffer(len > 0 ? (size_t)len : 0), len > 0 ? (size_t)len : 0};
    CHECK(fread(text.bytes, 1, text.len, file) == text.len);
    return text;
}

/* The texts that changes start from, the accepted ones first. */
struct bases {
    struct text *all;
    size_t count, accepted;
};

static void keep(struct bases *bases, struct text text, bool is_accepted) {
    bases->all[bases->count++] = text;
    if (is_accepted) {
        bases->all[bases->count - 1] = bases->all[bases->accepted];
        bases->all[bases->accepted++] = text;
    }
}

/* Tries the texts of the file, and keeps those that changes start from. */
static struct bases try_file(const char *name) {
    FILE *file = fopen(name, "rb");
    CHECK(file);
    size_t all = 0, texts;
    CHECK(fscanf(file, "%zu", &texts) == 1 && fgetc(file) == '\n');
    struct bases bases = {(struct text *)calloc(texts, sizeof *bases.all), 0, 0};
    CHECK(bases.all);
    char kind;
    long len, strip_len, fmt_len;
    while (fscanf(file, "%c %ld %ld %ld", &kind, &len, &strip_len, &fmt_len) == 4) {
        CHECK(fgetc(file) == '\n' && all < texts);
        struct text text = read_text(file, len);
        struct text strip = read_text(file, strip_len), fmt = read_text(file, fmt_len);
        tried_number = all++;
        bool is_accepted = try_text(&text, strip_len < 0 ? NULL : &strip, fmt_len < 0 ? NULL : &fmt,
                                    true);
        tried = text;
        CHECK(kind == '?' || is_accepted == (kind == 'a'));
        tried.bytes = NULL;
        free(strip.bytes);
        free(fmt.bytes);
        if (text.len <= BASE && (kind != '?' || all % 8 == 0)) {
            keep(&bases, text, is_accepted);
        } else {
            free(text.bytes);
        }
    }
    CHECK(feof(file) && all == texts);
    fclose(file);
    return bases;
}

int main(int argc, char **argv) {
    CHECK(argc == 3);
    atexit(told);
    struct bases bases = try_file(argv[1]);
    struct text made = {buffer(MOST), 0};
    size_t n = strtoul(argv[2], NULL, 10), accepted_count = 0;
    for (size_t i = 0; i < n; i++) {
        const struct text *base = &bases.all[below(i % 2 ? bases.count : bases.accepted)];
        memcpy(made.bytes, base->bytes, base->len);
        made.len = base->len;
        for (size_t changes = 1 + below(3); changes > 0; changes--) {
            change(&made, bases.all, bases.count);
        }
        tried_number = i;
        accepted_count += try_text(&made, NULL, NULL, i % 16 == 0);
    }
    for (size_t i = 0; i < bases.count; i++) {
        free(bases.all[i].bytes);
    }
    free(bases.all);
    free(made.bytes);
    if (n) {
        printf("%zu texts, %zu of them accepted\n", n, accepted_count);
    }
    return 0;
}
