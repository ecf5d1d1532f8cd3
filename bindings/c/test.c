/* Tests what each call writes and returns: with buffers of every size, on paths without a node, on
 * a struct without a document, on deep blocks, and on six threads. */
#include "check.h"
#include <pthread.h>

static const char *const sample =
    "(t)a  0x10 \"k\" = #true // c\nb { c 99999999999999999999; }\n";

static void documents(void) {
    struct kdl_document d = none();
    size_t len;
    uint8_t out[64];
    CHECK(kdl_version() == KDL_VERSION);
    CHECK(kdl_parse((const uint8_t *)"\xff", 1, &d) == KDL_NOT_UTF8 && !d.live);
    CHECK(kdl_parse(T("a }"), &d) == KDL_FAULTS && !d.live);
    CHECK(kdl_parse(T(sample), &d) == KDL_OK && d.live);
    prints(&d, sample);
    /* a refused text leaves the document */
    CHECK(kdl_parse(T("a }\nb #treu\n"), &d) == KDL_FAULTS && d.live);
    CHECK(kdl_parse((const uint8_t *)"a \xc3", 3, &d) == KDL_NOT_UTF8 && d.live);
    prints(&d, sample);
    CHECK(kdl_format(&d) == KDL_OK);
    prints(&d, "(t)a 16 k=#true // c\nb {\n    c 99999999999999999999\n}\n");
    CHECK(kdl_strip(&d) == KDL_OK);
    prints(&d, "(t)a 16 k=#true\nb {\n    c 99999999999999999999\n}\n");
    /* another document in its place */
    CHECK(kdl_parse(T("x"), &d) == KDL_OK);
    prints(&d, "x");
    kdl_free(&d);
    CHECK(!d.live);
    kdl_free(&d);
    CHECK(kdl_format_text(T("a   0x1"), out, sizeof out, &len) == KDL_OK);
    CHECK(is_text(out, len, T("a 1\n")));
    CHECK(kdl_format_text(T("a }"), out, sizeof out, &len) == KDL_FAULTS && len == 0);
    CHECK(kdl_format_text((const uint8_t *)"\x80", 1, out, sizeof out, &len) == KDL_NOT_UTF8);
}

/* A document laid out by kdl_layout. */
static void lays_out(struct kdl_layout_options layout, const char *indent, const char *expected) {
    static const char *const loose = "a   0x10\n\n\n\nb { c 1 }\n// x\nd \"e\"\n";
    struct kdl_document d = none();
    CHECK(kdl_parse(T(loose), &d) == KDL_OK);
    CHECK(kdl_layout(&d, &layout, T(indent)) == KDL_OK);
    prints(&d, expected);
    kdl_free(&d);
}

static void layouts(void) {
    static const struct kdl_layout_options all = {2, 1, 1, 1};
    struct kdl_document d = none();
    struct kdl_layout_options layout = {0, 0, 0, 0};
    lays_out(layout, "    ", "a 16\nb {\n    c 1\n}\n// x\nd e\n");
    lays_out(layout, "\t", "a 16\nb {\n\tc 1\n}\n// x\nd e\n");
    lays_out(layout, "", "a 16\nb {\nc 1\n}\n// x\nd e\n");
    layout.blank_lines = 1;
    lays_out(layout, "  ", "a 16\n\nb {\n  c 1\n}\n// x\nd e\n");
    layout.blank_lines = 0;
    layout.no_comments = 1;
    lays_out(layout, "  ", "a 16\nb {\n  c 1\n}\nd e\n");
    layout.no_comments = 0;
    layout.keep_spelling = 2;
    lays_out(layout, "  ", "a 0x10\nb {\n  c 1\n}\n// x\nd \"e\"\n");
    layout.keep_spelling = 0;
    layout.keep_one_line = UINT32_MAX;
    lays_out(layout, "  ", "a 16\nb { c 1 }\n// x\nd e\n");
    lays_out(all, "  ", "a 0x10\n\n\nb { c 1 }\nd \"e\"\n");
    /* what is no indent leaves the document */
    CHECK(kdl_layout(&d, &layout, T(" ")) == KDL_NO_DOCUMENT);
    CHECK(kdl_parse(T(sample), &d) == KDL_OK);
    CHECK(kdl_layout(&d, &layout, T(" x")) == KDL_FAULTS);
    CHECK(kdl_layout(&d, &layout, T("\n")) == KDL_FAULTS);
    CHECK(kdl_layout(&d, &layout, (const uint8_t *)" \xff", 2) == KDL_NOT_UTF8);
    prints(&d, sample);
    kdl_free(&d);
}

/* Writes the text of a document to a file, and reads it back as a document. */
static struct kdl_document through_a_file(struct kdl_document *document) {
    FILE *file = tmpfile();
    struct kdl_document again = none();
    size_t len;
    uint8_t *text = printed(document, &len), *back = buffer(len);
    CHECK(file && fwrite(text, 1, len, file) == len);
    rewind(file);
    CHECK(fread(back, 1, len, file) == len && fgetc(file) == EOF && fclose(file) == 0);
    CHECK(kdl_parse(back, len, &again) == KDL_OK);
    free(text);
    free(back);
    return again;
}

/* What a user does first, on one file. */
static void first_steps(void) {
    static const char *const wanted =
        "// the service\nname web\nserver {\n    port 9090 // the usual one\n    tls #true\n}\n";
    struct kdl_document d = none(), again;
    struct kdl_row row;
    struct kdl_fault fault;
    size_t path[2], len, count, line, column;
    uint8_t s[64];
    CHECK(kdl_parse(T("// the service\nname web\nserver {\n    port 0x1F90 // the usual one\n}\nold #true\n"), &d) ==
          KDL_OK); /* load */
    CHECK(kdl_get_path(&d, T("server/port"), &row, s, sizeof s, &len) == KDL_OK && row.integer == 8080);
    CHECK(kdl_find_path(&d, T("server/port"), path, 2, &len) == KDL_OK && len == 2);
    CHECK(kdl_set_value(&d, path, 2, 0, T("9090")) == KDL_OK); /* change a value, and keep its comment */
    CHECK(kdl_insert_node(&d, path, 1, 1, T("    tls #true\n")) == KDL_OK); /* add a node */
    CHECK(kdl_find(&d, path, 0, T("old"), &path[0]) == KDL_OK);
    CHECK(kdl_remove_node(&d, path, 0, path[0]) == KDL_OK); /* remove one */
    prints(&d, wanted);
    CHECK(kdl_node_count(&d, path, 0, &count) == KDL_OK && count == 2); /* iterate */
    for (path[0] = 0; path[0] < count; path[0]++) {
        size_t entries;
        CHECK(kdl_node(&d, path, 1, &entries, &row, s, sizeof s, &len) == KDL_OK);
        CHECK(is_text(s + row.name_start, row.name_len, T(path[0] ? "server" : "name")));
    }
    again = through_a_file(&d); /* dump, and round trip a file */
    prints(&again, wanted);
    CHECK(kdl_format(&again) == KDL_OK); /* format */
    prints(&again, wanted);
    kdl_free(&again);
    kdl_free(&d);
    CHECK(kdl_faults(T("a 1\nb #treu\n"), &fault, 1, &count, s, sizeof s, &len) == KDL_FAULTS && count == 1);
    CHECK(kdl_position(T("a 1\nb #treu\n"), fault.start, &line, &column) == KDL_OK); /* errors with places */
    CHECK(line == 2 && column == 3);
}

static void faults(void) {
    const char *text = "a }\nb #treu\n";
    struct kdl_fault f[4];
    size_t count, len;
    uint8_t s[256];
    CHECK(kdl_faults(T(text), f, 4, &count, s, sizeof s, &len) == KDL_FAULTS && count == 2);
    CHECK(f[0].start == 2 && f[0].len == 1 && f[1].start == 6 && f[1].len == 5);
    CHECK(is_text(s + f[1].message_start, f[1].message_len, T("Expected keyword")));
    CHECK(kdl_faults(T(text), f, 0, &count, s, 0, &len) == KDL_FAULTS && count == 2 && len > 16);
    CHECK(kdl_faults(T("a"), f, 4, &count, s, sizeof s, &len) == KDL_OK && !count && !len);
    CHECK(kdl_faults(T(""), f, 4, &count, s, sizeof s, &len) == KDL_OK && !count && !len);
    CHECK(kdl_faults((const uint8_t *)"\xff", 1, f, 4, &count, s, 9, &len) == KDL_NOT_UTF8);
    CHECK(!count && !len);

    struct kdl_report r[4];
    CHECK(kdl_reports(T("{}"), r, 4, &count, s, sizeof s, &len) == KDL_FAULTS && count == 1);
    CHECK(r[0].start == 0 && r[0].len == 1);
    CHECK(is_text(s + r[0].message_start, r[0].message_len,
                  T("Found child block instead of node name")));
    CHECK(is_text(s + r[0].label_start, r[0].label_len, T("not node name")));
    CHECK(r[0].help_len > 20 && r[0].help_start + r[0].help_len == len);
    CHECK(kdl_reports(T("a"), r, 4, &count, s, sizeof s, &len) == KDL_OK && !count && !len);
    CHECK(kdl_reports(T(text), r, 0, &count, s, 0, &len) == KDL_FAULTS && count == 2 && len > 16);

    /* the faults of texts given to edits */
    CHECK(kdl_faults_of(KDL_AS_DOCUMENT, T(text), f, 4, &count, s, sizeof s, &len) == KDL_FAULTS);
    CHECK(count == 2 && f[1].start == 6);
    CHECK(kdl_faults_of(KDL_AS_NODE, T("a 1"), f, 4, &count, s, sizeof s, &len) == KDL_OK);
    CHECK(kdl_faults_of(KDL_AS_NODE, T("a; b"), f, 4, &count, s, sizeof s, &len) == KDL_FAULTS);
    CHECK(kdl_faults_of(KDL_AS_ENTRY, T("k=1"), f, 4, &count, s, sizeof s, &len) == KDL_OK);
    CHECK(kdl_faults_of(KDL_AS_ENTRY, T("1 2"), f, 4, &count, s, sizeof s, &len) == KDL_FAULTS);
    CHECK(count && f[0].start >= 1 && f[0].start + f[0].len <= 3);
    CHECK(kdl_faults_of(KDL_AS_VALUE, T("0x10"), f, 4, &count, s, sizeof s, &len) == KDL_OK);
    CHECK(kdl_faults_of(KDL_AS_VALUE, T("k=1"), f, 4, &count, s, sizeof s, &len) == KDL_FAULTS);
    CHECK(count && f[0].start + f[0].len <= 3);
    CHECK(kdl_faults_of(KDL_AS_VALUE, T("(t)1"), f, 4, &count, s, sizeof s, &len) == KDL_FAULTS);
    CHECK(kdl_faults_of(KDL_AS_VALUE, T("/*x*/0"), f, 4, &count, s, sizeof s, &len) == KDL_FAULTS);
    CHECK(count == 1 && f[0].start == 0 && f[0].len == 6 && len);
    CHECK(kdl_faults_of(KDL_AS_ENTRY, T("/*x*/0"), f, 4, &count, s, sizeof s, &len) == KDL_OK);
    /* a query has one fault */
    CHECK(kdl_faults_of(KDL_AS_QUERY, T("a > b"), f, 4, &count, s, sizeof s, &len) == KDL_OK);
    CHECK(!count && !len);
    CHECK(kdl_faults_of(KDL_AS_QUERY, T("a b"), f, 4, &count, s, sizeof s, &len) == KDL_FAULTS);
    CHECK(count == 1 && f[0].start == 2 && f[0].len == 1 && f[0].message_start == 0);
    CHECK(is_text(s, len, T("Expected an operator")) && f[0].message_len == len);
    CHECK(kdl_faults_of(KDL_AS_QUERY, T(""), f, 0, &count, s, 0, &len) == KDL_FAULTS && count == 1);
    CHECK(kdl_faults_of(KDL_AS_QUERY, (const uint8_t *)"\xff", 1, f, 4, &count, s, 9, &len) ==
          KDL_NOT_UTF8);
    CHECK(!count && !len);
    CHECK(kdl_faults_of(5, T("a"), f, 4, &count, s, sizeof s, &len) == KDL_NOT_FOUND);
    CHECK(!count && !len);
}

static void statuses(void) {
    for (uint32_t i = KDL_OK; i <= KDL_NOT_FOUND; i++) {
        CHECK(strcmp(kdl_status_text(i), kdl_status_text(i + 1)) != 0);
    }
    CHECK(strcmp(kdl_status_text(KDL_OUT_OF_MEMORY), "out of memory") == 0);
    CHECK(strcmp(kdl_status_text(KDL_NOT_FOUND + 1), "unknown status") == 0);
    CHECK(strcmp(kdl_status_text(UINT32_MAX), "unknown status") == 0);
}

static void positions(void) {
    const char *text = "a\r\n\xc3\xa9 b\rc\xe2\x80\xa8" "d\n";
    static const size_t want[][3] = {
        {0, 1, 1}, {1, 1, 2}, {2, 1, 3}, {3, 2, 1}, {5, 2, 2}, {6, 2, 3}, {7, 2, 4},
        {8, 3, 1}, {9, 3, 2}, {12, 4, 1}, {13, 4, 2}, {14, 5, 1},
    };
    size_t line, column;
    CHECK(strlen(text) == 14);
    for (size_t i = 0; i < sizeof want / sizeof *want; i++) {
        CHECK(kdl_position(T(text), want[i][0], &line, &column) == KDL_OK);
        CHECK(line == want[i][1] && column == want[i][2]);
    }
    CHECK(kdl_position(T(text), 4, &line, &column) == KDL_NOT_FOUND);
    CHECK(kdl_position(T(text), 11, &line, &column) == KDL_NOT_FOUND);
    CHECK(kdl_position(T(text), 15, &line, &column) == KDL_NOT_FOUND);
    CHECK(kdl_position(T(text), SIZE_MAX, &line, &column) == KDL_NOT_FOUND);
    CHECK(kdl_position(T(""), 0, &line, &column) == KDL_OK && line == 1 && column == 1);
    CHECK(kdl_position((const uint8_t *)"\xff", 1, 0, &line, &column) == KDL_NOT_UTF8);
}

static void reading(void) {
    struct kdl_document d = none();
    struct kdl_row row, rows[16];
    size_t n, m, path[3] = {1, 0, 0};
    uint8_t s[64];
    CHECK(kdl_parse(T(sample), &d) == KDL_OK);
    CHECK(kdl_node_count(&d, path, 0, &m) == KDL_OK && m == 2);
    CHECK(kdl_node_count(&d, path, 1, &m) == KDL_OK && m == 1);
    CHECK(kdl_node(&d, path, 2, &m, &row, s, sizeof s, &n) == KDL_OK && m == 1);
    CHECK(row.kind == KDL_NODE && row.value == KDL_NO_VALUE && is_text(s, n, T("c")));
    CHECK(!row.has_type && !row.has_block && row.start == 33 - 1);
    CHECK(kdl_entry(&d, path, 2, 0, &row, s, sizeof s, &n) == KDL_OK);
    CHECK(row.kind == KDL_ARGUMENT && row.value == KDL_LARGE_INTEGER);
    CHECK(is_text(s + row.text_start, row.text_len, T("99999999999999999999")));
    path[0] = 0;
    CHECK(kdl_entry(&d, path, 1, 1, &row, s, sizeof s, &n) == KDL_OK && row.kind == KDL_PROPERTY);
    CHECK(row.value == KDL_BOOL && row.integer == 1 && is_text(s, n, T("k")));
    CHECK(kdl_tree(&d, rows, 16, &m, s, sizeof s, &n) == KDL_OK && m == 7 && n == 25);
    CHECK(rows[0].has_type && s[rows[0].type_start] == 't' && rows[0].type_len == 1);
    CHECK(rows[1].integer == 16 && rows[3].has_block && rows[6].kind == KDL_END);
    /* a node alone: the second one, with its block, and the one in the block */
    path[0] = 1;
    CHECK(kdl_node_tree(&d, path, 1, rows, 16, &m, s, sizeof s, &n) == KDL_OK && m == 4);
    CHECK(rows[0].has_block && rows[2].value == KDL_LARGE_INTEGER && rows[3].kind == KDL_END);
    CHECK(is_text(s + rows[1].name_start, rows[1].name_len, T("c")));
    CHECK(kdl_node_tree(&d, path, 2, rows, 16, &m, s, sizeof s, &n) == KDL_OK && m == 2);
    CHECK(kdl_node_tree(&d, path, 0, rows, 16, &m, s, sizeof s, &n) == KDL_NOT_FOUND && !m && !n);
    path[0] = 0;
    /* the counts and the row are set if the strings have too little room */
    CHECK(kdl_entry(&d, path, 1, 1, &row, s, 0, &n) == KDL_TOO_SMALL && n == 1);
    CHECK(row.kind == KDL_PROPERTY && row.value == KDL_BOOL && row.integer == 1);
    CHECK(row.name_len == 1);
    CHECK(kdl_node(&d, path, 1, &m, &row, s, 1, &n) == KDL_TOO_SMALL && n == 2 && m == 2);
    CHECK(row.kind == KDL_NODE && row.has_type && row.type_len == 1 && row.name_len == 1);
    /* look-ups */
    CHECK(kdl_find(&d, path, 0, T("b"), &n) == KDL_OK && n == 1);
    path[0] = 1;
    CHECK(kdl_find(&d, path, 1, T("c"), &n) == KDL_OK && n == 0);
    CHECK(kdl_find(&d, path, 1, T("b"), &n) == KDL_NOT_FOUND);
    path[0] = 0;
    CHECK(kdl_find_entry(&d, path, 1, T("k"), &n) == KDL_OK && n == 1);
    CHECK(kdl_find_entry(&d, path, 1, T("x"), &n) == KDL_NOT_FOUND);
    CHECK(kdl_get(&d, T("a"), &row, s, sizeof s, &n) == KDL_OK && row.integer == 16);
    CHECK(kdl_get(&d, T("b"), &row, s, sizeof s, &n) == KDL_NOT_FOUND);
    CHECK(kdl_get(&d, T("c"), &row, s, sizeof s, &n) == KDL_NOT_FOUND);
    /* of two with one name, the first node and the last property */
    CHECK(kdl_parse(T("n k=1 k=2 k=3 4; n 5"), &d) == KDL_OK);
    CHECK(kdl_find(&d, path, 0, T("n"), &n) == KDL_OK && n == 0);
    CHECK(kdl_find_entry(&d, path, 1, T("k"), &n) == KDL_OK && n == 2);
    CHECK(kdl_get(&d, T("n"), &row, s, sizeof s, &n) == KDL_OK && row.integer == 4);
    CHECK(row.kind == KDL_ARGUMENT && row.start == 14 && row.len == 1);
    CHECK(kdl_get(&d, (const uint8_t *)"\xff", 1, &row, s, sizeof s, &n) == KDL_NOT_UTF8);
    CHECK(kdl_find(&d, path, 0, (const uint8_t *)"\xff", 1, &n) == KDL_NOT_UTF8);
    CHECK(kdl_find_entry(&d, path, 1, (const uint8_t *)"\xff", 1, &n) == KDL_NOT_UTF8);
    /* the place of an inserted entry is in its own text */
    CHECK(kdl_insert_entry(&d, path, 1, 0, T(" k=0x10")) == KDL_OK);
    CHECK(kdl_entry(&d, path, 1, 0, &row, s, sizeof s, &n) == KDL_OK);
    CHECK(row.start == 0 && row.len == 7);
    CHECK(kdl_entry(&d, path, 1, 1, &row, s, sizeof s, &n) == KDL_OK);
    CHECK(row.start == 2 && row.len == 3);
    prints(&d, "n k=16 k=1 k=2 k=3 4; n 5");
    CHECK(kdl_parse(T("n long"), &d) == KDL_OK);
    CHECK(kdl_get(&d, T("n"), &row, s, 0, &n) == KDL_TOO_SMALL && n == 4);
    CHECK(row.kind == KDL_ARGUMENT && row.value == KDL_STRING && row.text_len == 4);
    kdl_free(&d);
}

/* Fills the buffer with a number that no path has. */
static void blank(size_t *out, size_t room) {
    for (size_t i = 0; i < room; i++) {
        out[i] = SIZE_MAX;
    }
}

static void queries(void) {
    static const size_t want[] = {2, 0, 0, 3, 0, 1, 0, 1, 1};
    enum { ALL = sizeof want / sizeof *want };
    struct kdl_document d = none();
    size_t count, needed, out[ALL + 1];
    CHECK(kdl_parse(T("a { b 1; c { b 2; }; }; b 3"), &d) == KDL_OK);
    blank(out, ALL + 1);
    CHECK(kdl_query(&d, T("b"), out, ALL + 1, &count, &needed) == KDL_OK);
    CHECK(count == 3 && needed == ALL && memcmp(out, want, sizeof want) == 0);
    CHECK(out[ALL] == SIZE_MAX);
    /* with too little room nothing is written */
    for (size_t room = 0; room <= ALL; room++) {
        size_t *small = (size_t *)(void *)buffer(room * sizeof *small);
        blank(small, room);
        uint32_t status = kdl_query(&d, T("b"), small, room, &count, &needed);
        CHECK(count == 3 && needed == ALL);
        CHECK(status == (room == ALL ? KDL_OK : KDL_TOO_SMALL));
        for (size_t i = 0; i < room; i++) {
            CHECK(small[i] == (room == ALL ? want[i] : SIZE_MAX));
        }
        free(small);
    }
    /* each path is that of a node */
    CHECK(kdl_query(&d, T("b[val() > 1] || c"), out, ALL, &count, &needed) == KDL_OK && count == 3);
    for (size_t i = 0, left = count; left; left--, i += 1 + out[i]) {
        struct kdl_row row;
        size_t entries, len;
        uint8_t s[4];
        CHECK(i + 1 + out[i] <= needed);
        CHECK(kdl_node(&d, &out[i + 1], out[i], &entries, &row, s, sizeof s, &len) == KDL_OK);
        CHECK(is_text(s, len, T(left == 3 ? "c" : "b")));
    }
    CHECK(kdl_query(&d, T("x"), out, 0, &count, &needed) == KDL_OK && !count && !needed);
    CHECK(kdl_query(&d, T("top() > []"), out, ALL, &count, &needed) == KDL_OK && count == 2);
    count = needed = 7;
    CHECK(kdl_query(&d, T("a b"), out, ALL, &count, &needed) == KDL_FAULTS && !count && !needed);
    CHECK(kdl_query(&d, T(""), out, ALL, &count, &needed) == KDL_FAULTS && !count && !needed);
    CHECK(kdl_query(&d, (const uint8_t *)"\xff", 1, out, ALL, &count, &needed) == KDL_NOT_UTF8);
    kdl_free(&d);
    count = needed = 7;
    CHECK(kdl_query(&d, T("b"), out, ALL, &count, &needed) == KDL_NO_DOCUMENT && !count && !needed);
}

static void places(void) {
    const char *text = "server host=a { port 80; }; server 1 x=2 \"two\" host=b host=c { \"a/b\" 3; }";
    struct kdl_document d = none();
    struct kdl_row row;
    size_t n, path[3];
    uint8_t s[16];
    CHECK(kdl_parse(T(text), &d) == KDL_OK);
    blank(path, 3);
    CHECK(kdl_find_path(&d, T("server/port"), path, 3, &n) == KDL_OK && n == 2);
    CHECK(path[0] == 0 && path[1] == 0 && path[2] == SIZE_MAX);
    CHECK(kdl_find_path(&d, T("server[1]/\"a/b\"#7"), path, 2, &n) == KDL_OK && n == 2);
    CHECK(path[0] == 1 && path[1] == 0);
    blank(path, 3);
    CHECK(kdl_find_path(&d, T("server/port"), path, 1, &n) == KDL_TOO_SMALL && n == 2);
    CHECK(path[0] == SIZE_MAX);
    CHECK(kdl_find_path(&d, T("server[2]"), path, 3, &n) == KDL_NOT_FOUND && n == 0);
    CHECK(kdl_find_path(&d, T("/"), path, 3, &n) == KDL_NOT_FOUND && n == 0);
    CHECK(kdl_find_path(&d, T("server/"), path, 3, &n) == KDL_FAULTS && n == 0);
    CHECK(kdl_find_path(&d, (const uint8_t *)"\xff", 1, path, 3, &n) == KDL_NOT_UTF8 && n == 0);
    CHECK(path[0] == SIZE_MAX);
    /* entries */
    CHECK(kdl_get_path(&d, T("server/port"), &row, s, sizeof s, &n) == KDL_OK && row.integer == 80);
    CHECK(kdl_get_path(&d, T("server[1]/@host"), &row, s, sizeof s, &n) == KDL_OK);
    CHECK(row.kind == KDL_PROPERTY && is_text(s + row.text_start, row.text_len, T("c")));
    CHECK(kdl_get_path(&d, T("server[1]#1"), &row, s, sizeof s, &n) == KDL_OK);
    CHECK(row.kind == KDL_ARGUMENT && is_text(s, n, T("two")));
    CHECK(kdl_get_path(&d, T("server[1]#1"), &row, s, 2, &n) == KDL_TOO_SMALL && n == 3);
    CHECK(kdl_get_path(&d, T("server[1]#2"), &row, s, sizeof s, &n) == KDL_NOT_FOUND);
    CHECK(kdl_get_path(&d, T("server"), &row, s, sizeof s, &n) == KDL_NOT_FOUND);
    CHECK(kdl_get_path(&d, T("/"), &row, s, sizeof s, &n) == KDL_NOT_FOUND);
    CHECK(kdl_get_path(&d, T("server/@x"), &row, s, sizeof s, &n) == KDL_NOT_FOUND);
    CHECK(kdl_get_path(&d, T("#"), &row, s, sizeof s, &n) == KDL_FAULTS);
    CHECK(kdl_get_path(&d, (const uint8_t *)"\xff", 1, &row, s, sizeof s, &n) == KDL_NOT_UTF8);
    /* arguments alone are counted */
    path[0] = 1;
    CHECK(kdl_argument(&d, path, 1, 0, &row, s, sizeof s, &n) == KDL_OK && row.integer == 1);
    CHECK(kdl_argument(&d, path, 1, 1, &row, s, sizeof s, &n) == KDL_OK && is_text(s, n, T("two")));
    CHECK(kdl_argument(&d, path, 1, 1, &row, s, 0, &n) == KDL_TOO_SMALL && n == 3);
    CHECK(row.kind == KDL_ARGUMENT && row.text_len == 3);
    CHECK(kdl_argument(&d, path, 1, 2, &row, s, sizeof s, &n) == KDL_NOT_FOUND);
    CHECK(kdl_argument(&d, path, 1, SIZE_MAX, &row, s, sizeof s, &n) == KDL_NOT_FOUND);
    CHECK(kdl_argument(&d, path, 0, 0, &row, s, sizeof s, &n) == KDL_NOT_FOUND);
    kdl_free(&d);
    CHECK(kdl_find_path(&d, T("a"), path, 3, &n) == KDL_NO_DOCUMENT && n == 0);
    CHECK(kdl_get_path(&d, T("a"), &row, s, sizeof s, &n) == KDL_NO_DOCUMENT);
}

static void values(void) {
    const char *text = "v \"a\\u{0}b\" \"\" -9223372036854775808 9223372036854775807 "
                       "9223372036854775808 1_0.50e+3 #inf #-inf #nan #true #false #null (\"\")1";
    static const uint32_t want[] = {
        KDL_STRING, KDL_STRING, KDL_INTEGER, KDL_INTEGER, KDL_LARGE_INTEGER, KDL_FLOAT, KDL_FLOAT,
        KDL_FLOAT, KDL_FLOAT, KDL_BOOL, KDL_BOOL, KDL_NULL, KDL_INTEGER,
    };
    static const char *const texts[] = {
        0, "", 0, 0, "9223372036854775808", "10.50e+3", "#inf", "#-inf", "#nan",
    };
    struct kdl_document d = none();
    CHECK(kdl_parse(T(text), &d) == KDL_OK);
    struct rows rows = rows_of(&d);
    CHECK(rows.count == 14);
    for (size_t i = 0; i < 13; i++) {
        const struct kdl_row *it = &rows.all[i + 1];
        CHECK(it->kind == KDL_ARGUMENT && it->value == want[i]);
        CHECK(it->has_type == (i == 12) && it->type_len == 0 && it->name_len == 0);
        if (i < 9 && texts[i]) {
            CHECK(is_text(rows.strings + it->text_start, it->text_len, T(texts[i])));
        }
    }
    const struct kdl_row *it = rows.all;
    CHECK(is_text(rows.strings + it[1].text_start, it[1].text_len, (const uint8_t *)"a\0b", 3));
    CHECK(it[3].integer == INT64_MIN && it[4].integer == INT64_MAX);
    CHECK(it[10].integer == 1 && it[11].integer == 0);
    drop_rows(&rows);
    kdl_free(&d);
}

static void edits(void) {
    struct kdl_document d = none();
    size_t path[3] = {0, 0, 0};
    CHECK(kdl_parse(T(sample), &d) == KDL_OK);
    CHECK(kdl_set_value(&d, path, 1, 0, T("0x_")) == KDL_FAULTS);
    CHECK(kdl_set_value(&d, path, 1, 0, T("k=1")) == KDL_FAULTS);
    CHECK(kdl_set_value(&d, path, 1, 0, T("(t)1")) == KDL_FAULTS);
    CHECK(kdl_set_value(&d, path, 1, 0, (const uint8_t *)"\xff", 1) == KDL_NOT_UTF8);
    /* nothing is around a value */
    static const char *const more[] = {"/*x*/0", "0/*x*/", " 0", "0 ", "0\n", "\n0", "0 // x",
                                       "/-1 0", "\\\n0", "\"a\" ", "0;", "0 1", "/-0"};
    for (size_t i = 0; i < sizeof more / sizeof *more; i++) {
        CHECK(kdl_set_value(&d, path, 1, 0, T(more[i])) == KDL_FAULTS);
    }
    CHECK(kdl_insert_entry(&d, path, 1, 0, T("a b")) == KDL_FAULTS);
    CHECK(kdl_insert_node(&d, path, 0, 0, T("a; b")) == KDL_FAULTS);
    prints(&d, sample);
    CHECK(kdl_set_value(&d, path, 1, 0, T("0x11")) == KDL_OK);
    prints(&d, "(t)a  0x11 \"k\" = #true // c\nb { c 99999999999999999999; }\n");
    CHECK(kdl_insert_entry(&d, path, 1, 1, T("/-q=1 /* x */ p=(u8)/* y */0x20 // z")) == KDL_OK);
    prints(&d, "(t)a  0x11 p=(u8)32 \"k\" = #true // c\nb { c 99999999999999999999; }\n");
    CHECK(kdl_remove_entry(&d, path, 1, 0) == KDL_OK);
    prints(&d, "(t)a p=(u8)32 \"k\" = #true // c\nb { c 99999999999999999999; }\n");
    CHECK(kdl_set_key(&d, path, 1, 0, 1, T("q r")) == KDL_OK);
    CHECK(kdl_set_type(&d, path, 1, 0, 1, T("i8")) == KDL_OK);
    CHECK(kdl_set_type(&d, path, 1, SIZE_MAX, 1, T("u")) == KDL_OK);
    CHECK(kdl_set_name(&d, path, 1, T("a a")) == KDL_OK);
    prints(&d, "(u)\"a a\" \"q r\"=(i8)32 \"k\" = #true // c\nb { c 99999999999999999999; }\n");
    CHECK(kdl_set_key(&d, path, 1, 0, 0, T("")) == KDL_OK);
    CHECK(kdl_set_type(&d, path, 1, 0, 0, T("")) == KDL_OK);
    CHECK(kdl_set_type(&d, path, 1, SIZE_MAX, 0, T("")) == KDL_OK);
    prints(&d, "\"a a\" 32 \"k\" = #true // c\nb { c 99999999999999999999; }\n");
    CHECK(kdl_remove_node(&d, path, 0, 0) == KDL_OK);
    prints(&d, "b { c 99999999999999999999; }\n");
    kdl_free(&d);
}

/* Inserted nodes read back beside their neighbours. */
static void nodes(void) {
    static const char *const texts[] = {"", "a", "a\n", "a;b", "a // c", "a { b }", "a {b}", "a\\\n"};
    static const char *const want[] = {"x 1", "a", "b"};
    for (size_t i = 0; i < sizeof texts / sizeof *texts; i++) {
        struct kdl_document d = none();
        struct kdl_row row;
        size_t n, len, count, at;
        uint8_t s[16];
        CHECK(kdl_parse(T(texts[i]), &d) == KDL_OK);
        CHECK(kdl_node_count(&d, &n, 0, &count) == KDL_OK);
        for (at = 0; at <= count; at++) {
            CHECK(kdl_insert_node(&d, &at, 0, 2 * at, T(want[0])) == KDL_OK);
        }
        at = 0;
        CHECK(kdl_insert_node(&d, &at, 0, 2 * count + 2, T("y")) == KDL_NOT_FOUND);
        CHECK(kdl_insert_node(&d, &at, 1, 0, T("y { z }")) == KDL_OK); /* makes the block */
        uint8_t *text = printed(&d, &len);
        CHECK(kdl_parse(text, len, &d) == KDL_OK);
        CHECK(kdl_node_count(&d, &n, 0, &n) == KDL_OK && n == 2 * count + 1);
        for (at = 0; at <= count; at++) {
            size_t place = 2 * at;
            CHECK(kdl_node(&d, &place, 1, &n, &row, s, sizeof s, &len) == KDL_OK && n == 1);
            CHECK(is_text(s, len, T("x")) && row.has_block == (at == 0));
        }
        size_t path[2] = {0, 0};
        CHECK(kdl_node(&d, path, 2, &n, &row, s, sizeof s, &len) == KDL_OK && row.has_block);
        free(text);
        kdl_free(&d);
    }
}

/* Makes the writing call of that number, with so much room for rows or faults and for strings, in
 * buffers of exactly that size. Returns the status, and sets the counts. */
enum { WRITERS = 12 };
static uint32_t writes(int which, struct kdl_document *d, size_t room, size_t bytes, size_t *count,
                       size_t *len) {
    const char *bad = "a }\nb #treu\n";
    size_t path[1] = {0}, second[1] = {1}, entries;
    uint8_t *s = buffer(bytes);
    void *rows = buffer(room * sizeof(struct kdl_row));
    struct kdl_row row;
    uint32_t status = KDL_OK;
    *count = 0;
    switch (which) {
    case 0: status = kdl_print(d, s, bytes, len); break;
    case 1: status = kdl_format_text(T(sample), s, bytes, len); break;
    case 2: status = kdl_tree(d, (struct kdl_row *)rows, room, count, s, bytes, len); break;
    case 3: status = kdl_node(d, path, 1, &entries, &row, s, bytes, len); break;
    case 4: status = kdl_entry(d, path, 1, 1, &row, s, bytes, len); break;
    case 5: status = kdl_get(d, T("s"), &row, s, bytes, len); break;
    case 6: status = kdl_argument(d, second, 1, 0, &row, s, bytes, len); break;
    case 7: status = kdl_get_path(d, T("s#0"), &row, s, bytes, len); break;
    case 8: status = kdl_node_tree(d, path, 1, (struct kdl_row *)rows, room, count, s, bytes, len); break;
    case 9: status = kdl_faults(T(bad), (struct kdl_fault *)rows, room, count, s, bytes, len); break;
    case 10: status = kdl_reports(T(bad), (struct kdl_report *)rows, room, count, s, bytes, len); break;
    default:
        status = kdl_faults_of(KDL_AS_NODE, T(bad), (struct kdl_fault *)rows, room, count, s, bytes,
                               len);
    }
    free(rows);
    free(s);
    return status;
}

static void rooms(void) {
    struct kdl_document d = none();
    CHECK(kdl_parse(T("(t)a  0x10 \"k\" = #true { b; }\ns \"long text\" // c\n"), &d) == KDL_OK);
    for (int which = 0; which < WRITERS; which++) {
        size_t count, len, all, whole;
        bool lists = which >= 9;
        uint32_t fits = lists ? KDL_FAULTS : KDL_OK, small = lists ? KDL_FAULTS : KDL_TOO_SMALL;
        CHECK(writes(which, &d, 100, 1000, &all, &whole) == fits && whole > 0);
        const size_t bytes[] = {0, 1, whole - 1, whole}, rows[] = {0, 1, all ? all - 1 : 0, all};
        for (int i = 0; i < 16; i++) {
            size_t room = rows[i / 4], size = bytes[i % 4];
            uint32_t status = writes(which, &d, room, size, &count, &len);
            CHECK(status == (room >= all && size >= whole ? fits : small));
            CHECK(count == all && len == whole);
        }
    }
    kdl_free(&d);
}

static void empties(void) {
    struct kdl_document d = none();
    struct kdl_row row;
    size_t n, m, path[1] = {0};
    uint8_t s[8];
    CHECK(kdl_parse(T(""), &d) == KDL_OK && d.live);
    prints(&d, "");
    CHECK(kdl_tree(&d, &row, 0, &m, s, 0, &n) == KDL_OK && !m && !n);
    CHECK(kdl_node_count(&d, path, 0, &m) == KDL_OK && !m);
    CHECK(kdl_find(&d, path, 0, T(""), &n) == KDL_NOT_FOUND);
    CHECK(kdl_remove_node(&d, path, 0, 0) == KDL_NOT_FOUND);
    CHECK(kdl_insert_node(&d, path, 0, 0, T("")) == KDL_FAULTS);
    CHECK(kdl_insert_node(&d, path, 0, 0, T("\"\"")) == KDL_OK);
    CHECK(kdl_insert_entry(&d, path, 1, 0, T("")) == KDL_FAULTS);
    CHECK(kdl_insert_entry(&d, path, 1, 0, T("\"\"=\"\"")) == KDL_OK);
    CHECK(kdl_set_value(&d, path, 1, 0, T("")) == KDL_FAULTS);
    CHECK(kdl_find(&d, path, 0, T(""), &n) == KDL_OK && n == 0);
    CHECK(kdl_find_entry(&d, path, 1, T(""), &n) == KDL_OK && n == 0);
    CHECK(kdl_set_type(&d, path, 1, 0, 1, T("")) == KDL_OK);
    CHECK(kdl_entry(&d, path, 1, 0, &row, s, 0, &n) == KDL_OK && !n && row.has_type);
    CHECK(row.kind == KDL_PROPERTY && row.value == KDL_STRING);
    CHECK(kdl_format(&d) == KDL_OK);
    prints(&d, "\"\" \"\"=(\"\")\"\"\n");
    CHECK(kdl_format_text(T(""), s, sizeof s, &n) == KDL_OK && is_text(s, n, T("\n")));
    kdl_free(&d);
}

/* Makes the call of that number on a document with a path. Returns the status; the text stays. */
enum { CALLS = 23, WITH_PATH = 14 };
static uint32_t call(int which, struct kdl_document *d, const size_t *path, size_t len, size_t index) {
    struct kdl_row row;
    size_t n, m, k;
    uint8_t s[64];
    switch (which) {
    case 0: return kdl_node(d, path, len, &m, &row, s, sizeof s, &n);
    case 1: return kdl_entry(d, path, len, index, &row, s, sizeof s, &n);
    case 2: return kdl_find_entry(d, path, len, T("no"), &n);
    case 3: return kdl_set_value(d, path, len, index, T("1"));
    case 4: return kdl_set_key(d, path, len, index, 1, T("x"));
    case 5: return kdl_set_type(d, path, len, index, 1, T("x"));
    case 6: return kdl_insert_entry(d, path, len, index, T("1"));
    case 7: return kdl_remove_entry(d, path, len, index);
    case 8: return kdl_set_name(d, path, len, T("x"));
    case 9: return kdl_node_count(d, path, len, &n);
    case 10: return kdl_remove_node(d, path, len, index);
    case 11: return kdl_find(d, path, len, T("no"), &n);
    case 12: return kdl_insert_node(d, path, len, index, T("x"));
    case 13: return kdl_argument(d, path, len, index, &row, s, sizeof s, &n);
    case 14: return kdl_node_tree(d, path, len, &row, 1, &m, s, sizeof s, &n);
    case 15: return kdl_print(d, s, sizeof s, &n);
    case 16: return kdl_format(d);
    case 17: return kdl_strip(d);
    case 18: return kdl_tree(d, &row, 1, &m, s, sizeof s, &n);
    case 19: return kdl_query(d, T("a"), &k, 1, &m, &n);
    case 20: return kdl_find_path(d, T("no"), &m, 1, &n);
    case 21: return kdl_get_path(d, T("no"), &row, s, sizeof s, &n);
    default: return kdl_get(d, T("no"), &row, s, sizeof s, &n);
    }
}

static void nowhere(void) {
    /* the last one's node is there, and has no block */
    static const size_t paths[][3] = {{2, 0, 0}, {SIZE_MAX, 0, 0}, {0, 0, 0}, {1, 1, 0},
                                      {1, SIZE_MAX, 0}, {1, 0, 0}, {1, 0, SIZE_MAX}};
    static const size_t lens[] = {1, 1, 2, 2, 2, 3, 3};
    struct kdl_document d = none();
    size_t path[2] = {0, 0};
    CHECK(kdl_parse(T(sample), &d) == KDL_OK);
    for (int which = 0; which <= WITH_PATH; which++) {
        for (size_t i = 0; i < sizeof lens / sizeof *lens; i++) {
            CHECK(call(which, &d, paths[i], lens[i], 0) == KDL_NOT_FOUND);
        }
        /* an index beyond the last, of which a node has two; a block, one */
        if ((which >= 1 && which <= 7) || which == 13) {
            CHECK(call(which, &d, path, 1, 3) == KDL_NOT_FOUND);
            CHECK(which == 5 || call(which, &d, path, 1, SIZE_MAX) == KDL_NOT_FOUND);
        }
        if (which <= 8 || which >= 13) { /* no document is a node */
            CHECK(call(which, &d, path, 0, 0) == KDL_NOT_FOUND);
        }
        if (which == 10 || which == 12) {
            CHECK(call(which, &d, path, 0, 3) == KDL_NOT_FOUND);
            CHECK(call(which, &d, path, 0, SIZE_MAX) == KDL_NOT_FOUND);
        }
    }
    path[0] = 0;
    CHECK(kdl_remove_node(&d, path, 1, 0) == KDL_NOT_FOUND); /* without a block */
    CHECK(kdl_node_count(&d, path, 1, &path[1]) == KDL_NOT_FOUND && path[1] == 0);
    prints(&d, sample);
    kdl_free(&d);
}

static void freed(void) {
    struct kdl_document d = none();
    size_t path[1] = {0};
    for (int again = 0; again < 2; again++) {
        for (int which = 0; which < CALLS; which++) {
            CHECK(call(which, &d, path, 1, 0) == KDL_NO_DOCUMENT && !d.live);
        }
        CHECK(kdl_parse(T(sample), &d) == KDL_OK);
        kdl_free(&d);
        kdl_free(&d);
    }
}

static void deep(void) {
    const size_t depth = 200000;
    struct kdl_document d = none();
    struct kdl_row row;
    size_t len, strings, *path = (size_t *)calloc(depth, sizeof *path);
    uint8_t *text = buffer(3 * depth), s[4];
    CHECK(path);
    for (size_t i = 0; i < depth; i++) {
        text[2 * i] = 'a';
        text[2 * i + 1] = '{';
        text[2 * depth + i] = '}';
    }
    CHECK(kdl_parse(text, 3 * depth, &d) == KDL_OK);
    uint8_t *out = printed(&d, &len);
    CHECK(is_text(out, len, text, 3 * depth));
    free(out);
    struct rows rows = rows_of(&d);
    CHECK(rows.count == 2 * depth && rows.all[0].kind == KDL_NODE);
    CHECK(rows.all[rows.count - 1].kind == KDL_END);
    drop_rows(&rows);
    CHECK(kdl_node(&d, path, depth, &len, &row, s, 4, &strings) == KDL_OK && row.has_block);
    CHECK(kdl_insert_entry(&d, path, depth, 0, T("1")) == KDL_OK);
    size_t *deepest = (size_t *)calloc(depth + 1, sizeof *deepest), count, needed;
    CHECK(deepest && kdl_query(&d, T("a[val() = 1]"), deepest, depth + 1, &count, &needed) == KDL_OK);
    CHECK(count == 1 && needed == depth + 1 && deepest[0] == depth);
    CHECK(memcmp(deepest + 1, path, depth * sizeof *path) == 0);
    free(deepest);
    CHECK(kdl_remove_entry(&d, path, depth, 0) == KDL_OK);
    out = printed(&d, &len);
    CHECK(is_text(out, len, text, 3 * depth));
    kdl_free(&d);
    free(out);
    free(path);
    free(text);
}

static void *on_thread(void *number) {
    struct kdl_document d = none();
    struct kdl_fault fault;
    char text[64], laid[64];
    uint8_t s[64];
    size_t n, m, path[2] = {0, 0};
    snprintf(text, sizeof text, "a  %d { b  k=%d }", *(int *)number, *(int *)number + 1);
    snprintf(laid, sizeof laid, "a %d {\n    b k=%d\n}\n", *(int *)number, *(int *)number + 1);
    for (int i = 0; i < 2000; i++) {
        CHECK(kdl_parse(T(text), &d) == KDL_OK);
        CHECK(kdl_insert_entry(&d, path, 2, 0, T("9")) == KDL_OK);
        CHECK(kdl_remove_entry(&d, path, 2, 0) == KDL_OK);
        prints(&d, text);
        CHECK(kdl_format(&d) == KDL_OK);
        prints(&d, laid);
        CHECK(kdl_faults(T("}"), &fault, 1, &m, s, sizeof s, &n) == KDL_FAULTS);
    }
    kdl_free(&d);
    return NULL;
}

static void threads(void) {
    pthread_t made[6];
    int numbers[6];
    for (int i = 0; i < 6; i++) {
        numbers[i] = 1000 * i;
        CHECK(pthread_create(&made[i], NULL, on_thread, &numbers[i]) == 0);
    }
    for (int i = 0; i < 6; i++) {
        CHECK(pthread_join(made[i], NULL) == 0);
    }
}

int main(void) {
    documents();
    layouts();
    first_steps();
    faults();
    statuses();
    positions();
    reading();
    queries();
    places();
    values();
    edits();
    nodes();
    rooms();
    empties();
    nowhere();
    freed();
    deep();
    threads();
    return 0;
}
