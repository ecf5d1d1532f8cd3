/* Makes each allocation of each call fail in turn. The call has to return KDL_OUT_OF_MEMORY, to
 * leave the document as it was, and to leak nothing. Only a query may also succeed, where a list that
 * did not get room for later does with less. The program is linked with
 * --wrap=malloc,--wrap=realloc,--wrap=free. */
#include "check.h"

#ifdef __cplusplus
extern "C" {
#endif
void *__real_malloc(size_t);
void *__real_realloc(void *, size_t);
void __real_free(void *);
void *__wrap_malloc(size_t);
void *__wrap_realloc(void *, size_t);
void __wrap_free(void *);
#ifdef __cplusplus
}
#endif

/* How many allocations succeed before one fails, or -1; and how many blocks are allocated. */
static long granted = -1, held;

static bool is_refused(void) {
    return granted >= 0 && granted-- == 0;
}

void *__wrap_malloc(size_t size) {
    void *made = is_refused() ? NULL : __real_malloc(size);
    held += made != NULL;
    return made;
}

void *__wrap_realloc(void *old, size_t size) {
    if (is_refused()) {
        return NULL;
    }
    void *made = __real_realloc(old, size);
    held += !old && made;
    return made;
}

void __wrap_free(void *old) {
    held -= old != NULL;
    __real_free(old);
}

static const char *const text =
    "(t)a  0x10 \"k\" = #true // c\nb { c 99999999999999999999 1.5; \"d e\" { f \"\\u{41}\"; }; }\n";
static const char *const bad = "a }\nb #treu\n\"\\q\"";
static uint8_t out[4096], s[4096];
static struct kdl_row rows[64];
static struct kdl_fault faults[16];
static struct kdl_report reports[16];
static size_t indices[64];

/* Makes a query, and checks what it selects. */
static uint32_t queries(struct kdl_document *d) {
    static const size_t want[] = {1, 0, 2, 1, 0, 3, 1, 1, 0};
    size_t count, needed;
    uint32_t status = kdl_query(d, T("b >> [val()] || a"), indices, 64, &count, &needed);
    bool is_done = status == KDL_OK;
    CHECK(count == (is_done ? 3 : 0) && needed == (is_done ? 9 : 0));
    CHECK(!is_done || memcmp(indices, want, sizeof want) == 0);
    return status;
}

enum { CALLS = 30, QUERY = 22, LAYOUT = 27 };
static uint32_t call(int which, struct kdl_document *d) {
    static const size_t first[] = {0}, large[] = {1, 0};
    size_t n, m;
    switch (which) {
    case 0: return kdl_parse(T("x 1 { y \"a b\"; }"), d);
    case 1: return kdl_print(d, out, sizeof out, &n);
    case 2: return kdl_format(d);
    case 3: return kdl_strip(d);
    case 4: return kdl_format_text(T(text), out, sizeof out, &n);
    case 5: return kdl_faults(T(bad), faults, 16, &m, s, sizeof s, &n);
    case 6: return kdl_reports(T(bad), reports, 16, &m, s, sizeof s, &n);
    case 7: return kdl_faults_of(KDL_AS_ENTRY, T("k=#treu"), faults, 16, &m, s, sizeof s, &n);
    case 8: return kdl_tree(d, rows, 64, &m, s, sizeof s, &n);
    case 9: return kdl_set_value(d, first, 1, 0, T("\"x y\""));
    case 10: return kdl_insert_entry(d, first, 1, 1, T("p=(u8)0x20"));
    case 11: return kdl_entry(d, large, 2, 0, rows, s, sizeof s, &n);
    case 12: return kdl_remove_entry(d, first, 1, 0);
    case 13: return kdl_remove_node(d, first, 0, 1);
    case 14: return kdl_node_count(d, first, 0, &n);
    case 15: return kdl_node(d, first, 1, &m, rows, s, sizeof s, &n);
    case 16: return kdl_insert_node(d, first, 1, 0, T("n \"v w\" { m; }"));
    case 17: return kdl_set_name(d, first, 1, T("a new name"));
    case 18: return kdl_set_key(d, first, 1, 0, 1, T("a new key"));
    case 19: return kdl_set_type(d, first, 1, SIZE_MAX, 1, T("a new type"));
    case 20: return kdl_set_type(d, first, 1, 1, 1, T("a new type"));
    case 21: return kdl_find_entry(d, first, 1, T("k"), &n);
    case QUERY: return queries(d);
    case 23: return kdl_faults_of(KDL_AS_QUERY, T("a > b c"), faults, 16, &m, s, sizeof s, &n);
    case 24: return kdl_argument(d, first, 1, 0, rows, s, sizeof s, &n);
    case 25: return kdl_find_path(d, T("b/\"d e\""), indices, 64, &n);
    case 26: return kdl_get_path(d, T("b/c#0"), rows, s, sizeof s, &n);
    case 28: return kdl_node_tree(d, large, 1, rows, 64, &m, s, sizeof s, &n);
    case LAYOUT: {
        static const struct kdl_layout_options kept = {1, 0, 1, 1};
        return kdl_layout(d, &kept, T("\t"));
    }
    default: return kdl_get(d, T("a"), rows, s, sizeof s, &n);
    }
}

/* Writes the canonical text of a text's data, and returns its length. */
static size_t canonical(const uint8_t *of, size_t of_len, uint8_t *to, size_t room) {
    struct kdl_document d = none();
    size_t n;
    CHECK(kdl_parse(of, of_len, &d) == KDL_OK && kdl_strip(&d) == KDL_OK);
    CHECK(kdl_print(&d, to, room, &n) == KDL_OK);
    kdl_free(&d);
    return n;
}

/* Whether a text has the data of the one that is parsed here. */
static bool has_the_data(const uint8_t *other, size_t other_len) {
    static uint8_t expected[4096];
    size_t n = canonical(T(text), expected, sizeof expected);
    size_t m = canonical(other, other_len, s, sizeof s);
    return is_text(s, m, expected, n);
}

/* Makes the call with the allocation of that number failing. Returns whether there was one. */
static bool refuses(int which, long number) {
    bool has_faults = (which >= 5 && which <= 7) || which == 23;
    bool lays_out = which == 2 || which == 3 || which == LAYOUT;
    struct kdl_document d = none();
    size_t n;
    CHECK(kdl_parse(T(text), &d) == KDL_OK);
    long before = held;
    granted = number;
    uint32_t status = call(which, &d);
    bool was_refused = granted < 0;
    granted = -1;
    CHECK(d.live);
    CHECK(status == (was_refused ? KDL_OUT_OF_MEMORY : has_faults ? KDL_FAULTS : KDL_OK) ||
          (which == QUERY && status == KDL_OK));
    CHECK(kdl_print(&d, out, sizeof out, &n) == KDL_OK);
    if (was_refused && !lays_out) {
        CHECK(held == before && is_text(out, n, T(text)));
    }
    if (lays_out) { /* its data are what they were, and so are those of the text that it prints */
        CHECK(has_the_data(out, n));
        CHECK(kdl_strip(&d) == KDL_OK && kdl_print(&d, out, sizeof out, &n) == KDL_OK);
        CHECK(has_the_data(out, n));
    }
    kdl_free(&d);
    CHECK(held == 0);
    return was_refused;
}

int main(void) {
    long refused = 0;
    for (int which = 0; which < CALLS; which++) {
        long number = 0;
        while (refuses(which, number)) {
            number++;
        }
        refused += number;
    }
    CHECK(refused > 100);
    return 0;
}
