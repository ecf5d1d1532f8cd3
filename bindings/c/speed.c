/* speed FILE: prints how long each call takes for the document of a file, and 10,000 edits of it, the least of 20
 * runs. An edit sets the first entry of the first node in a block of the document, if it is there. */
#define _POSIX_C_SOURCE 200809L
#include "check.h"
#include <time.h>

enum { PARTS = 6, EDITS = 10000 };
static const char *const names[] = {"faults", "parse", "print", "tree", "edits", "free"};

static double now(void) {
    struct timespec time;
    clock_gettime(CLOCK_MONOTONIC, &time);
    return (double)time.tv_sec + (double)time.tv_nsec * 1e-9;
}

/* Makes the edits, in one block after another. */
static void edit(struct kdl_document *d) {
    size_t path[2] = {0, 0}, count;
    CHECK(kdl_node_count(d, path, 0, &count) == KDL_OK);
    for (size_t i = 0; i < EDITS && count; i++) {
        path[0] = i % count;
        uint32_t status = kdl_set_value(d, path, 2, 0, T("8081"));
        CHECK(status == KDL_OK || status == KDL_NOT_FOUND);
    }
}

int main(int argc, char **argv) {
    CHECK(argc == 2);
    struct kdl_document d = none();
    size_t len, n, count, used;
    uint8_t *text = read_all(argv[1], &len), *out = buffer(len), *strings = buffer(2 * len);
    struct kdl_row *rows = (struct kdl_row *)malloc(len * sizeof *rows);
    double least[PARTS] = {1e9, 1e9, 1e9, 1e9, 1e9, 1e9}, at[PARTS + 1];
    struct kdl_fault fault;
    CHECK(rows);
    for (int run = 0; run < 20; run++) {
        at[0] = now();
        CHECK(kdl_faults(text, len, &fault, 1, &count, strings, 2 * len, &used) == KDL_OK);
        at[1] = now();
        CHECK(kdl_parse(text, len, &d) == KDL_OK);
        at[2] = now();
        CHECK(kdl_print(&d, out, len, &n) == KDL_OK);
        at[3] = now();
        CHECK(kdl_tree(&d, rows, len, &count, strings, 2 * len, &used) == KDL_OK);
        at[4] = now();
        edit(&d);
        at[5] = now();
        kdl_free(&d);
        at[6] = now();
        for (int i = 0; i < PARTS; i++) {
            double took = at[i + 1] - at[i];
            least[i] = took < least[i] ? took : least[i];
        }
    }
    CHECK(is_text(out, n, text, len));
    printf("%zu bytes, %zu rows:", len, count);
    for (int i = 0; i < PARTS; i++) {
        printf(" %s %.1f ms, %.0f MB/s%c", names[i], least[i] * 1e3, (double)len / least[i] * 1e-6,
               i + 1 < PARTS ? ';' : '\n');
    }
    free(text);
    free(out);
    free(strings);
    free(rows);
    return 0;
}
