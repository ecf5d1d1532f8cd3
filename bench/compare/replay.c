/* replay FILE: makes the requests for memory of the file again, and nothing else. The instructions of `replay` are the
   least that a program with these requests can take. Writes how many of each kind there are, and how many of one byte. */
#include <stdint.h>
#include <stdio.h>
#include <stdlib.h>

enum { MALLOC, REALLOC, FREE };
struct request { uint32_t kind, block, size; };

__attribute__((noinline)) void replay(const struct request *requests, size_t count, void **blocks)
{
    for (size_t at = 0; at < count; at++) {
        struct request one = requests[at];
        if (one.kind == MALLOC)
            blocks[one.block] = malloc(one.size);
        else if (one.kind == REALLOC)
            blocks[one.block] = realloc(blocks[one.block], one.size);
        else
            free(blocks[one.block]);
    }
}

int main(int count, char **arguments)
{
    FILE *file = count == 2 ? fopen(arguments[1], "rb") : NULL;
    if (!file || fseek(file, 0, SEEK_END))
        return 2;
    size_t length = (size_t)ftell(file) / sizeof(struct request);
    rewind(file);
    struct request *requests = malloc((length + 1) * sizeof *requests);
    void **blocks = calloc(length + 1, sizeof *blocks);
    if (!requests || !blocks || fread(requests, sizeof *requests, length, file) != length)
        return 2;
    size_t of_kind[3] = {0}, of_one_byte = 0;
    for (size_t at = 0; at < length; at++) {
        of_kind[requests[at].kind]++;
        of_one_byte += requests[at].kind == MALLOC && requests[at].size == 1;
    }
    replay(requests, length, blocks);
    printf("%zu %zu %zu\n", of_kind[MALLOC], of_kind[REALLOC], of_one_byte);
    return 0;
}
