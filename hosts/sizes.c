/* Prints how many bytes a machine takes, by tpm_measure and by what tpm_load allocates that is there afterwards.

   usage: sizes FILE

   It is linked with `-Wl,--wrap=malloc,--wrap=realloc,--wrap=free`, so that it counts what the library allocates. What
   the allocator adds to each block is not counted. */

#include "files.h"

#include <string.h>

void *__real_malloc(size_t size);
void __real_free(void *block);
void *__wrap_malloc(size_t size);
void __wrap_free(void *block);
void *__wrap_realloc(void *block, size_t size);

/* How many bytes are allocated, and what lies before each block: its size. */
static size_t taken;
enum { BEFORE = 16 };

void *__wrap_malloc(size_t size) {
    uint8_t *block = __real_malloc(size + BEFORE);
    if (!block) return NULL;
    memcpy(block, &size, sizeof size);
    taken += size;
    return block + BEFORE;
}

/* The size of a block. */
static size_t size_of(const uint8_t *block) {
    size_t size = 0;
    memcpy(&size, block - BEFORE, sizeof size);
    return size;
}

void __wrap_free(void *block) {
    if (!block) return;
    taken -= size_of(block);
    __real_free((uint8_t *)block - BEFORE);
}

void *__wrap_realloc(void *block, size_t size) {
    void *longer = __wrap_malloc(size);
    if (!longer || !block) return longer;
    size_t before = size_of(block);
    memcpy(longer, block, before < size ? before : size);
    __wrap_free(block);
    return longer;
}

int main(int count, char **words) {
    if (count != 2) fail("usage: sizes FILE");
    size_t length = 0;
    uint8_t *file = read_file(words[1], &length);
    struct tpm_sizes sizes = {0};
    struct tpm_machine machine = {0};
    uint8_t number = 0;
    size_t offset = 0;
    uint8_t status = tpm_measure(file, length, &sizes, &number, &offset);
    if (status != TPM_ACCEPTED) return refused(status, number, offset);
    size_t before = taken;
    status = tpm_load(file, length, &machine, &number, &offset);
    if (status != TPM_ACCEPTED) return refused(status, number, offset);
    printf("%zu %zu %zu %zu\n", sizes.memory, sizes.decoded, sizes.record, taken - before);
    tpm_free(&machine);
    if (taken != before) fail("a machine is freed, and has memory still");
    return 0;
}
