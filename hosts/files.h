/* What the examples in C share: files, and why there is no answer. */

#ifndef FILES_H
#define FILES_H

#include "tpm.h"

#include <inttypes.h>
#include <stdio.h>
#include <stdlib.h>

/* Ends the program with a word on why. */
static void fail(const char *why) {
    fprintf(stderr, "%s\n", why);
    exit(2);
}

/* Memory of this size, and at least of one byte, so that the pointer is never NULL. */
static void *allocated(size_t size) {
    void *memory = calloc(size ? size : 1, 1);
    if (!memory) fail("out of memory");
    return memory;
}

/* The bytes of a file. */
static uint8_t *read_file(const char *path, size_t *length) {
    FILE *file = fopen(path, "rb");
    if (!file || fseek(file, 0, SEEK_END)) fail("cannot read the file");
    long size = ftell(file);
    if (size < 0) fail("cannot read the file");
    rewind(file);
    uint8_t *bytes = allocated((size_t)size);
    *length = fread(bytes, 1, (size_t)size, file);
    if (*length != (size_t)size) fail("cannot read the file");
    fclose(file);
    return bytes;
}

/* Says why there is no answer. */
static int refused(uint8_t status, uint8_t number, size_t offset) {
    switch (status) {
    case TPM_NO_MODULE: printf("refused C%d at %zu\n", number, offset); break;
    case TPM_NOT_CERTIFIED: printf("refused V%d at %zu\n", number, offset); break;
    case TPM_NO_EVENT: printf("event %zu is none\n", offset); break;
    default: printf("out of memory\n"); break;
    }
    return 1;
}

#endif
