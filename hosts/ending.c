/* Runs the module in a file to its end in turns, takes what it sends, and prints how many bytes were executed and sent.

   usage: ending FILE [TURN]

   TURN is how many instruction bytes a turn has at least: a million if it is not said. */

#include "files.h"

int main(int count, char **words) {
    if (count < 2) fail("usage: ending FILE [TURN]");
    size_t length = 0;
    uint8_t *bytes = read_file(words[1], &length);
    uint64_t limit = count > 2 ? strtoull(words[2], NULL, 10) : 1000000, executed = 0;
    struct tpm_machine machine = {0};
    uint8_t number = 0;
    size_t offset = 0, sent = 0;
    uint8_t status = tpm_load(bytes, length, &machine, &number, &offset);
    free(bytes);
    if (status != TPM_ACCEPTED) return refused(status, number, offset);

    struct tpm_progress progress = {0};
    do {
        if (tpm_run(&machine, limit, &progress) != TPM_ACCEPTED) fail("not loaded");
        executed += progress.executed;
        if (progress.kind != TPM_EMITTED) continue;
        struct tpm_state state = {0};
        struct tpm_event event = {.kind = TPM_ACKNOWLEDGE, .link = progress.link};
        struct tpm_effect effect = {0};
        if (tpm_look(&machine, &state) != TPM_ACCEPTED) fail("not loaded");
        sent += state.message;
        if (tpm_step(&machine, &event, &effect) != TPM_ACCEPTED) fail("no event");
    } while (progress.kind != TPM_IDLE);
    printf("executed %" PRIu64 ", sent %zu\n", executed, sent);
    tpm_free(&machine);
    return 0;
}
