/* Verifies the module in a file, replays events on it, and prints what became of it.

   usage: example FILE [EVENT..]

   An EVENT is `s0,PICK` or `s1,PICK` for a step, `aLINK,BYTE` for an arrival with its byte in hexadecimal, and `kLINK`
   for an acknowledgement; `7*s0,0` is the event seven times. */

#include "words.h"

/* Prints what became of a run, and what was sent on each link. */
static void print(const struct tpm_report *report, const uint8_t *sent) {
    printf("executed %" PRIu64 ", %s\n", report->executed, report->finished ? "finished" : "not finished");
    for (int link = 0; link < 4; link++) {
        printf("link %d:", link);
        for (size_t i = 0; i < report->lengths[link]; i++) printf(" %02x", *sent++);
        printf("\n");
    }
}

int main(int count, char **words) {
    if (count < 2) fail("usage: example FILE [EVENT..]");
    size_t length = 0;
    uint8_t *bytes = read_file(words[1], &length);

    uint64_t budget = 0;
    uint8_t number = 0;
    size_t offset = 0;
    uint8_t status = tpm_verify(bytes, length, &budget, &number, &offset);
    if (status != TPM_ACCEPTED) {
        free(bytes);
        return refused(status, number, offset);
    }
    printf("accepted, budget %" PRIu64 "\n", budget);

    struct list list = {allocated(sizeof *list.events), 0};
    for (int i = 2; i < count; i++) append(&list, words[i]);

    size_t capacity = 2;
    uint8_t *out = allocated(capacity);
    struct tpm_report report = {0};
    status = tpm_replay(bytes, length, list.events, list.count, out, capacity, &report, &number, &offset);
    if (status == TPM_TOO_SMALL) {
        free(out);
        capacity = report.lengths[0] + report.lengths[1] + report.lengths[2] + report.lengths[3];
        out = allocated(capacity);
        status = tpm_replay(bytes, length, list.events, list.count, out, capacity, &report, &number, &offset);
    }
    if (status == TPM_ACCEPTED) print(&report, out);
    free(out);
    free(list.events);
    free(bytes);
    return status == TPM_ACCEPTED ? 0 : refused(status, number, offset);
}
