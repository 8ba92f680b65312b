/* Loads the module in a file into a machine, steps it, and prints what became of it: what example.c prints.

   usage: events FILE [EVENT..]

   An EVENT is one of example.c's, or `rCOUNT` for COUNT bytes or more that the machine executes by itself: how many they
   are is printed. */

#include "words.h"

#include <string.h>

/* What went out on the links. */
struct sent {
    uint8_t *bytes[4];
    size_t lengths[4];
};

/* Puts the message that the machine has just sent after those of its link. */
static void take_message(struct tpm_machine *machine, uint8_t link, struct sent *sent) {
    struct tpm_state state = {0};
    if (tpm_look(machine, &state) != TPM_ACCEPTED) fail("not loaded");
    size_t before = sent->lengths[link];
    uint8_t *longer = realloc(sent->bytes[link], before + state.message + 1);
    if (!longer) fail("out of memory");
    sent->bytes[link] = longer;
    memset(longer + before, 0, state.message + 1);
    if (tpm_message(machine, longer + before, state.message) != TPM_ACCEPTED) fail("no message");
    sent->lengths[link] = before + state.message;
}

/* One event, and what it sent. Whether it was one. */
static int step(struct tpm_machine *machine, const struct tpm_event *event, struct sent *sent) {
    struct tpm_effect effect = {0};
    if (tpm_step(machine, event, &effect) != TPM_ACCEPTED) return 0;
    if (effect.kind == TPM_EMITTED) take_message(machine, effect.link, sent);
    return 1;
}

/* So many bytes by themselves, or more, and what they sent. How many they were. */
static uint64_t run(struct tpm_machine *machine, uint64_t limit, struct sent *sent) {
    uint64_t executed = 0;
    struct tpm_progress progress = {0};
    do {
        if (tpm_run(machine, limit - executed, &progress) != TPM_ACCEPTED) fail("not loaded");
        executed += progress.executed;
        if (progress.kind == TPM_EMITTED) take_message(machine, progress.link, sent);
    } while (progress.kind == TPM_EMITTED && executed < limit);
    return executed;
}

/* The events of a word, of which the first has this index. Whether each was one. */
static int follow(struct tpm_machine *machine, const char *word, size_t *index, struct sent *sent) {
    uint64_t limit = 0;
    if (sscanf(word, "r%" SCNu64, &limit) == 1) {
        uint64_t executed = run(machine, limit, sent);
        printf("ran %" PRIu64 "\n", executed);
        *index += executed;
        return 1;
    }
    struct list list = {0};
    append(&list, word);
    for (size_t i = 0; i < list.count; i++, ++*index) {
        if (!step(machine, &list.events[i], sent)) {
            free(list.events);
            return 0;
        }
    }
    free(list.events);
    return 1;
}

/* Prints what became of a run, and what was sent on each link. */
static void print(const struct tpm_state *state, const struct sent *sent) {
    printf("executed %" PRIu64 ", %s\n", state->executed, state->is_finished ? "finished" : "not finished");
    for (int link = 0; link < 4; link++) {
        printf("link %d:", link);
        for (size_t i = 0; i < sent->lengths[link]; i++) printf(" %02x", sent->bytes[link][i]);
        printf("\n");
    }
}

int main(int count, char **words) {
    if (count < 2) fail("usage: events FILE [EVENT..]");
    size_t length = 0;
    uint8_t *bytes = read_file(words[1], &length);

    uint64_t budget = 0;
    uint8_t number = 0;
    size_t offset = 0;
    struct tpm_machine machine = {0};
    uint8_t status = tpm_load(bytes, length, &machine, &number, &offset);
    if (status == TPM_ACCEPTED) status = tpm_verify(bytes, length, &budget, &number, &offset);
    free(bytes);
    if (status != TPM_ACCEPTED) {
        tpm_free(&machine);
        return refused(status, number, offset);
    }
    printf("accepted, budget %" PRIu64 "\n", budget);

    struct sent sent = {0};
    size_t index = 0;
    int is_event = 1;
    for (int i = 2; is_event && i < count; i++) is_event = follow(&machine, words[i], &index, &sent);

    struct tpm_state state = {0};
    if (tpm_look(&machine, &state) != TPM_ACCEPTED) fail("not loaded");
    if (is_event) print(&state, &sent);
    tpm_free(&machine);
    if (tpm_look(&machine, &state) != TPM_NOT_LOADED) fail("still loaded");
    for (int link = 0; link < 4; link++) free(sent.bytes[link]);
    return is_event ? 0 : refused(TPM_NO_EVENT, 0, index);
}
