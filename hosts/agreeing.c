/* Compares runs of a module, step by step, with replays of the same events, which are chosen at random.

   usage: agreeing FILE RUNS EVENTS SEED

   Each run has EVENTS events: steps, most of them plain ones, bytes that arrive, acknowledgements, and turns in which the
   machine executes by itself, each of which is as many plain steps. What was executed and sent has to be the same. */

#include "files.h"

#include <string.h>

/* A number at random, below this one. */
static uint64_t below(uint64_t *seed, uint64_t most) {
    *seed ^= *seed << 13;
    *seed ^= *seed >> 7;
    *seed ^= *seed << 17;
    return *seed % most;
}

/* What was sent on a link. */
struct sent {
    uint8_t *bytes;
    size_t length, capacity;
};

/* Puts the message that the machine has just sent after those of its link. */
static void take_message(struct tpm_machine *machine, struct sent *sent) {
    struct tpm_state state = {0};
    if (tpm_look(machine, &state) != TPM_ACCEPTED) fail("not loaded");
    size_t needed = sent->length + state.message;
    if (needed > sent->capacity) {
        uint8_t *longer = allocated(2 * needed);
        if (sent->length) memcpy(longer, sent->bytes, sent->length);
        free(sent->bytes);
        sent->bytes = longer;
        sent->capacity = 2 * needed;
    }
    if (!state.message) return;
    if (tpm_message(machine, sent->bytes + sent->length, state.message) != TPM_ACCEPTED) fail("no message");
    sent->length = needed;
}

/* An event at random: a plain step in most cases. */
static struct tpm_event chosen(uint64_t *seed) {
    struct tpm_event event = {0};
    uint64_t which = below(seed, 40);
    if (which < 3) {
        event.kind = TPM_ARRIVE;
        event.link = (uint8_t)below(seed, 4);
        event.byte = (uint8_t)below(seed, 256);
    } else if (which < 6) {
        event.kind = TPM_ACKNOWLEDGE;
        event.link = (uint8_t)below(seed, 4);
    } else {
        event.kind = TPM_STEP;
        event.slice = which < 8;
        event.pick = which < 9 ? below(seed, 5) : 0;
    }
    return event;
}

/* A turn of the machine, and its steps: at most so many may be written. How many they are. */
static size_t turn(struct tpm_machine *machine, uint64_t *seed, struct tpm_event *events, size_t most,
                   struct sent sent[4]) {
    struct tpm_progress progress = {0};
    if (tpm_run(machine, below(seed, 60), &progress) != TPM_ACCEPTED) fail("not loaded");
    if (progress.kind == TPM_EMITTED) take_message(machine, &sent[progress.link]);
    if (progress.executed > most) fail("a turn is too long");
    memset(events, 0, progress.executed * sizeof *events);
    return (size_t)progress.executed;
}

/* One run, whose events are written: at most `most`. How many they are. */
static size_t step_all(struct tpm_machine *machine, uint64_t *seed, struct tpm_event *events, size_t wanted, size_t most,
                       struct sent sent[4]) {
    size_t count = 0;
    while (count < wanted) {
        if (below(seed, 30) == 0) {
            count += turn(machine, seed, events + count, most - count, sent);
            continue;
        }
        struct tpm_effect effect = {0};
        events[count] = chosen(seed);
        if (tpm_step(machine, &events[count++], &effect) != TPM_ACCEPTED) fail("no event");
        if (effect.kind == TPM_EMITTED) take_message(machine, &sent[effect.link]);
    }
    return count;
}

/* Whether a replay of the events leaves the same. */
static int agrees(const uint8_t *file, size_t length, const struct tpm_event *events, size_t count,
                  const struct tpm_state *state, const struct sent sent[4]) {
    size_t sum = 0, offset = 0;
    for (int link = 0; link < 4; link++) sum += sent[link].length;
    uint8_t *out = allocated(sum), *at = out;
    struct tpm_report report = {0};
    uint8_t number = 0;
    uint8_t status = tpm_replay(file, length, events, count, out, sum, &report, &number, &offset);
    int same = status == TPM_ACCEPTED && report.executed == state->executed && report.finished == state->is_finished;
    for (int link = 0; same && link < 4; link++) {
        same = report.lengths[link] == sent[link].length;
        if (same && sent[link].length) same = !memcmp(at, sent[link].bytes, sent[link].length);
        at += sent[link].length;
    }
    free(out);
    return same;
}

/* Makes one run, and replays it. How many bytes it executed. */
static uint64_t compare(const uint8_t *file, size_t length, size_t wanted, uint64_t *seed) {
    enum { LONGEST_TURN = 1 << 16 };
    struct tpm_machine machine = {0};
    uint8_t number = 0;
    size_t offset = 0, most = wanted + LONGEST_TURN;
    if (tpm_load(file, length, &machine, &number, &offset) != TPM_ACCEPTED) fail("not accepted");
    struct tpm_event *events = allocated(most * sizeof *events);
    struct sent sent[4] = {{0}, {0}, {0}, {0}};
    size_t count = step_all(&machine, seed, events, wanted, most, sent);
    struct tpm_state state = {0};
    if (tpm_look(&machine, &state) != TPM_ACCEPTED) fail("not loaded");
    if (!agrees(file, length, events, count, &state, sent)) fail("a replay differs");
    for (int link = 0; link < 4; link++) free(sent[link].bytes);
    free(events);
    tpm_free(&machine);
    return state.executed;
}

int main(int count, char **words) {
    if (count != 5) fail("usage: agreeing FILE RUNS EVENTS SEED");
    size_t length = 0;
    uint8_t *file = read_file(words[1], &length);
    uint64_t budget = 0;
    uint8_t number = 0;
    size_t offset = 0;
    uint8_t status = tpm_verify(file, length, &budget, &number, &offset);
    if (status != TPM_ACCEPTED) {
        free(file);
        return refused(status, number, offset);
    }
    uint64_t runs = strtoull(words[2], NULL, 10), seed = strtoull(words[4], NULL, 10) + 1, executed = 0;
    size_t events = (size_t)strtoull(words[3], NULL, 10);
    for (uint64_t run = 0; run < runs; run++) executed += compare(file, length, events, &seed);
    free(file);
    printf("%" PRIu64 " runs agree, %" PRIu64 " bytes executed\n", runs, executed);
    return 0;
}
