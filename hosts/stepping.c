/* Two machines side by side, a device, and two pipes, in one loop.

   usage: stepping FIRST SECOND FD FD

   Link 0 of the first module is joined to link 0 of the second: what goes out on the one comes in on the other. On link 3
   of the first is a device that prints each byte. Its links 1 and 2 read from the two file descriptors: where nothing
   else is to be done, it waits for those of them from which the module wants a byte, and takes the byte that comes first.
   It ends where no process is running and nothing can come any more. */

#define _POSIX_C_SOURCE 200809L

#include "files.h"

#include <poll.h>
#include <string.h>
#include <unistd.h>

enum { TURN = 10000, JOINED = 0, FIRST_PIPE = 1, PIPES = 2, DEVICE = 3 };

/* What went out on a link, and how much of it was taken on the other side. */
struct message {
    uint8_t *bytes;
    size_t length, taken;
};

/* A machine, and what is on its way from each of its links. */
struct place {
    struct tpm_machine machine;
    struct message sent[4];
};

/* Loads the module in a file. Whether it is certified. */
static int load(struct place *place, const char *path) {
    size_t length = 0;
    uint8_t *bytes = read_file(path, &length);
    uint8_t number = 0;
    size_t offset = 0;
    uint8_t status = tpm_load(bytes, length, &place->machine, &number, &offset);
    free(bytes);
    if (status != TPM_ACCEPTED) refused(status, number, offset);
    return status == TPM_ACCEPTED;
}

/* How the machine is. */
static struct tpm_state state_of(struct place *place) {
    struct tpm_state state = {0};
    if (tpm_look(&place->machine, &state) != TPM_ACCEPTED) fail("not loaded");
    return state;
}

/* One event, which is one. */
static void happen(struct place *place, struct tpm_event event) {
    struct tpm_effect effect = {0};
    if (tpm_step(&place->machine, &event, &effect) != TPM_ACCEPTED) fail("no event");
}

/* The byte comes on the link, where the module wants one. Whether it does. */
static int give(struct place *place, uint8_t link, uint8_t byte) {
    if (!state_of(place).wants[link]) return 0;
    happen(place, (struct tpm_event){.kind = TPM_ARRIVE, .link = link, .byte = byte});
    return 1;
}

/* Takes the message that has just gone out. */
static void take_message(struct place *place, uint8_t link) {
    struct message *sent = &place->sent[link];
    sent->length = state_of(place).message;
    sent->taken = 0;
    sent->bytes = allocated(sent->length);
    if (tpm_message(&place->machine, sent->bytes, sent->length) != TPM_ACCEPTED) fail("no message");
}

/* The machine has its turn. Whether it executed anything. */
static int run(struct place *place) {
    struct tpm_progress progress = {0};
    if (tpm_run(&place->machine, TURN, &progress) != TPM_ACCEPTED) fail("not loaded");
    if (progress.kind == TPM_EMITTED) take_message(place, progress.link);
    return progress.executed > 0;
}

/* One byte more of the message on its way from the link was taken. With the last one its sender goes on. */
static void taken(struct place *place, uint8_t link) {
    struct message *sent = &place->sent[link];
    if (++sent->taken < sent->length) return;
    free(sent->bytes);
    *sent = (struct message){0};
    happen(place, (struct tpm_event){.kind = TPM_ACKNOWLEDGE, .link = link});
}

/* What is on its way from the one machine goes to the other, as far as that wants it. Whether a byte went. */
static int join(struct place *from, struct place *to) {
    struct message *sent = &from->sent[JOINED];
    if (!sent->bytes || !give(to, JOINED, sent->bytes[sent->taken])) return 0;
    taken(from, JOINED);
    return 1;
}

/* The device prints what is on its way to it. Whether a byte was. */
static int show(struct place *place) {
    struct message *sent = &place->sent[DEVICE];
    if (!sent->bytes) return 0;
    printf("%02x\n", sent->bytes[sent->taken]);
    fflush(stdout);
    taken(place, DEVICE);
    return 1;
}

/* Waits for a byte from a pipe from which the module wants one, and hands it over. Whether one came. */
static int wait_for_pipes(struct place *place, int pipes[PIPES]) {
    for (;;) {
        struct tpm_state state = state_of(place);
        struct pollfd asked[PIPES];
        int open = 0;
        for (int i = 0; i < PIPES; i++) {
            int is_asked = pipes[i] >= 0 && state.wants[FIRST_PIPE + i];
            asked[i] = (struct pollfd){.fd = is_asked ? pipes[i] : -1, .events = POLLIN};
            open += is_asked;
        }
        if (!open) return 0;
        if (poll(asked, PIPES, -1) < 0) fail("cannot wait");
        for (int i = 0; i < PIPES; i++) {
            uint8_t byte = 0;
            if (!asked[i].revents) continue;
            if (read(pipes[i], &byte, 1) == 1) return give(place, (uint8_t)(FIRST_PIPE + i), byte);
            close(pipes[i]);
            pipes[i] = -1;
        }
    }
}

/* Goes on until nothing can come any more. */
static void go_on(struct place *first, struct place *second, int pipes[PIPES]) {
    int goes_on = 1;
    while (goes_on) {
        goes_on = run(first);
        goes_on |= run(second);
        goes_on |= join(first, second);
        goes_on |= join(second, first);
        goes_on |= show(first);
        if (!goes_on) goes_on = wait_for_pipes(first, pipes);
    }
}

int main(int count, char **words) {
    if (count != 3 + PIPES) fail("usage: stepping FIRST SECOND FD FD");
    struct place first = {0}, second = {0};
    int pipes[PIPES] = {atoi(words[3]), atoi(words[4])};
    int is_loaded = load(&first, words[1]) && load(&second, words[2]);
    if (is_loaded) {
        go_on(&first, &second, pipes);
        printf("executed %" PRIu64 " and %" PRIu64 "\n", state_of(&first).executed, state_of(&second).executed);
    }
    for (int link = 0; link < 4; link++) {
        free(first.sent[link].bytes);
        free(second.sent[link].bytes);
    }
    tpm_free(&first.machine);
    tpm_free(&second.machine);
    return is_loaded ? 0 : 1;
}
