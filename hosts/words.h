/* Words that say events. */

#ifndef WORDS_H
#define WORDS_H

#include "files.h"

struct list {
    struct tpm_event *events;
    size_t count;
};

/* The event of a word, with the kind that its letter says. Whether it is an event the library says. */
static struct tpm_event event_of(const char *word) {
    struct tpm_event event = {0};
    unsigned first = 0, byte = 0;
    if (sscanf(word, "s%u,%" SCNu64, &first, &event.pick) == 2) {
        event.kind = TPM_STEP;
        event.slice = (uint8_t)first;
    } else if (sscanf(word, "a%u,%x", &first, &byte) == 2) {
        event.kind = TPM_ARRIVE;
        event.link = (uint8_t)first;
        event.byte = (uint8_t)byte;
    } else if (sscanf(word, "k%u", &first) == 1) {
        event.kind = TPM_ACKNOWLEDGE;
        event.link = (uint8_t)first;
    } else {
        fail("not an event");
    }
    return event;
}

/* Puts the events of a word after those of the list. */
static void append(struct list *list, const char *word) {
    size_t times = 1;
    int read = 0;
    if (sscanf(word, "%zu*%n", &times, &read) != 1 || !read) {
        times = 1;
        read = 0;
    }
    struct tpm_event event = event_of(word + read);
    struct tpm_event *longer = realloc(list->events, (list->count + times + 1) * sizeof event);
    if (!longer) fail("out of memory");
    list->events = longer;
    while (times-- > 0) list->events[list->count++] = event;
}

#endif
