/* Verifies modules, replays their runs, and loads them into machines that the caller steps.

   Link the archive of the crate `host_library`, and that of the toolchain's C code (`liblibc_c.a`), by which it
   allocates. `scripts/hosts` does so with the examples beside this file.

   What holds of a call is proved (`docs/PROVED.md`), if the caller keeps these rules, which nothing checks:

   - No pointer is NULL, also where its length or count is 0. It is aligned for what it points to.
   - A pointer to const points to memory that can be read: so many elements as the length, count or type says, and at
     most PTRDIFF_MAX bytes. A call does not write it. Such memory may overlap.
   - Every other pointer points to memory that can be read and written. What one of them points to overlaps nothing
     else that is passed in the same call.
   - All of it holds values: set what has none before the call, also what is only written. It stays as it was wherever
     it is not said that it is written.
   - Nobody else writes any of it while the call runs, and nobody else reads what the call may write.
   - The program's malloc, realloc and free are of one allocator, which aligns a block to each power of two up to 16
     that divides its size. A call is not made in a signal handler, or in the forked child of a process with threads.

   All memory that is passed stays the caller's, and no call keeps a pointer to it. What a call allocates it frees
   before it returns, but for what tpm_load puts into a machine. What it does hangs on nothing but what is passed. So a
   program may call from several threads at once, each with memory and machines of its own. A size_t has 64 bits.

   A `struct tpm_machine` is the caller's, but what it has is the library's:

   - It is set to 0 before the first call that it is passed to (`struct tpm_machine machine = {0};`). From then on only
     calls write it.
   - It may be moved between two calls. Of two copies only one is passed on.
   - The memory that tpm_load puts into it is read, written and freed by calls alone. It is freed by tpm_free: a machine
     that is let go without has its memory for ever.
   - All calls with a machine come from the thread that loaded it. */

#ifndef TPM_H
#define TPM_H

#include <stddef.h>
#include <stdint.h>

#ifdef __cplusplus
extern "C" {
#endif

/* What a call returns. */
enum tpm_status {
    /* The bytes are the file of a certified module, and all that was asked for is written. */
    TPM_ACCEPTED = 0,
    /* The bytes are no module file: fault C of this number is the first, at this offset of the file. */
    TPM_NO_MODULE = 1,
    /* The module is not certified: it breaks rule V of this number, at this offset of its code. */
    TPM_NOT_CERTIFIED = 2,
    /* Memory ran out. Nothing is written. */
    TPM_OUT_OF_MEMORY = 3,
    /* The module is certified, but one of the events, or the one that is passed, is none. */
    TPM_NO_EVENT = 4,
    /* What was sent is longer than the buffer. */
    TPM_TOO_SMALL = 5,
    /* No module is loaded into the machine. */
    TPM_NOT_LOADED = 6
};

/* How many bytes a machine takes. */
struct tpm_sizes {
    /* Its memory: data, code and constants. */
    size_t memory;
    /* Its code, decoded. */
    size_t decoded;
    /* All else: what it is at the moment, at most 512 bytes. What the allocator adds to each block is not counted. */
    size_t record;
    /* The most instruction bytes that any run of it executes. */
    uint64_t budget;
};

/* What can happen to a module. */
enum tpm_kind {
    /* One byte of the running process is executed. */
    TPM_STEP = 0,
    /* A byte arrives on a link. */
    TPM_ARRIVE = 1,
    /* The other side of a link acknowledges the message that was sent there. */
    TPM_ACKNOWLEDGE = 2
};

/* One event. The fields that its kind does not need are not read. */
struct tpm_event {
    /* A kind: 0, 1 or 2. */
    uint8_t kind;
    /* Of an arrival or an acknowledgement: the link, from 0 to 3. */
    uint8_t link;
    /* Of an arrival: the byte. */
    uint8_t byte;
    /* Of a step: 1 if the process gives way where the byte completes a jump, else 0. */
    uint8_t slice;
    /* Of a step: which ready process is the next, counted round the list. */
    uint64_t pick;
};

/* What became of a run. */
struct tpm_report {
    /* How many instruction bytes were executed. */
    uint64_t executed;
    /* How many bytes were sent on each link. */
    size_t lengths[4];
    /* 1 if some process has stopped where the module says that it ends, else 0. */
    uint8_t finished;
};

/* Says whether the `length` bytes are the file of a certified module.

   TPM_ACCEPTED        it is, and *budget is the most instruction bytes that any run of it executes
   TPM_NO_MODULE       *number (1 to 6) and *offset are those of the file's first fault
   TPM_NOT_CERTIFIED   *number (1 to 16) and *offset are those of a rule that is broken; at no lower offset is one
   TPM_OUT_OF_MEMORY

   Nothing else is written. */
uint8_t tpm_verify(const uint8_t *bytes, size_t length, uint64_t *budget, uint8_t *number, size_t *offset);

/* Says how many bytes a machine of the module takes whose file the `length` bytes are.

   TPM_ACCEPTED        they are the file of a certified module, and *sizes is what a machine of it takes
   TPM_NO_MODULE, TPM_NOT_CERTIFIED, TPM_OUT_OF_MEMORY
                       as of tpm_verify

   Nothing else is written. */
uint8_t tpm_measure(const uint8_t *bytes, size_t length, struct tpm_sizes *sizes, uint8_t *number, size_t *offset);

/* Replays the `count` events on the module whose file the `length` bytes are, from the module that is loaded on.

   TPM_ACCEPTED        *report is what became of it; what was sent on link 0 is at `out`, followed by what was sent on
                       links 1, 2 and 3, the messages of a link one after the other
   TPM_TOO_SMALL       *report is the same, but all lengths together are more than `capacity`, and `out` is as before
   TPM_NO_EVENT        *offset is the index of the first event that is none: its kind, link or slice is out of range
   TPM_NO_MODULE, TPM_NOT_CERTIFIED, TPM_OUT_OF_MEMORY
                       as of tpm_verify

   Nothing else is written. The bytes of `out` after what was sent are as before. The same module and events give the
   same report and bytes, so after TPM_TOO_SMALL a buffer of the sum of the lengths is long enough. */
uint8_t tpm_replay(const uint8_t *bytes, size_t length, const struct tpm_event *events, size_t count, uint8_t *out,
                   size_t capacity, struct tpm_report *report, uint8_t *number, size_t *offset);

/* A machine: a module that is loaded, at a moment of its run, or nothing. */
struct tpm_machine {
    void *at;
    uint8_t is_loaded;
};

/* What an event did. */
enum tpm_done {
    /* A byte of the running process was executed. Of tpm_run: at least as many as were asked for. */
    TPM_RAN = 0,
    /* No process is running. */
    TPM_IDLE = 1,
    /* A byte was executed, and a message went out on a link. Its sender waits until that is acknowledged. */
    TPM_EMITTED = 2,
    /* A process took the byte that arrived. */
    TPM_TAKEN = 3,
    /* The byte that arrived is kept until a process takes it. */
    TPM_KEPT = 4,
    /* A byte is kept there already, and the one that arrived is lost: nothing changed. */
    TPM_BUSY = 5,
    /* The process that waited for the acknowledgement goes on. */
    TPM_ACKNOWLEDGED = 6,
    /* No process waited for the acknowledgement: nothing changed. */
    TPM_IGNORED = 7
};

/* What an event did to a machine. */
struct tpm_effect {
    /* What it did: 0 to 7. */
    uint8_t kind;
    /* At TPM_EMITTED: the link, from 0 to 3. Else 0. */
    uint8_t link;
};

/* How far a machine went by itself. */
struct tpm_progress {
    /* How many instruction bytes were executed by this call. */
    uint64_t executed;
    /* Why it stopped: TPM_RAN, TPM_IDLE or TPM_EMITTED. */
    uint8_t kind;
    /* At TPM_EMITTED: the link, from 0 to 3. Else 0. */
    uint8_t link;
};

/* What can be asked of a machine. */
struct tpm_state {
    /* How many instruction bytes were executed since the module was loaded. */
    uint64_t executed;
    /* How many bytes the message has that the last event sent, 0 if it sent none. */
    size_t message;
    /* 1 if some process runs, else 0. */
    uint8_t is_running;
    /* 1 if some process has stopped where the module says that it ends, else 0. */
    uint8_t is_finished;
    /* Of each link: 1 if some process waits for a byte there or has enabled it, and none is kept, else 0. */
    uint8_t wants[4];
};

/* Loads the module whose file the `length` bytes are into the machine, at the beginning of its run. The bytes are not
   needed any more then.

   TPM_ACCEPTED        it is loaded; what was loaded before is freed
   TPM_NO_MODULE, TPM_NOT_CERTIFIED, TPM_OUT_OF_MEMORY
                       as of tpm_verify, and the machine is as before

   Nothing else is written. No other call with a machine allocates. */
uint8_t tpm_load(const uint8_t *bytes, size_t length, struct tpm_machine *machine, uint8_t *number, size_t *offset);

/* Frees what is loaded into the machine, if something is. Then nothing is. */
void tpm_free(struct tpm_machine *machine);

/* One event. It is at no fault, whichever it is, and from tpm_load on the events of a machine do what tpm_replay says
   of them.

   TPM_ACCEPTED        it happened, and *effect says what it did
   TPM_NO_EVENT        it is none: its kind, link or slice is out of range
   TPM_NOT_LOADED

   If it is not accepted, the machine is as before and nothing is written. */
uint8_t tpm_step(struct tpm_machine *machine, const struct tpm_event *event, struct tpm_effect *effect);

/* Steps by themselves, with slice 0 and pick 0 each, until one sends a message, no process is running, or at least
   `limit` instruction bytes are executed: then after the first byte that completes the end of a loop's turn, a call, or
   an instruction that asks something of another process or of a link.

   TPM_ACCEPTED        *progress says how far it went, and why it stopped
   TPM_NOT_LOADED

   If it is not accepted, the machine is as before and nothing is written. */
uint8_t tpm_run(struct tpm_machine *machine, uint64_t limit, struct tpm_progress *progress);

/* Asks a machine, which stays as it is.

   TPM_ACCEPTED        *state is how it is
   TPM_NOT_LOADED      nothing is written */
uint8_t tpm_look(struct tpm_machine *machine, struct tpm_state *state);

/* Writes the message that the last event or tpm_run sent, which stays in the machine until the next of these.

   TPM_ACCEPTED        it is at `out`, and the bytes after it are as before; if none was sent, all are as before
   TPM_TOO_SMALL       it is longer than `capacity`, and nothing is written
   TPM_NOT_LOADED      nothing is written

   How long it is, tpm_look says. */
uint8_t tpm_message(struct tpm_machine *machine, uint8_t *out, size_t capacity);

#ifdef __cplusplus
}
#endif

#endif
