/* The library for C: verdicts, texts, runs, tasks and jobs over the caller's memory, and desks.
 *
 * bindings/build makes libtelgovan.a and libtelgovan.so, bindings/install puts them in place.
 *
 * Each answer has a status: 0, or the number of the refusal (enum telgovan_status), of
 * docs/refusals.md. No thread is started and no lock is taken. A call touches nothing but what it
 * is lent, and calls nothing of C but malloc, realloc and free, which are of one allocator. Any
 * threads may call at once, each with memory and handles of its own.
 *
 * What a pointer leads to stays the caller's: it is lent for the call alone, and the library
 * keeps none. A handle owns what it holds, until the call that lets go of it.
 *
 * Each pointer must lead to as many elements as the length behind it says, also where that is 0,
 * and must not be NULL, but in the four calls that let go of a handle. No call finds out that a
 * length is too large. What is read may be lent twice. What is written (memory, room, runs,
 * tasks, handles and what is told) must not overlap anything else that the same call is lent. No
 * call is made from a signal handler, or in the forked child of a process with threads. */
#ifndef TELGOVAN_H
#define TELGOVAN_H

#include <stdbool.h>
#include <stddef.h>
#include <stdint.h>

#ifdef __cplusplus
extern "C" {
#endif

/* The version of this header. */
#define TELGOVAN_VERSION_MAJOR 0
#define TELGOVAN_VERSION_MINOR 1
#define TELGOVAN_VERSION_PATCH 0
#define TELGOVAN_VERSION_TEXT "0.1.0"
/* The same as telgovan_version() tells that of the library. */
#define TELGOVAN_VERSION \
    (TELGOVAN_VERSION_MAJOR * 65536 + TELGOVAN_VERSION_MINOR * 256 + TELGOVAN_VERSION_PATCH)

/* The version of the library: 65,536 times the first of its three numbers, 256 times the second, and
 * the third. Nothing is lent, and there is no status. */
uint32_t telgovan_version(void);

/* ---- Statuses */

/* refusals */
/* Made by docs/refusals.py. */
enum telgovan_status {
    TELGOVAN_OK = 0,
    TELGOVAN_NO_INSTRUCTION = 1,
    TELGOVAN_RAGGED = 2,
    TELGOVAN_TOO_LONG = 3,
    TELGOVAN_UNKNOWN_OP = 4,
    TELGOVAN_BAD_REGISTER = 5,
    TELGOVAN_UNUSED_FIELD = 6,
    TELGOVAN_HALF_WIDE = 7,
    TELGOVAN_UNKNOWN_WORD = 11,
    TELGOVAN_BAD_OPERAND = 12,
    TELGOVAN_NUMBER_RANGE = 13,
    TELGOVAN_JUMP_OUT = 21,
    TELGOVAN_INTO_WIDE = 22,
    TELGOVAN_CYCLE = 23,
    TELGOVAN_FALLS_OFF = 24,
    TELGOVAN_UNREACHABLE = 25,
    TELGOVAN_UNSET_READ = 31,
    TELGOVAN_OUT_OF_STACK = 32,
    TELGOVAN_OUT_OF_PART = 33,
    TELGOVAN_BAD_KIND = 34,
    TELGOVAN_POINTER_RANGE = 35,
    TELGOVAN_FRAME_POINTER = 36,
    TELGOVAN_NO_HELPER = 37,
    TELGOVAN_NEED_TOO_LARGE = 38,
    TELGOVAN_NOTHING_HELD = 41,
    TELGOVAN_CREDIT_LOW = 42,
    TELGOVAN_MEMORY_SHORT = 43,
    TELGOVAN_BAD_ID = 44,
    TELGOVAN_TOO_MANY_ARGUMENTS = 45,
    TELGOVAN_PROGRAM_SET = 46,
    TELGOVAN_TASK_ENDED = 47,
    TELGOVAN_MAY_ASK = 48,
    TELGOVAN_STRANGER = 51,
    TELGOVAN_OVER_SPENT = 52,
    TELGOVAN_SHARE_OVER_CREDIT = 53,
    TELGOVAN_NO_PROGRAMS = 61,
    TELGOVAN_TOO_MANY_PROGRAMS = 62,
    TELGOVAN_ROOT_CREDIT_LOW = 63,
    TELGOVAN_ROOT_BUFFER_SHORT = 64,
    TELGOVAN_TOO_LARGE = 65,
    TELGOVAN_FRAME_TOO_LARGE = 71,
    TELGOVAN_NOT_JSON = 72,
    TELGOVAN_NOT_TEXT = 73,
    TELGOVAN_NO_TENANT = 74,
    TELGOVAN_BALANCE_LOW = 75,
    TELGOVAN_NO_JOB = 76,
    TELGOVAN_NOT_COMPLETE = 77,
    TELGOVAN_NO_CONNECTION = 78,
    TELGOVAN_NO_WORKER = 81,
    TELGOVAN_BOOK_REFUSED = 82,
    TELGOVAN_READ_FAILED = 83,
    TELGOVAN_WRITE_FAILED = 84,
    TELGOVAN_NO_MEMORY = 99
};

/* What a status says: a text that is always there, is never NULL, and is not to be freed. It is
 * "done" for 0, and "unknown" for a number that is no refusal's. */
static inline const char *telgovan_status_text(uint32_t status)
{
    switch (status) {
    case TELGOVAN_OK: return "done";
    case TELGOVAN_NO_INSTRUCTION: return "there is no instruction";
    case TELGOVAN_RAGGED: return "the length in bytes is no multiple of 8";
    case TELGOVAN_TOO_LONG: return "the program has more than 4096 slots";
    case TELGOVAN_UNKNOWN_OP: return "no instruction has this opcode with these fields";
    case TELGOVAN_BAD_REGISTER: return "a register over 10 is used";
    case TELGOVAN_UNUSED_FIELD: return "a field that the instruction does not use is not zero";
    case TELGOVAN_HALF_WIDE: return "the second slot of a wide load is missing";
    case TELGOVAN_UNKNOWN_WORD: return "no instruction has this word";
    case TELGOVAN_BAD_OPERAND: return "the operands are not those of the word";
    case TELGOVAN_NUMBER_RANGE: return "a number or a register is out of range";
    case TELGOVAN_JUMP_OUT: return "a jump leads out of the program";
    case TELGOVAN_INTO_WIDE: return "a jump leads into the middle of a wide load";
    case TELGOVAN_CYCLE: return "a path leads back to where it has been: there is a loop";
    case TELGOVAN_FALLS_OFF: return "the program may run past its end";
    case TELGOVAN_UNREACHABLE: return "no path leads to an instruction";
    case TELGOVAN_UNSET_READ: return "a register is read that may be unset";
    case TELGOVAN_OUT_OF_STACK: return "an access may leave the 512 bytes of the stack";
    case TELGOVAN_OUT_OF_PART: return "an access may leave the bytes of the part that the program needs";
    case TELGOVAN_BAD_KIND: return "a number where a pointer has to be, or a pointer for a number";
    case TELGOVAN_POINTER_RANGE: return "a pointer may go too far from its region";
    case TELGOVAN_FRAME_POINTER: return "r10 is written";
    case TELGOVAN_NO_HELPER: return "no helper has this number";
    case TELGOVAN_NEED_TOO_LARGE: return "the need is over 65536 bytes";
    case TELGOVAN_NOTHING_HELD: return "nothing is held: no program, no job or no desk";
    case TELGOVAN_CREDIT_LOW: return "the credit is under the program's cost";
    case TELGOVAN_MEMORY_SHORT: return "the memory is too short, or not as long as at the start";
    case TELGOVAN_BAD_ID: return "the id of a host's helper is none of 64 to 127";
    case TELGOVAN_TOO_MANY_ARGUMENTS: return "a helper takes more than 5 arguments";
    case TELGOVAN_PROGRAM_SET: return "a program is set already";
    case TELGOVAN_TASK_ENDED: return "the task has ended, or there is none";
    case TELGOVAN_MAY_ASK: return "the program may call the host's helpers, and is run without a task";
    case TELGOVAN_STRANGER: return "the job has no such task";
    case TELGOVAN_OVER_SPENT: return "more is used than the task holds";
    case TELGOVAN_SHARE_OVER_CREDIT: return "the share is over the credit that the task holds";
    case TELGOVAN_NO_PROGRAMS: return "the job has no program";
    case TELGOVAN_TOO_MANY_PROGRAMS: return "the job has more than 16 programs";
    case TELGOVAN_ROOT_CREDIT_LOW: return "the credit is under the cost of the root";
    case TELGOVAN_ROOT_BUFFER_SHORT: return "the buffer is shorter than the need of the root";
    case TELGOVAN_TOO_LARGE: return "a length or a credit is over its limit, or a room is too short";
    case TELGOVAN_FRAME_TOO_LARGE: return "a frame is over 1048576 bytes";
    case TELGOVAN_NOT_JSON: return "this is no JSON";
    case TELGOVAN_NOT_TEXT: return "there is no such request, or a text is not UTF-8 or hexadecimal";
    case TELGOVAN_NO_TENANT: return "there is no such tenant here";
    case TELGOVAN_BALANCE_LOW: return "the credit is over the tenant's balance";
    case TELGOVAN_NO_JOB: return "there is no such job, or it is forgotten";
    case TELGOVAN_NOT_COMPLETE: return "the job is not complete";
    case TELGOVAN_NO_CONNECTION: return "there is no such connection";
    case TELGOVAN_NO_WORKER: return "the job failed: no thread could start, or too many jobs were open";
    case TELGOVAN_BOOK_REFUSED: return "the job failed: its report does not add up to its credit";
    case TELGOVAN_READ_FAILED: return "the input could not be read";
    case TELGOVAN_WRITE_FAILED: return "the output could not be written";
    case TELGOVAN_NO_MEMORY: return "out of memory";
    default: return "unknown";
    }
}
/* end of refusals */

/* ---- Programs as bytes and as text */

/* What is said of a program. */
struct telgovan_verdict {
    uint32_t status; /* 0 where it is accepted, else the number of the refusal */
    uint32_t cost;   /* where it is accepted, the most that a run may use of its credit */
    uint32_t slot;   /* where the refusal stands */
    bool has_slot;   /* whether it stands at a slot */
};

/* What was written into the caller's room. */
struct telgovan_written {
    uint64_t length; /* how many bytes; where they don't fit (65), how many they are */
    uint64_t place;  /* where the refusal stands: a line, counted from 1, or a slot */
    uint32_t status; /* 0, or the number of the refusal, after which the room is as it was */
    bool has_place;  /* whether it stands at a place */
};

/* Writes what a status says, without a zero: as telgovan_status_text, for who has no header. It
 * answers 0, or 65 where the room is too short.
 *
 * All that it is given is lent for the call alone, and none of it is NULL. Statuses: 0 or 65. */
uint32_t telgovan_status_words(uint32_t status, uint8_t *room, size_t room_length,
                               struct telgovan_written *written);

/* Writes what to do about a status, without a zero: nothing for 0 and for a number that is no
 * refusal's. It answers 0, or 65 where the room is too short.
 *
 * All that it is given is lent for the call alone, and none of it is NULL. Statuses: 0 or 65. */
uint32_t telgovan_status_help(uint32_t status, uint8_t *room, size_t room_length,
                              struct telgovan_written *written);

/* Verifies a program that needs so many bytes of memory, and answers the verdict's status.
 *
 * All that it is given is lent for the call alone, and none of it is NULL. Statuses: 0, 1 to 7,
 * 21 to 25, 31 to 38 or 99. */
uint32_t telgovan_verify(uint32_t need, const uint8_t *code, size_t code_length,
                         struct telgovan_verdict *verdict);

/* Writes the bytes of the program that a source text says, in UTF-8, and answers the status: 1 and
 * 3, 11 to 13 with their line, 65 where the room is too short, 73 where the text is no UTF-8, or
 * 99.
 *
 * All that it is given is lent for the call alone, and none of it is NULL. Statuses: 0, 1, 3,
 * 11 to 13, 65, 73 or 99. */
uint32_t telgovan_assemble(const uint8_t *source, size_t source_length, uint8_t *room,
                           size_t room_length, struct telgovan_written *written);

/* Writes the lines of the program that the bytes spell, each with a line feed behind it and none
 * with a zero, and answers the status: 1 to 7 with their slot, 65 where the room is too short,
 * 99.
 *
 * All that it is given is lent for the call alone, and none of it is NULL. Statuses: 0, 1 to 7,
 * 65 or 99. */
uint32_t telgovan_disassemble(const uint8_t *code, size_t code_length, uint8_t *room,
                              size_t room_length, struct telgovan_written *written);

/* Writes why a program of this need is refused, as text for whoever wrote it: what is wrong, the
 * instruction with its line in the source text, a way that leads there, and what is known of each
 * register there. It answers the status: 0 where the program is accepted, and nothing is written,
 * else the number of the refusal with its slot as the place, or 99. `length` is how many bytes the
 * text has; where they don't fit, the room stays as it was. A source text gives the line where it
 * assembles to these bytes, and none else.
 *
 * All that it is given is lent for the call alone, and none of it is NULL. Statuses: 0, 1 to 7,
 * 21 to 25, 31 to 38 or 99. */
uint32_t telgovan_explain(uint32_t need, const uint8_t *code, size_t code_length,
                          const uint8_t *source, size_t source_length, uint8_t *room,
                          size_t room_length, struct telgovan_written *written);

/* Writes the graph of a program of this need in the language DOT: a box for each basic block, with
 * its cost, what is known of the registers ahead of it and its instructions. Red are an instruction
 * that isn't allowed and a way there. It answers the status: 0 where the program is accepted; the
 * number of the refusal, with its slot as the place, where an instruction isn't allowed; 65 where
 * the room is too short; or 99. Where a program has no graph, nothing is written, and the status is
 * the number of its refusal: `length` is 0. The source text is that of telgovan_explain.
 *
 * All that it is given is lent for the call alone, and none of it is NULL. Statuses: 0, 65, 1
 * to 7, 21 to 25, 31 to 38 or 99. */
uint32_t telgovan_graph(uint32_t need, const uint8_t *code, size_t code_length,
                        const uint8_t *source, size_t source_length, uint8_t *room,
                        size_t room_length, struct telgovan_written *written);

/* ---- Runs of one program */

/* What a run came to. */
struct telgovan_outcome {
    uint64_t r0;     /* R0 at the end */
    uint32_t status; /* 0, or the number of the refusal, after which the memory is as it was */
    uint32_t used;   /* what it used of its credit */
};

/* A run of a burst: the piece of the memory that is the program's part, the argument that it gets,
 * and what it came to. */
struct telgovan_run {
    uint64_t start;
    uint64_t length;
    uint64_t argument;
    struct telgovan_outcome outcome;
};

/* Verifies a program and runs it once, in place, with the memory as its part. It answers the
 * outcome's status: that of the verdict where the program is refused, else 65 where the memory has
 * over 65,536 bytes or the credit is over 2,147,483,647, 42 where the credit is under the cost, 43
 * where the memory is shorter than the need, or 0.
 *
 * All that it is given is lent for the call alone, and none of it is NULL. Statuses: 0, 42, 43,
 * 65, 1 to 7, 21 to 25, 31 to 38 or 99. */
uint32_t telgovan_run(uint32_t need, const uint8_t *code, size_t code_length, uint32_t credit,
                      uint64_t argument, uint8_t *memory, size_t memory_length,
                      struct telgovan_outcome *outcome);

/* Verifies a program and writes the steps of its run on this memory, which stays as it is: a JSON
 * object for each, with a line feed behind it. `slot` and `insn` say the instruction, and `line`
 * where a source text has it. `registers` has those that changed: decimal numbers, pointers as
 * `part+4` or `stack+504`, or `unset`. `stack` and `part`, where bytes of them changed, have the
 * place `at` of the first and the `bytes` from there to the last, in hexadecimal. `used` is what
 * the run has used of its credit. A program has no loop, so there is at most one step a slot.
 *
 * It answers the status: that of the verdict with the slot as the place, else that of telgovan_run,
 * else 0; 65 where the room is too short, or 99. 65 of length 0 is over a limit; that is also told
 * where the position of a pointer has more than 64 bits.
 *
 * All that it is given is lent for the call alone, and none of it is NULL. Statuses: 0, 42, 43,
 * 65, 1 to 7, 21 to 25, 31 to 38 or 99. */
uint32_t telgovan_trace(uint32_t need, const uint8_t *code, size_t code_length,
                        const uint8_t *source, size_t source_length, uint32_t credit,
                        uint64_t argument, const uint8_t *memory, size_t memory_length,
                        uint8_t *room, size_t room_length, struct telgovan_written *written);

/* Verifies a program once and runs it in place on each piece of the memory in turn, each time with
 * this credit. It answers the verdict's status; where the program is refused nothing runs. A run
 * that is refused, as above or by 43 where the memory has no such piece, doesn't stop the next.
 *
 * All that it is given is lent for the call alone, and none of it is NULL. Statuses: 0, 1 to 7,
 * 21 to 25, 31 to 38 or 99; of each run 0, 42, 43 or 65. */
uint32_t telgovan_burst(uint32_t need, const uint8_t *code, size_t code_length, uint32_t credit,
                        uint8_t *memory, size_t memory_length, struct telgovan_run *runs,
                        size_t runs_length, struct telgovan_verdict *verdict);

/* ---- Programs that are loaded once and run many times */

/* A handle: a program that was verified, or none. It begins as {0}, which holds none. Its fields
 * are the library's: don't write or follow them. Move a handle where you like, but use no copy of
 * it. A handle that holds a program and is overwritten or forgotten leaks.
 *
 * One call at a time uses a handle. A thread gives one to another by a lock, a thread's start or
 * join, or a sequentially consistent atomic. A call writes its handle: threads are quickest where no
 * two of their handles share a line of the processor's cache. */
struct telgovan_program {
    void *held;
    bool loaded;
};

/* Verifies a program, and lets the handle hold it in place of the one that it held. It answers the
 * verdict's status. Where that isn't 0, the handle holds what it held.
 *
 * The handle owns the program until telgovan_program_unload. The code isn't kept: all is lent
 * for the call alone, and none of it is NULL. Statuses: 0, 1 to 7, 21 to 25, 31 to 38 or 99. */
uint32_t telgovan_program_load(uint32_t need, const uint8_t *code, size_t code_length,
                               struct telgovan_program *program,
                               struct telgovan_verdict *verdict);

/* Runs the program that the handle holds once, in place, with the memory as its part, and takes no
 * memory of its own. It answers the outcome's status: 41 where the handle holds none, 48 where the
 * program may call helpers of the host's (below), else as telgovan_run.
 *
 * The handle keeps its program. All that it is given is lent for the call alone, and none of it
 * is NULL. Statuses: 0, 41, 42, 43, 48 or 65. */
uint32_t telgovan_program_run(struct telgovan_program *program, uint32_t credit, uint64_t argument,
                              uint8_t *memory, size_t memory_length,
                              struct telgovan_outcome *outcome);

/* Runs the program that the handle holds on each piece of the memory in turn, as telgovan_burst. It
 * answers 0; or 41 where the handle holds none, or 48 where the program may call helpers of the
 * host's, after which nothing changed.
 *
 * The handle keeps its program. All that it is given is lent for the call alone, and none of it
 * is NULL. Statuses: 0, 41 or 48; of each run 0, 42, 43 or 65. */
uint32_t telgovan_program_burst(struct telgovan_program *program, uint32_t credit, uint8_t *memory,
                                size_t memory_length, struct telgovan_run *runs,
                                size_t runs_length);

/* Lets another handle hold the program too, in place of the one that it held: for another thread,
 * say. It answers 0; or 41 where there is no program, or 99, after which the other handle holds
 * what it held.
 *
 * Each handle owns its share until telgovan_program_unload. Neither pointer is NULL. Statuses:
 * 0, 41 or 99. */
uint32_t telgovan_program_share(struct telgovan_program *program, struct telgovan_program *other);

/* Tells the most that a run of the program may use of its credit. It answers 0, or 41 where the
 * handle holds none, after which the cost is what it was.
 *
 * The handle keeps its program. Neither pointer is NULL. Statuses: 0 or 41. */
uint32_t telgovan_program_cost(struct telgovan_program *program, uint32_t *cost);

/* Lets go of the program that the handle holds, and frees it where no other handle holds it. The
 * handle holds none from then on, so that a second call does nothing.
 *
 * NULL is taken for a handle that holds none. There is no status. */
void telgovan_program_unload(struct telgovan_program *program);

/* ---- Tasks, which stop where they ask their host */

/* A program may call helpers of the host's, of ids 64 to 127. The library calls nothing of C, so a
 * task stops ahead of such a call and tells of it. The host goes on with the answer, whenever it
 * likes. A task also stops after so many instructions, which gives time slices. */

/* No helper is of this id. */
#define TELGOVAN_NO_HELPER UINT32_MAX

/* As telgovan_program_load, with helpers of the host's beside those of a job. `arities` says how
 * many arguments each of them takes, by its id from 64 on: 0 to 5, or TELGOVAN_NO_HELPER. The first
 * refusals are 44 for more than 64 of them, and 45 for another number.
 *
 * Else it is as telgovan_program_load: the arities aren't kept either. Statuses: 0, 44, 45, 1
 * to 7, 21 to 25, 31 to 38 or 99. */
uint32_t telgovan_program_load_with(uint32_t need, const uint8_t *code, size_t code_length,
                                    const uint32_t *arities, size_t arities_length,
                                    struct telgovan_program *program,
                                    struct telgovan_verdict *verdict);

/* A handle of a task, or of none. What is said of struct telgovan_program holds of it too: it
 * begins as {0}, it is moved and not copied, one call at a time uses it, and its fields are the
 * library's. */
struct telgovan_task_handle {
    void *held;
    bool started;
};

/* Why a task stopped. */
enum telgovan_kind {
    TELGOVAN_AT_LIMIT = 0, /* as many instructions ran as may */
    TELGOVAN_ASKS = 1,     /* it waits for the answer of a helper */
    TELGOVAN_ENDED = 2     /* it has ended */
};

struct telgovan_event {
    uint64_t r0;           /* where it has ended, R0 */
    uint64_t arguments[5]; /* where it asks; those past the helper's own are 0 */
    uint32_t status;       /* 0, or the number of the refusal, after which all is as it was */
    uint32_t kind;         /* an enum telgovan_kind */
    uint32_t helper;       /* where it asks, the helper's id */
    uint32_t used;         /* what the task has used of its credit so far */
};

/* Starts a task of the program that the handle holds, on a memory of this length, and lets `task`
 * hold it in place of the one that it held. Nothing runs yet. The task holds the program too, so
 * that the program's handle may be unloaded. It answers 0; or 41 where there is no program, 65
 * where the length is over 65,536 or the credit is over 2,147,483,647, 42 where the credit is under
 * the cost, 43 where the length is under the need, or 99, after which `task` holds what it held.
 *
 * The handle `task` owns the task until telgovan_task_drop. No memory is lent yet. Neither
 * handle is NULL. Statuses: 0, 41, 42, 43, 65 or 99. */
uint32_t telgovan_task_start(struct telgovan_program *program, uint32_t credit, uint64_t argument,
                             size_t memory_length, struct telgovan_task_handle *task);

/* Goes on with the task. Where it waits for an answer, the helper gives this one; elsewhere the
 * answer is ignored. Then `limit` instructions run at most, of which the call that was answered
 * isn't one, until one ends the task or calls a helper of the host's. The memory is that of the
 * task's start or another one of the same length: between two calls the host may change its bytes.
 * It answers the event's status: 47 where the handle holds no task, or its task has ended, 43 where
 * the memory has another length than at the start, or 0. No memory is asked for.
 *
 * The handle keeps its task, and the memory isn't kept. All that it is given is lent for the
 * call alone, and none of it is NULL. Statuses: 0, 43 or 47. */
uint32_t telgovan_task_go(struct telgovan_task_handle *task, uint64_t answer, uint8_t *memory,
                          size_t memory_length, uint32_t limit, struct telgovan_event *event);

/* Lets go of the task, whether it has ended or not. The handle holds none from then on, so that a
 * second call does nothing.
 *
 * NULL is taken for a handle that holds none. There is no status. */
void telgovan_task_drop(struct telgovan_task_handle *task);

/* ---- Whole jobs */

/* A program of a job: the piece of the code that is its bytes, and the bytes that each of its tasks
 * needs of its part. */
struct telgovan_piece {
    uint64_t start;
    uint64_t length;
    uint32_t need;
};

/* A task that ended. */
struct telgovan_task {
    uint64_t argument; /* what its parent gave it; the root's is 0 */
    uint64_t r0;       /* R0 at its end */
    uint32_t number;
    uint32_t program;  /* its program's place, counted from 0 */
    uint32_t given;    /* the credit that it was given */
    uint32_t spent;    /* how much of what it kept it spent */
    uint32_t returned; /* how much of what it kept came back */
};

/* What a job came to. */
struct telgovan_report {
    uint64_t tasks;    /* how many tasks it had */
    uint32_t status;   /* 0 where it was played, else the number of the refusal */
    uint32_t spent;    /* the credit that its tasks spent */
    uint32_t returned; /* the credit that came back: what they were given and didn't spend */
    uint32_t program;  /* the place of the program that the refusal is about */
    uint32_t slot;     /* where the refusal stands in that */
    bool has_program;  /* whether it is about a program */
    bool has_slot;     /* whether it stands at a slot */
};

/* Admits a job of the programs that these pieces of the code are, of which the first is the root's,
 * and plays it to its end on the buffer, in place: always the live task of lowest number next. It
 * writes as many of its tasks as there is room for, in order of their numbers, and answers the
 * report's status. The refusals, of which the first that applies comes, and which leave the buffer
 * and the tasks as they were: 61 there is no piece, 62 there are over 16, 65 the credit is over
 * 2,147,483,647 or the buffer has over 65,536 bytes; 43 a piece isn't in the code, with its place;
 * the first refusal of a program, with its place and its slot; 63 the credit is under the root's
 * cost, 64 the buffer is shorter than its need. 99 may come behind the first three.
 *
 * All that it is given is lent for the call alone, and none of it is NULL. Statuses: 0, 43, 61
 * to 65, 1 to 7, 21 to 25, 31 to 38 or 99. */
uint32_t telgovan_job(const uint8_t *code, size_t code_length, const struct telgovan_piece *pieces,
                      size_t pieces_length, uint32_t credit, uint8_t *buffer, size_t buffer_length,
                      struct telgovan_task *tasks, size_t tasks_length,
                      struct telgovan_report *report);

/* Admits a job as telgovan_job, and writes its steps along a schedule: a JSON object for each, with
 * a line feed behind it. An entry of the schedule is the number of the task whose instruction is
 * next; one that names no live task is passed over. The members are those of telgovan_trace but
 * `line`, with `task` ahead of them. Behind them is `r0` where the task ends there, or `spawned`
 * where a task is spawned there, with its number `task`, its `program`, `share`, `argument` and
 * `bytes`. The buffer stays as it is. No spawn that passes its tests is refused.
 *
 * It answers the status: that of the job's refusal, with the place of the program that it is about;
 * 65 where the room is too short, 99, or 0. 65 of length 0 is over a limit; that is also told where
 * the position of a pointer has more than 64 bits.
 *
 * All that it is given is lent for the call alone, and none of it is NULL. Statuses: 0, 43, 61
 * to 65, 1 to 7, 21 to 25, 31 to 38 or 99. */
uint32_t telgovan_job_trace(const uint8_t *code, size_t code_length,
                            const struct telgovan_piece *pieces, size_t pieces_length,
                            uint32_t credit, const uint8_t *buffer, size_t buffer_length,
                            const uint32_t *schedule, size_t schedule_length, uint8_t *room,
                            size_t room_length, struct telgovan_written *written);

/* ---- Jobs under way, of which the host says whose instruction is next */

/* A handle: a job under way, or none. It begins as {0}, which holds none. What is said of struct
 * telgovan_program holds of it too: its fields are the library's, no copy of it is used, one call
 * at a time uses it, and one that is overwritten or forgotten leaks. */
struct telgovan_world {
    void *held;
    bool opened;
};

/* What a run of a task came to. */
enum telgovan_came_to {
    TELGOVAN_SKIPPED = 0, /* no task of this number is alive, and nothing ran */
    TELGOVAN_GOES_ON = 1, /* as many instructions ran as may */
    TELGOVAN_HAS_ENDED = 2
};

struct telgovan_step {
    uint64_t r0;       /* where the task has ended, R0 */
    uint32_t status;   /* 0, or 41 where the handle holds no job */
    uint32_t came_to;  /* an enum telgovan_came_to */
    uint32_t count;    /* how many instructions ran */
    uint32_t tasks;    /* how many tasks there are, numbered from 0 in the order of their spawns */
    uint32_t held;     /* the credit that live tasks hold */
    uint32_t returned; /* the credit that came back from those that ended */
    uint32_t spent;    /* the credit that those spent; the three make what was issued */
    uint32_t used;     /* what all tasks have used so far */
    bool is_complete;  /* whether no task is alive */
};

/* Admits a job as telgovan_job, and lets the handle hold it at its start, in place of the one that
 * it held: its root alone, with all of the credit, on a copy of the buffer. It answers the report's
 * status; where that isn't 0, the handle holds what it held.
 *
 * The handle owns the job and its copy of the buffer until telgovan_world_drop. All else is
 * lent for the call alone, and none of it is NULL. Statuses: 0, 43, 61 to 65, 1 to 7, 21 to 25,
 * 31 to 38 or 99. */
uint32_t telgovan_world_open(const uint8_t *code, size_t code_length,
                             const struct telgovan_piece *pieces, size_t pieces_length,
                             uint32_t credit, const uint8_t *buffer, size_t buffer_length,
                             struct telgovan_world *world, struct telgovan_report *report);

/* Runs a task of the job on from its next instruction: `limit` instructions at most, or until it
 * ends. It tells what that came to and how the job stands, also where nothing ran. Once no task is
 * alive, the buffer, the R0s of the tasks by their places in the tree and the credit spent are the
 * same whatever the order was, but where a spawn was refused for want of memory. It answers 0, or
 * 41 where the handle holds no job.
 *
 * The handle keeps its job. Neither pointer is NULL. Statuses: 0 or 41. */
uint32_t telgovan_world_run(struct telgovan_world *world, uint32_t number, uint32_t limit,
                            struct telgovan_step *step);

/* Writes the buffer of the job as it is now. It answers 0; 65 where the room is too short, with the
 * length that it takes; 41 where the handle holds no job, or 99.
 *
 * The handle keeps its job. All that it is given is lent for the call alone, and none of it is
 * NULL. Statuses: 0, 41, 65 or 99. */
uint32_t telgovan_world_buffer(struct telgovan_world *world, uint8_t *room, size_t room_length,
                               struct telgovan_written *written);

/* Lets go of the job, whether it is over or not. The handle holds none from then on, so that a
 * second call does nothing.
 *
 * NULL is taken for a handle that holds none. There is no status. */
void telgovan_world_drop(struct telgovan_world *world);

/* ---- Desks: accounts and jobs of many clients, whatever carries their bytes */

/* A handle: a desk, or none. It begins as {0}, which holds none. What is said of struct
 * telgovan_program holds of it too: its fields are the library's, no copy of it is used, one call
 * at a time uses it, and one that is overwritten or forgotten leaks.
 *
 * A desk speaks the protocol of docs/protocol.md with each of its connections. The host carries the
 * bytes, by sockets, TLS or what it likes. It runs the jobs that clients submit, where it likes. */
struct telgovan_desk {
    void *held;
    bool made;
};

/* What was given of the replies on a connection. */
struct telgovan_sent {
    uint64_t count; /* how many bytes were written into the room */
    uint64_t left;  /* how many are still to be sent */
};

/* A job that is handed over to the host. */
struct telgovan_handed {
    uint64_t job;    /* its number, counted from 1; 0 where no job waits */
    uint64_t length; /* how many bytes its object has */
};

/* Makes a desk without tenants, jobs and connections, and lets the handle hold it in place of the
 * one that it held. It answers 0; or 99, after which the handle holds what it held.
 *
 * The handle owns the desk until telgovan_desk_free, and isn't NULL. Statuses: 0 or 99. */
uint32_t telgovan_desk_new(struct telgovan_desk *desk);

/* Begins a conversation with a client, and tells the number of its connection, counted from 1. No
 * number is given twice. It answers 0; or 41 where the handle holds no desk, or 99, after which
 * nothing changed.
 *
 * The desk owns the conversation until telgovan_desk_disconnect. Neither pointer is NULL.
 * Statuses: 0, 41 or 99. */
uint32_t telgovan_desk_connect(struct telgovan_desk *desk, uint64_t *connection);

/* Takes bytes that came on a connection, in pieces of any size, and answers each frame that is
 * whole now, in order, by one reply, which waits to be sent. It answers 0; 71 where a length over
 * the limit came, which is answered too, or 99 where there was no memory: after both the
 * conversation is over, and each later piece is answered the same. Or 41 where the handle holds no
 * desk, or 78 where there is no such connection, after which nothing changed.
 *
 * The replies to a piece are held until they are sent, and a request of 27 bytes may ask for the
 * report of a job of any size. So give pieces of a few thousand bytes at most, and send what is due
 * before the next.
 *
 * The desk copies of the bytes what it still needs. All that it is given is lent for the call
 * alone, and none of it is NULL. Statuses: 0, 41, 71, 78 or 99. */
uint32_t telgovan_desk_feed(struct telgovan_desk *desk, uint64_t connection, const uint8_t *bytes,
                            size_t length);

/* Writes bytes that are to be sent on a connection into the room, as many as there is room for.
 * They count as sent. It answers 0; or 41 or 78 as above, after which nothing changed.
 *
 * All that it is given is lent for the call alone, and none of it is NULL. Statuses: 0, 41 or
 * 78. */
uint32_t telgovan_desk_replies(struct telgovan_desk *desk, uint64_t connection, uint8_t *room,
                               size_t room_length, struct telgovan_sent *sent);

/* Ends the conversation of a connection, and drops what was still to be sent. Its jobs stay. It
 * answers 0; or 41 or 78 as above.
 *
 * The handle isn't NULL. Statuses: 0, 41 or 78. */
uint32_t telgovan_desk_disconnect(struct telgovan_desk *desk, uint64_t connection);

/* Hands the job of lowest number that waits over, once, and writes its object into the room: the
 * JSON that `bpfjobs run` reads. It answers 0, and number 0 where no job waits; 65 where the room
 * is too short, with the length that it needs, after which the job waits as before; or 41 as
 * above.
 *
 * The desk keeps the job, which is open until telgovan_desk_finish. All that it is given is
 * lent for the call alone, and none of it is NULL. Statuses: 0, 41 or 65. */
uint32_t telgovan_desk_next_job(struct telgovan_desk *desk, uint8_t *room, size_t room_length,
                                struct telgovan_handed *handed);

/* Ends a job that was handed over with what it came to: what its report spent and returned, its
 * buffer and the tasks that are to be told. A report that doesn't add up to the job's credit counts
 * as 82. Where the report's status isn't 0, the job failed by that number, and its whole credit
 * goes back. It answers 0; 76 where no job of this number was handed over and is open, so that a
 * second report is refused; 65 where the status is over 255 or a task's program over 65,535; 41 as
 * above, or 99. After a refusal nothing changed.
 *
 * The desk copies what it keeps. All that it is given is lent for the call alone, and none of
 * it is NULL. Statuses: 0, 41, 65, 76 or 99. */
uint32_t telgovan_desk_finish(struct telgovan_desk *desk, uint64_t job,
                              const struct telgovan_report *report, const uint8_t *buffer,
                              size_t buffer_length, const struct telgovan_task *tasks,
                              size_t tasks_length);

/* Lets go of the desk, with its accounts, its jobs and its conversations. The handle holds none
 * from then on, so that a second call does nothing.
 *
 * NULL is taken for a handle that holds none. There is no status. */
void telgovan_desk_free(struct telgovan_desk *desk);

/* ---- Handles that may be NULL */

/* The library itself takes no NULL. So what lets go of a handle looks for one here, and then does
 * nothing. */
static inline void telgovan_program_unload_any(struct telgovan_program *program)
{
    if (program)
        telgovan_program_unload(program);
}
static inline void telgovan_task_drop_any(struct telgovan_task_handle *task)
{
    if (task)
        telgovan_task_drop(task);
}
static inline void telgovan_world_drop_any(struct telgovan_world *world)
{
    if (world)
        telgovan_world_drop(world);
}
static inline void telgovan_desk_free_any(struct telgovan_desk *desk)
{
    if (desk)
        telgovan_desk_free(desk);
}
#define telgovan_program_unload telgovan_program_unload_any
#define telgovan_task_drop telgovan_task_drop_any
#define telgovan_world_drop telgovan_world_drop_any
#define telgovan_desk_free telgovan_desk_free_any

#ifdef __cplusplus
}
#endif

#endif
