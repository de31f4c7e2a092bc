/* lipparoy.h: the program lipparoy as one call over bytes in memory.
 *
 * Link with -llipparoy. Actions, options, lines and statuses are those of the program: `man lipparoy`, docs/command.md.
 */
#ifndef LIPPAROY_H
#define LIPPAROY_H

#include <stddef.h>
#include <stdint.h>

#ifdef __cplusplus
extern "C" {
#endif

/* The status of a call: the program's exit status, of which 1 never comes here. If several apply, the first of 5, 3 or
 * 7, 10, 8, 9 holds. */
enum lipparoy_status {
    LIPPAROY_DONE = 0,          /* all input was read, without a fault */
    LIPPAROY_USAGE = 2,         /* the words are wrong; the notes say why, and no input was read */
    LIPPAROY_CAPTURE_FAULT = 3, /* the capture has a fault; the output has what comes before it */
    LIPPAROY_READ_FAULT = 4,    /* a read failed: of the program alone, since memory is always read */
    LIPPAROY_WRITE_FAULT = 5,   /* the output's room is too small; the output has a front of the text */
    LIPPAROY_NO_MEMORY = 6,     /* no memory to begin with; no input was read */
    LIPPAROY_SCRIPT_FAULT = 7,  /* a line of the script has a fault */
    LIPPAROY_LIMIT = 8,         /* the input has more bytes than `--limit` */
    LIPPAROY_RECOVERED = 9,     /* all input was read, with faults that `--recover` passed */
    LIPPAROY_BAD_IMAGE = 10,    /* `unring`: the input has not `--size` bytes */
    LIPPAROY_BAD_WORDS = 11     /* the words are not UTF-8, or there was no memory for them; nothing was written */
};

/* How a call ended. */
struct lipparoy_ended {
    uint64_t status; /* one of enum lipparoy_status */
    size_t output;   /* bytes written from the front of the output's room */
    size_t notes;    /* bytes written from the front of the notes' room */
};

/* Does what the words ask for, such as `show --frames bare --itm 1`, on the input.
 *
 * words   The program's arguments, apart by ASCII white space. There are no quotes, so no argument has a space.
 * input   What the program reads on standard input: a capture, a script, or a buffer's memory.
 * output  Room for what the program writes to standard output. If it is too small, it takes a front of that, and the
 *         status is LIPPAROY_WRITE_FAULT: call again with more room.
 * notes   Room for what the program writes to standard error: mostly one line, of `--help` some 3 KiB, of `text` and
 *         `vcd` with `--recover` a line for each fault. If it is too small, notes are cut, and the status is the same.
 * ended   Always set. Bytes of the rooms after those that it counts say nothing.
 *
 * No pointer is NULL, even beside a length or room of 0. The output, the notes and *ended overlap nothing else; words
 * and input are not changed. The call takes memory by malloc and realloc, and frees all of it before it returns.
 *
 * A call keeps nothing for the next one, so calls of several threads do not disturb one another. It takes less than 256
 * KiB of its thread's stack. Do not call from a signal handler, or from the forked child of a process with threads.
 */
void lipparoy_run(const uint8_t *words, size_t words_len, const uint8_t *input, size_t input_len, uint8_t *output,
                  size_t output_room, uint8_t *notes, size_t notes_room, struct lipparoy_ended *ended);

#ifdef __cplusplus
}
#endif

#endif
