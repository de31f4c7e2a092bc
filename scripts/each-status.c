/* each-status.c: calls lipparoy_run for each status that lipparoy.h names but READ_FAULT, with each allocation failing
 * in turn, and from several threads at once. Link it with the static library, --wrap=malloc, --wrap=realloc and
 * --wrap=free.
 *
 * It writes a line for each difference, and ends with 1 if there is one.
 */
#include <lipparoy.h>
#include <pthread.h>
#include <stdio.h>
#include <string.h>

#define ROOM 65536
#define BEYOND 16
#define THREADS 4
#define ROUNDS 50
#define STACK (256 * 1024)
#define BARE "show --frames bare --packets aligned --itm 1"

struct call {
    enum lipparoy_status wanted;
    const char *words, *input;
    size_t input_len, output_room, notes_room;
    const char *output, *notes;
};

/* The bytes of an input, and how many they are. */
#define BYTES(text) text, sizeof text - 1
#define ROOMS ROOM, ROOM
#define HELLO "\0\0\0\0\0\200\001A"
#define LISTED \
    "5 1 sync\n7 1 port 0 u8 41\nend 8\nport bare skipped 0 tail 0 unattributed 0\n1 itm aligned skipped 0 tail 0\n"

/* Where the output or the notes are not named, they may be any. */
static const struct call calls[] = {
    {LIPPAROY_DONE, BARE, BYTES(HELLO), ROOMS, LISTED, ""},
    {LIPPAROY_DONE, "  show\t--frames bare\n--packets aligned\r\n--itm 1 ", BYTES(HELLO), ROOMS, LISTED, ""},
    {LIPPAROY_DONE, BARE, BYTES(HELLO), sizeof LISTED - 1, 0, LISTED, ""},
    {LIPPAROY_USAGE, "list", BYTES(HELLO), ROOMS, "", "usage: unknown action\n"},
    {LIPPAROY_USAGE, "list", BYTES(HELLO), ROOM, 7, "", "usage: "},
    {LIPPAROY_USAGE, "", BYTES(""), ROOMS, "", NULL},
    {LIPPAROY_CAPTURE_FAULT, BARE, BYTES(HELLO "\204"), ROOMS, NULL, NULL},
    {LIPPAROY_WRITE_FAULT, BARE, BYTES(HELLO), sizeof LISTED - 2, ROOM, NULL, "write fault\n"},
    {LIPPAROY_WRITE_FAULT, BARE, BYTES(HELLO), 0, 0, "", ""},
    {LIPPAROY_SCRIPT_FAULT, "rebuild", BYTES("1 sing\n"), ROOMS, NULL, "line 1 2 BadLine\n"},
    {LIPPAROY_LIMIT, BARE " --limit 7", BYTES(HELLO), ROOMS, NULL, "limit 7\n"},
    {LIPPAROY_RECOVERED, BARE " --recover on", BYTES(HELLO "\204" HELLO), ROOMS, NULL, NULL},
    {LIPPAROY_BAD_IMAGE, "unring --size 16 --pointer 0 --full 0", BYTES(HELLO), ROOMS, "", "image isn't 16 bytes\n"},
    {LIPPAROY_BAD_WORDS, "show \377", BYTES(HELLO), ROOMS, "", ""},
};
#define CALLS (sizeof calls / sizeof *calls)

/* How many further allocations of this thread pass before one fails, or less than 0 for all; and the blocks it has. */
static _Thread_local long passing = -1, held;

void *__real_malloc(size_t size);
void *__real_realloc(void *block, size_t size);
void __real_free(void *block);
void *__wrap_malloc(size_t size);
void *__wrap_realloc(void *block, size_t size);
void __wrap_free(void *block);

void *__wrap_malloc(size_t size) {
    void *made = passing-- == 0 ? NULL : __real_malloc(size);
    held += made != NULL;
    return made;
}

void *__wrap_realloc(void *block, size_t size) {
    void *made = passing-- == 0 ? NULL : __real_realloc(block, size);
    held += made != NULL && block == NULL;
    return made;
}

void __wrap_free(void *block) {
    held -= block != NULL;
    __real_free(block);
}

struct room {
    uint8_t output[ROOM + BEYOND], notes[ROOM + BEYOND];
};

static int is(const char *wanted, const uint8_t *bytes, size_t len) {
    return !wanted || (strlen(wanted) == len && memcmp(wanted, bytes, len) == 0);
}

/* Whether the bytes after the room are as they were. */
static int is_kept(const uint8_t *bytes, size_t room) {
    for (size_t at = room; at < ROOM + BEYOND; at++)
        if (bytes[at] != 0xA5)
            return 0;
    return 1;
}

/* Makes the call, and answers what is wrong with how it ended, or NULL. */
static const char *made(const struct call *call, struct room *room, struct lipparoy_ended *ended) {
    memset(room, 0xA5, sizeof *room);
    memset(ended, 0xFF, sizeof *ended);
    held = 0;
    lipparoy_run((const uint8_t *)call->words, strlen(call->words), (const uint8_t *)call->input, call->input_len,
                 room->output, call->output_room, room->notes, call->notes_room, ended);
    return ended->output > call->output_room || ended->notes > call->notes_room ? "counts more than the room"
        : !is_kept(room->output, call->output_room) || !is_kept(room->notes, call->notes_room) ? "writes over a room"
        : held != 0 ? "keeps memory" : NULL;
}

static const char *wrong(const struct call *call, struct room *room) {
    struct lipparoy_ended ended;
    const char *found = made(call, room, &ended);
    return found ? found
        : ended.status != (uint64_t)call->wanted ? "has another status"
        : !is(call->output, room->output, ended.output) ? "has another output"
        : !is(call->notes, room->notes, ended.notes) ? "has other notes" : NULL;
}

static struct room rooms[THREADS + 1];

static int all(struct room *room) {
    int differing = 0;
    for (size_t at = 0; at < CALLS; at++) {
        const char *found = wrong(&calls[at], room);
        if (found)
            printf("call %zu of scripts/each-status.c %s\n", at, found);
        differing += found != NULL;
    }
    return differing;
}

/* Has each allocation of the first call fail in turn: no word and no other memory are had, and nothing is written. */
static int refused(struct room *room) {
    long of_words = 0, of_run = 0, nth = 0;
    for (;; nth++) {
        struct lipparoy_ended ended;
        passing = nth;
        const char *found = made(&calls[0], room, &ended);
        passing = -1;
        if (!found && ended.status == LIPPAROY_DONE)
            break;
        int is_words = ended.status == LIPPAROY_BAD_WORDS && ended.notes == 0;
        int is_run = ended.status == LIPPAROY_NO_MEMORY && is("no memory\n", room->notes, ended.notes);
        if (found || ended.output || !(is_words || is_run)) {
            printf("without allocation %ld a call %s\n", nth, found ? found : "ends otherwise");
            return 1;
        }
        of_words += is_words;
        of_run += is_run;
    }
    if (!of_words || !of_run)
        printf("of %ld allocations %ld are of words, and %ld of the run\n", nth, of_words, of_run);
    return !of_words || !of_run;
}

static void *in_thread(void *room) {
    int differing = 0;
    for (int round = 0; round < ROUNDS && !differing; round++)
        differing = all(room);
    return differing ? room : NULL;
}

int main(void) {
    int differing = all(&rooms[THREADS]) + refused(&rooms[THREADS]);
    if (differing)
        return 1;
    pthread_t threads[THREADS];
    pthread_attr_t small;
    pthread_attr_init(&small);
    pthread_attr_setstacksize(&small, STACK);
    for (int at = 0; at < THREADS; at++)
        if (pthread_create(&threads[at], &small, in_thread, &rooms[at]))
            return printf("no thread could be made\n"), 1;
    for (int at = 0; at < THREADS; at++) {
        void *found;
        pthread_join(threads[at], &found);
        if (found)
            printf("calls of several threads disturb one another\n");
        differing += found != NULL;
    }
    return differing != 0;
}
