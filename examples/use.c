/* use.c: calls lipparoy from C. Its arguments are the words of the call, and the input comes on standard input:
 *
 *     cc -o use use.c -llipparoy && ./use show --frames bare --packets aligned --itm 1 < hello.itm
 */
#include <lipparoy.h>
#include <stdio.h>
#include <stdlib.h>
#include <string.h>

static void *resized(void *block, size_t size) {
    void *grown = realloc(block, size);
    if (!grown) {
        fputs("use: no memory\n", stderr);
        exit(LIPPAROY_NO_MEMORY);
    }
    return grown;
}

int main(int argc, char **argv) {
    /* The words in one text, apart by spaces. */
    size_t words_len = 0;
    char *words = resized(NULL, 1);
    for (int i = 1; i < argc; i++) {
        size_t len = strlen(argv[i]);
        words = resized(words, words_len + len + 1);
        memcpy(words + words_len, argv[i], len);
        words[words_len + len] = ' ';
        words_len += len + 1;
    }

    /* The whole input. */
    size_t input_len = 0, input_room = 1 << 16, got;
    uint8_t *input = resized(NULL, input_room);
    while ((got = fread(input + input_len, 1, input_room - input_len, stdin)) > 0) {
        input_len += got;
        if (input_len == input_room)
            input = resized(input, input_room *= 2);
    }

    /* Nobody knows the output's length before: double the room until it is enough. */
    uint8_t *output = NULL, notes[4096];
    size_t output_room = 1 << 16;
    struct lipparoy_ended ended;
    do {
        output = resized(output, output_room *= 2);
        lipparoy_run((const uint8_t *)words, words_len, input, input_len, output, output_room, notes, sizeof notes,
                     &ended);
    } while (ended.status == LIPPAROY_WRITE_FAULT);

    fwrite(output, 1, ended.output, stdout);
    fwrite(notes, 1, ended.notes, stderr);
    free(output);
    free(input);
    free(words);
    return (int)ended.status;
}
