/* Prints the frames of standard input as `mbdc decode` does, or `mbdc decode --json`: a program over libmbdc.
 *
 *     cc -std=c99 decode.c $(pkg-config --cflags --libs mbdc) -o decode
 *     echo '10 5B 01 5C 16' | ./decode [--json]
 */
#include <stdio.h>
#include <stdlib.h>
#include <string.h>

#include <mbdc.h>

typedef size_t decoder(const uint8_t *, size_t, uint8_t *, size_t);

/* Reads a stream to its end. Returns null if memory or the stream fails. */
static uint8_t *read_all(FILE *from, size_t *size)
{
    size_t room = 65536;
    uint8_t *bytes = (uint8_t *)malloc(room);
    *size = 0;
    while (bytes) {
        *size += fread(bytes + *size, 1, room - *size, from);
        if (*size < room) {
            if (!ferror(from))
                return bytes;
            break;
        }
        uint8_t *more = (uint8_t *)realloc(bytes, 2 * room);
        if (!more)
            break;
        bytes = more;
        room *= 2;
    }
    free(bytes);
    return NULL;
}

/* Decodes into a room that grows until the text fits. Returns null if memory fails. */
static uint8_t *decode(decoder *call, const uint8_t *input, size_t input_size, size_t *size)
{
    for (size_t room = 4096; room <= SIZE_MAX / 4; room *= 4) {
        uint8_t *text = (uint8_t *)malloc(room);
        if (!text)
            return NULL;
        *size = call(input, input_size, text, room);
        if (*size != MBDC_TOO_LONG)
            return text;
        free(text);
    }
    return NULL;
}

int main(int count, char **words)
{
    decoder *call = count == 2 && strcmp(words[1], "--json") == 0 ? mbdc_decode_json : mbdc_decode_text;
    size_t input_size, size = 0;
    uint8_t *input = read_all(stdin, &input_size);
    uint8_t *text = input ? decode(call, input, input_size, &size) : NULL;
    int failed = !text || fwrite(text, 1, size, stdout) != size || fflush(stdout) != 0;
    free(text);
    free(input);
    return failed ? EXIT_FAILURE : EXIT_SUCCESS;
}
