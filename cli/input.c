#include "input.h"

#include <errno.h>
#include <stdint.h>
#include <stdio.h>
#include <stdlib.h>
#include <string.h>

#include "say.h"

bool is_standard(const char *path)
{
    return slice_is(slice_of(path), "-");
}

const char *input_name(const char *path)
{
    return is_standard(path) ? "<stdin>" : path;
}

/* Room for twice as many bytes, but not for more than most. Without memory the room is freed. */
static char *grow(char *room, size_t *size, size_t most)
{
    size_t wanted = *size == 0 ? 4096 : *size > SIZE_MAX / 2 ? SIZE_MAX : 2 * *size;
    if (wanted > most)
        wanted = most;
    char *grown = wanted > *size ? realloc(room, wanted) : NULL;
    if (grown == NULL) {
        free(room);
        errno = ENOMEM;
    }
    *size = wanted;
    return grown;
}

/* All of the stream, or NULL with errno set. */
static char *read_stream(FILE *stream, size_t most, size_t *length)
{
    char *room = NULL;
    size_t size = 0;
    *length = 0;
    do {
        if (*length == size && (room = grow(room, &size, most)) == NULL)
            return NULL;
        *length += fread(room + *length, 1, size - *length, stream);
    } while (*length < most && !feof(stream) && !ferror(stream));
    if (ferror(stream)) {
        int reason = errno;
        free(room);
        errno = reason;
        return NULL;
    }
    return room;
}

bool read_input(const char *path, size_t most, struct input *input)
{
    bool standard = is_standard(path);
    input->name = input_name(path);
    FILE *stream = standard ? stdin : fopen(path, "rb");
    if (stream == NULL) {
        file_trouble(input->name, "read");
        return false;
    }
    input->room = read_stream(stream, most, &input->text.length);
    input->text.start = input->room;
    if (input->room == NULL)
        file_trouble(input->name, "read");
    if (!standard)
        fclose(stream);
    return input->room != NULL;
}

bool has_mark(struct slice text)
{
    static const char mark[] = "\xEF\xBB\xBF";
    return text.length >= sizeof mark - 1 && memcmp(text.start, mark, sizeof mark - 1) == 0;
}

int judge_mark(const struct input *input)
{
    return has_mark(input->text) ? bad_input(input->name, 1, MARKED) : DONE;
}

void free_input(struct input *input)
{
    free(input->room);
}
