/* A text that is written piece by piece: it stands in `near`, or in memory of its own. */
#ifndef PYLOCK_WRITER_H
#define PYLOCK_WRITER_H

#include "native.h"

typedef struct {
    uint8_t *bytes;
    size_t length, room;
    uint8_t near[RESULT_ROOM];
} Writer;

static inline void begin_writing(Writer *writer)
{
    writer->bytes = writer->near;
    writer->length = 0;
    writer->room = RESULT_ROOM;
}

static inline void end_writing(Writer *writer)
{
    if (writer->bytes != writer->near) PyMem_Free(writer->bytes);
}

/* Room for so many bytes more. */
static inline bool make_room(Writer *writer, size_t length)
{
    if (writer->room - writer->length >= length) return true;
    size_t room = writer->room > length ? 2 * writer->room : writer->room + length;
    uint8_t *bytes = PyMem_Malloc(room);
    if (bytes == NULL) return PyErr_NoMemory() != NULL;
    memcpy(bytes, writer->bytes, writer->length);
    end_writing(writer);
    writer->bytes = bytes;
    writer->room = room;
    return true;
}

static inline bool put(Writer *writer, const void *bytes, size_t length)
{
    if (!make_room(writer, length)) return false;
    memcpy(writer->bytes + writer->length, bytes, length);
    writer->length += length;
    return true;
}

static inline bool put_sign(Writer *writer, char sign)
{
    return put(writer, &sign, 1);
}

/* Puts the text of an object, which is a str. */
static inline bool put_text(Writer *writer, PyObject *object)
{
    Text text;
    if (!text_of(object, &text)) return false;
    bool is_good = put(writer, text.bytes, text.length);
    text_done(&text);
    return is_good;
}

#endif
