/* Size and time of change of mapped files, by a note of leak_core: how a file without a build-id is known again. */
#include "common.h"

enum { WRITTEN_NOTE = 0x575254 };

/* An entry of the note: where the file was mapped, its size, and seconds and nanoseconds of its time. */
struct entry {
    uint64_t start;
    struct written written;
};

void read_written(struct parts *parts, const struct note *note)
{
    if (is_note(note, WRITTEN_NOTE, "LEAKFIND"))
        parts->written = (struct memory){ note->bytes, note->size };
}

/* Gives each part what the note says of it, once the parts are sorted. */
void place_written(struct parts *parts)
{
    struct entry entry;

    for (uint64_t at = 0; parts->written.size - at >= sizeof entry; at += sizeof entry) {
        memcpy(&entry, parts->written.at + at, sizeof entry);
        struct part *part = part_at(parts, entry.start);
        if (part && part->start == entry.start && !part->offset)
            part->written = entry.written;
    }
}

/* Writes it as a remark of the log. */
void put_written(const struct part *part)
{
    put_text("= leak_log written ");
    put_number(part->written.size);
    put_text(" ");
    put_number(part->written.seconds);
    put_text(" ");
    put_number(part->written.nanoseconds);
    put_text(" ");
    put_text(part->path);
    put_text("\n");
}
