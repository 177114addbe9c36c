// Calls all of mc2_note.h that a kernel calls. Compiled freestanding, it may need only memcpy and memset.
#include "mc2_note.h"

int open_both(struct mc2_notes *notes, union mc2_note_piece *memory, size_t pieces, struct mc2_sequence *sequence,
              uint32_t events) {
    return mc2_open_notes(notes, memory, pieces) + mc2_open_sequence(sequence, events);
}

int note(struct mc2_sequence *sequence, struct mc2_notes *notes, const struct mc2_step *steps, uint32_t asked) {
    return mc2_note(notes, 0, mc2_has_note_room(notes) ? mc2_next_seq(sequence, notes) : MC2_NO_SEQ, 0, steps, asked, asked);
}

int write(const struct mc2_noted *noted, mc2_write_fn take, void *to) { return mc2_write_notes(noted, take, to); }
