// Calls all of mc2_custom_note.h that a kernel calls. Compiled freestanding, it may need only memcpy and memset.
#include "mc2_custom_note.h"

int note(struct mc2_sequence *sequence, struct mc2_notes *notes, const struct mc2_term_step *steps, uint32_t asked) {
    return mc2_note_custom(notes, 0, mc2_next_seq(sequence, notes), 0, steps, asked, asked);
}

int open_both(struct mc2_sequence *sequence, struct mc2_notes *notes, union mc2_note_piece *memory, size_t pieces) {
    return mc2_open_custom_sequence(sequence, 1) + mc2_open_custom_notes(notes, memory, pieces);
}

int write(const struct mc2_custom_noted *noted, mc2_write_fn take, void *to) { return mc2_write_custom_notes(noted, take, to); }
