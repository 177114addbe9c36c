// Calls all of mc2_record.h that a kernel calls, since no kernel that the tests boot does. Compiled freestanding, it may need only
// memcpy and memset.
#include "mc2_record.h"

size_t memory_of(const struct mc2_object *objects) { return mc2_recorder_size(objects, 1, 1, 1); }

int note(struct mc2_recorder *recorder, const struct mc2_object *objects, uint32_t reply, void *memory, mc2_write_fn take) {
    struct mc2_step step = mc2_step_of(mc2_call_of(MC2_LEN, 0, 0), reply, 0);
    int results = mc2_recorder_open_in(recorder, objects, 1, 1, 1, memory, memory_of(objects));
    results += mc2_recorder_room(recorder, 0, 0) + mc2_recorder_can_note(recorder, 0, 0);
    results += mc2_recorder_event(recorder, 0, 0, &step, 1);
    results += mc2_recorder_entry(recorder, 0, 0, 1, &step.call, 1, &step, 1);
    return results + mc2_recorder_write_to(recorder, take, memory);
}
