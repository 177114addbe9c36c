// The header compiled as C++.
#include "mc2_judge.h"

static_assert(sizeof(mc2_report) == 32 && sizeof(mc2_entry_id) == 16, "the structs have the library's sizes");

bool is_sound(const uint8_t *text, size_t length) {
    mc2_report report;
    mc2_audit(text, length, &report);
    return report.kind == MC2_SOUND;
}
