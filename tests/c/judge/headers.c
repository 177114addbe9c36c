// The headers for records of custom objects, by each compiler.
#include "mc2_custom_witness.h"
#include "mc2_custom_note.h"
int main(void) { return 0; }
