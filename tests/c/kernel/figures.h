// The most bytes that cells and notes take in a kernel. docs/IN_A_KERNEL.md has each of these figures.
#ifndef FIGURES_H
#define FIGURES_H

// Memory: a cell without its object and its log, an event, a caller; each CPU with a ticket lock, and how much more with an MCS
// lock.
enum { CELL_BYTES = 850, EVENT_BYTES = 208, CALLER_BYTES = 96, CPU_BYTES = 4, MCS_MORE_BYTES = 16 };

// A cell of 2 CPUs with a ticket lock, without a log, takes this, or up to 32 bytes less: the examples of the page.
enum { QUEUE_BYTES = 9952, POOL_BYTES = 33968, CONSOLE_BYTES = 4768 };

// Notes by mc2_note.h: a call; a CPU without its notes, with the 16 bytes of the heap; an object.
enum { NOTE_BYTES = 32, NOTING_CPU_BYTES = 304, SEQUENCE_BYTES = 12 };

// The file libcells.a, as the kit builds it, and for a kernel.
enum { LIBRARY_BYTES = 73728, KERNEL_LIBRARY_BYTES = 81920 };

// Stacks, which tools/check/metal and tools/check/linux check: opening, a whole call, a batch, a call between mc2_acquire and
// mc2_release, an interrupt handler that calls, and the judge.
enum { OPENING_STACK = 2560, WHOLE_STACK = 1024, BATCH_STACK = 2560, CALL_STACK = 1024 };
enum { INTERRUPT_STACK = 1536, JUDGE_STACK = 6144 };

#endif
