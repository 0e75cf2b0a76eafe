/* Bolgtun for programs in C: judges the bytes of a plan, which docs/FORMAT.md describes.

   `make recorder` builds target/staticlib/librecorder.a; link it, and c/liblibc_c.a of the Rattle kit after it. */
#ifndef BOLGTUN_H
#define BOLGTUN_H

#include <stddef.h>
#include <stdint.h>

/* The answers of bolgtun_judge. From 1 to 16 they are numbers of the fault card, docs/REFUSALS.md, and name the first
   fault in the order that it gives. Those that are not listed here belong to other calls. */
enum bolgtun_answer {
    BOLGTUN_ACCEPTED = 0,       /* the plan keeps every rule, and its needed length is within its deadline */
    BOLGTUN_BYTES_END = 1,      /* the bytes end inside the plan, within a number or a name */
    BOLGTUN_NUMBER_FORM = 2,    /* a number is not in fewest groups, or too large */
    BOLGTUN_OUT_OF_RANGE = 3,   /* a number is outside its limit */
    BOLGTUN_NOT_RISING = 4,     /* a predecessor or an exit does not rise, a predecessor is not below its task, or an
                                   exit is not above its segment */
    BOLGTUN_TRAILING_BYTES = 5, /* bytes follow the plan */
    BOLGTUN_NO_ENTRY = 6,       /* a segment other than 0 is nobody's exit */
    BOLGTUN_OVER_DEADLINE = 8,  /* the needed length is above the deadline */
    BOLGTUN_NO_MEMORY = 255     /* memory lacked; this says nothing of the plan */
};

/* Judges the plan in `length` bytes from `bytes` on. They are only read, and nothing is kept of them: the memory that
   the call works in is its own, on the stack and by malloc, and given back before it answers.

   `bytes` may be a null pointer where `length` is 0, and only there; no bytes are answered with 1.

   It is not to be called from a signal handler, nor in the forked child of a process that has threads. */
uint32_t bolgtun_judge(const uint8_t *bytes, size_t length);

#endif
