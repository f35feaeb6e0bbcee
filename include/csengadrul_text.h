/*
 * Words for the numbers that the kernel answers with, for logs and status pages.
 * Not in the archive: compile csengadrul_text.c beside the firmware.
 */
#ifndef CSENGADRUL_TEXT_H
#define CSENGADRUL_TEXT_H

#include "csengadrul.h"

#ifdef __cplusplus
extern "C" {
#endif

/* What the code of an answer says; for a number that is no code, "no code of the kernel". */
const char *csengadrul_code_text(uint32_t code);

/* Where the place of a row says that a process stands; for a number that is no place, "no place of the kernel". */
const char *csengadrul_place_text(uint32_t place);

/* What the kind of a reason says of a process; for a number that is no kind, "no reason of the kernel". */
const char *csengadrul_reason_text(uint32_t kind);

#ifdef __cplusplus
}
#endif

#endif
