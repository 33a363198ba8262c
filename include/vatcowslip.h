/* The one call of Vatcowslip's library from C. docs/SCRIPTS.md says what a script is, and what its listing says. */
#ifndef VATCOWSLIP_H
#define VATCOWSLIP_H

#include <stddef.h>
#include <stdint.h>

#ifdef __cplusplus
extern "C" {
#endif

/*
 * Obeys the script, and writes its listing to the output from its first byte on.
 *
 * It answers the length of the listing in bytes, or -14. It answers -14 just where the script has more than 32,768 bytes, or the
 * output has fewer than 64 bytes for each line of the script; it has then written nothing. Bytes of the output after the listing
 * stay as they were. No byte 0 is put after the listing, which is no C string. Each call begins with no plan, and nothing is kept
 * from one call to the next. It takes no memory from the heap, and neither reads nor writes anything but the two buffers and its stack.
 *
 * The caller owes this, and nothing checks it:
 * - script points to script_length bytes that can be read, and output to output_length bytes that can be written;
 * - neither is null, not even with the length 0;
 * - neither length is above the greatest ptrdiff_t;
 * - the two buffers have no byte in common;
 * - while the call runs, nobody else, as another thread or a signal handler, writes the script, or reads or writes the output;
 * - the thread that calls has 320 KiB of stack left: the call was measured to use 169, and 178 as built by Rattle's own compiler.
 *
 * Threads may call it at one time, each with an output of its own; they may share a script.
 */
int64_t vatcowslip_list(const uint8_t *script, size_t script_length, uint8_t *output, size_t output_length);

#ifdef __cplusplus
}
#endif

#endif
