/* The machine as a library: a script, and perhaps an image, to its answers. docs/LIBRARY.md has how the
 * library is made, and what of it is proved. (examples/c/rosm.h is for programs that run on the machine.)
 *
 * Both calls make a fresh machine, answer the whole script on it, and leave nothing behind: no state, no
 * memory. So they may be made in several threads at once, each with room of its own. `script`, `name` and
 * `image` are read only, and share no byte with `out` or `written`, which the call writes.
 *
 * Stack: a call needs less than 512 KB of it. The main thread of a process has 8 MB as a rule, and threads
 * of glibc and of Python have as much; musl gives a thread 128 KB, macOS 512 KB, so ask for 1 MB there.
 */
#ifndef ROSM_RUN_H
#define ROSM_RUN_H

#include <stddef.h>
#include <stdint.h>

#ifdef __cplusplus
extern "C" {
#endif

/* How a call ended: the exit statuses of the program `rosm`. */
enum rosm_status {
    ROSM_EXIT = 0,  /* the last stop was OS_Exit */
    ROSM_FAULT = 1, /* the last stop was a fault */
    ROSM_SIZES = 2, /* no machine has these sizes; nothing is written */
    ROSM_STOP = 3,  /* another stop, as by a break or the budget, or none */
    ROSM_NOT_RUN = 4, /* memory ran out, the script is too long, or the image is refused; nothing is written */
    ROSM_FAILED = 5 /* of records: a line EXPECT failed, or a line or block was refused */
};

/* The sizes and the budget that `rosm` has where its command line gives none: pages of 4,096 bytes, and
 * steps. A machine has 1,024 pages at most, and `app` + `rma` + 3 at least, of which `app` and `rma`
 * are 1 at least. */
#define ROSM_PAGES 256
#define ROSM_APP 64
#define ROSM_RMA 16
#define ROSM_BUDGET 1000000

/* Runs a script of at most 1,048,576 bytes. All its answers are `*written` bytes long; as much of them as
 * there is room for goes to the front of `out`, which has `room` bytes, and no zero is put behind it. Where
 * `*written` is more than `room`, the same call with more room gives the same answers whole. */
uint32_t rosm_run(uint32_t pages, uint32_t app, uint32_t rma, uint64_t budget,
                  const uint8_t *script, size_t script_length,
                  uint8_t *out, size_t room, size_t *written);

/* The same with an image there from the start, as a file on the command line of `rosm` is: the script can
 * BOOT or LOAD it by its name, which has 1 to 63 bytes from ! to ~. It has at most 1,048,576 bytes. */
uint32_t rosm_run_image(uint32_t pages, uint32_t app, uint32_t rma, uint64_t budget,
                        const uint8_t *name, size_t name_length,
                        const uint8_t *image, size_t image_length,
                        const uint8_t *script, size_t script_length,
                        uint8_t *out, size_t room, size_t *written);

/* Answers a debugging script (docs/DEBUG.md) as records: JSON objects, one a line, that have the machine at
 * the start, each line, each of its steps and its answer (docs/JSON.md). `name` is what the first record
 * calls the script. The status is that of `rosm_debug`: where the script expects something it is 0 if all of
 * that is so, and ROSM_FAILED if not. All else is as for rosm_run. */
uint32_t rosm_records(uint32_t pages, uint32_t app, uint32_t rma, uint64_t budget,
                      const uint8_t *name, size_t name_length,
                      const uint8_t *script, size_t script_length,
                      uint8_t *out, size_t room, size_t *written);

#ifdef __cplusplus
}
#endif

#endif
