/* Calls of the library for C, each with what it must leave: the exit status, how long the answers are, and the room that
   is lent, with what stands behind the answers. `tools/library` links and runs it; its status is 0 where all is so. */
#include <stdio.h>
#include <string.h>

#include "rosm_run.h"

enum { PAGES = 256, APP = 64, RMA = 16, BUDGET = 1000 };

static int faults;

static void look(const char *about, uint32_t status, size_t written, uint32_t wanted, size_t length)
{
    if (status != wanted || written != length) {
        printf("%s: status %u and length %zu, wanted %u and %zu\n", about, status, written, wanted, length);
        faults++;
    }
}

static void look_at(const char *about, const void *room, const void *wanted, size_t length)
{
    if (memcmp(room, wanted, length) != 0) {
        printf("%s: the room holds other bytes\n", about);
        faults++;
    }
}

static uint32_t run(uint32_t pages, const char *script, uint8_t *out, size_t room, size_t *written)
{
    return rosm_run(pages, APP, RMA, BUDGET, (const uint8_t *)script, strlen(script), out, room, written);
}

static uint32_t run_image(const char *name, const char *script, uint8_t *out, size_t room, size_t *written)
{
    static const uint8_t image[] = {0x11, 0, 0, 0xEF}; /* SWI OS_Exit */
    return rosm_run_image(PAGES, APP, RMA, BUDGET, (const uint8_t *)name, strlen(name), image, sizeof image,
                          (const uint8_t *)script, strlen(script), out, room, written);
}

int main(void)
{
    uint8_t out[64] = {0};
    size_t written = 7;
    uint32_t status = run(PAGES, "STEP 0\n", out, sizeof out, &written);
    look("the status of rosm", status, written, 3, 9);
    look_at("the status of rosm", out, "at &8000\n", 10);

    uint8_t small[] = "......";
    status = run(PAGES, "STEP 0\n", small, 4, &written);
    look("no more than the room", status, written, 3, 9);
    look_at("no more than the room", small, "at &..", 6);

    uint8_t sevens[4] = {7, 7, 7, 7};
    written = 7;
    status = run(1, "STEP 0\n", sevens, sizeof sevens, &written);
    look("sizes that no machine has", status, written, 2, 0);
    look_at("sizes that no machine has", sevens, "\7\7\7\7", 4);

    status = run_image("quit", "BOOT quit\nRUN\n", out, sizeof out, &written);
    look("an image", status, written, 0, 20);
    look_at("an image", out, "boot quit\nstop Exit\n", 20);

    status = run_image("a b", "RUN\n", out, sizeof out, &written);
    look("a name that none can have", status, written, 4, 0);
    return faults != 0;
}
