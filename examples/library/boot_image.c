/* Boots the image in a file, runs it, and writes what it printed and how it stopped. The exit status is that
 * of the program `rosm`; 4 where there is no such file too.
 *
 *     cc -o boot_image boot_image.c librosm.a
 *     ./boot_image IMAGE
 */
#include <stdio.h>
#include <stdlib.h>
#include <string.h>

#include "rosm_run.h"

/* one more than an image can have */
enum { ROOM_FOR_IMAGE = 1048577 };

static const char NAME[] = "image";
static const char SCRIPT[] = "BOOT image\nRUN\n";

/* Runs the image with so much room for the answers, and writes them where they fit. */
static uint32_t boot(const uint8_t *image, size_t length, size_t room, size_t *written)
{
    uint8_t *out = malloc(room);
    if (out == NULL)
        return ROSM_NOT_RUN;
    uint32_t status = rosm_run_image(ROSM_PAGES, ROSM_APP, ROSM_RMA, ROSM_BUDGET,
                                     (const uint8_t *)NAME, strlen(NAME), image, length,
                                     (const uint8_t *)SCRIPT, strlen(SCRIPT), out, room, written);
    if (*written <= room)
        fwrite(out, 1, *written, stdout);
    free(out);
    return status;
}

int main(int count, char **words)
{
    static uint8_t image[ROOM_FOR_IMAGE];
    FILE *file = count == 2 ? fopen(words[1], "rb") : NULL;
    if (file == NULL) {
        fprintf(stderr, "usage: boot_image IMAGE\n");
        return ROSM_NOT_RUN;
    }
    size_t length = fread(image, 1, sizeof image, file), room = 4096, written = 0;
    fclose(file);
    uint32_t status = boot(image, length, room, &written);
    return written <= room ? status : boot(image, length, written, &written);
}
