/* A mistake to be found: the text has a character more than its block has bytes. */
#include "rosm.h"

extern char __heap[];

static void copy(char *to, const char *from)
{
    do
        *to++ = *from;
    while (*from++);
}

int main(void)
{
    static const char name[] = "Acorn Archimedes";

    heap_initialise(__heap, 512);
    char *text = heap_get_or_null(__heap, sizeof name - 1);
    if (!text)
        return 1;
    copy(text, name);
    write_text(text);
    write_character('\n');
    return 0;
}
