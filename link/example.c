/* Marks the sheet in a file: `example FILE` prints the mark. */
#include <stdio.h>

#include "marker.h"

int main(int argc, char **argv)
{
    static uint8_t sheet[MARKER_MOST_SHEET + 1]; /* a longer file is refused too */
    FILE *file = argc == 2 ? fopen(argv[1], "rb") : NULL;
    size_t length = file ? fread(sheet, 1, sizeof sheet, file) : 0;
    if (!file || ferror(file)) {
        fprintf(stderr, "example: give one file that can be read\n");
        return 2;
    }
    fclose(file);

    uint32_t mark = marker_mark(sheet, length);
    if (marker_mark_refusal(mark) != 0) {
        printf("refused %lu\n", (unsigned long)marker_mark_refusal(mark));
    } else if (mark == MARKER_PASSES || mark == MARKER_UNDECIDED) {
        puts(mark == MARKER_PASSES ? "passes" : "undecided");
    } else {
        printf("fails %lu\n", (unsigned long)mark);
    }
    return 0;
}
