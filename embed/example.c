/* Prints the report of a text book on standard input; with any argument, the adjusted heights of two sections, in tenths of a mm and in whole ones.
 *
 * At the root of the repository, after `tools/build`:
 *   cc -Wall -Wextra -o target/example embed/example.c target/staticlib/libfieldbook.a target/staticlib/libadjust.a
 *   target/example <examples/case-a.book
 *   target/example heights */
#include "levelbook.h"

#include <inttypes.h>
#include <stdio.h>

static int adjust(int64_t prints, const char *unit)
{
    const struct level_leg sections[2] = {{2632, 2564}, {2200, 1600}};
    int64_t heights[2];
    const uint8_t number = level_adjust(sections, 2, 10000, 11206, prints, heights, 2);
    if (number != 0) {
        fprintf(stderr, "refusal %u: %s\n", number, level_refusal(number));
        return 1;
    }
    printf("%s: %" PRId64 " %" PRId64 "\n", unit, heights[0], heights[1]);
    return 0;
}

int main(int argc, char **argv)
{
    static uint8_t text[LEVEL_LONGEST_TEXT + 1]; /* a byte more, so that a longer text is noticed */
    static uint8_t report[LEVEL_REPORT_ROOM];
    (void)argv;
    if (argc > 1)
        return adjust(LEVEL_TENTHS, "tenths of a mm") || adjust(LEVEL_MILLIMETRES, "whole mm");
    const size_t text_length = fread(text, 1, sizeof text, stdin);
    if (ferror(stdin)) { /* what was read may be a part of the text only */
        perror("standard input");
        return 1;
    }
    size_t written = 0;
    const uint8_t number = level_reduce(text, text_length, report, sizeof report, &written);
    if (number != 0) {
        fprintf(stderr, "refusal %u: %s\n", number, level_refusal(number));
        return 1;
    }
    return fwrite(report, 1, written, stdout) == written ? 0 : 1;
}
