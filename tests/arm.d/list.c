/* Lists the words of the standard input by hauklivo_list, as the word lister prints them. */
#include "hauklivo.h"

#include <stdio.h>

enum { MOST = 16384 };

int main(void)
{
    static uint8_t words[MOST], out[MOST / 4 * HAUKLIVO_LINE];
    size_t count, len = fread(words, 1, sizeof words, stdin);
    uint8_t number = hauklivo_list(words, len, out, sizeof out, &count);
    if (number) {
        fprintf(stderr, "refused %d\n", number);
        return 1;
    }
    return fwrite(out, 1, count, stdout) != count;
}
