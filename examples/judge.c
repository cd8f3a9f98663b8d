/* Judges a table from standard input: the smallest use of the C interface. */
#include "wylgentip.h"
#include <stdio.h>

int main(void)
{
    static uint8_t file[65536];
    size_t length = fread(file, 1, sizeof file, stdin);
    wyl_judged judged = wyl_judge(file, length);
    if (judged.number != 0) {
        printf("refused %zu %zu\n", judged.number, judged.place);
        return 1;
    }
    printf("accepted %zu %zu %zu\n", judged.states, judged.signs, judged.start);
    return 0;
}
