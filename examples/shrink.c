/* A table from standard input through every call with lent memory: its classes by layers and by splitting, a word that tells two
 * states apart, and the shrunk file. No heap: the lent memory has the largest sizes. Rests on the C interface. */
#include "wylgentip.h"
#include <stdio.h>
#include <stdlib.h>

enum { MOST_STATES = 1024, MOST_BYTES = 65536, WORK = 16 * MOST_STATES };

static uint8_t file[MOST_BYTES], word[MOST_STATES], out[MOST_BYTES];
static uint16_t work[WORK], classes[MOST_STATES], pending[MOST_STATES];

/* Every refusal ends here. */
static void demand_accepted(size_t number, size_t place)
{
    if (number == 0)
        return;
    printf("refused %zu %zu\n", number, place);
    exit(1);
}

static void print_numbers(const char *name, const uint16_t *list, size_t length)
{
    printf("%s", name);
    for (size_t i = 0; i < length; i++)
        printf(" %u", (unsigned)list[i]);
    printf("\n");
}

static void print_bytes(const char *name, const uint8_t *bytes, size_t length)
{
    printf("%s", name);
    for (size_t i = 0; i < length; i++)
        printf(" %02X", (unsigned)bytes[i]);
    printf("\n");
}

static void layer(size_t length, size_t states)
{
    wyl_layered layered = wyl_layers(file, length, work, WORK, classes, states);
    demand_accepted(layered.number, layered.place);
    printf("layers %zu %zu\n", layered.classes, layered.rounds);
    print_numbers("classes", classes, states);
}

/* State 0 and the first that is of another class, by the layers' classes. */
static void tell(size_t length, size_t states)
{
    size_t other = 0;
    while (other < states && classes[other] == 0)
        other++;
    if (other == states) {
        printf("all states are alike\n");
        return;
    }
    wyl_told told = wyl_tell(file, length, 0, other, work, WORK, word, sizeof word);
    demand_accepted(told.number, told.place);
    printf("apart 0 %zu %zu\n", other, told.length);
    print_bytes("word", word, told.length);
}

static void split(size_t length, size_t states)
{
    wyl_started started = wyl_fresh(file, length, classes, states, pending, states);
    demand_accepted(started.number, started.place);
    print_numbers("fresh classes", classes, states);
    print_numbers("fresh pending", pending, states);
    wyl_taken taken = wyl_run(file, length, 65535, classes, states, pending, states, work, WORK);
    demand_accepted(taken.number, taken.place);
    printf("run %zu %zu\n", taken.takes, taken.entries);
    print_numbers("classes", classes, states);
}

int main(void)
{
    size_t length = fread(file, 1, sizeof file, stdin);
    wyl_judged judged = wyl_judge(file, length);
    demand_accepted(judged.number, judged.place);
    printf("sizes %zu %zu %zu\n", judged.states, judged.signs, judged.start);
    layer(length, judged.states);
    tell(length, judged.states);
    split(length, judged.states);
    wyl_shrunk shrunk = wyl_shrink(file, length, work, WORK, out, sizeof out);
    demand_accepted(shrunk.number, shrunk.place);
    printf("shrunk %zu %zu\n", shrunk.rows, shrunk.length);
    print_bytes("file", out, shrunk.length);
    return 0;
}
