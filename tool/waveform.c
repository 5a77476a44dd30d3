/* The waveform of what channel 0 has recorded: values, or bars. */
#include "play.h"

/* 60 signs for the largest value. Beside an infinite one no other is seen. */
static void bar(float value, float most) {
    int signs = value == most ? 60 : (int)((double)value / (double)most * 60 + 0.5);
    for (int i = 0; i < signs && value > 0; i++) putchar('#');
    putchar('\n');
}

static void column(float value, float most, int bars) {
    if (bars && value == value) {
        bar(value, most);
        return;
    }
    value_shown(value);
    putchar('\n');
}

void waveform_printed(const engine *e, size_t columns, int bars) {
    float smallest, largest, *values = room(4096, sizeof *values);
    int number = vusatica_waveform(&e->sampler, columns, values, 4096, e->memory, e->samples, &smallest, &largest);
    if (number != 0) {
        printf("W %d\n", number);
        refuse("the waveform", number, "%s", words_of(number));
    }
    printf("W ");
    value_shown(smallest);
    putchar(' ');
    value_shown(largest);
    putchar('\n');
    for (size_t i = 0; i < columns; i++) column(values[i], largest, bars);
    out_shown();
}
