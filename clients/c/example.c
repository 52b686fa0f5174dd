/* A dead load of 10 kN, a live load of 5 kN and winds of -20 kN and 8 kN on N at station 0 (frame P2 of docs/SCOPE.md, 11.1). Prints the
   extremes of N and the names of the cases that act, and shows a refusal. From the root of the repository, after `./archive`:

       cc -I clients/c clients/c/example.c target/staticlib/libframes_c.a -o target/example_c && target/example_c */
#include <inttypes.h>
#include <stdio.h>

#include "frames.h"

/* The fields of one file: they make a sheet, and drawings print their names. */
static const uint8_t file[] = {
    0x01, 0, 3, 1, 0, 0,                         /* strength, full live load, no flood */
    0x02, 0, 2, 0, 1,                            /* case 0: dead */
    0x02, 0, 2, 1, 5,                            /* case 1: live */
    0x02, 0, 2, 2, 9,                            /* case 2: wind */
    0x02, 0, 2, 3, 9,                            /* case 3: wind */
    0x03, 0, 8, 0, 0, 0x00, 0x64, 0, 0, 0, 0,    /* 100 tenths of a kN */
    0x03, 0, 8, 1, 0, 0x00, 0x32, 0, 0, 0, 0,    /* 50 */
    0x03, 0, 8, 2, 0, 0xFF, 0x38, 0, 0, 0, 0,    /* -200 */
    0x03, 0, 8, 3, 0, 0x00, 0x50, 0, 0, 0, 0,    /* 80 */
    0x60, 0, 5, 0, 'd', 'e', 'a', 'd',           /* the names, for drawings */
    0x60, 0, 5, 1, 'l', 'i', 'v', 'e',
    0x60, 0, 8, 2, 'w', 'i', 'n', 'd', ' ', 'u', 'p',
};

static const uint8_t extremes[] = {0x06, 0, 2, 0, 0};    /* of N at station 0 */
static const uint8_t utilisation[] = {0x07, 0, 1, 0};    /* at station 0, which has no capacities */

/* 8 bytes, the high one first, in two's complement. */
static int64_t number(const uint8_t *b)
{
    uint64_t bits = 0;
    for (int i = 0; i < 8; i++)
        bits = bits << 8 | b[i];
    return bits >> 63 ? -(int64_t)~bits - 1 : (int64_t)bits;
}

/* The name of a case, which is printed from the file itself; its number where it has none. */
static void show_name(uint8_t load_case)
{
    frames_place name = frames_name(file, sizeof file, load_case);
    if (name.len > 0)
        printf(" '%.*s'", (int)name.len, (const char *)file + name.from);
    else
        printf(" case %d", load_case);
}

/* A factored effect is in thousandths of a tenth of a kN. In the set of acting cases, case k is bit k of 4 bytes, the high one first. */
static void show(const char *name, const uint8_t *extreme)
{
    printf("%s N: %.2f kN, row %d, acting:", name, (double)number(extreme) / 10000, extreme[8]);
    for (uint8_t k = 0; k < 32; k++)
        if (extreme[12 - k / 8] >> k % 8 & 1)
            show_name(k);
    printf("\n");
}

int main(void)
{
    uint8_t output[FRAMES_ANSWER * 12], saved[FRAMES_SAVED];
    const uint8_t fresh[1] = {0}; /* a pointer is not null, also for no bytes */

    frames_ran made = frames_run(fresh, 0, file, sizeof file, output, sizeof output, saved, sizeof saved);
    if (made.refusal != 0) {
        fprintf(stderr, "refused with %d: %s\n", made.refusal, frames_refusal_text(made.refusal));
        return 1;
    }
    printf("%zu fields answered, %zu bytes saved\n", frames_count(file, sizeof file), made.saved);

    frames_ran asked = frames_answer(saved, made.saved, extremes, sizeof extremes, output, sizeof output);
    if (asked.refusal != 0 || output[0] != 0x86) {
        fprintf(stderr, "no extremes\n");
        return 1;
    }
    show("maximum", output + 3);
    show("minimum", output + 20);

    asked = frames_answer(saved, made.saved, utilisation, sizeof utilisation, output, sizeof output);
    if (asked.refusal == 0 && output[0] == 0x81)
        printf("utilisation: refused with %d: %s\n", output[3], frames_refusal_text(output[3]));
    return 0;
}
