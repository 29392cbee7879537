/* Steps a routine with simavr, one avr_run_one for each instruction, and prints what came of it and how fast it went.
 *
 *     simavr_bench ROUNDS RUNS STEPS < WORDS
 *
 * WORDS are hexadecimal numbers. Pair 24 holds ROUNDS when a run starts, as on the board of crates/bench. STEPS is how many
 * instructions a run takes up to its last ret, which is not stepped: there is nothing to return to. */
#include <simavr/sim_avr.h>
#include <simavr/sim_core.h>
#include <stdint.h>
#include <stdio.h>
#include <stdlib.h>
#include <string.h>
#include <time.h>

static double now(void) {
    struct timespec t;
    clock_gettime(CLOCK_PROCESS_CPUTIME_ID, &t);
    return t.tv_sec + t.tv_nsec / 1e9;
}

/* Everything 0, the stack at the end of the memory, and the rounds in pair 24. */
static void clear(avr_t *avr, unsigned rounds) {
    memset(avr->data, 0, avr->ramend + 1);
    memset(avr->sreg, 0, sizeof avr->sreg);
    avr->data[R_SPL] = avr->ramend & 0xff;
    avr->data[R_SPH] = avr->ramend >> 8;
    avr->data[24] = rounds & 0xff;
    avr->data[25] = rounds >> 8;
    avr->pc = 0;
    avr->cycle = 0;
    avr->state = cpu_Running;
}

int main(int argc, char **argv) {
    if (argc != 4) {
        fprintf(stderr, "simavr_bench ROUNDS RUNS STEPS < WORDS\n");
        return 2;
    }
    unsigned rounds = atoi(argv[1]), runs = atoi(argv[2]);
    uint64_t steps = strtoull(argv[3], NULL, 10), cycles = 0;
    uint16_t words[1024];
    size_t n = 0;
    while (n < 1024 && scanf("%hx", &words[n]) == 1) n++;

    avr_t *avr = avr_make_mcu_by_name("atmega328p");
    if (!avr || avr_init(avr)) return 1;
    avr->log = LOG_NONE;
    memcpy(avr->flash, words, 2 * n);
    avr->codeend = 2 * n;

    double start = now();
    for (unsigned run = 0; run < runs; run++) {
        clear(avr, rounds);
        for (uint64_t i = 0; i < steps; i++) avr->pc = avr_run_one(avr);
        cycles += avr->cycle;
        if (avr->pc / 2 >= n || words[avr->pc / 2] != 0x9508) {
            fprintf(stderr, "no ret at word %u after %llu steps\n", (unsigned)avr->pc / 2, (unsigned long long)steps);
            return 1;
        }
    }
    double seconds = now() - start;
    printf("%llu instructions, %llu cycles, register 18 holds %u\n", (unsigned long long)(steps * runs), (unsigned long long)cycles, avr->data[18]);
    fprintf(stderr, "%.3f seconds of the processor, %.0f million instructions per second\n", seconds, steps * runs / seconds / 1e6);
    return 0;
}
