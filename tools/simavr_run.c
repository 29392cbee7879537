/* Runs routines with simavr, one after another, and prints what each leaves.
 *
 *     simavr_run < CASES
 *
 * A case is a list of decimal numbers: how many words, the words, the address of the word to stop at, the 32 registers, how many windows of
 * memory there are, and for each window its address, its length and its bytes. Flags are 0 at the start. For each case a line is printed: the
 * cycles up to the word to stop at, which is not stepped, the registers, and the bytes of the windows. */
#include <simavr/sim_avr.h>
#include <simavr/sim_core.h>
#include <stdint.h>
#include <stdio.h>
#include <string.h>

#define STEPS 100000

static int number(unsigned *n) { return scanf("%u", n) == 1; }

int main(void) {
    avr_t *avr = avr_make_mcu_by_name("atmega328p");
    if (!avr || avr_init(avr)) return 1;
    avr->log = LOG_NONE;
    unsigned words, stop, windows, at[8], length[8], n;
    while (number(&words)) {
        memset(avr->data, 0, avr->ramend + 1);
        memset(avr->sreg, 0, sizeof avr->sreg);
        avr->data[R_SPL] = avr->ramend & 0xff;
        avr->data[R_SPH] = avr->ramend >> 8;
        for (unsigned i = 0; i < words; i++) {
            if (!number(&n)) return 1;
            avr->flash[2 * i] = n & 0xff;
            avr->flash[2 * i + 1] = n >> 8;
        }
        avr->codeend = 2 * words;
        if (!number(&stop)) return 1;
        for (unsigned i = 0; i < 32; i++) {
            if (!number(&n)) return 1;
            avr->data[i] = n;
        }
        if (!number(&windows) || windows > 8) return 1;
        for (unsigned w = 0; w < windows; w++) {
            if (!number(&at[w]) || !number(&length[w])) return 1;
            for (unsigned i = 0; i < length[w]; i++) {
                if (!number(&n)) return 1;
                avr->data[at[w] + i] = n;
            }
        }
        avr->pc = 0;
        avr->cycle = 0;
        avr->state = cpu_Running;
        unsigned steps = 0;
        while (avr->pc != 2 * stop && steps++ < STEPS) avr->pc = avr_run_one(avr);
        if (avr->pc != 2 * stop) return 1;
        printf("%llu", (unsigned long long)avr->cycle);
        for (unsigned i = 0; i < 32; i++) printf(" %u", avr->data[i]);
        for (unsigned w = 0; w < windows; w++)
            for (unsigned i = 0; i < length[w]; i++) printf(" %u", avr->data[at[w] + i]);
        printf("\n");
    }
    return 0;
}
