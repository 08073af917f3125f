/* Counts the products of the chain for 1 to 255 repeats, from the request alone: a power of y is known by its exponent, a
   product adds two exponents, and the exit once more is a product too. Prints the repeats and the count twice, as the program
   program_steps prints what was spent and what is said. */
#include <stdio.h>
#include <stdlib.h>

static unsigned formed;

static unsigned product(unsigned a, unsigned b) {
    formed++;
    return a + b;
}

/* y to the power e, which is not 0 */
static unsigned power(unsigned e) {
    unsigned p = 1;
    if (e < 2) return p;
    p = power(e / 2);
    p = product(p, p);
    return e % 2 == 1 ? product(p, 1) : p;
}

int main(void) {
    for (unsigned repeats = 1; repeats < 256; repeats++) {
        unsigned rounds = 1;
        formed = 0;
        if (repeats > 1) rounds = product(power(repeats - 1), 1);
        if (rounds != repeats || formed > 14) return EXIT_FAILURE;
        printf("%u %u %u\n", repeats, formed, formed);
    }
    return EXIT_SUCCESS;
}
