/* A controller that only splits, and calls nothing of libc. Link it with -Wl,--gc-sections: then nothing of the library
 * but lamphiek_split is in the program. */
#include "lamphiek.h"

/* On a controller these three are its probe, its source of random words and its lines to the hosts. */
static volatile int32_t probe = 202;
static volatile uint32_t random_word = 2654435769u; /* on a controller each read gives a fresh word */
static volatile uint32_t line[3][2];

int main(void)
{
    lamphiek_shares shares = {{0, 0}, {0, 0}, {0, 0}};
    uint32_t l1 = random_word, l2 = random_word;
    uint32_t number = lamphiek_split(probe, l1, l2, &shares);
    if (number)
        return (int)number; /* 11: nothing was split, so nothing is sent */
    line[0][0] = shares.host0.l1;
    line[0][1] = shares.host0.l2;
    line[1][0] = shares.host1.m;
    line[1][1] = shares.host1.l;
    line[2][0] = shares.host2.m;
    line[2][1] = shares.host2.l;
    return 0;
}
