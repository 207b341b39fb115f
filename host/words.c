/* words: prints the words of every code up to 20, for host/run to compare with words.txt. */
#include "herd_desk.h"

#include <stdio.h>

int main(void) {
    for (uint32_t code = 0; code <= 20; code++) {
        printf("%u %s\n", (unsigned)code, herd_desk_words(code));
    }
    return 0;
}
