/* Prints what isolated_refusal_text() says of each number from 0 to 255 that means something, and of all others. */
#include "isolated.h"

#include <stdio.h>
#include <string.h>

int main(void) {
    const char *meaningless = isolated_refusal_text(UINT32_MAX);
    for (uint32_t number = 0; number < 256; number++) {
        const char *sentence = isolated_refusal_text(number);
        if (strcmp(sentence, meaningless) != 0) printf("%u\t%s\n", (unsigned)number, sentence);
    }
    printf("others\t%s\n", meaningless);
    return 0;
}
