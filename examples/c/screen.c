/* What a screen program shows for the words that it is given: it calls the word reader on its own buffer. */
#include "bethlyfor.h"

#include <stdio.h>
#include <string.h>

/* Two words of a sender, end to end: the packet 47h 00h 00h .. at group positions 0 and 1 would be randomized; here the message bytes are
 * made up, since the word reader looks at the code and at the first byte only. */
static void make_words(uint8_t line[408])
{
    for (int n = 0; n < 2; n++) {
        uint8_t *word = line + 204 * n;
        word[0] = n == 0 ? 0xB8 : 0x47;
        for (int i = 1; i < 188; i++)
            word[i] = (uint8_t)(37 * i + 11 * n + 5);
        bethlyfor_encode(word, 204);
    }
}

static void show(const char *name, uint8_t *word, size_t len)
{
    uint8_t before[204];
    memcpy(before, word, len);
    uint32_t answer = bethlyfor_mend(word, len);
    printf("%-28s", name);
    if (answer <= 8) {
        printf("good, %u byte%s corrected, first byte %02X\n", answer, answer == 1 ? "" : "s", word[0]);
        return;
    }
    const char *why = answer == BETHLYFOR_NO_WORD ? "no code word near" : answer == BETHLYFOR_NO_SYNC ? "not the start of a packet" : "not 204 bytes";
    printf("refused %u (%s), buffer %s\n", answer, why, memcmp(before, word, len) == 0 ? "as it was" : "CHANGED");
}

int main(void)
{
    uint8_t line[408], word[204];
    make_words(line);

    memcpy(word, line, 204);
    show("a good word", word, 204);

    memcpy(word, line, 204);
    for (int i = 0; i < 8; i++)
        word[25 * i] ^= 0x5A;
    show("eight bad bytes", word, 204);

    memcpy(word, line, 204);
    for (int i = 0; i < 9; i++)
        word[22 * i] ^= 0x5A;
    show("nine bad bytes", word, 204);

    memcpy(word, line + 1, 204);
    show("begun one byte late", word, 204);

    memcpy(word, line + 203, 204);
    show("begun one byte early", word, 204);

    memcpy(word, line, 203);
    show("a short buffer", word, 203);
    return 0;
}
