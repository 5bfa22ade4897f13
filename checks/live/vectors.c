// For checks/live/secured.py: the client's side of SCRAM-SHA-256 with a nonce that is given, for examples that are known.
//
// usage: vectors USER PASSWORD NONCE FIRST LAST      FIRST and LAST are the server's messages; writes the client's two, and whether the server knows the password
#include "scram.h"
#include <stdio.h>
#include <string.h>

int main(int count, char **words) {
    struct scram scram;
    struct scram_keys keys = { .set = false };
    char first[SCRAM_ROOM], last[SCRAM_ROOM];
    struct text one = TEXT_IN(first), two = TEXT_IN(last);
    if (count != 6 || !scram_begin(&scram, words[1], words[3], &one)) return 2;
    const char *wrong = scram_continue(&scram, words[2], words[4], strlen(words[4]), &keys, &two);
    if (wrong) return printf("%s\n%s\n", first, wrong), 1;
    printf("%s\n%s\n%s\n", first, last, scram_ends(&scram, words[5], strlen(words[5])) ? "known" : "unknown");
    return 0;
}
