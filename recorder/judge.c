/* judge: tells what bolgtun_judge answers on the plan in a file, or on standard input where none is named.

   Prints one line, the number of the answer and the answer in words. Ends with 0 where the plan is accepted, with 1
   where it is refused, and with 2 where the bytes could not be read or memory lacked. */
#include <errno.h>
#include <stdio.h>
#include <stdlib.h>
#include <string.h>

#include "bolgtun.h"

#define LAST_OF_THE_CARD 16

enum status { ACCEPTED, REFUSED, FAILED };

struct bytes {
    uint8_t *first;
    size_t length;
};

static const char *words(uint32_t answer)
{
    switch (answer) {
    case BOLGTUN_ACCEPTED: return "accepted";
    case BOLGTUN_BYTES_END: return "refused: the bytes end inside the plan";
    case BOLGTUN_NUMBER_FORM: return "refused: a number is not in fewest groups, or too large";
    case BOLGTUN_OUT_OF_RANGE: return "refused: a number is outside its limit";
    case BOLGTUN_NOT_RISING:
        return "refused: a predecessor or an exit does not rise, or is on the wrong side of its owner";
    case BOLGTUN_TRAILING_BYTES: return "refused: bytes follow the plan";
    case BOLGTUN_NO_ENTRY: return "refused: a segment other than 0 is nobody's exit";
    case BOLGTUN_OVER_DEADLINE: return "refused: the needed length is above the deadline";
    case BOLGTUN_NO_MEMORY: return "not judged: memory lacked";
    default: return answer <= LAST_OF_THE_CARD ? "refused: by another line of the fault card" : "no known answer";
    }
}

static enum status status_of(uint32_t answer)
{
    if (answer == BOLGTUN_ACCEPTED)
        return ACCEPTED;
    return answer <= LAST_OF_THE_CARD ? REFUSED : FAILED;
}

/* Reads all of a file; 0 where that fails. Where there are no bytes the pointer stays null. */
static int read_all(FILE *file, struct bytes *bytes)
{
    uint8_t part[16384];
    size_t count;
    while ((count = fread(part, 1, sizeof part, file)) > 0) {
        uint8_t *larger = realloc(bytes->first, bytes->length + count);
        if (larger == NULL)
            return 0;
        memcpy(larger + bytes->length, part, count);
        bytes->first = larger;
        bytes->length += count;
    }
    return !ferror(file);
}

static enum status judge(FILE *file)
{
    struct bytes bytes = {NULL, 0};
    enum status status = FAILED;
    if (read_all(file, &bytes)) {
        uint32_t answer = bolgtun_judge(bytes.first, bytes.length);
        printf("%u %s\n", (unsigned)answer, words(answer));
        status = status_of(answer);
    } else {
        fprintf(stderr, "judge: %s\n", strerror(errno));
    }
    free(bytes.first);
    return status;
}

int main(int count, char **arguments)
{
    if (count > 2) {
        fprintf(stderr, "usage: judge [FILE]\n");
        return FAILED;
    }
    FILE *file = count == 2 ? fopen(arguments[1], "rb") : stdin;
    if (file == NULL) {
        fprintf(stderr, "judge: %s: %s\n", arguments[1], strerror(errno));
        return FAILED;
    }
    enum status status = judge(file);
    fclose(file);
    return status;
}
