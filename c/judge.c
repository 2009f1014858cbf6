/* Has a word and a certificate judged: judge CODE FRAME WORD CERTIFICATE, each a file in the header's format,
 * the frame's numbers in 16 bits each. Prints the verdict; exit status 0 only for certified, sole or not. */
#include <stdio.h>
#include <stdlib.h>

#include "jugnayap.h"
#include "verdict.h"

/* One byte more than the longest file that is accepted, a certificate: a longer file is cut, and refused for
 * its length. */
enum { LONGEST = JUGNAYAP_CERTIFICATE_LENGTH(JUGNAYAP_MAX_ENTRIES) + 1 };

typedef struct {
    uint8_t bytes[LONGEST];
    size_t length;
} File;

static void read_file(const char *name, File *file)
{
    FILE *in = fopen(name, "rb");
    if (in == NULL) {
        perror(name);
        exit(2);
    }
    file->length = fread(file->bytes, 1, LONGEST, in);
    fclose(in);
}

/* An odd byte at the end makes the frame one number too long. */
static size_t numbers_of(const File *file, int16_t *numbers)
{
    size_t count = (file->length + 1) / 2;
    for (size_t i = 0; i < count; i++) {
        unsigned high = 2 * i + 1 < file->length ? file->bytes[2 * i + 1] : 0x80;
        numbers[i] = (int16_t)(file->bytes[2 * i] | high << 8);
    }
    return count;
}

int main(int argc, char **argv)
{
    static File code, frame, word, certificate;
    static int16_t numbers[(LONGEST + 1) / 2];
    if (argc != 5) {
        fprintf(stderr, "usage: judge CODE FRAME WORD CERTIFICATE\n");
        return 2;
    }
    read_file(argv[1], &code);
    read_file(argv[2], &frame);
    read_file(argv[3], &word);
    read_file(argv[4], &certificate);
    size_t count = numbers_of(&frame, numbers);
    JugnayapVerdict v = jugnayap_judge(code.bytes, code.length, numbers, count, word.bytes, word.length,
                                       certificate.bytes, certificate.length);
    print_verdict(v);
    return v.number == 0 && v.kind == JUGNAYAP_PASSED ? 0 : 1;
}
