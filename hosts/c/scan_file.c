/* From a list of numbers to a scan file, and back: scan_file PATH */
#include "stackfilter.h"
#include <stdio.h>

static const uint16_t SCAN[] = {10, 10, 90, 10, 10};
enum { SAMPLES = sizeof SCAN / sizeof SCAN[0], MEDIAN = 10 };

/* Whether a call was refused, which it then says. The place is read after the call has been made. */
static int refused(uint8_t refusal, const size_t *place) {
    if (refusal != 0)
        fprintf(stderr, "refused %d %zu: %s\n", refusal, *place, sf_sentence(refusal));
    return refusal != 0;
}

/* Writes the scan with the form of the median of three beside it; 0 where that is done. */
static int save(const char *path) {
    uint16_t terms[SF_MOST_PRESET_TERMS];
    uint8_t bytes[SF_FILE_BYTES(SAMPLES, SF_MOST_PRESET_TERMS)];
    size_t m, length;
    if (refused(sf_preset(MEDIAN, terms, SF_MOST_PRESET_TERMS, &m), &m) ||
        refused(sf_write(terms, m, SCAN, SAMPLES, bytes, SF_FILE_BYTES(SAMPLES, m), &length), &length))
        return 1;
    FILE *file = fopen(path, "wb");
    if (file == NULL) {
        perror(path);
        return 1;
    }
    size_t written = fwrite(bytes, 1, length, file);
    if (fclose(file) != 0 || written != length) {
        perror(path);
        return 1;
    }
    return 0;
}

/* Reads the file and prints what it holds and its line of the report; 0 where that is done. */
static int show(const char *path) {
    static uint8_t bytes[SF_LONGEST_FILE + 1]; /* one more, which tells a file that is too long */
    static uint16_t samples[SF_MOST_SAMPLES];
    uint16_t terms[SF_MOST_TERMS];
    uint8_t line[SF_LINE_BYTES];
    size_t n, m, length;
    FILE *file = fopen(path, "rb");
    if (file == NULL) {
        perror(path);
        return 1;
    }
    size_t read = fread(bytes, 1, sizeof bytes, file);
    int failed = ferror(file);
    /* No more is read of a file that is too long: the system says where it ends. */
    if (read > SF_LONGEST_FILE && fseek(file, 0, SEEK_END) == 0 && (size_t)ftell(file) > read)
        read = (size_t)ftell(file);
    fclose(file);
    if (failed) {
        fprintf(stderr, "%s cannot be read\n", path);
        return 1;
    }
    if (read > SF_LONGEST_FILE)
        return refused(SF_REFUSED_FILE_LENGTH, &read);
    if (refused(sf_read(bytes, read, samples, SF_MOST_SAMPLES, terms, SF_MOST_TERMS, &n, &m), &n) ||
        refused(sf_line(bytes, read, line, sizeof line, &length), &length))
        return 1;
    printf("samples");
    for (size_t i = 0; i < n; i++)
        printf(" %d", samples[i]);
    printf("\nterms");
    for (size_t i = 0; i < m; i++)
        printf(" %d", terms[i]);
    printf("\nreport %.*s", (int)length, (const char *)line);
    return 0;
}

int main(int arguments, char **argument) {
    if (arguments != 2) {
        fprintf(stderr, "usage: scan_file PATH\n");
        return 2;
    }
    return save(argument[1]) || show(argument[1]);
}
