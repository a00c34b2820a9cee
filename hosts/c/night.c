/* The night sheet of the files that are named: night NAME.. */
#define _POSIX_C_SOURCE 200809L
#include "stackfilter.h"
#include <stdio.h>
#include <string.h>
#include <sys/stat.h>

/*
 * The list of the names, each with a line feed behind it. A name that is too long is cut to one byte more than a name may have,
 * and behind one name more than a list may have none follows: the list is refused with these as with all.
 */
static size_t join(int names, char **name, uint8_t *text) {
    size_t n = 0;
    for (int i = 0; i < names && i <= SF_MOST_NAMES; i++) {
        size_t length = strnlen(name[i], SF_LONGEST_NAME + 1);
        memcpy(text + n, name[i], length);
        n += length;
        text[n++] = '\n';
    }
    return n;
}

/*
 * How long a file is of which so many bytes were read, one more than the longest file has: up to where the system says that it
 * ends, or as long as what was read where the file was cut meanwhile. Only a file that does not say where it ends, as the
 * system's own, is read on.
 */
static size_t whole_length(FILE *file, size_t read) {
    if (fseeko(file, 0, SEEK_END) == 0) {
        size_t end = (size_t)ftello(file);
        return end > read ? end : read;
    }
    uint8_t more[BUFSIZ];
    for (size_t n; (n = fread(more, 1, sizeof more, file)) != 0;)
        read += n;
    return read;
}

/*
 * Reads a file and returns whether that could be done; *length is the file's length. One byte more than the longest file has
 * tells one that is too long. What is no regular file is not opened, since a pipe or a device may never answer, or never end.
 */
static int opened(const char *name, uint8_t bytes[SF_LONGEST_FILE + 1], size_t *length) {
    struct stat about;
    if (stat(name, &about) != 0 || !S_ISREG(about.st_mode))
        return 0;
    FILE *file = fopen(name, "rb");
    if (file == NULL)
        return 0;
    *length = fread(bytes, 1, SF_LONGEST_FILE + 1, file);
    if (*length > SF_LONGEST_FILE)
        *length = whole_length(file, *length);
    int failed = ferror(file);
    fclose(file);
    return !failed;
}

int main(int arguments, char **argument) {
    static uint8_t text[(SF_MOST_NAMES + 1) * (SF_LONGEST_NAME + 2)], bytes[SF_LONGEST_FILE + 1];
    uint8_t line[SF_LINE_BYTES], last[SF_TOTALS_BYTES];
    uint64_t totals[SF_TOTALS] = {0};
    size_t length, value;
    for (int i = 1; i < arguments; i++)
        if (strchr(argument[i], '\n') != NULL) {
            fprintf(stderr, "night: a name with a line feed cannot stand in a list\n");
            return 2;
        }
    uint8_t refusal = sf_night_list(text, join(arguments - 1, argument + 1, text), &value);
    if (refusal != 0) {
        printf("refused %d %zu\n", refusal, value);
        return 0;
    }
    /* A line's room is lent to every call, and so none of them refuses. */
    for (int i = 1; i < arguments; i++) {
        if (!opened(argument[i], bytes, &length)) {
            sf_night_unopened(totals, line, sizeof line, &value);
        } else if (length <= SF_LONGEST_FILE) {
            sf_night_line(bytes, length, totals, line, sizeof line, &value);
        } else {
            /* The library would take what was read for the whole file. */
            totals[SF_TOTAL_FILE_LENGTH]++;
            value = (size_t)snprintf((char *)line, sizeof line, "refused %d %zu\n", SF_REFUSED_FILE_LENGTH, length);
        }
        fwrite(line, 1, value, stdout);
    }
    sf_night_totals(totals, last, sizeof last, &value);
    fwrite(last, 1, value, stdout);
    if (fflush(stdout) != 0) {
        perror("night");
        return 1;
    }
    return 0;
}
