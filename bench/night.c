/* Times a night of 250 files beside 250 starts of the report program, and beside the 250 counts alone, turn and
   turn about. The files have the most samples, and the form of the five-point median. Each line that it
   prints is "night", "reports" or "counts" and the median of the rounds in ms, with a tab between them.

   usage: night FOLDER ROUNDS [NIGHT REPORT [EMULATOR]]

   The files, their list `names` and what the programs print stand in FOLDER, which is there. Where no programs
   are named, the counts alone are made, and nothing is printed: that is for whoever counts instructions.
   Before anything is timed the sheet is seen to be the reports' lines and the totals of the counts. */
#include "common.h"
#include <fcntl.h>
#include <spawn.h>
#include <string.h>
#include <sys/wait.h>
#include <unistd.h>

#define FILES SF_MOST_NAMES
#define NAME_BYTES 16
#define FIVE 124 /* the set {-2, .., 2} */
#define MOST_ROUNDS 1000
#define SHEET_BYTES (FILES * SF_LINE_BYTES + SF_TOTALS_BYTES)

extern char **environ;

static char names[FILES][NAME_BYTES];
static uint8_t files[FILES][SF_LONGEST_FILE];
static size_t file_bytes;
static uint64_t counts[FILES][SF_COUNTS];
static char *night[3], *report[3];

/* ---- the files */

static void save(const char *path, const void *bytes, size_t n) {
    FILE *file = fopen(path, "wb");
    if (!file || fwrite(bytes, 1, n, file) != n || fclose(file) != 0)
        refuse_to_go_on("a file cannot be written");
}

static void make_files(void) {
    const uint8_t recipe[] = {SF_STEP(SF_SIGNAL, 0, 0), SF_STEP(SF_MEDIAN, 0, FIVE)};
    static uint16_t scan[SAMPLES];
    static char list[FILES * NAME_BYTES];
    uint16_t terms[SF_MOST_TERMS];
    size_t m, end = 0;
    demand(sf_compile(recipe, sizeof recipe, terms, SF_MOST_TERMS, &m));
    for (int i = 0; i < FILES; i++) {
        make_scan(scan);
        demand(sf_write(terms, m, scan, SAMPLES, files[i], SF_FILE_BYTES(SAMPLES, m), &file_bytes));
        snprintf(names[i], NAME_BYTES, "%03d.scan", i);
        save(names[i], files[i], file_bytes);
        end += (size_t)sprintf(list + end, "%s\n", names[i]);
    }
    save("names", list, end);
}

/* ---- what is timed */

static void make_counts(void) {
    size_t value;
    for (int i = 0; i < FILES; i++)
        demand(sf_count(files[i], file_bytes, counts[i], &value));
}

/* Starts a program with its standard input and output, and waits for its end. */
static void start(char **program, const char *in, const char *out) {
    posix_spawn_file_actions_t opened;
    pid_t child;
    int status;
    posix_spawn_file_actions_init(&opened);
    posix_spawn_file_actions_addopen(&opened, STDIN_FILENO, in, O_RDONLY, 0);
    posix_spawn_file_actions_addopen(&opened, STDOUT_FILENO, out, O_WRONLY | O_CREAT | O_APPEND, 0644);
    if (posix_spawn(&child, program[0], &opened, NULL, program, environ) != 0)
        refuse_to_go_on("a program cannot be started");
    if (waitpid(child, &status, 0) != child || status != 0)
        refuse_to_go_on("a program did not end well");
    posix_spawn_file_actions_destroy(&opened);
}

static void make_sheet(void) { start(night, "names", "sheet"); }

static void make_reports(void) {
    for (int i = 0; i < FILES; i++)
        start(report, names[i], "reports");
}

static void remove_printed(void) {
    unlink("sheet");
    unlink("reports");
}

/* ---- whether they agree */

static size_t read_back(const char *path, char *text) {
    FILE *file = fopen(path, "rb");
    if (!file)
        refuse_to_go_on("what a program printed cannot be read");
    size_t n = fread(text, 1, SHEET_BYTES, file);
    fclose(file);
    return n;
}

/* The sheet's last line, from the counts. */
static size_t last_line(char *text) {
    uint64_t sums[SF_COUNTS] = {0};
    size_t end = (size_t)sprintf(text, "%d", FILES);
    for (int i = SF_TOTAL_UNOPENED; i < SF_TOTAL_SAMPLES; i++)
        end += (size_t)sprintf(text + end, " 0");
    for (int i = 0; i < FILES; i++)
        for (int c = 0; c < SF_COUNTS; c++)
            sums[c] += counts[i][c];
    for (int c = 0; c < SF_COUNTS; c++)
        end += (size_t)sprintf(text + end, " %llu", (unsigned long long)sums[c]);
    text[end] = '\n';
    return end + 1;
}

static void compare(void) {
    static char sheet[SHEET_BYTES], lines[SHEET_BYTES + SF_TOTALS_BYTES];
    size_t n = read_back("sheet", sheet), m = read_back("reports", lines);
    m += last_line(lines + m);
    if (n != m || memcmp(sheet, lines, n) != 0)
        refuse_to_go_on("the sheet is not the reports' lines and the totals of the counts");
}

/* ---- times */

static int by_size(const void *a, const void *b) {
    double x = *(const double *)a, y = *(const double *)b;
    return (x > y) - (x < y);
}

static void time_all(int rounds) {
    void (*const made[])(void) = {make_sheet, make_reports, make_counts};
    const char *const what[] = {"night", "reports", "counts"};
    static double ms[3][MOST_ROUNDS];
    for (int round = 0; round < rounds; round++) {
        for (int i = 0; i < 3; i++) {
            double from = now();
            made[i]();
            ms[i][round] = (now() - from) / 1e6;
        }
        compare();
        remove_printed();
    }
    for (int i = 0; i < 3; i++) {
        qsort(ms[i], (size_t)rounds, sizeof **ms, by_size);
        printf("%s\t%.3f\n", what[i], ms[i][rounds / 2]);
    }
}

/* A program's arguments, behind the emulator where there is one. */
static void set(char **program, char *emulator, char *path) {
    program[0] = emulator ? emulator : path;
    program[1] = emulator ? path : NULL;
}

int main(int count_of_arguments, char **arguments) {
    int rounds = count_of_arguments > 2 ? atoi(arguments[2]) : -1;
    if (count_of_arguments > 6 || count_of_arguments == 4 || rounds < 0 || rounds > MOST_ROUNDS)
        refuse_to_go_on("usage: night FOLDER ROUNDS [NIGHT REPORT [EMULATOR]]");
    if (chdir(arguments[1]) != 0)
        refuse_to_go_on("there is no such folder");
    make_files();
    if (count_of_arguments < 4) {
        for (int round = 0; round < rounds; round++)
            make_counts();
        return 0;
    }
    set(night, arguments[5], arguments[3]);
    set(report, arguments[5], arguments[4]);
    remove_printed();
    make_counts();
    make_sheet();
    make_reports();
    compare();
    remove_printed();
    time_all(rounds);
    return 0;
}
