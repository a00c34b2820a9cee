/* Every function of the C interface: an answer, each refusal, what a lent slice keeps, and null pointers. */
#define _DEFAULT_SOURCE
#include "stackfilter.h"
#include <stdio.h>
#include <string.h>
#include <sys/mman.h>

static int checks, faults;
static size_t value; /* what the last call wrote */

/* Says what differs where a call's number or value is not the expected one. */
static void expect(const char *what, uint8_t number, uint8_t expected_number, size_t expected_value) {
    checks++;
    if (number != expected_number || value != expected_value) {
        faults++;
        printf("%s: expected %d %zu, got %d %zu\n", what, expected_number, expected_value, number, value);
    }
}

/* Says so where a lent slice does not hold what it must. */
static void same(const char *what, const void *held, const void *expected, size_t bytes) {
    checks++;
    if (memcmp(held, expected, bytes) != 0) {
        faults++;
        printf("%s: the slice holds something else\n", what);
    }
}

/* Says so where something does not hold. */
static void must(const char *what, int holds) {
    checks++;
    if (!holds) {
        faults++;
        printf("%s: does not hold\n", what);
    }
}

/* What follows from other numbers is what the scope document says in figures. */
_Static_assert(SF_PATTERNS == 512 && SF_TABLE_BYTES == 64, "patterns and tables");
_Static_assert(SF_LONGEST_RECIPE == 128 && SF_LONGEST_FILE == 33032, "recipes and files");
_Static_assert(SF_LONGEST_LIST == 64000 && SF_TOTAL_DOWN + 1 == SF_TOTALS, "lists and totals");

/* The set {-1, 0, 1}. */
#define THREE (SF_OFFSET(-1) | SF_OFFSET(0) | SF_OFFSET(1))
_Static_assert(THREE == 56 && SF_OFFSET(-4) == 1 && SF_OFFSET(4) == 256, "sets of offsets");

static const uint8_t MEDIAN[] = {SF_STEP(SF_SIGNAL, 0, 0), SF_STEP(SF_MEDIAN, 0, THREE)};
static const uint16_t FORM[] = {24, 40, 48}, UNSORTED[] = {24, 16};
static const uint16_t SCAN[] = {10, 10, 90, 10, 10};
static const uint8_t FILE_BYTES[] = {10, 0, 10, 0, 90, 0, 10, 0, 10, 0, 24, 0, 40, 0, 48, 0,
                                     28, 0, 0, 0, 18, 0, 0, 0, 3, 0, 0x53, 0x46};
/* A spike up beside a spike down. */
static const uint8_t TWO_SPIKES[] = {10, 0, 10, 0, 90, 0, 0, 0, 10, 0, 10, 0, 24, 0, 40, 0, 48, 0,
                                     30, 0, 0, 0, 18, 0, 0, 0, 3, 0, 0x53, 0x46};

static void recipes(void) {
    uint16_t terms[5] = {1, 2, 3, 4, 5};
    expect("compile", sf_compile(MEDIAN, 8, terms, 5, &value), 0, 3);
    same("compile", terms, (uint16_t[]){24, 40, 48, 4, 5}, sizeof terms);
    expect("compile, 7 bytes", sf_compile(MEDIAN, 7, terms, 5, &value), 1, 7);
    expect("compile, no bytes", sf_compile(MEDIAN, 0, terms, 5, &value), 1, 0);
    expect("compile, two terms lent", sf_compile(MEDIAN, 8, terms, 2, &value), 6, 3);

    const uint8_t code[] = {9, 0, 0, 0}, field[] = {0, 1, 0, 0}, first[] = {SF_STEP(SF_ERODE, 0, 48)};
    const uint8_t two[] = {SF_STEP(SF_SIGNAL, 0, 0), SF_STEP(SF_SIGNAL, 0, 0)};
    const uint8_t wide[] = {SF_STEP(SF_SIGNAL, 0, 0), SF_STEP(SF_OPEN, 0, 504)};
    expect("compile, code 9", sf_compile(code, 4, terms, 5, &value), 2, 0);
    expect("compile, signal with a rank", sf_compile(field, 4, terms, 5, &value), 3, 0);
    expect("compile, erode first", sf_compile(first, 4, terms, 5, &value), 4, 0);
    expect("compile, two signals", sf_compile(two, 8, terms, 5, &value), 4, 2);
    expect("compile, open 504", sf_compile(wide, 8, terms, 5, &value), 5, 1);
    same("compile, refused", terms, (uint16_t[]){24, 40, 48, 4, 5}, sizeof terms);

    const uint8_t opening[] = {SF_STEP(SF_SIGNAL, 0, 0), SF_STEP(SF_OPEN, 0, THREE)};
    const uint16_t ends[] = {5, 0, 0};
    uint16_t out[4] = {1, 2, 3, 4};
    expect("run_recipe, four lent", sf_run_recipe(opening, 8, ends, 3, out, 4, &value), 10, 3);
    expect("run_recipe, no samples", sf_run_recipe(opening, 8, ends, 0, out, 4, &value), 9, 0);
    expect("run_recipe, two signals", sf_run_recipe(two, 8, ends, 0, out, 4, &value), 4, 2);
    same("run_recipe, refused", out, (uint16_t[]){1, 2, 3, 4}, sizeof out);
    expect("run_recipe", sf_run_recipe(opening, 8, ends, 3, out, 3, &value), 0, 3);
    same("run_recipe", out, (uint16_t[]){5, 0, 0, 4}, sizeof out);
}

/* What the header has beside the calls: steps, sets of offsets, and the causes of refusal 4. */
static void beside(void) {
    uint8_t step[SF_STEP_BYTES + 1] = {9, 9, 9, 9, 9};
    const uint64_t cut = (uint64_t)1 << 32;
    must("put_step, code 256", sf_put_step(step, 256, 0, 56) == SF_REFUSED_STEP_CODE);
    must("put_step, code 2^32", sf_put_step(step, cut, 0, 56) == SF_REFUSED_STEP_CODE);
    must("put_step, code -1", sf_put_step(step, (uint64_t)-1, 0, 56) == SF_REFUSED_STEP_CODE);
    must("put_step, rank 256", sf_put_step(step, SF_RANK, 256, 56) == SF_REFUSED_STEP_FIELD);
    must("put_step, rank 2^32 + 1", sf_put_step(step, SF_RANK, cut + 1, 56) == SF_REFUSED_STEP_FIELD);
    must("put_step, set 65,584", sf_put_step(step, SF_MEDIAN, 0, 65584) == SF_REFUSED_STEP_FIELD);
    must("put_step, set 65,536", sf_put_step(step, SF_MEDIAN, 0, 65536) == SF_REFUSED_STEP_FIELD);
    must("put_step, set 2^32 + 56", sf_put_step(step, SF_MEDIAN, 0, cut + 56) == SF_REFUSED_STEP_FIELD);
    same("put_step, refused", step, (uint8_t[]){9, 9, 9, 9, 9}, sizeof step);
    must("put_step, the largest", sf_put_step(step, 255, 255, 65535) == 0);
    same("put_step, the largest", step, (uint8_t[]){255, 255, 255, 255, 9}, sizeof step);
    must("put_step", sf_put_step(step, SF_RANK, 2, sf_offset(-1) | sf_offset(4)) == 0);
    same("put_step", step, (uint8_t[]){SF_STEP(SF_RANK, 2, 264), 9}, sizeof step);

    must("offset", sf_offset(-4) == 1 && sf_offset(0) == 16 && sf_offset(4) == 256);
    must("offset, beyond", sf_offset(5) == SF_PATTERNS && sf_offset(-5) == SF_PATTERNS);
    must("offset, far beyond", sf_offset(INT64_MAX) == SF_PATTERNS && sf_offset(INT64_MIN) == SF_PATTERNS);
    uint8_t beyond[2 * SF_STEP_BYTES] = {SF_STEP(SF_SIGNAL, 0, 0)};
    uint16_t terms[SF_MOST_TERMS];
    must("put_step, offset 5", sf_put_step(beyond + SF_STEP_BYTES, SF_ERODE, 0, sf_offset(0) | sf_offset(5)) == 0);
    expect("compile, offset 5", sf_compile(beyond, sizeof beyond, terms, SF_MOST_TERMS, &value), 3, 1);

    const uint8_t none[] = {SF_STEP(SF_ERODE, 0, THREE)}, two[] = {SF_STEP(SF_SIGNAL, 0, 0), SF_STEP(SF_SIGNAL, 0, 0)};
    const uint8_t nine[9 * SF_STEP_BYTES] = {0};
    expect("compile, none held", sf_compile(none, sizeof none, terms, SF_MOST_TERMS, &value), 4, 0);
    must("too few", strcmp(sf_signals_sentence(none, sizeof none, value), "too few signals are held") == 0);
    expect("compile, nine held", sf_compile(nine, sizeof nine, terms, SF_MOST_TERMS, &value), 4, 8);
    must("a ninth", strcmp(sf_signals_sentence(nine, sizeof nine, value), "a ninth signal is added") == 0);
    expect("compile, two left", sf_compile(two, sizeof two, terms, SF_MOST_TERMS, &value), 4, 2);
    must("two left", strcmp(sf_signals_sentence(two, sizeof two, value), "more than one signal is left at the end") == 0);

    /* Each number that is given has a sentence of its own; 11, and those over 20, are not given. */
    for (int number = 0; number < 256; number++) {
        int given = number <= SF_REFUSED_NAME_COUNT && number != 11;
        must("a sentence", (strcmp(sf_sentence((uint8_t)number), "no refusal has this number") != 0) == given);
        for (int other = 0; other < number && given; other++)
            must("sentences differ", strcmp(sf_sentence((uint8_t)number), sf_sentence((uint8_t)other)) != 0);
    }
}

static void scans(void) {
    uint16_t out[6] = {1, 2, 3, 4, 5, 6};
    expect("check", sf_check(FORM, 3, &value), 0, 3);
    expect("check, no terms", sf_check(FORM, 0, &value), 0, 0);
    expect("check, unsorted", sf_check(UNSORTED, 2, &value), 7, 1);
    expect("clean, unsorted", sf_clean(UNSORTED, 2, SCAN, 5, out, 5, &value), 7, 1);
    expect("clean, no samples", sf_clean(FORM, 3, SCAN, 0, out, 5, &value), 9, 0);
    expect("clean, six lent", sf_clean(FORM, 3, SCAN, 5, out, 6, &value), 10, 5);
    same("clean, refused", out, (uint16_t[]){1, 2, 3, 4, 5, 6}, sizeof out);
    expect("clean", sf_clean(FORM, 3, SCAN, 5, out, 5, &value), 0, 5);
    same("clean", out, (uint16_t[]){10, 10, 10, 10, 10, 6}, sizeof out);
    expect("clean, empty form", sf_clean(FORM, 0, SCAN, 5, out, 5, &value), 0, 5);
    same("clean, empty form", out, (uint16_t[]){0, 0, 0, 0, 0, 6}, sizeof out);

    int32_t residues[6] = {1, 2, 3, 4, 5, 6};
    expect("residue, unsorted", sf_residue(UNSORTED, 2, SCAN, 5, residues, 5, &value), 7, 1);
    expect("residue, four lent", sf_residue(FORM, 3, SCAN, 5, residues, 4, &value), 10, 5);
    same("residue, refused", residues, (int32_t[]){1, 2, 3, 4, 5, 6}, sizeof residues);
    expect("residue", sf_residue(FORM, 3, SCAN, 5, residues, 5, &value), 0, 5);
    same("residue", residues, (int32_t[]){0, 0, 80, 0, 0, 6}, sizeof residues);

    expect("root, unsorted", sf_root(UNSORTED, 2, SCAN, 5, &value), 7, 1);
    expect("root, no samples", sf_root(FORM, 3, SCAN, 0, &value), 9, 0);
    expect("root, changed at 2", sf_root(FORM, 3, SCAN, 5, &value), 0, 2);
    expect("root", sf_root(FORM, 3, SCAN, 2, &value), 0, 2);
}

static void tables(void) {
    const size_t whole = SF_TABLE_BYTES;
    uint8_t table[SF_TABLE_BYTES + 1], before[SF_TABLE_BYTES + 1];
    memset(table, 9, sizeof table);
    memset(before, 9, sizeof before);
    expect("form_to_table, unsorted", sf_form_to_table(UNSORTED, 2, table, whole, &value), 7, 1);
    expect("form_to_table, one more lent", sf_form_to_table(FORM, 3, table, whole + 1, &value), 13, whole + 1);
    same("form_to_table, refused", table, before, sizeof table);
    expect("form_to_table", sf_form_to_table(FORM, 3, table, whole, &value), 0, 3);
    same("form_to_table, behind", table + whole, before + whole, 1);

    uint16_t terms[4] = {1, 2, 3, 4};
    expect("table_to_form, a byte less", sf_table_to_form(table, whole - 1, terms, 4, &value), 13, whole - 1);
    expect("table_to_form, two lent", sf_table_to_form(table, whole, terms, 2, &value), 6, 3);
    same("table_to_form, refused", terms, (uint16_t[]){1, 2, 3, 4}, sizeof terms);
    expect("table_to_form", sf_table_to_form(table, whole, terms, 4, &value), 0, 3);
    same("table_to_form", terms, (uint16_t[]){24, 40, 48, 4}, sizeof terms);
    memset(table, 0, sizeof table);
    table[0] = 1;
    expect("table_to_form, true only on 0", sf_table_to_form(table, whole, terms, 4, &value), 12, 0);

    expect("preset 10", sf_preset(10, terms, 4, &value), 0, 3);
    same("preset 10", terms, (uint16_t[]){24, 40, 48, 4}, sizeof terms);
    expect("preset 10, two lent", sf_preset(10, terms, 2, &value), 6, 3);
    expect("preset 0, none lent", sf_preset(0, terms, 0, &value), 0, 0);
    expect("preset 20", sf_preset(SF_PRESETS, terms, 4, &value), 14, SF_PRESETS);
    expect("preset 2^32", sf_preset((uint64_t)1 << 32, terms, 4, &value), 14, (size_t)1 << 32);
}

static void files(void) {
    uint8_t out[29];
    memset(out, 7, sizeof out);
    expect("write, unsorted", sf_write(UNSORTED, 2, SCAN, 5, out, 28, &value), 7, 1);
    expect("write, 29 lent", sf_write(FORM, 3, SCAN, 5, out, 29, &value), 10, 28);
    same("write, refused", out, (uint8_t[]){7, 7, 7, 7}, 4);
    expect("write", sf_write(FORM, 3, SCAN, 5, out, 28, &value), 0, 28);
    same("write", out, FILE_BYTES, sizeof FILE_BYTES);
    same("write, behind", out + 28, (uint8_t[]){7}, 1);

    uint16_t samples[6] = {1, 2, 3, 4, 5, 6}, terms[4] = {1, 2, 3, 4};
    size_t terms_read = 99;
    expect("read, 27 bytes", sf_read(FILE_BYTES, 27, samples, 6, terms, 4, &value, &terms_read), 16, 25);
    expect("read, both short", sf_read(FILE_BYTES, 28, samples, 4, terms, 2, &value, &terms_read), 6, 3);
    expect("read, four lent", sf_read(FILE_BYTES, 28, samples, 4, terms, 4, &value, &terms_read), 10, 5);
    same("read, refused", samples, (uint16_t[]){1, 2, 3, 4, 5, 6}, sizeof samples);
    same("read, refused", terms, (uint16_t[]){1, 2, 3, 4}, sizeof terms);
    same("read, refused", &terms_read, (size_t[]){99}, sizeof terms_read);
    expect("read", sf_read(FILE_BYTES, 28, samples, 6, terms, 4, &value, &terms_read), 0, 5);
    same("read", samples, (uint16_t[]){10, 10, 90, 10, 10, 6}, sizeof samples);
    same("read", terms, (uint16_t[]){24, 40, 48, 4}, sizeof terms);
    same("read", &terms_read, (size_t[]){3}, sizeof terms_read);

    uint64_t counts[SF_COUNTS + 1] = {1, 2, 3, 4, 5, 6};
    expect("count, no bytes", sf_count(FILE_BYTES, 0, counts, &value), 15, 0);
    same("count, refused", counts, (uint64_t[]){1, 2, 3, 4, 5, 6}, sizeof counts);
    expect("count", sf_count(FILE_BYTES, 28, counts, &value), 0, 5);
    same("count", counts, (uint64_t[]){5, 1, 1, 80, 0, 6}, sizeof counts);
    expect("count, two spikes", sf_count(TWO_SPIKES, 30, counts, &value), 0, 6);
    same("count, two spikes", counts, (uint64_t[]){6, 2, 2, 80, 10, 6}, sizeof counts);

    uint8_t line[SF_LINE_BYTES + 1], before[SF_LINE_BYTES + 1];
    memset(line, 7, sizeof line);
    memset(before, 7, sizeof before);
    expect("line, one less", sf_line(FILE_BYTES, 28, line, SF_LINE_BYTES - 1, &value), 10, SF_LINE_BYTES);
    expect("line, one more", sf_line(FILE_BYTES, 28, line, SF_LINE_BYTES + 1, &value), 10, SF_LINE_BYTES);
    same("line, refused", line, before, sizeof line);
    expect("line", sf_line(FILE_BYTES, 28, line, SF_LINE_BYTES, &value), 0, 11);
    same("line", line, "5 1 1 80 0\n", 11);
    same("line, behind", line + 11, before + 11, sizeof line - 11);
    expect("line of a refused file", sf_line(FILE_BYTES, 27, line, SF_LINE_BYTES, &value), 0, 14);
    same("line of a refused file", line, "refused 16 25\n", 14);
    same("line of a refused file, behind", line + 14, before + 14, sizeof line - 14);
}

/* Where a file that is refused under a number stands among the totals. */
static int total_of(uint8_t number) {
    return number < SF_REFUSED_FILE_LENGTH ? SF_TOTAL_BAD_TERM + number - SF_REFUSED_BAD_TERM
                                           : SF_TOTAL_FILE_LENGTH + number - SF_REFUSED_FILE_LENGTH;
}

/* Every call that takes a scan file must refuse this one under this number at this place, or say so in its line and its totals. */
static void refused(const char *what, const uint8_t *file, size_t n, uint8_t number, size_t place) {
    uint8_t line[SF_LINE_BYTES];
    char expected[SF_LINE_BYTES];
    uint64_t counts[SF_COUNTS] = {1, 2, 3, 4, 5}, totals[SF_TOTALS] = {0}, one[SF_TOTALS] = {0};
    size_t terms_read = 99, length = (size_t)snprintf(expected, sizeof expected, "refused %d %zu\n", number, place);
    expect(what, sf_read(file, n, NULL, 0, NULL, 0, &value, &terms_read), number, place);
    must(what, terms_read == 99);
    expect(what, sf_count(file, n, counts, &value), number, place);
    same(what, counts, (uint64_t[]){1, 2, 3, 4, 5}, sizeof counts);
    expect(what, sf_line(file, n, line, sizeof line, &value), 0, length);
    same(what, line, expected, length);
    memset(line, 0, sizeof line);
    expect(what, sf_night_line(file, n, totals, line, sizeof line, &value), 0, length);
    same(what, line, expected, length);
    one[total_of(number)] = 1;
    same(what, totals, one, sizeof totals);
}

/* What is wrong with a scan file: the causes apart and together, and the lengths at which refusal 15 begins and ends. */
static void damaged(void) {
    static const uint8_t no_samples[] = {24, 0, 40, 0, 48, 0, 18, 0, 0, 0, 18, 0, 0, 0, 3, 0, 0x53, 0x46};
    uint64_t counts[SF_COUNTS];
    uint8_t file[sizeof FILE_BYTES + 1];

    /* Each set of four faults, the first of which counts: in the mark, the term distance, the sample distance and the first term. */
    for (int faults_made = 0; faults_made < 32; faults_made++) {
        int has_samples = faults_made < 16;
        size_t n = has_samples ? sizeof FILE_BYTES : sizeof no_samples;
        memcpy(file, has_samples ? FILE_BYTES : no_samples, n);
        if (faults_made & 1)
            file[n - 1] ^= 1;
        if (faults_made & 2)
            file[n - 8] ^= 2;
        if (faults_made & 4)
            file[n - 12] ^= 2;
        if (faults_made & 8)
            file[n - 12 - 5] = 2;
        if (faults_made & 1)
            refused("the mark", file, n, 16, n - 2);
        else if (faults_made & 2)
            refused("the term distance", file, n, 17, n - 8);
        else if (faults_made & 4)
            refused("the sample distance", file, n, 18, n - 12);
        else if (faults_made & 8)
            refused("a term behind the layout", file, n, 7, 0);
        else if (!has_samples)
            refused("no samples behind the layout", file, n, 9, 0);
        else
            expect("no fault", sf_count(file, n, counts, &value), 0, 5);
    }

    /* The byte that stands in each field, and each cause of 17 and 18 by itself. */
    for (size_t place = 0; place < SF_TRAILER_BYTES; place++) {
        size_t n = sizeof FILE_BYTES, at = n - SF_TRAILER_BYTES + place;
        memcpy(file, FILE_BYTES, n);
        file[at] ^= 128;
        uint8_t number = place < 4 ? 18 : place < 10 ? 17 : 16;
        refused("a byte of the trailer", file, n, number, number == 18 ? 16 : number == 17 ? 20 : 26);
    }
    const uint8_t below[] = {12, 0, 0, 0, 14, 0, 0, 0, 1, 0, 0x53, 0x46};
    refused("a sample distance below the term distance", below, sizeof below, 18, 0);
    file[0] = 7;
    memcpy(file + 1, FILE_BYTES, sizeof FILE_BYTES);
    refused("a byte more before the samples", file, sizeof file, 18, 17);
    file[17] = 29;
    refused("an odd difference", file, sizeof file, 18, 17);
    refused("the first byte cut off", FILE_BYTES + 1, 27, 18, 15);
    refused("the last byte cut off", FILE_BYTES, 27, 16, 25);

    /* Lengths, with a sound mark and without one. */
    static uint8_t long_file[1000000];
    static uint16_t scan[SF_MOST_SAMPLES];
    const uint8_t median[] = {SF_STEP(SF_SIGNAL, 0, 0), SF_STEP(SF_MEDIAN, 0, SF_PATTERNS - 1)};
    const uint8_t shortest[] = {12, 0, 0, 0, 12, 0, 0, 0, 0, 0, 0x53, 0x46};
    uint16_t terms[SF_MOST_TERMS];
    for (size_t n = 0; n < SF_TRAILER_BYTES; n++) {
        refused("shorter than the trailer", long_file, n, 15, n);
        refused("shorter than the trailer, with its mark", shortest + SF_TRAILER_BYTES - n, n, 15, n);
    }
    refused("12 bytes", long_file, 12, 16, 10);
    refused("12 bytes, a trailer alone", shortest, 12, 9, 0);
    refused("33,032 bytes", long_file, SF_LONGEST_FILE, 16, 33030);
    refused("33,033 bytes", long_file, SF_LONGEST_FILE + 1, 15, 33033);
    refused("a million bytes", long_file, sizeof long_file, 15, 1000000);
    expect("the most terms", sf_compile(median, sizeof median, terms, SF_MOST_TERMS, &value), 0, SF_MOST_TERMS);
    expect("the longest file", sf_write(terms, value, scan, SF_MOST_SAMPLES, long_file, SF_LONGEST_FILE, &value), 0, 33032);
    expect("the longest file is counted", sf_count(long_file, SF_LONGEST_FILE, counts, &value), 0, SF_MOST_SAMPLES);
    refused("the longest file, cut", long_file, SF_LONGEST_FILE - 1, 16, 33029);
    memmove(long_file + 1, long_file, SF_LONGEST_FILE);
    refused("a byte before the longest file", long_file, SF_LONGEST_FILE + 1, 15, 33033);

    /* A length that 32 bits do not hold, of memory that is asked for and not used. */
    const size_t far = 5000000000;
    void *reserved = mmap(NULL, far, PROT_READ, MAP_PRIVATE | MAP_ANONYMOUS | MAP_NORESERVE, -1, 0);
    if (reserved == MAP_FAILED) {
        printf("C: a file of 5,000,000,000 bytes is not tried, since this machine does not reserve them\n");
        return;
    }
    refused("5,000,000,000 bytes", (const uint8_t *)reserved, far, 15, far);
    munmap(reserved, far);
}

/* A list of so many names of so many bytes, and behind it its end. */
static size_t listed(uint8_t *text, size_t names, size_t bytes, const char *end) {
    size_t n = 0;
    for (size_t i = 0; i < names; i++) {
        memset(text + n, 'a', bytes);
        n += bytes;
        text[n++] = '\n';
    }
    memcpy(text + n, end, strlen(end));
    return n + strlen(end);
}

static void lists(void) {
    static uint8_t text[SF_LONGEST_LIST + SF_LONGEST_NAME + 2];
    const uint8_t zero[] = {'a', 0, 'b', '\n', 0, 255, '\r', '\n'};
    expect("list, no bytes", sf_night_list(text, 0, &value), 0, 0);
    expect("list, a line feed", sf_night_list((const uint8_t *)"\n", 1, &value), 19, 1);
    expect("list, one name", sf_night_list((const uint8_t *)"a", 1, &value), 0, 1);
    expect("list, one name and its end", sf_night_list((const uint8_t *)"a\n", 2, &value), 0, 1);
    expect("list, an empty last line", sf_night_list((const uint8_t *)"a\n\n", 3, &value), 19, 2);
    expect("list, an empty line between", sf_night_list((const uint8_t *)"a\n\nb", 4, &value), 19, 2);
    expect("list, any byte", sf_night_list(zero, sizeof zero, &value), 0, 2);
    expect("list, the longest", sf_night_list(text, listed(text, 250, 255, ""), &value), 0, 250);
    expect("list, without the last end", sf_night_list(text, listed(text, 250, 255, "") - 1, &value), 0, 250);
    expect("list, 256 bytes", sf_night_list(text, listed(text, 1, 256, ""), &value), 19, 1);
    expect("list, 256 bytes behind another", sf_night_list(text, listed(text, 0, 0, "a\n") + listed(text + 2, 1, 256, "b"), &value), 19, 2);
    expect("list, a byte of line 251", sf_night_list(text, listed(text, 250, 1, "a"), &value), 20, 250);
    expect("list, an empty line 251", sf_night_list(text, listed(text, 250, 1, "\n"), &value), 20, 250);
    expect("list, 20 before 19", sf_night_list(text, listed(text, 251, 0, ""), &value), 20, 250);
    expect("list, 250 empty lines", sf_night_list(text, listed(text, 250, 0, ""), &value), 19, 1);
}

static void night(void) {
    const uint8_t bad_term[] = {24, 0, 16, 0, 16, 0, 0, 0, 16, 0, 0, 0, 2, 0, 0x53, 0x46};
    const uint8_t no_samples[] = {12, 0, 0, 0, 12, 0, 0, 0, 0, 0, 0x53, 0x46};
    uint64_t totals[SF_TOTALS + 2] = {99}, *all = totals + 1; /* a number more on either side, which no call may touch */
    uint8_t room[SF_TOTALS_BYTES + 2], before[sizeof room], *out = room + 1;
    totals[SF_TOTALS + 1] = 99;
    memset(room, 7, sizeof room);
    memset(before, 7, sizeof before);

    expect("night_line", sf_night_line(FILE_BYTES, 28, all, out, SF_LINE_BYTES, &value), 0, 11);
    same("night_line", out, "5 1 1 80 0\n", 11);
    same("night_line, behind", out + 11, before + 11, sizeof room - 12);
    same("night_line, totals", totals, (uint64_t[]){99, 1, 0, 0, 0, 0, 0, 0, 0, 0, 5, 1, 1, 80, 0, 99}, sizeof totals);
    expect("night_unopened", sf_night_unopened(all, out, SF_LINE_BYTES, &value), 0, 9);
    same("night_unopened", out, "unopened\n0\n", 11); /* what the line before left is behind it */
    same("night_unopened, behind", out + 11, before + 11, sizeof room - 12);
    same("night_unopened, totals", totals, (uint64_t[]){99, 1, 1, 0, 0, 0, 0, 0, 0, 0, 5, 1, 1, 80, 0, 99}, sizeof totals);
    expect("night_line, 27 bytes", sf_night_line(FILE_BYTES, 27, all, out, SF_LINE_BYTES, &value), 0, 14);
    same("night_line, 27 bytes", out, "refused 16 25\n", 14);
    expect("night_line, bad term", sf_night_line(bad_term, sizeof bad_term, all, out, SF_LINE_BYTES, &value), 0, 12);
    same("night_line, bad term", out, "refused 7 1\n", 12);
    expect("night_line, no samples", sf_night_line(no_samples, sizeof no_samples, all, out, SF_LINE_BYTES, &value), 0, 12);
    same("night_line, no samples", out, "refused 9 0\n", 12);
    expect("night_line, two spikes", sf_night_line(TWO_SPIKES, 30, all, out, SF_LINE_BYTES, &value), 0, 12);
    same("night_line, two spikes", out, "6 2 2 80 10\n", 12);
    const uint64_t sums[] = {99, 2, 1, 1, 0, 1, 0, 1, 0, 0, 11, 3, 3, 160, 10, 99};
    same("the totals so far", totals, sums, sizeof totals);

    memset(room, 7, sizeof room);
    for (size_t lent = 0; lent <= SF_TOTALS_BYTES; lent++) {
        if (lent == SF_LINE_BYTES)
            continue;
        expect("night_line, lent otherwise", sf_night_line(FILE_BYTES, 28, all, out, lent, &value), 10, SF_LINE_BYTES);
        expect("night_unopened, lent otherwise", sf_night_unopened(all, out, lent, &value), 10, SF_LINE_BYTES);
    }
    expect("night_totals, one less", sf_night_totals(all, out, SF_TOTALS_BYTES - 1, &value), 10, SF_TOTALS_BYTES);
    expect("night_totals, one more", sf_night_totals(all, room, SF_TOTALS_BYTES + 1, &value), 10, SF_TOTALS_BYTES);
    expect("night_totals, a line's room", sf_night_totals(all, out, SF_LINE_BYTES, &value), 10, SF_TOTALS_BYTES);
    same("refused, out", room, before, sizeof room);
    same("refused, totals", totals, sums, sizeof totals);

    expect("night_totals", sf_night_totals(all, out, SF_TOTALS_BYTES, &value), 0, 32);
    same("night_totals", out, "2 1 1 0 1 0 1 0 0 11 3 3 160 10\n", 32);
    same("night_totals, before", room, before, 1);
    same("night_totals, totals", totals, sums, sizeof totals);

    /* Each total is a number of 64 bits, in its own place; beyond 2^64 it goes on from 0. */
    const uint64_t places[SF_TOTALS] = {0, 1, 22, 333, 4444, UINT64_MAX, 6, 7, 8, 9, 10, 11, 12, 13};
    expect("night_totals, each in its place", sf_night_totals(places, out, SF_TOTALS_BYTES, &value), 0, 57);
    same("night_totals, each in its place", out, "0 1 22 333 4444 18446744073709551615 6 7 8 9 10 11 12 13\n", 57);
    uint64_t most[SF_TOTALS], after[SF_TOTALS];
    memset(most, 255, sizeof most);
    expect("night_totals, the largest", sf_night_totals(most, out, SF_TOTALS_BYTES, &value), 0, 294);
    memcpy(after, most, sizeof most);
    after[SF_TOTAL_UNOPENED] = 0;
    expect("night_unopened, the largest", sf_night_unopened(most, out, SF_LINE_BYTES, &value), 0, 9);
    same("night_unopened, the largest", most, after, sizeof most);
}

/* Every slice of length 0 may be a null pointer, in every call that takes one. */
static void nulls(void) {
    uint16_t two[2] = {1, 2}, three[3];
    uint8_t table[SF_TABLE_BYTES] = {0}, bytes[SF_LINE_BYTES];
    uint64_t counts[SF_COUNTS];
    size_t terms_read = 99;
    const uint8_t signal[] = {SF_STEP(SF_SIGNAL, 0, 0)}, empty[] = {12, 0, 0, 0, 12, 0, 0, 0, 0, 0, 0x53, 0x46};
    const uint8_t sample[] = {7, 0, 14, 0, 0, 0, 12, 0, 0, 0, 0, 0, 0x53, 0x46};
    expect("compile, null recipe", sf_compile(NULL, 0, two, 2, &value), 1, 0);
    expect("compile, null terms", sf_compile(signal, 4, NULL, 0, &value), 6, 1);
    expect("compile, all null", sf_compile(NULL, 0, NULL, 0, &value), 1, 0);
    expect("run_recipe, null recipe", sf_run_recipe(NULL, 0, SCAN, 2, two, 2, &value), 1, 0);
    expect("run_recipe, null scan", sf_run_recipe(signal, 4, NULL, 0, two, 2, &value), 9, 0);
    expect("run_recipe, null out", sf_run_recipe(signal, 4, SCAN, 2, NULL, 0, &value), 10, 2);
    expect("run_recipe, all null", sf_run_recipe(NULL, 0, NULL, 0, NULL, 0, &value), 1, 0);
    expect("check, null", sf_check(NULL, 0, &value), 0, 0);
    expect("clean, null scan", sf_clean(FORM, 3, NULL, 0, two, 2, &value), 9, 0);
    expect("clean, null out", sf_clean(FORM, 3, SCAN, 2, NULL, 0, &value), 10, 2);
    expect("clean, all null", sf_clean(NULL, 0, NULL, 0, NULL, 0, &value), 9, 0);
    expect("clean, null terms", sf_clean(NULL, 0, SCAN, 2, two, 2, &value), 0, 2);
    same("clean, null terms", two, (uint16_t[]){0, 0}, sizeof two);
    int32_t residues[2] = {1, 2};
    expect("residue, null scan", sf_residue(FORM, 3, NULL, 0, residues, 2, &value), 9, 0);
    expect("residue, null out", sf_residue(FORM, 3, SCAN, 2, NULL, 0, &value), 10, 2);
    expect("residue, null terms", sf_residue(NULL, 0, SCAN, 2, residues, 2, &value), 0, 2);
    same("residue, null terms", residues, (int32_t[]){10, 10}, sizeof residues);
    expect("root, null terms", sf_root(NULL, 0, SCAN, 2, &value), 0, 0);
    expect("root, null scan", sf_root(FORM, 3, NULL, 0, &value), 9, 0);
    expect("table_to_form, null table", sf_table_to_form(NULL, 0, two, 2, &value), 13, 0);
    expect("table_to_form, null terms", sf_table_to_form(table, SF_TABLE_BYTES, NULL, 0, &value), 0, 0);
    expect("form_to_table, null table", sf_form_to_table(FORM, 3, NULL, 0, &value), 13, 0);
    table[0] = 1;
    expect("form_to_table, null terms", sf_form_to_table(NULL, 0, table, SF_TABLE_BYTES, &value), 0, 0);
    must("form_to_table, null terms", table[0] == 0);
    expect("preset 0, null terms", sf_preset(0, NULL, 0, &value), 0, 0);
    expect("preset 10, null terms", sf_preset(10, NULL, 0, &value), 6, 3);
    expect("read, null file", sf_read(NULL, 0, two, 2, NULL, 0, &value, &terms_read), 15, 0);
    expect("read, null samples", sf_read(FILE_BYTES, 28, NULL, 0, three, 3, &value, &terms_read), 10, 5);
    expect("read, null terms", sf_read(sample, sizeof sample, two, 2, NULL, 0, &value, &terms_read), 0, 1);
    same("read, null terms", two, (uint16_t[]){7, 0}, sizeof two);
    expect("write, null terms", sf_write(NULL, 0, (uint16_t[]){7}, 1, bytes, sizeof sample, &value), 0, sizeof sample);
    same("write, null terms", bytes, sample, sizeof sample);
    expect("write, null scan", sf_write(FORM, 3, NULL, 0, bytes, 18, &value), 9, 0);
    expect("write, null out", sf_write(FORM, 3, SCAN, 5, NULL, 0, &value), 10, 28);
    expect("count, null file", sf_count(NULL, 0, counts, &value), 15, 0);
    expect("count, empty scan", sf_count(empty, sizeof empty, counts, &value), 9, 0);
    expect("line, null out", sf_line(FILE_BYTES, 28, NULL, 0, &value), 10, SF_LINE_BYTES);
    expect("line, null file", sf_line(NULL, 0, bytes, SF_LINE_BYTES, &value), 0, 13);
    same("line, null file", bytes, "refused 15 0\n", 13);
    uint64_t totals[SF_TOTALS] = {0};
    expect("night_list, null text", sf_night_list(NULL, 0, &value), 0, 0);
    expect("night_line, null out", sf_night_line(FILE_BYTES, 28, totals, NULL, 0, &value), 10, SF_LINE_BYTES);
    expect("night_unopened, null out", sf_night_unopened(totals, NULL, 0, &value), 10, SF_LINE_BYTES);
    expect("night_totals, null out", sf_night_totals(totals, NULL, 0, &value), 10, SF_TOTALS_BYTES);
    same("night, null out", totals, (uint64_t[SF_TOTALS]){0}, sizeof totals);
    expect("night_line, null file", sf_night_line(NULL, 0, totals, bytes, SF_LINE_BYTES, &value), 0, 13);
    same("night_line, null file", bytes, "refused 15 0\n", 13);
    same("night_line, null file", totals, (uint64_t[SF_TOTALS]){0, 0, 0, 0, 0, 1}, sizeof totals);
}

int main(void) {
    recipes();
    beside();
    scans();
    tables();
    files();
    damaged();
    lists();
    night();
    nulls();
    printf("C: %d checks, %d faults\n", checks, faults);
    return faults != 0;
}
