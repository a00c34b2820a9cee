/* Makes one call of a form on a scan so many times, for the emulator to count what it does; says first where in memory the scan
   stands, as "scan", its address and the one beyond it.

   usage: once CALL TERMS SAMPLES TIMES

   CALL is clean, residue or root. TERMS is 3, 10 or 126: the median of 3, of 5 or of 9. A root is asked of a level scan, so that the
   question goes through to the end. */
#include "common.h"
#include <string.h>

static uint16_t scan[SAMPLES], cleaned[SAMPLES], terms[SF_MOST_TERMS];
static int32_t residues[SAMPLES];

/* The form of the median over the set; it is to have so many terms. */
static void make_form(unsigned set, size_t wanted) {
    const uint8_t recipe[] = {SF_SIGNAL, 0, 0, 0, SF_MEDIAN, 0, set & 255, (uint8_t)(set >> 8)};
    size_t found;
    demand(sf_compile(recipe, sizeof recipe, terms, SF_MOST_TERMS, &found));
    if (found != wanted)
        refuse_to_go_on("a median has other terms");
}

int main(int count_of_arguments, char **arguments) {
    if (count_of_arguments != 5)
        refuse_to_go_on("usage: once CALL TERMS SAMPLES TIMES");
    size_t m = strtoul(arguments[2], NULL, 10), samples = strtoul(arguments[3], NULL, 10), value;
    unsigned long times = strtoul(arguments[4], NULL, 10);
    const char *name = arguments[1];
    make_form(m == 3 ? 56 : m == 10 ? 124 : SF_PATTERNS - 1, m);
    make_scan(scan);
    if (strcmp(name, "root") == 0)
        memset(scan, 1, sizeof scan);
    printf("scan\t%p\t%p\n", (void *)scan, (void *)(scan + SAMPLES));
    for (unsigned long i = 0; i < times; i++)
        if (strcmp(name, "clean") == 0)
            demand(sf_clean(terms, m, scan, samples, cleaned, samples, &value));
        else if (strcmp(name, "residue") == 0)
            demand(sf_residue(terms, m, scan, samples, residues, samples, &value));
        else if (strcmp(name, "root") == 0)
            demand(sf_root(terms, m, scan, samples, &value));
        else
            refuse_to_go_on("there is no such call");
    return 0;
}
