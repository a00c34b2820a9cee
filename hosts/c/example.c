/* From steps to a form to a cleaned scan. */
#include "stackfilter.h"
#include <stdio.h>

int main(void) {
    const uint8_t recipe[] = {SF_STEP(SF_SIGNAL, 0, 0),
                              SF_STEP(SF_MEDIAN, 0, SF_OFFSET(-1) | SF_OFFSET(0) | SF_OFFSET(1))};
    uint16_t terms[SF_MOST_TERMS];
    size_t count, value;
    uint8_t refusal = sf_compile(recipe, sizeof recipe, terms, SF_MOST_TERMS, &count);
    if (refusal != 0) {
        printf("refused %d %zu: %s\n", refusal, count, sf_sentence(refusal));
        return 1;
    }
    printf("the median of three has the terms");
    for (size_t i = 0; i < count; i++)
        printf(" %d", terms[i]);

    const uint16_t scan[5] = {10, 10, 90, 10, 10};
    uint16_t cleaned[5];
    refusal = sf_clean(terms, count, scan, 5, cleaned, 5, &value);
    if (refusal != 0) {
        printf("\nrefused %d %zu: %s\n", refusal, value, sf_sentence(refusal));
        return 1;
    }
    printf("\n10 10 90 10 10 cleaned is");
    for (size_t i = 0; i < value; i++)
        printf(" %d", cleaned[i]);

    refusal = sf_clean(terms, count, scan, 5, cleaned, 4, &value);
    printf("\nwith four elements lent: refused %d %zu: %s\n", refusal, value, sf_sentence(refusal));
    return 0;
}
