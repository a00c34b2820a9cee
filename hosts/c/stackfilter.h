/*
 * Stack filters on scans of whole counts: the C interface of the proved library.
 *
 * A scan is 1 to 16,384 samples of 0 to 65,535; beyond its ends the first and the last sample are
 * repeated without end. A set of offsets is a number 0 to 511, in which offset d, from -4 to 4, is
 * worth 2^(d+4): {-1, 0, 1} is SF_OFFSET(-1) | SF_OFFSET(0) | SF_OFFSET(1), which is 56. A form is a
 * list of such sets, its terms, strictly ascending, none containing another; its filter gives at each
 * sample the largest, over the terms, of the smallest sample that the term reaches. A recipe is 1 to 32
 * steps of 4 bytes (SF_STEP, sf_put_step).
 *
 * Every call returns 0 when it accepts, and *value is then what it gives back. Otherwise it returns the
 * number of a refusal, *value is the refusal's place, and nothing else is written. The numbers after
 * "Refuses" stand in the order in which they are tested.
 *
 * A pointer is aligned and good for the length that follows it; where that length is 0 it may be null.
 * An accepted call fills exactly its answer from the slice's start; elements after it keep their values.
 * No call keeps a pointer, allocates or uses anything but its arguments, so calls may run at the same
 * time; none takes more than 128 KiB of the stack.
 *
 * The calls are proved. The macros and the `static inline` functions are C like any other, and tested.
 */
#ifndef STACKFILTER_H
#define STACKFILTER_H

#include <stddef.h>
#include <stdint.h>

#define SF_VERSION "0.4.1"

#define SF_REACH 4                       /* an offset is -SF_REACH to SF_REACH */
#define SF_WIDTH (2 * SF_REACH + 1)      /* the number of offsets */
#define SF_PATTERNS (1 << SF_WIDTH)      /* a pattern, or a set of offsets, is a number below this */
#define SF_TABLE_BYTES (SF_PATTERNS / 8) /* the bytes of a truth table, a bit to a pattern */
#define SF_MOST_TERMS 126                /* the most terms that a form has */
#define SF_MOST_SAMPLES 16384            /* the most samples that a scan has */
#define SF_STEP_BYTES 4                  /* the bytes of a step */
#define SF_MOST_STEPS 32                 /* the most steps that a recipe has */
#define SF_LONGEST_RECIPE (SF_STEP_BYTES * SF_MOST_STEPS)
#define SF_MOST_SIGNALS 8                /* the most signals that are held at once */
#define SF_PRESETS 20                    /* the number of presets */
#define SF_MOST_PRESET_TERMS 3           /* the most terms that a preset has */
#define SF_TRAILER_BYTES 12              /* the bytes of a scan file after its samples and its terms */
#define SF_COUNTS 5                      /* how many counts the report has */
#define SF_LINE_BYTES 128                /* the bytes that are lent for the report's line */
#define SF_MOST_NAMES 250                /* the most names that a list has */
#define SF_LONGEST_NAME 255              /* the most bytes that a name has */
#define SF_LONGEST_LIST (SF_MOST_NAMES * (SF_LONGEST_NAME + 1))
#define SF_TOTALS 14                     /* how many totals the night sheet has */
#define SF_TOTALS_BYTES 512              /* the bytes that are lent for the night sheet's last line */

/* The bytes of a scan file that holds so many samples and terms, and of the longest one. */
#define SF_FILE_BYTES(samples, terms) (2 * (samples) + 2 * (terms) + SF_TRAILER_BYTES)
#define SF_LONGEST_FILE SF_FILE_BYTES(SF_MOST_SAMPLES, SF_MOST_TERMS)

/* ---- refusals */

/*
 * The numbers of the refusals: when each is given; its place. No refusal has the number 11. The place of
 * 16, 17 and 18 is a byte of the file, the first being byte 0: of n bytes the mark begins at byte n - 2, the
 * term distance at n - 8, the sample distance at n - 12.
 */
enum {
    SF_REFUSED_RECIPE_LENGTH = 1,    /* a recipe is empty, no multiple of 4 bytes, or over 128 bytes; its length */
    SF_REFUSED_STEP_CODE = 2,        /* a step's code is over 8; the step, from 0 */
    SF_REFUSED_STEP_FIELD = 3,       /* a step's field is not allowed; the step */
    SF_REFUSED_SIGNALS_HELD = 4,     /* too few signals are held, a ninth is added, or not one is left;
                                        the step; at the end the number of steps */
    SF_REFUSED_REACH = 5,            /* the reach leaves -4 to 4; the step */
    SF_REFUSED_TERMS_LENT = 6,       /* fewer elements are lent for terms than needed; the terms needed */
    SF_REFUSED_BAD_TERM = 7,         /* a term is over 511, not above its predecessor, or contains an earlier
                                        one; the first such index */
    SF_REFUSED_TERM_COUNT = 8,       /* a form has over 126 terms; its terms */
    SF_REFUSED_SCAN_LENGTH = 9,      /* a scan has no samples, or over 16,384; the samples */
    SF_REFUSED_OUTPUT_LENGTH = 10,   /* an output slice has another length than needed (reading a file: a
                                        shorter one); the length needed */
    SF_REFUSED_NOT_POSITIVE = 12,    /* a truth table is not positive; the least pattern with value 1 that
                                        one more offset turns to 0 */
    SF_REFUSED_TABLE_LENGTH = 13,    /* a truth table slice has not 64 bytes; its length */
    SF_REFUSED_PRESET_NUMBER = 14,   /* a preset number is over 19; the number, never cut */
    SF_REFUSED_FILE_LENGTH = 15,     /* a scan file's length is outside 12 to 33,032; the length */
    SF_REFUSED_MARK = 16,            /* a scan file does not end with the mark 53 46 hex; the mark's first byte,
                                        from the file's start */
    SF_REFUSED_TERM_DISTANCE = 17,   /* a scan file's term distance is not 12 + 2 x the number of terms; its
                                        first byte, from the file's start */
    SF_REFUSED_SAMPLE_DISTANCE = 18, /* a scan file's sample distance is not the file's length, is below the
                                        term distance, or differs from it by an odd number; its first byte,
                                        from the file's start */
    SF_REFUSED_BAD_NAME = 19,        /* a line of a list of names is empty, or over 255 bytes; the first such
                                        line, from 1 */
    SF_REFUSED_NAME_COUNT = 20       /* a list of names has over 250 lines; 250 */
};

/* When a refusal is given, in words; "accepted" for 0, and "no refusal has this number" for any other. */
static inline const char *sf_sentence(uint8_t number) {
    switch (number) {
    case 0: return "accepted";
    case SF_REFUSED_RECIPE_LENGTH: return "a recipe is empty, no multiple of 4 bytes, or over 128 bytes";
    case SF_REFUSED_STEP_CODE: return "a step's code is over 8";
    case SF_REFUSED_STEP_FIELD: return "a step's field is not allowed";
    case SF_REFUSED_SIGNALS_HELD: return "too few signals are held, a ninth is added, or not one is left";
    case SF_REFUSED_REACH: return "the reach leaves -4 to 4";
    case SF_REFUSED_TERMS_LENT: return "fewer elements are lent for terms than needed";
    case SF_REFUSED_BAD_TERM:
        return "a term is over 511, not above its predecessor, or contains an earlier one";
    case SF_REFUSED_TERM_COUNT: return "a form has over 126 terms";
    case SF_REFUSED_SCAN_LENGTH: return "a scan has no samples, or over 16,384";
    case SF_REFUSED_OUTPUT_LENGTH:
        return "an output slice has another length than needed (reading a file: a shorter one)";
    case SF_REFUSED_NOT_POSITIVE: return "a truth table is not positive";
    case SF_REFUSED_TABLE_LENGTH: return "a truth table slice has not 64 bytes";
    case SF_REFUSED_PRESET_NUMBER: return "a preset number is over 19";
    case SF_REFUSED_FILE_LENGTH: return "a scan file's length is outside 12 to 33,032";
    case SF_REFUSED_MARK: return "a scan file does not end with the mark 53 46 hex";
    case SF_REFUSED_TERM_DISTANCE: return "a scan file's term distance is not 12 + 2 x the number of terms";
    case SF_REFUSED_SAMPLE_DISTANCE:
        return "a scan file's sample distance is not the file's length, is below the term distance, or differs "
               "from it by an odd number";
    case SF_REFUSED_BAD_NAME: return "a line of a list of names is empty, or over 255 bytes";
    case SF_REFUSED_NAME_COUNT: return "a list of names has over 250 lines";
    default: return "no refusal has this number";
    }
}

/* Which of its three causes refusal 4 has, in words, when a call gives it for this recipe and place. */
static inline const char *sf_signals_sentence(const uint8_t *recipe, size_t n, size_t place) {
    if (place >= n / SF_STEP_BYTES)
        return "more than one signal is left at the end";
    return recipe[SF_STEP_BYTES * place] == 0 ? "a ninth signal is added" : "too few signals are held";
}

/* ---- recipes and sets of offsets */

/* The codes of a recipe's steps. B is a set of offsets; a field not named must be 0. */
enum {
    SF_SIGNAL = 0,  /* adds the scan to the signals held, of which there are at most SF_MOST_SIGNALS */
    SF_ERODE = 1,   /* B: least of g(x+b) */
    SF_DILATE = 2,  /* B: largest of g(x-b) */
    SF_OPEN = 3,    /* B: erode, then dilate */
    SF_CLOSE = 4,   /* B: dilate, then erode */
    SF_RANK = 5,    /* k, B: the k-th largest of g(x+b) */
    SF_MEDIAN = 6,  /* B of odd size: rank (size+1)/2 */
    SF_LARGER = 7,  /* larger of the last two signals */
    SF_SMALLER = 8  /* smaller of the last two signals */
};

/* 0 where a constant condition holds; otherwise, or where it is not constant, an error of the compiler. */
#ifdef __cplusplus
extern "C++" {
template <bool condition> struct sf_a_constant_does_not_fit;
template <> struct sf_a_constant_does_not_fit<true> {};
}
#define SF_HOLDS(condition) (0 * sizeof(sf_a_constant_does_not_fit<(condition)>))
#else
#define SF_HOLDS(condition) (0 * sizeof(struct { unsigned a_constant_does_not_fit : (condition) ? 1 : -1; }))
#endif

/* A constant that has at most so many bits. */
#define SF_FIT(constant, bits) ((constant) + SF_HOLDS(((constant) >> (bits)) == 0))

/*
 * The set of one offset, a constant -4 to 4; sets are joined by |. An error of the compiler where it is
 * another number, or no constant: sf_offset is for those.
 */
#define SF_OFFSET(d) ((1u << ((d) + SF_REACH)) + SF_HOLDS((unsigned)((d) + SF_REACH) < SF_WIDTH))

/*
 * The four bytes of a step, for the braces of a uint8_t array: code, rank k, set B with its low byte
 * first. For constants only: anything else, or a constant that does not fit its bytes, is an error of the
 * compiler. sf_put_step is for numbers that are known at run time.
 */
#define SF_STEP(code, k, B) SF_FIT(code, 8), SF_FIT(k, 8), SF_FIT(B, 16) & 255, SF_FIT(B, 16) >> 8

/*
 * The set of one offset; sets are joined by |. It is 512 where the offset is not -4 to 4: no step and no
 * form takes a set over 511, so a recipe with it is refused with 3, and a form with it with 7.
 */
static inline uint16_t sf_offset(int64_t d) {
    return (uint16_t)(-SF_REACH <= d && d <= SF_REACH ? 1 << (d + SF_REACH) : SF_PATTERNS);
}

/*
 * Stores the four bytes of a step from `at` and returns 0. Where the code, or the rank or the set, does
 * not fit its bytes, it stores nothing and returns the number with which such a step is refused: 2 for
 * a code over 255, 3 for a rank over 255 or a set over 65,535. What fits is for the call to judge that
 * is given the recipe.
 */
static inline uint8_t sf_put_step(uint8_t *at, uint64_t code, uint64_t rank, uint64_t set) {
    if (code > UINT8_MAX)
        return SF_REFUSED_STEP_CODE;
    if (rank > UINT8_MAX || set > UINT16_MAX)
        return SF_REFUSED_STEP_FIELD;
    at[0] = (uint8_t)code;
    at[1] = (uint8_t)rank;
    at[2] = (uint8_t)(set & UINT8_MAX);
    at[3] = (uint8_t)(set >> 8);
    return 0;
}

/* ---- the night sheet's totals */

/*
 * Where each total stands among the SF_TOTALS numbers, which are in the order of the night sheet's last
 * line. All are 0 before the first file. They are exact for every night that a list can ask for; whoever
 * adds more files than that gets each of them modulo 2^64.
 */
enum {
    SF_TOTAL_CLEANED = 0,         /* files cleaned */
    SF_TOTAL_UNOPENED = 1,        /* files not opened */
    SF_TOTAL_BAD_TERM = 2,        /* files refused under 7 */
    SF_TOTAL_TERM_COUNT = 3,      /* files refused under 8 */
    SF_TOTAL_SCAN_LENGTH = 4,     /* files refused under 9 */
    SF_TOTAL_FILE_LENGTH = 5,     /* files refused under 15 */
    SF_TOTAL_MARK = 6,            /* files refused under 16 */
    SF_TOTAL_TERM_DISTANCE = 7,   /* files refused under 17 */
    SF_TOTAL_SAMPLE_DISTANCE = 8, /* files refused under 18 */
    SF_TOTAL_SAMPLES = 9,         /* of the files cleaned: samples */
    SF_TOTAL_CHANGED = 10,        /* changed samples */
    SF_TOTAL_SPIKES = 11,         /* spikes */
    SF_TOTAL_UP = 12,             /* total of positive residues */
    SF_TOTAL_DOWN = 13            /* total of negative residues, with the sign dropped */
};

/* ---- the calls */

#ifdef __cplusplus
extern "C" {
#endif

/*
 * Writes the form that a recipe computes to the start of terms; *value is the number of terms.
 * SF_MOST_TERMS elements are always enough. Not in place: no two of its slices may overlap.
 * Refuses 1; then step by step 2, 3, 4, 5; then 4 at the end; then 6.
 */
uint8_t sf_compile(const uint8_t *recipe, size_t n, uint16_t *terms, size_t lent, size_t *value);

/*
 * Writes the scan as the recipe's steps leave it to out, where lent is the number of samples;
 * *value is the number of samples. Not in place: no two of its slices may overlap.
 * Refuses 1; then step by step 2, 3, 4, 5; then 4 at the end; then 9, 10.
 */
uint8_t sf_run_recipe(const uint8_t *recipe, size_t n, const uint16_t *scan, size_t samples,
                      uint16_t *out, size_t lent, size_t *value);

/*
 * Asks whether a list of terms is a form; *value is the number of terms. Writes no slice.
 * Refuses 7, 8.
 */
uint8_t sf_check(const uint16_t *terms, size_t m, size_t *value);

/*
 * Writes the scan as the form's filter gives it to out, where lent is the number of samples;
 * *value is the number of samples. Not in place: no two of its slices may overlap.
 * Refuses 7, 8, 9, 10.
 */
uint8_t sf_clean(const uint16_t *terms, size_t m, const uint16_t *scan, size_t samples,
                 uint16_t *out, size_t lent, size_t *value);

/*
 * Writes raw minus cleaned, -65,535 to 65,535, at each sample to out, where lent is the number of
 * samples; *value is the number of samples. Not in place: no two of its slices may overlap.
 * Refuses 7, 8, 9, 10.
 */
uint8_t sf_residue(const uint16_t *terms, size_t m, const uint16_t *scan, size_t samples,
                   int32_t *out, size_t lent, size_t *value);

/*
 * Asks whether the form leaves the scan as it is: *value is the first sample that differs from its
 * filtered value, or the number of samples where none does. Writes no slice.
 * Refuses 7, 8, 9.
 */
uint8_t sf_root(const uint16_t *terms, size_t m, const uint16_t *scan, size_t samples, size_t *value);

/*
 * Writes the form of a positive truth table, SF_TABLE_BYTES, to the start of terms; *value is the number
 * of terms. Bit v mod 8 of byte v / 8 is the value on pattern v. SF_MOST_TERMS elements are always
 * enough. Not in place: no two of its slices may overlap.
 * Refuses 13, 12, 6.
 */
uint8_t sf_table_to_form(const uint8_t *table, size_t n, uint16_t *terms, size_t lent, size_t *value);

/*
 * Writes the truth table of a form to table, where lent is SF_TABLE_BYTES; *value is the number of terms.
 * Not in place: no two of its slices may overlap.
 * Refuses 7, 8, 13.
 */
uint8_t sf_form_to_table(const uint16_t *terms, size_t m, uint8_t *table, size_t lent, size_t *value);

/*
 * Writes the form of preset 0 to 19, the filters of three samples, to the start of terms; *value is
 * the number of terms. Preset 10 is the median. SF_MOST_PRESET_TERMS elements are always enough.
 * Refuses 14, 6.
 */
uint8_t sf_preset(uint64_t number, uint16_t *terms, size_t lent, size_t *value);

/*
 * Writes the scan that a scan file holds to the start of samples and its form to the start of terms;
 * *value is the number of samples and *terms_read the number of terms. A refused call leaves
 * *terms_read as it was. n is the file's whole length, here and below: it is the place of refusal 15.
 * Not in place: no two of its slices may overlap.
 * Refuses 15, 16, 17, 18, 7, 8, 9, 6, 10.
 */
uint8_t sf_read(const uint8_t *file, size_t n, uint16_t *samples, size_t lent_samples,
                uint16_t *terms, size_t lent_terms, size_t *value, size_t *terms_read);

/*
 * Writes the scan file that holds this form and this scan to out, where lent is
 * SF_FILE_BYTES(samples, m); *value is that length. Not in place: no two of its slices may overlap.
 * Refuses 7, 8, 9, 10.
 */
uint8_t sf_write(const uint16_t *terms, size_t m, const uint16_t *scan, size_t samples,
                 uint8_t *out, size_t lent, size_t *value);

/*
 * Filters the scan that a scan file holds by the form beside it and writes five counts: samples,
 * changed samples, spikes (longest runs of neighbouring samples whose residues are of one sign), total
 * of positive residues, total of negative residues with the sign dropped; *value is the number of
 * samples. Not in place: the counts may not overlap the file.
 * Refuses 15, 16, 17, 18, 7, 8, 9.
 */
uint8_t sf_count(const uint8_t *file, size_t n, uint64_t counts[SF_COUNTS], size_t *value);

/*
 * Writes the report's line for a scan file, with the line feed at its end, to the start of out, where
 * lent is SF_LINE_BYTES; *value is the line's length. No file is refused: the line of a refused file is
 * "refused", the number and the place. Not in place: no two of its slices may overlap.
 * Refuses 10.
 */
uint8_t sf_line(const uint8_t *file, size_t n, uint8_t *out, size_t lent, size_t *value);

/*
 * Asks whether a text is a list of file names, one to a line; *value is the number of names. A line feed
 * ends a name, and bytes behind the last one are a further name; a text of no bytes is a list of no
 * names. Writes no slice.
 * Refuses 20, 19.
 */
uint8_t sf_night_list(const uint8_t *text, size_t n, size_t *value);

/*
 * Adds a file of the list to the night's totals and writes its line, which is that of sf_line, to the
 * start of out, where lent is SF_LINE_BYTES; *value is the line's length. No file is refused: a refused
 * one has its line and its place in the totals. A host that reads only the start of a file over
 * SF_LONGEST_FILE bytes does not call this for it: it writes the line itself, "refused 15" and the whole
 * length, and adds 1 to totals[SF_TOTAL_FILE_LENGTH]. Not in place: the file, the totals and out may not
 * overlap.
 * Refuses 10, and then adds nothing.
 */
uint8_t sf_night_line(const uint8_t *file, size_t n, uint64_t totals[SF_TOTALS], uint8_t *out, size_t lent,
                      size_t *value);

/*
 * The same for a file that could not be opened or read, whose line is "unopened".
 * Refuses 10, and then adds nothing.
 */
uint8_t sf_night_unopened(uint64_t totals[SF_TOTALS], uint8_t *out, size_t lent, size_t *value);

/*
 * Writes the night sheet's last line, the totals in their order, with the line feed at its end, to the
 * start of out, where lent is SF_TOTALS_BYTES; *value is the line's length. Not in place: out may not
 * overlap the totals.
 * Refuses 10.
 */
uint8_t sf_night_totals(const uint64_t totals[SF_TOTALS], uint8_t *out, size_t lent, size_t *value);

#ifdef __cplusplus
}
#endif

#endif
