/* Times the library through its C interface beside plain C, and sees how much stack each call takes. Each line
   it prints is one row of a table, its fields apart by tabs: "time", name, unit, ours, plain C ("-" where there
   is none); or "stack", call, bytes. Notes begin with "note". Every timed pair of calls is first seen to give the
   same answer.

   usage: measure FILE ROUNDS [RECIPE]

   The scan is written to FILE, for the peers. A time is the best of so many rounds. The recipe that is
   compiled is RECIPE, in hex, or the dearest of some drawn by chance; it is printed as "recipe". */
#include "common.h"
#include "plain.h"
#include <string.h>
#include <ucontext.h>

#define EVERY_OFFSET (SF_PATTERNS - 1) /* as a set */
#define MIDDLE (1 << SF_REACH)         /* the set {0} */
#define NEIGHBOURS ((1 << (SF_REACH + 1)) - 1) /* as many neighbouring offsets as stay near when opened by */
#define ROUND_NS 2e6

static int rounds;
static uint16_t scan[SAMPLES], ours[SAMPLES], plains[SAMPLES];

/* ---- timing */

/* What is timed: a filter by its form or its recipe, or a file. A form runs on so many of the scan's first samples, on all
   where that is 0. */
typedef struct {
    size_t samples;
    uint16_t terms[SF_MOST_TERMS];
    size_t m;
    uint8_t recipe[SF_LONGEST_RECIPE];
    size_t steps;
    uint8_t file[SF_LONGEST_FILE];
    size_t file_bytes;
} job;

typedef void call(job *);

static double time_once(call *run, job *j, unsigned times) {
    double start = now();
    for (unsigned i = 0; i < times; i++)
        run(j);
    return (now() - start) / times;
}

/* The best of many rounds, in ns, for one call or for two that take turns. */
static void time_best(call *one, call *other, job *j, double *best_one, double *best_other) {
    call *calls[] = {one, other};
    double *best[] = {best_one, best_other};
    for (int c = 0; c < 2 && calls[c]; c++)
        *best[c] = time_once(calls[c], j, 1);
    for (int round = 0; round < rounds; round++)
        for (int c = 0; c < 2 && calls[c]; c++) {
            double ns = time_once(calls[c], j, 1 + (unsigned)(ROUND_NS / *best[c]));
            if (ns < *best[c])
                *best[c] = ns;
        }
}

/* ---- the calls */

static size_t value, terms_read;

static size_t samples_of(const job *j) { return j->samples ? j->samples : SAMPLES; }

static void clean(job *j) {
    size_t n = samples_of(j);
    demand(sf_clean(j->terms, j->m, scan, n, ours, n, &value));
}

static void count(job *j) { uint64_t counts[SF_COUNTS]; demand(sf_count(j->file, j->file_bytes, counts, &value)); }

static void run(job *j) {
    demand(sf_run_recipe(j->recipe, SF_STEP_BYTES * j->steps, scan, SAMPLES, ours, SAMPLES, &value));
}

static void compile(job *j) {
    demand(sf_compile(j->recipe, SF_STEP_BYTES * j->steps, j->terms, SF_MOST_TERMS, &value));
}

static void read_file(job *j) {
    demand(sf_read(j->file, j->file_bytes, ours, SAMPLES, j->terms, SF_MOST_TERMS, &value, &terms_read));
}

/* The other calls, for their stack. An older checkout (bench/run --against) has not got these. */
#pragma weak sf_check
#pragma weak sf_line
#pragma weak sf_night_list
#pragma weak sf_night_line
#pragma weak sf_night_unopened
#pragma weak sf_night_totals
static int32_t residues[SAMPLES];
static uint8_t table[SF_TABLE_BYTES];

static void residue(job *j) { demand(sf_residue(j->terms, j->m, scan, SAMPLES, residues, SAMPLES, &value)); }
static void root(job *j) { demand(sf_root(j->terms, j->m, scan, SAMPLES, &value)); }
static void form_to_table(job *j) { demand(sf_form_to_table(j->terms, j->m, table, SF_TABLE_BYTES, &value)); }
static void table_to_form(job *j) { demand(sf_table_to_form(table, SF_TABLE_BYTES, j->terms, SF_MOST_TERMS, &value)); }
static void write_file(job *j) { demand(sf_write(j->terms, j->m, scan, SAMPLES, j->file, j->file_bytes, &value)); }

static void check(job *j) {
    if (sf_check)
        demand(sf_check(j->terms, j->m, &value));
}

static void line(job *j) {
    uint8_t text[SF_LINE_BYTES];
    if (sf_line)
        demand(sf_line(j->file, j->file_bytes, text, sizeof text, &value));
}

static uint64_t totals[SF_TOTALS];

static void night_list(job *j) {
    static uint8_t list[SF_LONGEST_LIST];
    (void)j;
    for (size_t i = 0; i < SF_LONGEST_LIST; i++)
        list[i] = (i + 1) % (SF_LONGEST_NAME + 1) == 0 ? '\n' : 'a';
    if (sf_night_list)
        demand(sf_night_list(list, SF_LONGEST_LIST, &value));
}

static void night_line(job *j) {
    uint8_t text[SF_LINE_BYTES];
    if (sf_night_line)
        demand(sf_night_line(j->file, j->file_bytes, totals, text, sizeof text, &value));
}

static void night_unopened(job *j) {
    uint8_t text[SF_LINE_BYTES];
    (void)j;
    if (sf_night_unopened)
        demand(sf_night_unopened(totals, text, sizeof text, &value));
}

static void night_totals(job *j) {
    uint8_t text[SF_TOTALS_BYTES];
    (void)j;
    memset(totals, 255, sizeof totals);
    if (sf_night_totals)
        demand(sf_night_totals(totals, text, sizeof text, &value));
}

static void preset(job *j) {
    for (uint64_t number = 0; number < SF_PRESETS; number++)
        demand(sf_preset(number, j->terms, SF_MOST_TERMS, &value));
}

static void clean_plainly(job *j) { plain_clean(j->terms, j->m, scan, samples_of(j), plains); }
static void clean_by_bits(job *j) { plain_clean_by_bits(j->terms, j->m, scan, samples_of(j), plains); }
static void run_plainly(job *j) { plain_run_recipe(j->recipe, j->steps, scan, SAMPLES, plains); }

/* ---- jobs */

static void add_step(job *j, uint8_t code, uint8_t k, unsigned set) {
    uint8_t *step = j->recipe + SF_STEP_BYTES * j->steps++;
    step[0] = code;
    step[1] = k;
    step[2] = set & 255;
    step[3] = (uint8_t)(set >> 8);
}

static job after_signal(uint8_t code, uint8_t k, unsigned set) {
    job j = {.steps = 0};
    add_step(&j, SF_SIGNAL, 0, 0);
    add_step(&j, code, k, set);
    return j;
}

/* The job with the form that its recipe compiles to. */
static job compiled(job j) {
    compile(&j);
    j.m = value;
    return j;
}

static void row_beside(const char *name, call *one, call *plain, job j) {
    double best, best_plain;
    memset(ours, 1, sizeof ours);
    memset(plains, 2, sizeof plains);
    one(&j);
    plain(&j);
    if (memcmp(ours, plains, samples_of(&j) * sizeof *ours) != 0)
        refuse_to_go_on(name);
    time_best(one, plain, &j, &best, &best_plain);
    printf("time\t%s\tns per sample\t%.3f\t%.3f\n", name, best / (double)samples_of(&j), best_plain / (double)samples_of(&j));
    fflush(stdout);
}

/* The form on short scans, where the ends and the call itself weigh most. */
static void row_by_length(const char *form, job j) {
    const size_t lengths[] = {1, 9, 100};
    char name[80];
    for (size_t i = 0; i < sizeof lengths / sizeof *lengths; i++) {
        j.samples = lengths[i];
        snprintf(name, sizeof name, "%s, on %zu sample%s", form, j.samples, j.samples == 1 ? "" : "s");
        row_beside(name, clean, clean_plainly, j);
    }
}

static void row_alone(const char *name, call *one, job j) {
    double best;
    time_best(one, NULL, &j, &best, NULL);
    printf("time\t%s\tms\t%.4f\t-\n", name, best / 1e6);
    fflush(stdout);
}

/* ---- the dearest recipe */

static void bounds_of(unsigned set, int *least, int *most) {
    for (*least = -SF_REACH; !(set >> (*least + SF_REACH) & 1);)
        ++*least;
    for (*most = SF_REACH; !(set >> (*most + SF_REACH) & 1);)
        --*most;
}

/* Whether a step from erode to median keeps the reach in its bounds; it is then the new reach. */
static int moves_reach(uint8_t code, unsigned set, int *low, int *high) {
    int least, most;
    bounds_of(set, &least, &most);
    int down = code == SF_DILATE ? -most : code == SF_OPEN || code == SF_CLOSE ? least - most : least;
    int up = code == SF_DILATE ? -least : code == SF_OPEN || code == SF_CLOSE ? most - least : most;
    if (*low + down < -SF_REACH || *high + up > SF_REACH)
        return 0;
    *low += down;
    *high += up;
    return 1;
}

static unsigned large_set(void) {
    unsigned set = below(SF_PATTERNS);
    set |= below(SF_PATTERNS);
    return set & (below(2) ? EVERY_OFFSET : NEIGHBOURS << below(SF_REACH + 1));
}

/* A recipe of the most steps that holds the most signals, whose sets are as large as chance and reach allow. */
static job dear_recipe(void) {
    job j = {.steps = 0};
    for (unsigned signal = 0; signal < SF_MOST_SIGNALS; signal++) {
        int low = 0, high = 0;
        add_step(&j, SF_SIGNAL, 0, 0);
        for (unsigned steps = signal < 1 ? 3 : 2; steps > 0; steps--) {
            uint8_t code = (uint8_t)(SF_ERODE + below(SF_MEDIAN - SF_ERODE + 1));
            unsigned set, tries = 0;
            do {
                set = tries++ < 200 ? large_set() : MIDDLE;
                if (code == SF_MEDIAN && __builtin_popcount(set) % 2 == 0)
                    set ^= MIDDLE;
            } while (set == 0 || !moves_reach(code, set, &low, &high));
            uint8_t k = code == SF_RANK ? (uint8_t)(1 + below((unsigned)__builtin_popcount(set))) : 0;
            add_step(&j, code, k, set);
        }
    }
    while (j.steps < SF_MOST_STEPS)
        add_step(&j, below(2) ? SF_LARGER : SF_SMALLER, 0, 0);
    return j;
}

#define DRAWN 300

static job dearest_recipe(void) {
    static job drawn[DRAWN];
    job *dearest = drawn;
    double most = 0;
    for (int i = 0; i < DRAWN; i++) {
        drawn[i] = dear_recipe();
        double first = time_once(compile, &drawn[i], 1), second = time_once(compile, &drawn[i], 1);
        double ns = first < second ? first : second;
        if (ns > most) {
            most = ns;
            dearest = &drawn[i];
        }
    }
    return *dearest;
}

/* The recipe that stands in a text, in hex. */
static job recipe_in(const char *hex) {
    job j = {.steps = strlen(hex) / (2 * SF_STEP_BYTES)};
    for (size_t i = 0; i < SF_STEP_BYTES * j.steps; i++)
        if (sscanf(hex + 2 * i, "%2hhx", &j.recipe[i]) != 1)
            refuse_to_go_on("a recipe is given in hex");
    return j;
}

/* ---- the rows */

#define FORMS 3

static void forms(void) {
    const char *names[FORMS] = {"form 24 40 48", "form of the five-point median, 10 terms", "form of rank 5 over 511, 126 terms"};
    job jobs[FORMS] = {compiled(after_signal(SF_MEDIAN, 0, 56)), compiled(after_signal(SF_MEDIAN, 0, 124)),
                       compiled(after_signal(SF_RANK, 5, EVERY_OFFSET))};
    double by_bits[FORMS];
    for (int i = 0; i < FORMS; i++) {
        row_beside(names[i], clean, clean_plainly, jobs[i]);
        time_best(clean_by_bits, NULL, &jobs[i], &by_bits[i], NULL);
    }
    for (int i = 0; i < FORMS; i++)
        row_by_length(names[i], jobs[i]);
    printf("note\tThe forms in plain C with a test for each position of each term: %.3f, %.3f and %.3f ns per sample.\n",
           by_bits[0] / SAMPLES, by_bits[1] / SAMPLES, by_bits[2] / SAMPLES);
}

static void recipes(void) {
    job two = after_signal(SF_OPEN, 0, 48), eight = {.steps = 0};
    add_step(&two, SF_CLOSE, 0, 48);
    for (int i = 0; i < SF_MOST_SIGNALS; i++)
        add_step(&eight, SF_SIGNAL, 0, 0);
    for (int i = 1; i < SF_MOST_SIGNALS; i++)
        add_step(&eight, SF_LARGER, 0, 0);
    row_beside("recipe open 48, close 48", run, run_plainly, two);
    row_beside("recipe median 124", run, run_plainly, after_signal(SF_MEDIAN, 0, 124));
    row_beside("recipe of eight signals joined by larger", run, run_plainly, eight);
}

static job compiling(const char *recipe) {
    job dearest = recipe ? recipe_in(recipe) : dearest_recipe();
    row_alone("compile the dearest of 300 large recipes", compile, dearest);
    printf("recipe\t");
    for (size_t i = 0; i < SF_STEP_BYTES * dearest.steps; i++)
        printf("%02x", dearest.recipe[i]);
    printf("\n");
    return dearest;
}

static void files(void) {
    job j = compiled(after_signal(SF_MEDIAN, 0, 124));
    j.file_bytes = SF_FILE_BYTES(SAMPLES, j.m);
    demand(sf_write(j.terms, j.m, scan, SAMPLES, j.file, j.file_bytes, &value));
    row_alone("count a file with the five-point median", count, j);
    row_alone("read that file", read_file, j);
}

/* The filters that the peers have too, by their forms and by their recipes. */
static void shared_filters(void) {
    const struct { const char *name; uint8_t code; unsigned set; } filters[] = {
        {"median of 3", SF_MEDIAN, 56}, {"median of 5", SF_MEDIAN, 124}, {"median of 9", SF_MEDIAN, EVERY_OFFSET},
        {"opening by 3", SF_OPEN, 56}, {"opening by 5", SF_OPEN, 124}};
    char name[64];
    for (size_t i = 0; i < sizeof filters / sizeof *filters; i++) {
        job j = compiled(after_signal(filters[i].code, 0, filters[i].set));
        snprintf(name, sizeof name, "%s, by form", filters[i].name);
        row_beside(name, clean, run_plainly, j);
        snprintf(name, sizeof name, "%s, by recipe", filters[i].name);
        row_beside(name, run, run_plainly, j);
    }
}

static void ends(void) {
    const uint16_t short_scan[3] = {5, 0, 0};
    job j = after_signal(SF_OPEN, 0, 56);
    demand(sf_run_recipe(j.recipe, SF_STEP_BYTES * j.steps, short_scan, 3, ours, 3, &value));
    plain_run_recipe(j.recipe, j.steps, short_scan, 3, plains);
    printf("time\topening by 3 of 5 0 0\tsamples\t%d %d %d\t%d %d %d\n", ours[0], ours[1], ours[2], plains[0], plains[1],
           plains[2]);
}

/* ---- the stack */

#define STACK_BYTES (1 << 20)
#define STACK_ALIGNMENT 16
#define PAINT 0xA5

static unsigned char stack[STACK_BYTES] __attribute__((aligned(4096)));
static ucontext_t outside, inside;
static call *on_the_stack;
static job *its_job;

static void call_on_the_stack(void) { on_the_stack(its_job); }
static void do_nothing(job *j) { (void)j; }

/* How far down a painted stack is no longer as it was painted, after the call was made on it. */
static size_t deepest(call *run, job *j) {
    on_the_stack = run;
    its_job = j;
    memset(stack, PAINT, STACK_BYTES);
    if (getcontext(&inside) != 0)
        refuse_to_go_on("there is no other stack to run on");
    inside.uc_stack.ss_sp = stack;
    inside.uc_stack.ss_size = STACK_BYTES;
    inside.uc_link = &outside;
    makecontext(&inside, call_on_the_stack, 0);
    if (swapcontext(&outside, &inside) != 0)
        refuse_to_go_on("there is no other stack to run on");
    size_t unchanged = 0;
    while (unchanged < STACK_BYTES && stack[unchanged] == PAINT)
        unchanged++;
    return STACK_BYTES - unchanged / STACK_ALIGNMENT * STACK_ALIGNMENT;
}

/* On inputs as large as they may be: a recipe of many steps whose ranks are over large sets, a form of the most
   terms, the longest file. What calling takes by itself is left out. */
static void stacks(job recipe) {
    job form = compiled(after_signal(SF_RANK, 5, EVERY_OFFSET)), file = form;
    file.file_bytes = SF_FILE_BYTES(SAMPLES, file.m);
    const struct { const char *name; call *run; job *j; } calls[] = {
        {"sf_compile", compile, &recipe},      {"sf_run_recipe", run, &recipe},
        {"sf_check", check, &form},            {"sf_clean", clean, &form},
        {"sf_residue", residue, &form},        {"sf_root", root, &form},
        {"sf_form_to_table", form_to_table, &form}, {"sf_table_to_form", table_to_form, &form},
        {"sf_preset", preset, &recipe},        {"sf_write", write_file, &file},
        {"sf_read", read_file, &file},         {"sf_count", count, &file},
        {"sf_line", line, &file},              {"sf_night_list", night_list, &file},
        {"sf_night_line", night_line, &file},  {"sf_night_unopened", night_unopened, &file},
        {"sf_night_totals", night_totals, &file}};
    for (size_t i = 0; i < sizeof calls / sizeof *calls; i++)
        printf("stack\t%s\t%zu\n", calls[i].name, deepest(calls[i].run, calls[i].j) - deepest(do_nothing, NULL));
}

static void save_scan(const char *path) {
    FILE *file = fopen(path, "wb");
    if (!file || fwrite(scan, sizeof *scan, SAMPLES, file) != SAMPLES || fclose(file) != 0)
        refuse_to_go_on("the scan cannot be written");
}

int main(int count_of_arguments, char **arguments) {
    if (count_of_arguments < 3 || count_of_arguments > 4 || (rounds = atoi(arguments[2])) < 1)
        refuse_to_go_on("usage: measure FILE ROUNDS [RECIPE]");
    make_scan(scan);
    save_scan(arguments[1]);
    forms();
    recipes();
    job dearest = compiling(count_of_arguments > 3 ? arguments[3] : NULL);
    files();
    shared_filters();
    ends();
    stacks(dearest);
    return 0;
}
