/* The calls from C: the version, document 01's examples, comment lines, repeated entries, the first nearest choice, the
 * export to OPB, each call on its largest and deepest input, the stack that each takes, and several threads at once.
 * Also compiled as C++. */
#include "powhanire.h"

#include <pthread.h>
#include <stdio.h>
#include <stdlib.h>
#include <string.h>
#include <sys/mman.h>
#include <sys/resource.h>
#include <ucontext.h>

typedef powhanire_answer answer;

static unsigned long passed, failed;

static void expect(int holds, const char *what) {
    if (holds) {
        passed++;
        return;
    }
    failed++;
    if (failed <= 20)
        printf("FAILED %s\n", what);
}

static void is(const char *what, answer a, uint64_t refusal, uint64_t place, uint64_t verdict, uint64_t v0,
               uint64_t v1, uint64_t v2) {
    int same = a.refusal == refusal && a.place == place && a.verdict == verdict && a.value[0] == v0 &&
               a.value[1] == v1 && a.value[2] == v2;
    expect(same, what);
    if (!same && failed <= 20)
        printf("  got %lu at %lu, verdict %lu, values %lu %lu %lu\n", (unsigned long)a.refusal,
               (unsigned long)a.place, (unsigned long)a.verdict, (unsigned long)a.value[0],
               (unsigned long)a.value[1], (unsigned long)a.value[2]);
}

/* ---- buffers of the sizes that the header says always suffice ---- */

enum { RULES = 40000, RULE_FILE = 173015, WISH_FILE = 720, REWRITTEN = 38914, OPB_FILE = 165306 };

static int32_t out_rules[RULES], out_rewritten[REWRITTEN];
static uint8_t out_file[RULE_FILE], out_row[256], out_wishes[WISH_FILE], out_choice[640], out_opb[OPB_FILE];

/* ---- the version ---- */

static void version(void) {
    char text[64];
    snprintf(text, sizeof text, "%d.%d.%d", POWHANIRE_VERSION_MAJOR, POWHANIRE_VERSION_MINOR, POWHANIRE_VERSION_PATCH);
    expect(powhanire_version() == POWHANIRE_VERSION, "the archive has the header's version");
    expect(strcmp(text, POWHANIRE_VERSION_TEXT) == 0, "the version's text has its numbers");
}

/* ---- examples ---- */

static void rule_file(const char *text, uint64_t refusal, uint64_t place) {
    answer a = powhanire_read_rules((const uint8_t *)text, strlen(text), out_rules, RULES);
    is(text, a, refusal, place, refusal == 0, a.value[0], a.value[1], a.value[2]);
}

/* A file of the one rule `1`. */
static void one_rule(const char *text) {
    out_rules[0] = out_rules[1] = 9;
    is(text, powhanire_read_rules((const uint8_t *)text, strlen(text), out_rules, RULES), 0, 0, 1, 1, 1, 2);
    expect(out_rules[0] == 1 && out_rules[1] == 0, text);
}

static void examples(void) {
    static const int32_t one_or_two[] = {1, 2, 0}, empty_rule[] = {0};
    static const uint8_t both_off[] = {0, 0}, on[] = {1};
    uint8_t choice[3] = {9, 9, 9};

    is("limit 0 none", powhanire_search(2, one_or_two, 3, both_off, 2, 0, choice, 2), 0, 0, 0, 0, 0, 0);
    expect(choice[0] == 9 && choice[1] == 9, "none leaves the choice");
    is("limit 1 found", powhanire_search(2, one_or_two, 3, both_off, 2, 1, choice, 3), 0, 0, 1, 1, 0, 0);
    expect(choice[0] + choice[1] == 1 && choice[2] == 9, "one of the two is on, and what lies past stays");
    is("nearest 1", powhanire_nearest(2, one_or_two, 3, both_off, 2, choice, 2), 0, 0, 1, 1, 0, 0);
    expect(choice[0] == 0 && choice[1] == 1, "the first of the two nearest"); /* by document 02, L5 */
    is("it is met", powhanire_check(2, one_or_two, 3, both_off, 2, choice, 2), 0, 0, 1, 1, 0, 0);
    is("plain", powhanire_plain(2, one_or_two, 3, choice, 2), 0, 0, 1, 0, 0, 0);
    is("empty rule", powhanire_nearest(2, empty_rule, 1, both_off, 2, choice, 2), 0, 0, 0, 0, 0, 0);
    is("no rules", powhanire_search(1, one_or_two, 0, on, 1, 0, choice, 1), 0, 0, 1, 0, 0, 0);
    expect(choice[0] == 1, "the wish is kept");
    is("d = 64", powhanire_search(1, one_or_two, 0, on, 1, 64, choice, 1), 0, 0, 1, 0, 0, 0);
    is("d = 65", powhanire_search(1, one_or_two, 0, on, 1, 65, choice, 1), 14, 0, 0, 0, 0, 0);
    is("choice too short", powhanire_plain(2, one_or_two, 3, choice, 1), 15, 2, 0, 0, 0, 0);

    rule_file("p cnf 0 0\n", 2, 0);
    rule_file("p cnf 0 0", 1, 0);
    rule_file("p cnf 640 0\n", 0, 0);
    rule_file("p cnf 641 0\n", 2, 0);
    rule_file("", 1, 0);
    rule_file("p cnf 1 1\n-0 0", 3, 10);
    rule_file("p cnf 1 1\n2 0", 4, 10);
    rule_file("p cnf 1 1\n1 -1 0", 0, 0); /* by document 02, L3 */
    rule_file("p cnf 1 1\n1", 6, 11);
    /* document 02, L1: comment lines between the rules */
    one_rule("p cnf 1 1\nc a heading\n1 0\n");
    one_rule("p cnf 1 1\n1\ncat 1 2 0\n0\nc");
    rule_file("p cnf 1 1\n1 c\n0\n", 3, 12);
    rule_file("p cnf 1 1\n1 0\rc\n", 3, 14);
    is("15 bytes", powhanire_read_wishes((const uint8_t *)"    1    0    0", 15, out_row, 256), 8, 0, 0, 0, 0, 0);

    /* a pointer lent with length 0 is not followed */
    is("no file", powhanire_read_rules(NULL, 0, NULL, 0), 1, 0, 0, 0, 0, 0);
    is("no list", powhanire_plain(1, NULL, 0, choice, 1), 0, 0, 1, 0, 0, 0);
    is("no room", powhanire_rewrite(1, one_or_two, 0, on, 1, 0, NULL, 0), 15, 2, 0, 0, 0, 0);
    is("no row", powhanire_check(1, NULL, 0, NULL, 0, NULL, 0), 11, 0, 0, 0, 0, 0);
}

/* Document 02, L3: an equal entry of a file is stored once, opposite entries are both stored; a lent list may hold the
 * opposite, and is refused at the second of two equal ones. */
static void repeated_entries(void) {
    static const char file[] = "p cnf 2 2\n2 1 2 -1 1 0\n-2 -2 0\n";
    static const int32_t stored[] = {2, 1, -1, 0, -2, 0}, equal[] = {1, -1, 0, 2, -1, 2, 0};
    static const uint8_t on[] = {1, 1};
    uint8_t choice[2] = {9, 9};

    one_rule("p cnf 1 1\n1 1 0\n");
    is("no room", powhanire_read_rules((const uint8_t *)file, strlen(file), out_rules, 5), 15, 6, 0, 0, 0, 0);
    is("repeats", powhanire_read_rules((const uint8_t *)file, strlen(file), out_rules, 6), 0, 0, 1, 2, 2, 6);
    expect(memcmp(out_rules, stored, sizeof stored) == 0, "each entry once, at its first place");
    rule_file("p cnf 1 1\n1 1", 6, 13);
    rule_file("p cnf 1 1\n1 -1 2 0", 4, 15);

    is("nearest 1", powhanire_nearest(2, stored, 6, on, 2, choice, 2), 0, 0, 1, 1, 0, 0);
    expect(choice[0] == 1 && choice[1] == 0, "the rule of both senses asks nothing");
    is("it is met", powhanire_check(2, stored, 6, on, 2, choice, 2), 0, 0, 1, 1, 0, 0);
    is("checked", powhanire_check(2, equal, 7, on, 2, choice, 2), 13, 5, 0, 0, 0, 0);
    is("searched", powhanire_search(2, equal, 7, on, 2, 1, choice, 2), 13, 5, 0, 0, 0, 0);
    is("plain", powhanire_plain(2, equal, 7, choice, 2), 13, 5, 0, 0, 0, 0);
    is("nearest", powhanire_nearest(2, equal, 7, on, 2, choice, 2), 13, 5, 0, 0, 0, 0);
    is("written", powhanire_write_rules(2, equal, 7, out_file, RULE_FILE), 13, 5, 0, 0, 0, 0);
    is("rewritten", powhanire_rewrite(2, equal, 7, on, 2, 1, out_rewritten, REWRITTEN), 13, 5, 0, 0, 0, 0);
    is("exported", powhanire_write_opb(2, equal, 7, on, 2, 1, out_opb, OPB_FILE), 13, 5, 0, 0, 0, 0);
}

/* Document 02, L5: the first nearest choice, off before on from setting 1 upward, however the rules are written. */
static void first_choice(void) {
    static const int32_t rules[] = {1, 2, 3, 0, -1, 4, 0};
    static const int32_t twin[] = {4, -1, 0, 2, -2, 0, 3, 2, 1, 0, 1, 3, 2, 4, 0, 4, -1, 0};
    static const struct {
        uint8_t row[4];
        uint64_t broken;
        uint8_t first[4];
    } expected[] = {
        {{2, 2, 2, 2}, 0, {0, 0, 1, 0}}, {{0, 0, 0, 0}, 1, {0, 0, 1, 0}}, {{2, 2, 0, 1}, 0, {0, 1, 0, 1}},
        {{2, 0, 0, 2}, 0, {1, 0, 0, 1}}, {{1, 0, 0, 0}, 1, {1, 0, 0, 1}}, {{1, 2, 2, 0}, 1, {0, 0, 1, 0}},
    };
    for (size_t k = 0; k < sizeof expected / sizeof *expected; k++) {
        const uint8_t *row = expected[k].row;
        uint8_t choice[4] = {9, 9, 9, 9}, other[4] = {9, 9, 9, 9};
        is("the first", powhanire_nearest(4, rules, 7, row, 4, choice, 4), 0, 0, 1, expected[k].broken, 0, 0);
        is("its twin's", powhanire_nearest(4, twin, 18, row, 4, other, 4), 0, 0, 1, expected[k].broken, 0, 0);
        expect(memcmp(choice, expected[k].first, 4) == 0, "the first nearest choice");
        expect(memcmp(choice, other, 4) == 0, "twin books have the same");
    }
}

/* The rewriting program's example, through five calls. */
static void rewriting_example(void) {
    static const char rules[] = "p cnf 2 1\n1 2 0\n";
    static const char wishes[] = "    2    2    1\n    1    0\n    2    0\n";
    static const char printed[] = "p cnf 4 8\n1 2 0\n1 2 -3 0\n-2 3 0\n1 -4 0\n-1 3 0\n2 -4 0\n-1 -2 4 0\n-4 0\n";
    answer r = powhanire_read_rules((const uint8_t *)rules, strlen(rules), out_rules, RULES);
    answer w = powhanire_read_wishes((const uint8_t *)wishes, strlen(wishes), out_row, 256);
    answer m, f, back;
    is("rules read", r, 0, 0, 1, 2, 1, 3);
    is("wishes read", w, 0, 0, 1, 2, 2, 1);
    m = powhanire_rewrite(r.value[0], out_rules, r.value[2], out_row, w.value[0], w.value[2], out_rewritten, REWRITTEN);
    is("rewritten", m, 0, 0, 1, 4, 25, 0);
    f = powhanire_write_rules(m.value[0], out_rewritten, m.value[1], out_file, RULE_FILE);
    is("written", f, 0, 0, 1, strlen(printed), 0, 0);
    expect(memcmp(out_file, printed, strlen(printed)) == 0, "the printed file");
    back = powhanire_write_wishes(w.value[0], out_row, w.value[0], w.value[2], out_wishes, WISH_FILE);
    is("wishes written", back, 0, 0, 1, strlen(wishes), 0, 0);
    expect(memcmp(out_wishes, wishes, strlen(wishes)) == 0, "the wish file again");
}

/* Document 02, L2, on the same example; 16 at a closing zero, and 15 after it. */
static void opb_example(void) {
    static const int32_t one_or_two[] = {1, 2, 0}, empty_rule[] = {1, 0, 0};
    static const uint8_t both_off[] = {0, 0};
    static const char exported[] = "* #variable= 2 #constraint= 2\n+1 x1 +1 x2 >= 1 ;\n-1 x1 -1 x2 >= -1 ;\n";
    const size_t length = strlen(exported);
    memset(out_opb, 9, OPB_FILE);
    is("a byte too short", powhanire_write_opb(2, one_or_two, 3, both_off, 2, 1, out_opb, length - 1), 15, length, 0, 0, 0, 0);
    is("no room", powhanire_write_opb(2, one_or_two, 3, both_off, 2, 1, NULL, 0), 15, length, 0, 0, 0, 0);
    is("a rule without entries", powhanire_write_opb(2, empty_rule, 3, both_off, 2, 1, out_opb, OPB_FILE), 16, 2, 0, 0, 0, 0);
    is("the same without room", powhanire_write_opb(2, empty_rule, 3, both_off, 2, 1, NULL, 0), 16, 2, 0, 0, 0, 0);
    expect(out_opb[0] == 9 && memcmp(out_opb, out_opb + 1, OPB_FILE - 1) == 0, "a refusal leaves the file");
    is("exported", powhanire_write_opb(2, one_or_two, 3, both_off, 2, 1, out_opb, OPB_FILE), 0, 0, 1, length, 0, 0);
    expect(memcmp(out_opb, exported, length) == 0 && out_opb[length] == 9, "the OPB file, and what lies past stays");
}

/* ---- the largest and the deepest inputs ---- */

/* A search makes n - `first` forks on one path of this book, with `first` 1 as many as there can be: a fork settles one
 * setting, and needs two unsettled. With `met` setting 1 meets every rule, and the forks are made without it. compare
 * counts them. */
static size_t ladder(int32_t first, int met, int32_t n, int32_t *list) {
    size_t length = 0;
    for (int32_t i = first; i < n; i++)
        for (int32_t j = i + 1; j <= n && j <= i + 4; j++) {
            if (met)
                list[length++] = 1;
            if (i > first)
                list[length++] = 1 - i;
            list[length++] = i;
            list[length++] = j;
            list[length++] = 0;
        }
    return length;
}

/* The ladder from setting 2 on, and rules by which setting 1 is picked before it. With settings 1, 255 and 256 wished
 * off the walk without a limit puts 1 and 255 on, and nearest goes on with the limit 1. By the cores 1 on is a dead end
 * then; with 1 off it forks on 2 to 255, and 256 is left to be assumed: 255 forks on a path, and the longest way from
 * its last one. The reference takes too long on this book, and tests/solvers/large.py has it. */
static size_t turned(int32_t *list) {
    size_t length = ladder(2, 0, 256, list);
    for (int32_t i = 10; i <= 70; i += 10) {
        list[length++] = -1;
        list[length++] = i;
        list[length++] = 0;
    }
    return length;
}

/* `rules` rules with `entries` entries in all, among the 190 settings up to `highest`, each to be off. */
static size_t full(size_t rules, size_t entries, int32_t highest, int32_t *list) {
    size_t length = 0;
    for (size_t r = 0; r < rules; r++) {
        size_t own = entries / rules + (r < entries % rules);
        for (size_t k = 0; k < own; k++)
            list[length++] = -highest + (int32_t)((k + r) % 190);
        list[length++] = 0;
    }
    return length;
}

/* The list with the longest OPB file: 16,384 entries of three digits in 4,096 rules. A K of two places takes 2 negative
 * entries, one of three takes 11. */
static size_t longest_opb(int32_t *list) {
    size_t length = 0;
    for (size_t r = 0; r < 4096; r++) {
        size_t own = r < 910 ? 11 : r < 912 ? 3 : 2;
        for (size_t k = 0; k < own; k++)
            list[length++] = -100 - (int32_t)k;
        list[length++] = 0;
    }
    return length;
}

static int32_t ladder640[RULES], ladder256[RULES], met256[RULES], turned256[RULES];
static int32_t full640[RULES], full256[RULES], opb256[RULES];
static size_t ladder640_len, ladder256_len, met256_len, turned256_len, full640_len, full256_len, opb256_len;
static uint8_t full_file[RULE_FILE], wish_file[WISH_FILE], choice256[256];
static uint8_t off64[256], on64[256], last64[256], free256[256], ends256[256];
static answer result;

static void build(void) {
    ladder640_len = ladder(1, 0, 640, ladder640);
    ladder256_len = ladder(1, 0, 256, ladder256);
    met256_len = ladder(2, 1, 256, met256);
    turned256_len = turned(turned256);
    full640_len = full(9000, 31000, 640, full640);
    full256_len = full(4096, 16384, 256, full256);
    opb256_len = longest_opb(opb256);
    memset(off64, 2, 256);
    memset(on64, 2, 256);
    memset(last64, 2, 256);
    memset(free256, 2, 256);
    memset(ends256, 2, 256);
    memset(off64, 0, 64);
    memset(on64, 1, 64);
    memset(last64 + 192, 0, 64);
    ends256[0] = ends256[254] = ends256[255] = 0;
    is("longest rule file", powhanire_write_rules(640, full640, full640_len, full_file, RULE_FILE), 0, 0, 1, RULE_FILE, 0, 0);
    is("longest wish file", powhanire_write_wishes(256, off64, 256, 64, wish_file, WISH_FILE), 0, 0, 1, WISH_FILE, 0, 0);
}

static void read_rules(void) { result = powhanire_read_rules(full_file, RULE_FILE, out_rules, RULES); }
static void write_rules(void) { result = powhanire_write_rules(640, full640, full640_len, out_file, RULE_FILE); }
static void read_wishes(void) { result = powhanire_read_wishes(wish_file, WISH_FILE, out_row, 256); }
static void write_wishes(void) { result = powhanire_write_wishes(256, off64, 256, 64, out_wishes, WISH_FILE); }
static void check(void) { result = powhanire_check(256, full256, full256_len, on64, 256, choice256, 256); }
static void search_deep(void) { result = powhanire_search(256, ladder256, ladder256_len, off64, 256, 64, out_choice, 256); }
static void search_last(void) { result = powhanire_search(256, ladder256, ladder256_len, last64, 256, 64, out_choice, 256); }
static void search_full(void) { result = powhanire_search(256, full256, full256_len, on64, 256, 64, out_choice, 256); }
static void plain_deep(void) { result = powhanire_plain(640, ladder640, ladder640_len, out_choice, 640); }
static void plain_half(void) { result = powhanire_plain(256, ladder256, ladder256_len, out_choice, 256); }
static void plain_full(void) { result = powhanire_plain(640, full640, full640_len, out_choice, 640); }
static void nearest_deep(void) { result = powhanire_nearest(256, ladder256, ladder256_len, on64, 256, out_choice, 256); }
static void nearest_off(void) { result = powhanire_nearest(256, met256, met256_len, free256, 256, out_choice, 256); }
static void nearest_turned(void) { result = powhanire_nearest(256, turned256, turned256_len, ends256, 256, out_choice, 256); }
static void nearest_full(void) { result = powhanire_nearest(256, full256, full256_len, on64, 256, out_choice, 256); }
static void rewrite(void) { result = powhanire_rewrite(256, full256, full256_len, off64, 256, 0, out_rewritten, REWRITTEN); }
static void write_opb(void) { result = powhanire_write_opb(256, opb256, opb256_len, last64, 256, 64, out_opb, OPB_FILE); }

/* With each call its input, its answer, and a bound on its stack, a little above what include/powhanire.h says. */
static const struct {
    const char *call, *input;
    void (*run)(void);
    uint64_t value[3];
    size_t said;
} largest[] = {
    {"read_rules", "640 settings, 9,000 rules, 31,000 entries", read_rules, {640, 9000, 40000}, 4096},
    {"write_rules", "640 settings, 9,000 rules, 31,000 entries", write_rules, {RULE_FILE, 0, 0}, 4096},
    {"read_wishes", "256 settings, 64 wishes", read_wishes, {256, 64, 64}, 4096},
    {"write_wishes", "256 settings, 64 wishes", write_wishes, {WISH_FILE, 0, 0}, 4096},
    {"check", "256 settings, 4,096 rules, 16,384 entries", check, {64, 0, 0}, 4096},
    {"rewrite", "the same, 64 wishes", rewrite, {640, REWRITTEN, 0}, 4096},
    {"write_opb", "the same, the longest file", write_opb, {OPB_FILE, 0, 0}, 4096},
    {"search", "the same, 64 wishes", search_full, {0, 0, 0}, 262000},
    {"nearest", "the same, 64 wishes", nearest_full, {0, 0, 0}, 287000},
    {"plain", "640 settings, 9,000 rules, 31,000 entries", plain_full, {0, 0, 0}, 449000},
    {"search", "255 forks on a path, its first 64 wished off", search_deep, {64, 0, 0}, 262000},
    {"search", "255 forks on a path, its last 64 wished off", search_last, {63, 0, 0}, 262000},
    {"nearest", "255 forks on a path without a limit", nearest_deep, {0, 0, 0}, 287000},
    {"nearest", "254 forks on a path to the first choice", nearest_off, {0, 0, 0}, 287000},
    {"nearest", "255 forks on a path by the cores", nearest_turned, {1, 0, 0}, 287000},
    {"plain", "255 forks on a path", plain_half, {0, 0, 0}, 449000},
    {"plain", "639 forks on a path, the most there can be", plain_deep, {0, 0, 0}, 449000},
};

/* ---- the stack that a call takes: the lowest byte that it changed of a painted stack of 1 MB ---- */

enum { STACK = 1 << 20, PAGE = 4096, PAINT = 0xa5 };

static uint8_t *stack, *entry;
static ucontext_t here, there;
static void (*running)(void);

static void on_painted_stack(void) {
    entry = (uint8_t *)__builtin_frame_address(0);
    running();
}

static size_t stack_taken(void (*run)(void)) {
    size_t lowest = 0;
    memset(stack, PAINT, STACK);
    running = run;
    getcontext(&there);
    there.uc_stack.ss_sp = stack;
    there.uc_stack.ss_size = STACK;
    there.uc_link = &here;
    makecontext(&there, on_painted_stack, 0);
    swapcontext(&here, &there);
    while (stack[lowest] == PAINT)
        lowest++;
    return (size_t)(entry - (stack + lowest));
}

static void run_largest(void) {
    uint8_t *pages = (uint8_t *)mmap(NULL, STACK + PAGE, PROT_READ | PROT_WRITE, MAP_PRIVATE | MAP_ANONYMOUS, -1, 0);
    if (pages == MAP_FAILED || mprotect(pages, PAGE, PROT_NONE) != 0)
        abort();
    stack = pages + PAGE; /* below it lies a page that may not be touched */
    printf("%-14s %-48s %s\n", "call", "input", "bytes of stack");
    for (size_t k = 0; k < sizeof largest / sizeof *largest; k++) {
        const uint64_t *v = largest[k].value;
        size_t taken;
        memset(&result, 0xff, sizeof result);
        largest[k].run();
        is(largest[k].input, result, 0, 0, 1, v[0], v[1], v[2]);
        memset(&result, 0xff, sizeof result);
        taken = stack_taken(largest[k].run);
        is(largest[k].input, result, 0, 0, 1, v[0], v[1], v[2]);
        expect(taken <= largest[k].said, "the stack that the header names");
        printf("%-14s %-48s %8lu\n", largest[k].call, largest[k].input, (unsigned long)taken);
    }
}

/* ---- threads: searches at once on separate buffers ---- */

typedef struct {
    uint8_t choice[256];
    int alike;
} work;

static void *search_often(void *given) {
    work *own = (work *)given;
    own->alike = 1;
    for (int k = 0; k < 20; k++) {
        answer a;
        memset(own->choice, 9, 256);
        a = powhanire_search(256, ladder256, ladder256_len, off64, 256, 64, own->choice, 256);
        own->alike &= a.refusal == 0 && a.verdict == 1 && a.value[0] == 64 && memcmp(own->choice, out_choice, 256) == 0;
    }
    return NULL;
}

static void threads(void) {
    enum { THREADS = 4 };
    static work works[THREADS];
    pthread_t ids[THREADS];
    search_deep(); /* leaves in out_choice what each thread is to find */
    for (int k = 0; k < THREADS; k++)
        expect(pthread_create(&ids[k], NULL, search_often, &works[k]) == 0, "a thread starts");
    for (int k = 0; k < THREADS; k++) {
        pthread_join(ids[k], NULL);
        expect(works[k].alike, "a thread finds what a lone call finds");
    }
}

/* ---- the deepest calls in a thread of 512 KB, which suffices for all by the header ---- */

static void *in_thread(void *given) {
    running();
    return given;
}

static void small_thread(const char *what, void (*run)(void), uint64_t broken) {
    pthread_attr_t small;
    pthread_t id;
    memset(&result, 0xff, sizeof result);
    running = run;
    expect(pthread_attr_init(&small) == 0 && pthread_attr_setstacksize(&small, 512 << 10) == 0, "a stack of 512 KB is set");
    expect(pthread_create(&id, &small, in_thread, NULL) == 0, "a thread starts with it");
    pthread_join(id, NULL);
    is(what, result, 0, 0, 1, broken, 0, 0);
}

int main(void) {
    struct rlimit limit;
    expect(getrlimit(RLIMIT_STACK, &limit) == 0 && limit.rlim_cur <= STACK, "run under `ulimit -s 1024`");
    version();
    examples();
    repeated_entries();
    first_choice();
    rewriting_example();
    opb_example();
    build();
    run_largest();
    threads();
    small_thread("plain search's deepest path in a thread of 512 KB", plain_deep, 0);
    small_thread("nearest's deepest path in a thread of 512 KB", nearest_turned, 1);
    printf("%lu passed, %lu failed\n", passed, failed);
    return failed > 0;
}
