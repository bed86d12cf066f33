/* Prints the permitted settings nearest to what was wished, by name.
 *
 *     nearest RULES WISH
 *
 * The comments before the header of the rule file may name settings: `c NUMBER NAME`, where two spaces end the name.
 * With the library installed:
 *
 *     cc nearest.c $(pkg-config --cflags --libs powhanire) -o nearest
 */
#include <powhanire.h>

#include <inttypes.h>
#include <stdio.h>
#include <stdlib.h>
#include <string.h>

enum { RULES = 40000, SETTINGS = 256 }; /* these sizes always suffice */
enum { FREE = 2 };                      /* a setting that is not wished */

typedef struct {
    const char *name;
    uint8_t *bytes;
    size_t length;
} file;

static _Noreturn void fail(const char *name, const char *what) {
    fprintf(stderr, "%s: %s\n", name, what);
    exit(1);
}

static file read_file(const char *name) {
    enum { BLOCK = 65536 };
    file f = {name, NULL, 0};
    size_t got;
    FILE *in = fopen(name, "rb");
    if (!in)
        fail(name, "cannot be read");
    do {
        uint8_t *longer = realloc(f.bytes, f.length + BLOCK);
        if (!longer)
            fail(name, "too long");
        f.bytes = longer;
        got = fread(f.bytes + f.length, 1, BLOCK, in);
        f.length += got;
    } while (got > 0);
    if (ferror(in))
        fail(name, "cannot be read");
    fclose(in);
    return f;
}

static const char *what_is_wrong(uint64_t refusal) {
    switch (refusal) {
    case 1: return "the header `p cnf N C` is missing or malformed";
    case 2: return "the header's N or C is out of range";
    case 3: return "this is neither an entry (V or -V, without leading zeros) nor the 0 that closes a rule";
    case 4: return "the entry's setting is above N";
    case 6: return "there are more rules than the header's C, or fewer, or the last is not closed";
    case 7: return "there are more than 31000 entries";
    case 8: return "the line is cut, out of column or malformed, or comes after the last wish";
    case 9: return "the first line's number of settings, number of wishes or limit is out of range";
    case 10: return "the wish's setting is out of range or not rising, or its value is neither 0 nor 1";
    case 11: return "the wish row or the choice is for more or fewer settings than the rules";
    case 12: return "with wishes there are at most 256 settings, 4096 rules and 16384 entries";
    default: return "the library refuses this"; /* the others come of no file */
    }
}

/* Ends the program if the answer is a refusal, whose place is in this file (that of 11 and 12 is always 0). */
static powhanire_answer accepted(powhanire_answer answer, const file *f) {
    size_t line = 1, column = 1;
    if (answer.refusal == 0)
        return answer;
    for (size_t k = 0; k < answer.place; k++) {
        line += f->bytes[k] == '\n';
        column = f->bytes[k] == '\n' ? 1 : column + 1;
    }
    fprintf(stderr, "%s:%zu:%zu: %s\n", f->name, line, column, what_is_wrong(answer.refusal));
    exit(1);
}

/* Prints a setting's name, or else its number. The file was accepted, so that each comment line has its line feed. */
static void print_name(const file *rules, size_t setting) {
    const char *line = (const char *)rules->bytes, *feed;
    char number[24];
    const size_t digits = (size_t)snprintf(number, sizeof number, "%zu ", setting);
    for (; *line == 'c'; line = feed + 1) {
        const char *name = line + 1 + strspn(line + 1, " "), *end;
        feed = memchr(line, '\n', rules->length - (size_t)(line - (const char *)rules->bytes));
        if (strncmp(name, number, digits) != 0)
            continue;
        name += digits + strspn(name + digits, " ");
        for (end = name; end < feed && strncmp(end, "  ", 2) != 0; end++)
            ;
        if (end > name) {
            fwrite(name, 1, (size_t)(end - name), stdout);
            return;
        }
    }
    printf("%zu", setting);
}

static void print_choice(const file *rules, const uint8_t *row, const uint8_t *choice, size_t settings) {
    static const char *const value[] = {"off", "on"};
    for (size_t v = 0; v < settings; v++) {
        printf("%-4s ", value[choice[v]]);
        print_name(rules, v + 1);
        if (row[v] != FREE && row[v] != choice[v])
            printf(" (wished %s)", value[row[v]]);
        putchar('\n');
    }
}

int main(int argc, char **argv) {
    static int32_t rules[RULES];
    static uint8_t row[SETTINGS], choice[SETTINGS];
    if (argc != 3) {
        fprintf(stderr, "usage: nearest RULES WISH\n");
        return 2;
    }
    if (powhanire_version() != POWHANIRE_VERSION)
        fail("libpowhanire.a", "not of the header's version");
    file rule_file = read_file(argv[1]), wish_file = read_file(argv[2]);
    powhanire_answer r = accepted(powhanire_read_rules(rule_file.bytes, rule_file.length, rules, RULES), &rule_file);
    powhanire_answer w = accepted(powhanire_read_wishes(wish_file.bytes, wish_file.length, row, SETTINGS), &wish_file);
    uint64_t n = r.value[0], length = r.value[2], wishes = w.value[1];
    powhanire_answer a = powhanire_nearest(n, rules, length, row, w.value[0], choice, SETTINGS);
    accepted(a, a.refusal == 11 ? &wish_file : &rule_file); /* 11: the wishes are for another n */
    if (a.verdict == 1) {
        printf("%" PRIu64 " of %" PRIu64 " wishes broken\n", a.value[0], wishes);
        print_choice(&rule_file, row, choice, n);
    } else {
        printf("no choice meets the rules\n");
    }
    free(rule_file.bytes);
    free(wish_file.bytes);
    if (fflush(stdout) != 0 || ferror(stdout))
        fail("standard output", "cannot be written");
    return 0;
}
