/* Powhanire: the permitted settings nearest to what was wished.
 *
 * Link with libpowhanire.a (x86-64), which `rt lib --cpu x86-64` in crates/powhanire writes to out/ there and
 * tools/install installs.
 *
 * Data
 *   A setting has a number from 1 to n.
 *   A rule list is one run of signed numbers, each rule closed by 0: entry v holds when setting v is on,
 *   entry -v when it is off, and a rule is met when one of its entries holds. {1, 2, 0, -3, 0} is two rules.
 *   A rule holds no two equal entries (a file may: see read_rules). It may hold v and -v; such a rule is always
 *   met. An empty list has no rules; a rule without entries is never met.
 *   A wish row has n bytes: 0 wished off, 1 wished on, 2 free; at most 64 wishes.
 *   A choice has n bytes: 0 off, 1 on. It breaks a wish where it has the other value.
 *
 * Limits
 *   n from 1 to 640; 9,000 rules; 31,000 entries (closing zeros not counted).
 *   A call that takes a wish row: n at most 256, 4,096 rules, 16,384 entries. A limit d: 0 to 64.
 *   The calls refuse what is beyond; they never read or write past a lent length.
 *
 * Lending
 *   Every buffer is a pointer and a length in elements (bytes for uint8_t, numbers for int32_t).
 *   `const` buffers are read, the last buffer of a call is written (check writes none), and it may overlap none of the
 *   others.
 *   A pointer lent with length 0 is not followed and may be NULL.
 *   A refusal leaves every buffer as it was. So does "none". On success only the part that the call fills
 *   changes, and what lies past it stays. A longer output buffer than needed is accepted.
 *   These sizes always suffice:
 *     rules     (read_rules)    40,000 numbers       31,000 entries and 9,000 closing zeros
 *     file      (write_rules)   173,015 bytes        at most 15 + 5 * entries + 2 * rules
 *     row       (read_wishes)   256 bytes            n
 *     file      (write_wishes)  720 bytes            16 + 11 * wishes
 *     choice    (searches)      n bytes              at most 256 with a wish row, 640 without
 *     rewritten (rewrite)       38,914 numbers       at most the given list's length + 18,434
 *     file      (write_opb)     165,306 bytes        at most 44 + 9 * entries + 8 * rules + 8 * wishes
 *   A call that refuses with 15 says in `place` how many elements it needs.
 *
 * The calls keep no state and use no heap, so several threads may call at once. They may share what is only read; a
 * buffer that is written is one thread's alone.
 * Stack, measured by tests/interface/run at the deepest inputs there are: plain up to 303,440 bytes
 * (256 for each fork on a path, of which 640 settings allow 639), nearest up to 227,232, search up to
 * 204,528, the other calls up to 4,096. A thread with 512 KB suffices for all.
 */
#ifndef POWHANIRE_H
#define POWHANIRE_H

#include <stddef.h>
#include <stdint.h>

#ifdef __cplusplus
extern "C" {
#endif

/* The version of this header: one number, which grows from version to version, and a text. MAJOR changes where a caller
 * has to change, MINOR where something is new, PATCH else. */
#define POWHANIRE_VERSION_MAJOR 1
#define POWHANIRE_VERSION_MINOR 0
#define POWHANIRE_VERSION_PATCH 1
#define POWHANIRE_VERSION_TEXT "1.0.1"
#define POWHANIRE_VERSION \
    (POWHANIRE_VERSION_MAJOR * 10000 + POWHANIRE_VERSION_MINOR * 100 + POWHANIRE_VERSION_PATCH)

/* The version of the archive: POWHANIRE_VERSION of the header that it was made with. */
uint64_t powhanire_version(void);

/* What every call but powhanire_version returns.
 *
 * refusal, place (the first that applies; places count from 0)
 *    1  rule file: header absent or malformed        first byte of the first line that is neither comment nor
 *                                                     header; file length if there is none
 *    2  rule file: N or C outside range              the header's first byte
 *    3  rule file: malformed token                   the token's first byte
 *    4  rule file: entry above N                     the token's first byte
 *    5  never returned
 *    6  rule file: token after C rules;              the token's first byte;
 *       too few rules closed, or one left open       file length
 *    7  rule file: entry 31,001                      the token's first byte
 *       (a repeat is none)
 *    8  wish file: line cut, out of column or        the line's first byte;
 *       malformed; bytes after the last line         the first extra byte
 *    9  wish file: header out of range               0
 *   10  wish file: setting 0, above n or not rising; the line's first byte
 *       mark neither 0 nor 1
 *   11  row or given choice not of length n          0
 *   12  wish row lent with n above 256,              0
 *       over 4,096 rules or over 16,384 entries
 *   13  unsound rule list, row or given choice       index of the first bad element; length if not closed
 *   14  n outside 1 to 640, or d above 64            0
 *   15  output buffer too short                      length needed, in elements
 *   16  rule without entries lent to write_opb       index of the first such rule's closing zero
 * A file's leftmost fault comes first; at one token the order is 3, 6, 7, 4; on a wish line 8, then 9 or 10.
 * Lent values are judged in the order 14, 13 (rules, row, choice), 11, 12, 16; the output's length (15) is last.
 */
typedef struct {
    uint64_t refusal;   /* 0, or the number above */
    uint64_t place;     /* the refusal's place, else 0 */
    uint64_t verdict;   /* searches: 1 found, 0 none; check: 1 met, 0 not; other calls: 1; 0 on a refusal */
    uint64_t value[3];  /* as said at each call; 0 where unused, on a refusal and on "none" */
} powhanire_answer;

/* Reads a rule file (narrowed DIMACS CNF) into a rule list: the header `p cnf N C` and a line feed, then C rules
 * of signed numbers, each closed by 0, with blanks (9, 10, 13, 32) between the numbers. A line whose first byte is
 * `c` is a comment and is skipped up to its line feed or the end of the file, before the header and anywhere after
 * it, inside a rule too. After the header any other `c` outside comments makes a malformed token (3). Only a line
 * feed begins a line. A carriage return in the header's line is refused (1); after the header it is blank.
 * An entry that its rule holds already is left out of the list, and counts neither toward the 31,000 entries nor
 * toward the length; v and -v in one rule are both kept.
 * value: settings N, rules C, length of the list. */
powhanire_answer powhanire_read_rules(const uint8_t *file, size_t file_len,
                                      int32_t *rules, size_t rules_len);

/* Writes the rule file of a list, without comments; reading it gives the list again.
 * value: length of the file. */
powhanire_answer powhanire_write_rules(uint64_t n, const int32_t *rules, size_t rules_len,
                                       uint8_t *file, size_t file_len);

/* Reads a wish file into a wish row. Its numbers stand right-justified in columns of 5 bytes, with spaces before them
 * and no leading zeros, and a line feed follows the last column of a line. Line 1 has n (1 to 256), the number of
 * wishes (at most n and at most 64) and the limit (at most 64); then each wish has a line, by rising setting: the
 * setting, and 1 for on or 0 for off. Nothing else may stand in the file.
 * value: settings n, wishes, limit d. */
powhanire_answer powhanire_read_wishes(const uint8_t *file, size_t file_len,
                                       uint8_t *row, size_t row_len);

/* Writes the wish file of a row and a limit.
 * value: length of the file. */
powhanire_answer powhanire_write_wishes(uint64_t n, const uint8_t *row, size_t row_len, uint64_t d,
                                        uint8_t *file, size_t file_len);

/* Says whether a choice meets all rules (verdict), and how many wishes it breaks, met or not.
 * value: broken wishes. Nothing is written. */
powhanire_answer powhanire_check(uint64_t n, const int32_t *rules, size_t rules_len,
                                 const uint8_t *row, size_t row_len,
                                 const uint8_t *choice, size_t choice_len);

/* Finds a choice that meets all rules and breaks at most d wishes, or says that there is none.
 * A choice shorter than n is refused (15) before the search starts.
 * value: wishes that the choice breaks. */
powhanire_answer powhanire_search(uint64_t n, const int32_t *rules, size_t rules_len,
                                  const uint8_t *row, size_t row_len, uint64_t d,
                                  uint8_t *choice, size_t choice_len);

/* Finds a choice that meets all rules, or says that there is none. No wishes, so the larger limits hold.
 * value: unused. */
powhanire_answer powhanire_plain(uint64_t n, const int32_t *rules, size_t rules_len,
                                 uint8_t *choice, size_t choice_len);

/* Finds the first choice that meets all rules and breaks as few wishes as any such choice, off before on,
 * compared from setting 1 upward, or says that no choice meets the rules. So rule books that permit the same
 * choices give the same bytes for the same wishes.
 * value: wishes that the choice breaks. */
powhanire_answer powhanire_nearest(uint64_t n, const int32_t *rules, size_t rules_len,
                                   const uint8_t *row, size_t row_len,
                                   uint8_t *choice, size_t choice_len);

/* Rewrites rules, wishes and limit into plain rules: a choice can be completed to meet these, in one way,
 * exactly when it meets the given rules and breaks at most d wishes. The added settings count from n + 1.
 * value: settings of the rewritten list, its length. */
powhanire_answer powhanire_rewrite(uint64_t n, const int32_t *rules, size_t rules_len,
                                   const uint8_t *row, size_t row_len, uint64_t d,
                                   int32_t *rewritten, size_t rewritten_len);

/* Writes rules, wishes and limit as an OPB file, for pseudo-Boolean solvers: a choice satisfies its lines exactly when
 * it meets the rules and breaks at most d wishes. The first line is `* #variable= N #constraint= C`, with C the number
 * of lines after it. Each rule is a line: `+1 xV` for entry V, `-1 xV` for -V, in order, then `>= K ;`, K being 1 less
 * the number of negative entries. If there are wishes, a last line has `+1 xV` for wished on and `-1 xV` for wished
 * off, by rising setting, and K is the number wished on less d. K has a minus if it is below 0, single spaces divide
 * all parts, and a line feed ends each line. A rule without entries is refused (16).
 * value: length of the file. */
powhanire_answer powhanire_write_opb(uint64_t n, const int32_t *rules, size_t rules_len,
                                     const uint8_t *row, size_t row_len, uint64_t d,
                                     uint8_t *file, size_t file_len);

#ifdef __cplusplus
}
#endif

#endif
