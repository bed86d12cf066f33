//! The table of the public calls: what each reads, in its order, and what it writes; what it says; with which numbers it
//! refuses. The kinds of what it reads are in `lent.rs`.

use crate::{Call, Kind, Says, Writes};

table! {
    CHECK:        check(n, rules, row, choice)           Met       [11 12 13 14];
    READ_RULES:   read_rules(rule_file => List)          Read      [1 2 3 4 6 7 15];
    WRITE_RULES:  write_rules(n, rules => File)          Written   [13 14 15];
    READ_WISHES:  read_wishes(wish_file => Row)          Read      [8 9 10 15];
    WRITE_WISHES: write_wishes(n, row, d => File)        Written   [11 12 13 14 15];
    SEARCH:       search(n, rules, row, d => Choice)     Within    [11 12 13 14 15];
    PLAIN:        plain(n, rules => Choice)              Any       [13 14 15];
    NEAREST:      nearest(n, rules, row => Choice)       First     [11 12 13 14 15];
    REWRITE:      rewrite(n, rules, row, d => List)      Rewritten [11 12 13 14 15];
    WRITE_OPB:    write_opb(n, rules, row, d => File)    Written   [11 12 13 14 15 16];
}

/// No public call tells the forks yet; the program `cases` does (docs/DECISIONS.md, "Tests").
pub const FORKS: &Call = &Call {
    name: "forks",
    lent: &[Kind::n, Kind::rules, Kind::row, Kind::d],
    writes: None,
    says: Says::Forks,
    refusals: &[11, 12, 13, 14],
    reference: |lent, _| reference::forks(lent.n, lent.rules, lent.row, lent.d),
    layers: &[],
};
