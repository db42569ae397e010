//! Tables that are damaged: reason 12 with nothing changed, or, where they still agree, what the independent program does.

use std::collections::BTreeSet;

use boundary::differences::TABLE_NAMES;
use boundary::{agreeing, few_flips, full_tables, holding, Lent, Sides, Tally, NARROW, ORDER};
use oracle::generate::*;
use oracle::limits::TABLES;
use oracle::marks::mark_of;
use oracle::reasons::{NONE, PINNED_TERM, TABLES_DISAGREE, TABLE_TOO_SHORT};
use oracle::state::values_of;
use oracle::{Counts, Tables};

/// Gives a list and an order to what is lent; both must get the same reason, which is told. Where the tables agree, the list may name a
/// term that has become pinned.
fn reason_of_both(sides: &mut Sides, list: &[u64]) -> u64 {
    let reason = match sides.flip(list).reason {
        PINNED_TERM => NONE,
        reason => reason,
    };
    assert_eq!(sides.walk(&ORDER).reason, reason);
    reason
}

/// Gives a list and an order to what is lent; both must be refused, with nothing changed.
fn refuse_both(sides: &mut Sides, list: &[u64]) {
    sides.refuse(list, TABLES_DISAGREE);
    sides.refuse_order(&ORDER, TABLES_DISAGREE);
}

/// Tables with one entry xored by this difference.
fn changed(tables: &Tables, table: usize, entry: usize, difference: u64) -> Tables {
    let mut tables = tables.clone();
    tables.all_mut()[table][entry] ^= difference;
    tables
}

/// Whether tables can still agree with this entry changed: another name may be valid, and a term may be pinned at the value it has.
fn may_agree(counts: &Counts, tables: &Tables, [table, entry]: [usize; 2]) -> bool {
    match TABLE_NAMES[table] {
        "names" => true,
        "marks" => tables.marks[entry] == mark_of(Some(values_of(counts, tables)[entry])),
        _ => false,
    }
}

/// Tables of seven terms, one of them in no clause, where several clauses are uncovered. The first literal of all is false and stands
/// nowhere else, so that of the other tables none shows whether the first clause has it.
fn small_file() -> Lent {
    let text = b"z a b\n~a b c\n~b ~c\nd\n~d a\n~d ~a\nc ~e\nf ~f\ne a ~c d\na\n~a\ne\n~e\n";
    let (counts, tables) = holding(text, &mut Random::new(2));
    assert!(counts.terms == 7 && counts.uncovered >= 3 && tables.values[0] & 1 == 0);
    (counts, tables)
}

/// Every entry of a small file, changed by one, in its second bit and in its highest.
#[test]
fn each_entry_in_use_is_judged() {
    let mut sides = Sides::start();
    let (counts, tables) = small_file();
    for (table, used) in counts.in_use().into_iter().enumerate() {
        let top = 1 << (NARROW.entry_bits()[table] - 1);
        for (entry, difference) in (0..used).flat_map(|entry| [1, 2, top].map(|bit| (entry, bit))) {
            let case = format!("{} entry {entry} xor {difference}", TABLE_NAMES[table]);
            let changed = changed(&tables, table, entry, difference);
            let may_agree = may_agree(&counts, &changed, [table, entry]);
            sides.lend(case, (counts, changed));
            let reason = reason_of_both(&mut sides, &[0, 1, 0, 2]);
            assert!(reason == TABLES_DISAGREE || may_agree);
        }
    }
}

/// Places past those in use: the first, the last, and some between.
fn places_past_use(used: usize, full: usize, random: &mut Random) -> BTreeSet<usize> {
    let between = (0..20).map(|_| random.between(used, full - 1));
    between.chain([used, full - 1]).collect()
}

#[test]
fn each_table_is_judged_past_those_in_use() {
    let mut sides = Sides::start();
    let random = &mut Random::new(4);
    let (counts, tables) = small_file();
    let ends = counts.in_use().into_iter().zip(NARROW.full_sizes());
    for (table, (used, full)) in ends.enumerate() {
        for entry in places_past_use(used, full, random) {
            let difference = some_difference(NARROW.entry_bits()[table], random);
            let case = format!("{} entry {entry} is {difference}", TABLE_NAMES[table]);
            sides.lend(case, (counts, changed(&tables, table, entry, difference)));
            refuse_both(&mut sides, &few_flips(counts.terms, random));
        }
    }
}

/// Changes one entry of a table at random, and tells the reason that both calls are given.
fn reason_of_change(
    sides: &mut Sides,
    standing: &Lent,
    entry: [usize; 2],
    random: &mut Random,
) -> u64 {
    let [table, entry] = entry;
    let (counts, tables) = standing;
    let difference = some_difference(NARROW.entry_bits()[table], random);
    let case = format!("{} entry {entry} xor {difference}", TABLE_NAMES[table]);
    sides.lend(case, (*counts, changed(tables, table, entry, difference)));
    reason_of_both(sides, &few_flips(counts.terms, random))
}

#[test]
fn each_table_of_any_file_is_judged_in_one_entry() {
    let mut sides = Sides::start();
    let mut refused = BTreeSet::new();
    for seed in 0..40 {
        let random = &mut Random::new(seed);
        let standing = agreeing(random);
        let used = standing.0.in_use().into_iter().enumerate();
        for (table, used) in used.filter(|(_, used)| *used > 0) {
            let entry = [table, random.below(used)];
            if reason_of_change(&mut sides, &standing, entry, random) == TABLES_DISAGREE {
                refused.insert(table);
            }
        }
    }
    assert_eq!(refused, (0..TABLES).collect());
}

#[test]
fn the_first_and_the_last_entry_of_tables_full_to_the_limits_are_judged() {
    let mut sides = Sides::start();
    let random = &mut Random::new(5);
    let standing = full_tables(random);
    for (table, full) in NARROW.full_sizes().into_iter().enumerate() {
        for entry in [0, full - 1] {
            let reason = reason_of_change(&mut sides, &standing, [table, entry], random);
            let may_agree = ["names", "marks"].contains(&TABLE_NAMES[table]);
            assert!(reason == TABLES_DISAGREE || may_agree);
        }
    }
}

#[test]
fn each_spare_value_bit_of_the_last_word_is_judged() {
    let mut sides = Sides::start();
    let (counts, tables) = small_file();
    for bit in counts.terms..32 {
        let case = format!("spare bit {bit}");
        sides.lend(case, (counts, changed(&tables, 1, 0, 1 << bit)));
        refuse_both(&mut sides, &[0]);
    }
}

/// Both calls on tables with this kind of damage; how often each reason is met.
fn reasons_of(kind: DamageKind, sides: &mut Sides) -> Tally<u64> {
    let mut met = Tally::default();
    for seed in 0..100 {
        let random = &mut Random::new(seed);
        let (mut counts, mut tables) = agreeing(random);
        let list = few_flips(counts.terms, random);
        damage_of(kind, &NARROW, &mut counts, &mut tables, random);
        sides.lend(format!("{kind:?}, seed {seed}"), (counts, tables));
        met.note(reason_of_both(sides, &list));
    }
    met
}

#[test]
fn each_kind_of_damage_is_judged_as_the_independent_program_judges_it() {
    use DamageKind::*;
    let mut sides = Sides::start();
    for kind in DamageKind::ALL {
        let met = reasons_of(kind, &mut sides);
        let expected = match kind {
            None | NameOther | ListReordered | Longer => NONE,
            OneShorter => TABLE_TOO_SHORT,
            _ => TABLES_DISAGREE,
        };
        assert!(met.times(expected) > 0, "{kind:?} {met:?}");
    }
}

/// Other counts: near, at the limits, equal in the low 16 bits, and at the type's end.
fn other_counts(count: u64) -> BTreeSet<u64> {
    let near = [0, 1, count.saturating_sub(1), count + 1, 2 * count + 1];
    let limits = [2_048, 2_049, 4_096, 8_192, 8_193, 16_384, 16_385];
    let ends = [
        32_768,
        65_535,
        65_536,
        65_536 + count,
        1 << 31,
        (1 << 31) + count,
    ];
    let far = [u64::from(u32::MAX) - 1, u64::from(u32::MAX)];
    let all = near.into_iter().chain(limits).chain(ends).chain(far);
    all.filter(|other| *other != count).collect()
}

#[test]
fn each_of_the_four_counts_is_judged() {
    let mut sides = Sides::start();
    let (counts, tables) = small_file();
    for (number, count) in counts.all().into_iter().enumerate() {
        for other in other_counts(count) {
            let mut counts = counts;
            *counts.all_mut()[number] = other;
            let case = format!("count {number} is {other}");
            sides.lend(case, (counts, tables.clone()));
            refuse_both(&mut sides, &[0, 1]);
        }
    }
}

#[test]
fn all_four_counts_at_the_types_end_or_at_0_are_reason_12() {
    let mut sides = Sides::start();
    for count in [0, u64::from(u16::MAX), u64::from(u32::MAX)] {
        let mut counts = Counts::default();
        for each in counts.all_mut() {
            *each = count;
        }
        sides.lend(format!("counts {count}"), (counts, small_file().1));
        refuse_both(&mut sides, &[0]);
        let case = format!("counts {count}, tables 0");
        sides.lend(case, (counts, Tables::zeros(&NARROW)));
        refuse_both(&mut sides, &[]);
    }
}
