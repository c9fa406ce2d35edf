//! The generators make what they are for: each refusal with its neighbour just
//! inside, interesting rules, streams with long runs.

use rust_tests::paper::{
    body_of_text, evaluate, figures, figures_without, read_body, rule_place, set_rules, write_body,
    write_sheet, Bound, Formula, Low, BODY_REFUSALS, LAST_REFUSAL, MAX_HISTORY, MAX_OFFSET,
    RULE_REFUSALS,
};
use rust_tests::random::{
    accepted_rule, aimed, any_body, any_set_sheet, any_text, begun, calendar_length,
    calendar_words, crowded, damaged_sheet, depth, edge_ticks, faulty_bounds, figure_boundary,
    loose_text, often_empty_rule, rule_of_cells, rule_set, sheet_of_rules, size, stream,
    twice_damaged, typed, wild_formula, writer_input, Random, Rule,
};
use rust_tests::ranges::{ranges, Around, Placed};

/// How often each number was answered, 0 for none.
type Counts = [u64; LAST_REFUSAL as usize + 1];

fn all_above(counts: &Counts, numbers: &[u32], least: u64) -> bool {
    numbers.iter().all(|&number| counts[number as usize] > least)
}

/// A body aimed at a refusal of its bytes gets that number, and its neighbour none.
#[test]
fn aimed_bodies() {
    let mut random = Random::new(201);
    for &number in BODY_REFUSALS {
        for _ in 0..1_000 {
            let pair = aimed(&mut random, number);
            assert_eq!(read_body(&pair.outside).err(), Some(number), "{pair:?}");
            assert_eq!(figures(&pair.outside).err(), Some(number), "{pair:?}");
            assert_eq!(evaluate(&pair.outside, &[], 0).err(), Some(number), "{pair:?}");
            assert!(read_body(&pair.inside).is_ok(), "{number}: {pair:?}");
        }
    }
}

/// The same for 11 to 15, by the figures.
#[test]
fn figure_boundaries() {
    let mut random = Random::new(202);
    for number in 11..=15 {
        for _ in 0..300 {
            let pair = figure_boundary(&mut random, number);
            assert_eq!(figures(&pair.outside).err(), Some(number), "{pair:?}");
            assert!(figures(&pair.inside).is_ok(), "{number}: {pair:?}");
        }
    }
}

/// Where a 65th formula is due, 4 and 5 come before 9; before it nothing is refused by 9.
#[test]
fn crowded_bodies() {
    let mut random = Random::new(212);
    let number = |before: &[u8], more: &[u8]| read_body(&[before, more].concat()).err();
    for _ in 0..1_000 {
        let before = begun(&mut random, 64);
        assert_eq!(number(&before, &[]), Some(4), "{before:?}");
        for unknown in [0, 6, 255] {
            assert_eq!(number(&before, &[unknown]), Some(5), "{before:?}");
        }
        for known in 1..=5 {
            assert_eq!(number(&before, &[known]), Some(9), "{before:?}");
        }
        let before = begun(&mut random, 63);
        assert_eq!(number(&before, &[6]), Some(5), "{before:?}");
        assert_eq!(number(&before, &[1]), Some(4), "{before:?}");
    }
    let mut counts = Counts::default();
    for _ in 0..4_000 {
        counts[read_body(&crowded(&mut random)).err().unwrap_or(0) as usize] += 1;
    }
    assert!(all_above(&counts, &[0, 4, 5, 9, 10], 20), "{counts:?}");
}

/// The limits themselves are met: delay 255, history 4,096, cells 4,096.
#[test]
fn boundaries_meet_the_limits() {
    let mut random = Random::new(203);
    let (mut delays, mut histories, mut cells) = (0, 0, 0);
    for _ in 0..500 {
        let inside =
            |random: &mut Random, number| figures(&figure_boundary(random, number).inside).unwrap();
        delays += (inside(&mut random, 12).delay == 255) as u64;
        histories += (inside(&mut random, 14).history == MAX_HISTORY as u64) as u64;
        cells += (inside(&mut random, 15).cells > 4_000) as u64;
    }
    assert_eq!((delays, histories), (500, 500));
    assert!(cells > 150, "{cells} rules of more than 4,000 cells");
}

#[test]
fn accepted_rules_are_interesting() {
    let mut random = Random::new(204);
    let rounds = 4_000;
    let (mut short, mut waiting, mut reaching, mut four, mut large) = (0, 0, 0, 0, 0);
    let mut codes = [0; 6];
    for _ in 0..rounds {
        let rule = accepted_rule(&mut random);
        assert_eq!(figures(&rule.body), Ok(rule.figures));
        assert_eq!(read_body(&rule.body), Ok(rule.formula.clone()));
        short += (rule.figures.delay <= 20) as u64;
        waiting += (1..=20).contains(&rule.figures.delay) as u64;
        reaching += (rule.figures.history > 0) as u64;
        four += (depth(&rule.formula) == 4) as u64;
        large += (size(&rule.formula) > 20) as u64;
        count_codes(&rule.formula, &mut codes);
    }
    assert!(short > rounds * 8 / 10, "{short} with delay 0..20");
    assert!(waiting > rounds * 6 / 10, "{waiting} with delay 1..20");
    assert!(reaching > rounds / 2, "{reaching} with history");
    assert!(four > rounds / 10, "{four} with four nested ranges");
    assert!(large > rounds / 100, "{large} with more than 20 formulas");
    assert!(codes[1..].iter().all(|&count| count > rounds / 2), "codes {codes:?}");
}

fn count_codes(formula: &Formula, codes: &mut [u64; 6]) {
    match formula {
        Formula::Flag(..) => codes[1] += 1,
        Formula::Not(part) => {
            codes[2] += 1;
            count_codes(part, codes);
        }
        Formula::Then(f, g) | Formula::Beside(f, g) => {
            codes[if matches!(formula, Formula::Then(..)) { 3 } else { 4 }] += 1;
            count_codes(f, codes);
            count_codes(g, codes);
        }
        Formula::ForAll(_, _, part) => {
            codes[5] += 1;
            count_codes(part, codes);
        }
    }
}

/// Every kind of bound, and offsets at their limits.
#[test]
fn wild_formulas_are_wild() {
    let mut random = Random::new(205);
    let mut seen = Vec::new();
    for _ in 0..3_000 {
        bounds(&wild_formula(&mut random), &mut seen);
    }
    let count = |wanted: &dyn Fn(&Bound) -> bool| seen.iter().filter(|b| wanted(b)).count();
    assert!(count(&|b| matches!(b, Bound::Start(_))) > 200);
    assert!(count(&|b| *b == Bound::Infinity) > 200);
    for limit in [-MAX_OFFSET, MAX_OFFSET] {
        assert!(count(&|b| matches!(b, Bound::Variable(_, n) if *n == limit)) > 20);
        assert!(count(&|b| *b == Bound::Start(limit)) > 5);
    }
    for variable in 0..=3 {
        assert!(count(&|b| matches!(b, Bound::Variable(v, _) if *v == variable)) > 50);
    }
}

fn bounds(formula: &Formula, seen: &mut Vec<Bound>) {
    match formula {
        Formula::Flag(..) => {}
        Formula::Not(part) => bounds(part, seen),
        Formula::Then(f, g) | Formula::Beside(f, g) => {
            bounds(f, seen);
            bounds(g, seen);
        }
        Formula::ForAll(first, second, part) => {
            seen.extend([*first, *second]);
            bounds(part, seen);
        }
    }
}

/// Ranges whose body names their variable at a flag, only in a bound, and not at all.
#[test]
fn ranges_name_their_variable_or_not() {
    let mut random = Random::new(209);
    let mut seen = [0; 3];
    for _ in 0..3_000 {
        count_ranges(&wild_formula(&mut random), 0, &mut seen);
    }
    assert!(seen.iter().all(|&count| count > 300), "{seen:?}");
}

fn count_ranges(formula: &Formula, nested: usize, seen: &mut [u64; 3]) {
    match formula {
        Formula::Flag(..) => {}
        Formula::Not(part) => count_ranges(part, nested, seen),
        Formula::Then(f, g) | Formula::Beside(f, g) => {
            count_ranges(f, nested, seen);
            count_ranges(g, nested, seen);
        }
        Formula::ForAll(_, _, part) => {
            let mut inside = Vec::new();
            bounds(part, &mut inside);
            let bounded =
                inside.iter().any(|b| matches!(b, Bound::Variable(v, _) if *v == nested + 1));
            seen[if at_flag(part, nested + 1) { 0 } else { 2 - bounded as usize }] += 1;
            count_ranges(part, nested + 1, seen);
        }
    }
}

fn at_flag(formula: &Formula, variable: usize) -> bool {
    match formula {
        Formula::Flag(v, _) => *v == variable,
        Formula::Not(part) | Formula::ForAll(_, _, part) => at_flag(part, variable),
        Formula::Then(f, g) | Formula::Beside(f, g) => at_flag(f, variable) || at_flag(g, variable),
    }
}

/// The rules of which one range in four is always empty.
fn often_empty_rules() -> Vec<Rule> {
    let mut random = Random::new(216);
    (0..4_000).map(|_| often_empty_rule(&mut random)).collect()
}

fn all_ranges(rules: &[Rule]) -> Vec<Placed> {
    rules.iter().flat_map(|rule| ranges(&rule.formula)).collect()
}

/// About one range in four that is counted by its place; from infinity, and through variables
/// of every depth, by one position and by more.
#[test]
fn one_range_in_four_is_always_empty() {
    let counted = all_ranges(&often_empty_rules()).into_iter().filter(Placed::counted);
    let (empty, live): (Vec<_>, Vec<_>) = counted.partition(Placed::always_empty);
    let share = 100 * empty.len() / (empty.len() + live.len());
    assert!((21..=29).contains(&share), "{share} of a hundred, {} in all", empty.len());
    let count = |wanted: &dyn Fn(&Placed) -> bool| empty.iter().filter(|r| wanted(r)).count();
    let gap = |range: &Placed| match (range.pair.l, range.pair.u) {
        (Low::At(l), Some(u)) => Some(l - u),
        _ => None,
    };
    assert!(count(&|range| range.bounds == (Bound::Infinity, Bound::Infinity)) > 200);
    assert!(count(&|range| range.pair.l == Low::Infinity && range.pair.u.is_some()) > 200);
    assert!(count(&|range| gap(range) == Some(1)) > 200);
    assert!(count(&|range| gap(range) > Some(1)) > 200);
    assert!(live.iter().filter(|range| gap(range) == Some(0)).count() > 200);
    for variable in 0..=3 {
        let from = |bound| matches!(bound, Bound::Variable(v, _) if v == variable);
        assert!(count(&|range| from(range.bounds.0)) > 20, "from variable {variable}");
        assert!(count(&|range| from(range.bounds.1)) > 20, "to variable {variable}");
    }
}

/// As the only formula, and in each part of every formula.
#[test]
fn always_empty_ranges_stand_everywhere() {
    let empty: Vec<Placed> =
        all_ranges(&often_empty_rules()).into_iter().filter(Placed::always_empty).collect();
    let count = |wanted: &dyn Fn(&Placed) -> bool| empty.iter().filter(|r| wanted(r)).count();
    assert!(count(&|range| range.around.is_empty()) > 100, "alone");
    for around in [
        Around::Not,
        Around::ThenFirst,
        Around::ThenSecond,
        Around::BesideFirst,
        Around::BesideSecond,
        Around::Range,
        Around::EmptyRange,
    ] {
        let right_in = |range: &Placed| range.around.last() == Some(&around);
        assert!(count(&right_in) > 200, "{around:?}: {}", count(&right_in));
    }
    assert!(count(&|range| range.outer.len() == 3) > 100, "the fourth nested");
}

/// Always empty ranges over what the engine refuses where it is counted, and over many formulas.
/// Document 01, which counted every range, refused such rules with each of 11 to 15.
#[test]
fn always_empty_ranges_stand_over_anything() {
    let rules = often_empty_rules();
    let count = |wanted: &dyn Fn(&Rule) -> bool| rules.iter().filter(|r| wanted(r)).count();
    let by_01 = |rule: &Rule| figures_without(&rule.formula, [|_, _, _| false; 3]);
    for number in 11..=15 {
        let seen = count(&|rule| by_01(rule) == Err(number));
        assert!(seen >= 5, "{number}: {seen}");
    }
    assert!(count(&|rule| by_01(rule).is_err()) > rules.len() / 4, "newly accepted");
    assert!(count(&|rule| size(&rule.formula) > 40) > 50, "large");
    assert!(count(&|rule| rule.figures.delay > 0) > rules.len() / 2, "with a delay");
    assert!(count(&|rule| rule.figures.history > 0) > rules.len() / 4, "with a history");
    for rule in &rules {
        assert_eq!(read_body(&rule.body), Ok(rule.formula.clone()));
    }
}

/// Bodies of any sort hit every number, and so do those damaged twice; faulty bounds
/// hit every number of a bound.
#[test]
fn any_bodies_hit_every_number() {
    let mut random = Random::new(206);
    let (mut any, mut twice, mut bounds): (Counts, Counts, Counts) = Default::default();
    for _ in 0..8_000 {
        any[figures(&any_body(&mut random)).err().unwrap_or(0) as usize] += 1;
        twice[figures(&twice_damaged(&mut random)).err().unwrap_or(0) as usize] += 1;
        bounds[figures(&faulty_bounds(&mut random)).err().unwrap_or(0) as usize] += 1;
    }
    assert!(all_above(&any, RULE_REFUSALS, 100) && any[0] > 1_000, "{any:?}");
    assert!(all_above(&twice, &[4, 5, 6, 7, 8, 10, 23, 24], 50), "{twice:?}");
    assert!(all_above(&bounds, &[5, 6, 8, 23, 24], 500), "{bounds:?}");
}

#[test]
fn sheets_and_writers_hit_every_number() {
    let mut random = Random::new(207);
    let (mut readers, mut writers): (Counts, Counts) = Default::default();
    for _ in 0..3_000 {
        let sheet = damaged_sheet(&mut random);
        readers[rule_place(&sheet, random.below(3)).err().unwrap_or(0) as usize] += 1;
        let input = writer_input(&mut random);
        let mut out = vec![0; input.room];
        let written = write_sheet(&input.lengths, &input.bodies, &mut out);
        writers[written.err().unwrap_or(0) as usize] += 1;
    }
    assert!(all_above(&readers, &[0, 1, 2, 3], 20), "{readers:?}");
    assert!(all_above(&writers, &[0, 1, 2, 22], 100), "{writers:?}");
}

/// Sets of one rule and of 32, which open together; rules of different histories, delays and
/// cells, and the same rule twice.
#[test]
fn rule_sets_are_interesting() {
    let mut random = Random::new(213);
    let (mut sizes, mut different, mut same, mut full) = ([0; 33], 0, 0, 0);
    for _ in 0..3_000 {
        let rules = rule_set(&mut random);
        let opened = set_rules(&sheet_of_rules(&rules)).expect("the rules open together");
        assert_eq!(opened.len(), rules.len());
        sizes[rules.len()] += 1;
        let history = |rule: &Rule| rule.figures.history;
        different += rules.iter().any(|rule| history(rule) > history(&rules[0])) as u64;
        let again = |at: usize| rules[..at].iter().any(|rule| rule.body == rules[at].body);
        same += (0..rules.len()).any(again) as u64;
        full += (rules.iter().map(|rule| rule.figures.cells).sum::<u64>() > 1_000) as u64;
    }
    assert!(sizes[1..].iter().all(|&count| count > 10), "{sizes:?}");
    assert!(different > 1_000 && same > 500 && full > 300, "{different}, {same}, {full}");
}

#[test]
fn rules_of_every_number_of_cells() {
    for cells in 1..=4096 {
        assert_eq!(rule_of_cells(cells).figures.cells, cells);
    }
}

/// Sheets for sets hit every number of an opening before 17.
#[test]
fn set_sheets_hit_every_number() {
    let mut random = Random::new(214);
    let mut numbers = Counts::default();
    for _ in 0..4_000 {
        numbers[set_rules(&any_set_sheet(&mut random)).err().unwrap_or(0) as usize] += 1;
    }
    assert!(all_above(&numbers, RULE_REFUSALS, 30), "{numbers:?}");
    assert!(all_above(&numbers, &[0, 1, 2, 27], 60), "{numbers:?}");
}

/// A typed rule is read as the formula that it was typed from, whatever names hide others.
#[test]
fn typed_rules_mean_their_formula() {
    let mut random = Random::new(210);
    let (mut hidden, mut zeros, mut signed) = (0, 0, 0);
    for _ in 0..6_000 {
        let formula = wild_formula(&mut random);
        let text = typed(&mut random, &formula);
        let body = body_of_text(text.as_bytes(), usize::MAX);
        assert_eq!(body, Ok(write_body(&formula)), "{text}");
        hidden += hides(&text) as u64;
        zeros += (text.contains("+0") || text.contains("-0")) as u64;
        signed += (text.contains("infinity+0") || text.contains("infinity-0")) as u64;
    }
    assert!(hidden > 300 && zeros > 500 && signed > 100, "{hidden}, {zeros}, {signed}");
}

/// Whether two binders, of which one may stand around the other, have the same name.
fn hides(text: &str) -> bool {
    let names = text.split(' ').collect::<Vec<_>>();
    let binder = |pair: &&[&str]| pair[0] == "monitor" || pair[0].ends_with("forall");
    let mut bound: Vec<&str> = names.windows(2).filter(binder).map(|pair| pair[1]).collect();
    let count = bound.len();
    bound.sort_unstable();
    bound.dedup();
    bound.len() < count
}

/// Texts of any sort hit every number that a text can get, and loose words most.
#[test]
fn any_texts_hit_every_number() {
    let mut random = Random::new(211);
    let (mut any, mut loose): (Counts, Counts) = Default::default();
    for _ in 0..8_000 {
        let number = |text: &[u8]| body_of_text(text, usize::MAX).err().unwrap_or(0) as usize;
        any[number(&any_text(&mut random))] += 1;
        loose[number(&loose_text(&mut random))] += 1;
    }
    const COMING: [u32; 7] = [0, 7, 8, 9, 24, 25, 26];
    assert!(all_above(&any, &COMING, 50), "{any:?}");
    assert!(all_above(&loose, &[0, 25, 26], 10), "{loose:?}");
    // The header names these and no others.
    let other = |number: &usize| !COMING.contains(&(*number as u32));
    assert!((0..any.len()).filter(other).all(|n| any[n] + loose[n] == 0), "{any:?}, {loose:?}");
}

/// Long runs, single ups and alternations.
#[test]
fn streams_have_runs() {
    let mut random = Random::new(208);
    let (mut long, mut single, mut alternating) = (0, 0, 0);
    for _ in 0..200 {
        let flags = stream(&mut random, 300);
        assert_eq!(flags.len(), 300);
        let ups: Vec<bool> = flags.iter().map(|byte| byte & 1 == 1).collect();
        long += (ups.windows(30).any(|w| w.iter().all(|&up| up))) as u64;
        single += (ups.windows(9).any(|w| (0..9).all(|i| w[i] == (i == 4)))) as u64;
        alternating += (ups.windows(12).any(|w| (1..12).all(|i| w[i] != w[i - 1]))) as u64;
    }
    assert!(long > 100 && single > 50 && alternating > 50, "{long}, {single}, {alternating}");
}

/// The same seed makes the same, another seed another.
/// Words of every length around full groups, up at both ends of runs and in the group after
/// the kept ones, and the ticks at which ranges are cut.
#[test]
fn calendars_have_edges() {
    let mut random = Random::new(215);
    let mut lengths = [0; 8];
    let [mut empty, mut ends, mut beyond] = [0; 3];
    for _ in 0..2_000 {
        let length = calendar_length(&mut random);
        lengths[length % 8] += 1;
        empty += u64::from(length == 0);
        let words = calendar_words(&mut random, length);
        let (kept, rest) = words.split_at(length / 8 * 8);
        ends += u64::from(kept.iter().any(|word| word & (1 | 1 << 63) != 0));
        beyond += u64::from(rest.iter().any(|word| *word != 0));
        let after = 8 * kept.len() as u64;
        let edges = edge_ticks(&mut random, &words);
        let last = after.saturating_sub(1);
        for due in [0, 63, 64, 65, last.saturating_sub(1), last, after, 1 << 63, u64::MAX] {
            assert!(edges.contains(&due), "{due} of {length} words");
        }
    }
    assert!(lengths.iter().all(|&count| count > 20), "{lengths:?}");
    assert!(empty > 20 && ends > 500 && beyond > 200, "{empty}, {ends}, {beyond}");
}

#[test]
fn seeds_are_fixed() {
    let make = |seed| {
        let mut random = Random::new(seed);
        (accepted_rule(&mut random).body, stream(&mut random, 50))
    };
    assert_eq!(make(1), make(1));
    assert_ne!(make(1), make(2));
    // The first word of splitmix64 with seed 0, as its author gives it.
    assert_eq!(Random::new(0).word(), 0xE220_A839_7B1D_CDAF);
}
