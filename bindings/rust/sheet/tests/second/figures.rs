//! Figures of sheets, worked out by hand from documents 01 and 02.

use sheet::build::{Plan, Track, ValueSet, Values, ABSENT, NO_RANGE, SILENCE};
use sheet::generate::clauses::common_list;
use sheet::generate::figures::met::Met;
use sheet::generate::figures::{ClashingSheets, TOLD_RULES};
use sheet::generate::Generated;
use sheet::second::figures::{figures, lines, Figure};
use sheet::second::view::Sheet;

/// The lines, without the one of the verdict, as section, record and figure.
fn told(plan: &Plan, verdict: &str) -> Vec<(u8, u16, i32)> {
    let bytes = plan.bytes();
    let lines = lines(&bytes, &common_list());
    let mut expected = format!("{verdict}\n");
    let mut told = Vec::new();
    for Figure { section, record, value } in figures(&bytes, &common_list()) {
        expected += &format!("section {section} record {record} figure {value}\n");
        told.push((section, record, value));
    }
    assert_eq!(lines, expected);
    told
}

/// Top objects on a front pack, with interact 1, gain range -60 to 60 and offset range -100 to
/// 100, and a programme of them.
fn objects(number: u16) -> Plan {
    let mut plan = Plan::new(1);
    let pack = plan.add_pack(3, 1, 1);
    for _ in 0..number {
        let object = plan.add_object(pack);
        plan.add_content(object);
        let object = &mut plan.objects[usize::from(object)];
        object.interact = 1;
        object.values.gain_range = (-60, 60);
        object.values.offset_range = (-100, 100);
    }
    plan.add_programme((0..number).collect());
    plan
}

/// Two objects, the second with two sets, of which the second is as given; and its figures.
fn told_of_set(set: ValueSet, change: impl FnOnce(&mut Plan)) -> Vec<(u8, u16, i32)> {
    let mut plan = objects(2);
    plan.add_sets(1, &[ValueSet::NONE, set]);
    change(&mut plan);
    told(&plan, "rule 18 section 7 record 1")
}

fn own_0(gain: i16, offset: i16) -> ValueSet {
    ValueSet { own: 0, values: Values { gain, offset, ..Values::NONE } }
}

/// A set with own 1, gain range -40 to 80 and offset range -50 to 150.
fn own_1(gain: i16, offset: i16) -> ValueSet {
    let values = Values { gain, gain_range: (-40, 80), offset, offset_range: (-50, 150) };
    ValueSet { own: 1, values }
}

#[test]
fn sheet_a_and_no_bytes_have_the_verdict_line_alone() {
    assert_eq!(lines(&Plan::sheet_a().bytes(), &common_list()), "accepted\n");
    assert_eq!(lines(&[], &common_list()), "rule 1 section 0 record 0\n");
    let mut plan = Plan::sheet_a();
    plan.tracks[0].ordinal = 1;
    assert_eq!(lines(&plan.bytes(), &common_list()), "rule 14 section 3 record 0\n");
}

/// Cases (l) and (m) of document 01.
#[test]
fn a_gain_and_its_bound() {
    let told_of = |gain| {
        let mut plan = Plan::sheet_a();
        plan.objects[0].interact = 1;
        plan.objects[0].values.gain_range = (-60, 60);
        plan.objects[0].values.gain = gain;
        lines(&plan.bytes(), &common_list())
    };
    let above = "rule 18 section 3 record 0\n\
                 section 3 record 0 figure 61\n\
                 section 3 record 0 figure 60\n";
    assert_eq!(told_of(61), above);
    let silence = "rule 18 section 3 record 0\n\
                   section 3 record 0 figure -32768\n\
                   section 3 record 0 figure -60\n";
    assert_eq!(told_of(SILENCE), silence);
}

#[test]
fn an_object_tells_gain_before_offset() {
    let told_of = |gain, offset| {
        let mut plan = objects(3);
        plan.objects[1].values.gain = gain;
        plan.objects[1].values.offset = offset;
        plan.objects[2].values.gain = 210;
        told(&plan, "rule 18 section 3 record 1")
    };
    assert_eq!(told_of(-600, 101), [(3, 1, -600), (3, 1, -60)]);
    assert_eq!(told_of(60, 101), [(3, 1, 101), (3, 1, 100)]);
    assert_eq!(told_of(ABSENT, -300), [(3, 1, -300), (3, 1, -100)]);
}

#[test]
fn silence_is_below_the_lowest_number() {
    let mut plan = objects(1);
    plan.objects[0].values.gain = SILENCE;
    plan.objects[0].values.gain_range = (-600, 0);
    let figures = told(&plan, "rule 18 section 3 record 0");
    assert_eq!(figures, [(3, 0, -32768), (3, 0, -600)]);
}

#[test]
fn a_set_with_own_0_has_the_bound_of_its_object() {
    assert_eq!(told_of_set(own_0(-61, 101), |_| ()), [(7, 1, -61), (3, 1, -60)]);
    assert_eq!(told_of_set(own_0(ABSENT, 101), |_| ()), [(7, 1, 101), (3, 1, 100)]);
}

#[test]
fn a_set_with_own_1_has_a_bound_of_its_own() {
    assert_eq!(told_of_set(own_1(81, 0), |_| ()), [(7, 1, 81), (7, 1, 80)]);
    assert_eq!(told_of_set(own_1(SILENCE, -51), |_| ()), [(7, 1, -32768), (7, 1, -40)]);
    let gain_of_object = |plan: &mut Plan| plan.objects[1].values.gain = -41;
    assert_eq!(told_of_set(own_1(ABSENT, -51), gain_of_object), [(3, 1, -41), (7, 1, -40)]);
    let offset_of_object = |plan: &mut Plan| plan.objects[1].values.offset = -51;
    assert_eq!(told_of_set(own_1(60, ABSENT), offset_of_object), [(3, 1, -51), (7, 1, -50)]);
}

#[test]
fn a_set_may_leave_the_range_of_its_object_alone() {
    assert_eq!(told_of_set(own_1(61, 101), |_| ()), [(7, 1, 61), (3, 1, 60)]);
    assert_eq!(told_of_set(own_1(ABSENT, 101), |_| ()), [(7, 1, 101), (3, 1, 100)]);
    let without_range = ValueSet { own: 1, ..own_0(SILENCE, ABSENT) };
    assert_eq!(told_of_set(without_range, |_| ()), [(7, 1, -32768), (3, 1, -60)]);
}

#[test]
fn the_effective_range_comes_before_the_range_of_the_object() {
    assert_eq!(told_of_set(own_1(61, 151), |_| ()), [(7, 1, 151), (7, 1, 150)]);
    let offset_of_object = |plan: &mut Plan| plan.objects[1].values.offset = -51;
    assert_eq!(told_of_set(own_1(61, ABSENT), offset_of_object), [(3, 1, -51), (7, 1, -50)]);
}

/// Object 1 leads the objects 2 and 0, in this order.
fn told_of_group(change: impl FnOnce(&mut Plan)) -> Vec<(u8, u16, i32)> {
    let mut plan = objects(3);
    plan.objects[1].complements = vec![2, 0];
    change(&mut plan);
    told(&plan, "rule 20 section 3 record 1")
}

#[test]
fn a_leader_and_a_member_in_the_order_of_the_rule() {
    let told_of = |interact, values: Values| {
        told_of_group(|plan| {
            plan.objects[0].interact = interact;
            plan.objects[0].values = values;
        })
    };
    let like_leader = objects(1).objects[0].values;
    assert_eq!(told_of(0, Values::NONE), [(3, 1, 1), (3, 0, 0)]);
    assert_eq!(told_of(1, Values { gain: 0, offset: 0, ..Values::NONE })[1], (3, 0, 0));
    let offset = Values { offset: -7, gain_range: (-1, 1), ..like_leader };
    assert_eq!(told_of(1, offset), [(3, 1, 32767), (3, 0, -7)]);
    let ranges = Values { gain_range: (SILENCE, 0), offset_range: (0, 0), ..like_leader };
    assert_eq!(told_of(1, ranges), [(3, 1, -60), (3, 0, -32768)]);
    let maximum = Values { gain_range: (-60, 61), offset_range: NO_RANGE, ..like_leader };
    assert_eq!(told_of(1, maximum), [(3, 1, 60), (3, 0, 61)]);
    assert_eq!(told_of(1, Values { offset_range: NO_RANGE, ..like_leader })[1], (3, 0, 32767));
    let last = Values { offset_range: (-100, 99), ..like_leader };
    assert_eq!(told_of(1, last), [(3, 1, 100), (3, 0, 99)]);
}

#[test]
fn members_are_told_in_list_order() {
    let told = told_of_group(|plan| {
        plan.objects[2].values.offset_range = (-100, 0);
        plan.objects[0].values.gain = 0;
    });
    assert_eq!(told, [(3, 1, 100), (3, 2, 0)]);
}

/// Object 0 of kind 1 leads object 1, whose children are 2 and 3.
#[test]
fn kinds_stand_under_the_objects() {
    let mut plan = Plan::new(2);
    let [one, three] = [plan.add_pack(1, 2, 0), plan.add_pack(3, 1, 0)];
    plan.add_object(one);
    plan.add_parent(vec![2, 3]);
    plan.add_object(three);
    plan.add_object(three);
    plan.objects[0].complements = vec![1];
    let contents = vec![plan.add_content(0), plan.add_content(1)];
    plan.add_programme(contents);
    assert_eq!(told(&plan, "rule 20 section 3 record 0"), [(3, 0, 1), (3, 1, 3)]);
    plan.objects[1].values.gain = -600;
    assert_eq!(told(&plan, "rule 20 section 3 record 0"), [(3, 0, 32767), (3, 1, -600)]);
}

/// Objects of 4, 7 and 5 tracks, one of 3 children, and one of 1 track, at level 1: 20 counted
/// tracks, and 16 once object 2 leads object 0.
#[test]
fn shares_by_rising_record() {
    let mut plan = Plan::new(1);
    let [four, seven, five, one] =
        [(1, 4), (1, 7), (1, 5), (3, 1)].map(|(kind, channels)| plan.add_pack(kind, channels, 0));
    plan.add_object(four);
    plan.add_object(seven);
    plan.add_object(five);
    plan.add_parent(vec![5, 6, 7]);
    for _ in 4..8 {
        plan.add_object(one);
    }
    let contents = (0..5).map(|object| plan.add_content(object)).collect();
    plan.add_programme(contents);
    let verdict = "rule 24 section 0 record 0";
    let alone = [(3, 0, 4), (3, 1, 7), (3, 2, 5), (3, 3, 3), (3, 4, 1)];
    assert_eq!(told(&plan, verdict), alone);
    plan.objects[2].complements = vec![0];
    assert_eq!(lines(&plan.bytes(), &common_list()), "accepted\n");
    plan.packs[2].channels = 6;
    plan.tracks.push(Track { pack: 2, ordinal: 5 });
    plan.objects[2].tracks.push(17);
    assert_eq!(told(&plan, verdict), [(3, 1, 7), (3, 2, 6), (3, 3, 3), (3, 4, 1)]);
}

#[test]
fn random_sheets_meet_every_class() {
    let mut met = Met::default();
    let mut sheets = ClashingSheets::new(4);
    for rule in TOLD_RULES {
        for _ in 0..4000 {
            let Generated { sheet, langs, .. } = sheets.refused_by(rule);
            met.add(&sheet, &langs);
        }
    }
    print!("{met}");
    assert_eq!(met.never_met(), ["accepted", "another rule"]);
}

/// Whether the figures by themselves break the rule: as words they are in 01's order of gains,
/// since silence is the least of them all.
fn break_by_themselves(rule: u8, level: u16, figures: &[Figure]) -> bool {
    let values: Vec<i32> = figures.iter().map(|figure| figure.value).collect();
    match (rule, values.as_slice()) {
        (18, &[value, bound]) => bound <= 0 && value < bound || bound >= 0 && value > bound,
        (20, [leader, member]) => leader != member,
        (24, shares) => shares.iter().sum::<i32>() > if level == 1 { 16 } else { 28 },
        _ => false,
    }
}

/// Whether the figure is a word of its record, or a kind.
fn stands_in(sheet: Sheet, figure: &Figure) -> bool {
    let mut words = sheet.record(figure.section, figure.record.into()).words();
    words.any(|word| i32::from(word as i16) == figure.value) || [1, 3].contains(&figure.value)
}

#[test]
fn figures_stand_in_the_sheet_and_break_the_rule() {
    let mut sheets = ClashingSheets::new(5);
    for rule in TOLD_RULES {
        for _ in 0..2000 {
            let Generated { sheet: bytes, langs, .. } = sheets.refused_by(rule);
            let sheet = Sheet::new(&bytes, &langs);
            let figures = figures(&bytes, &langs);
            assert!(break_by_themselves(rule, sheet.level(), &figures), "{rule}: {figures:?}");
            let records = figures.iter().map(|figure| figure.record);
            match rule {
                24 => assert!(records.is_sorted(), "{figures:?}"),
                _ => assert!(figures.iter().all(|figure| stands_in(sheet, figure))),
            }
        }
    }
}
