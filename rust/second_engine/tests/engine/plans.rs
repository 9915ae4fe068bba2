//! The plans of request 2.7: begins worked out by hand, refusals 19 and 20, and random plans against
//! weeks laid out one after the other.

use crate::calls::Seed;
use crate::naive::participants;
use second_engine::{Hours, Refusal, Window, plan};
use tables::random::{self, Shape};
use tables::{Rng, Table, damage, named};

type Windows<'w> = &'w [(u16, u16)];
type Begins = Result<Vec<i64>, Refusal>;

const ALL_WEEK: Windows = &[(0, 10_080)];
const NEVER: Windows = &[];

/// What a plan is asked for, with a list of so many places.
struct Order {
    table: Vec<u8>,
    run: Vec<u16>,
    hours: Hours,
    lengths: Vec<u16>,
    start: i64,
    places: usize,
}

impl Order {
    /// A plan on a table whose processes are open all week: no step, and each takes ten minutes.
    fn new(table: &Table) -> Self {
        Order {
            table: table.bytes(),
            run: Vec::new(),
            hours: hours(&[ALL_WEEK; 4][..table.processes.len()]),
            lengths: vec![10; table.rules.len()],
            start: 0,
            places: 5,
        }
    }

    /// The begins. The places after them must stay as they were; refused, all places.
    fn laid(&self) -> Begins {
        let dirty: Vec<i64> = (0..self.places).map(|place| !(place as i64)).collect();
        let mut begins = dirty.clone();
        let given = plan(
            &self.table,
            &self.run,
            &self.hours,
            &self.lengths,
            self.start,
            &mut begins,
        );
        let written = given.map_or(0, |()| self.run.len());
        assert_eq!(begins[written..], dirty[written..]);
        begins.truncate(written);
        given.map(|()| begins)
    }
}

/// The hours of the first processes.
fn hours(windows: &[Windows]) -> Hours {
    let mut hours = Hours::default();
    for (process, windows) in windows.iter().enumerate() {
        hours.counts[process] = windows.len() as u8;
        for (place, &(opens, closes)) in windows.iter().enumerate() {
            hours.windows[process][place] = Window { opens, closes };
        }
    }
    hours
}

/// A plan on T, whose rule 0 is one of both processes, 1 of the first and 2 of the second.
fn on_t(windows: [Windows; 2], lengths: [u16; 3], start: i64, run: &[u16]) -> Begins {
    let order = Order {
        hours: hours(&windows),
        lengths: lengths.to_vec(),
        start,
        run: run.to_vec(),
        ..Order::new(&named::t())
    };
    order.laid()
}

/// The plan 0 1 2 on T with something changed.
fn changed(change: impl FnOnce(&mut Order)) -> Begins {
    let mut order = Order::new(&named::t());
    order.run = vec![0, 1, 2];
    change(&mut order);
    order.laid()
}

/// The begin of a single step of the first process of T, the other never being open.
fn first(windows: Windows, length: u16, start: i64) -> Option<i64> {
    match on_t([windows, NEVER], [1, length, 1], start, &[1]) {
        Ok(begins) => Some(begins[0]),
        refusal => {
            assert_eq!(refusal, refused(20, 0));
            None
        }
    }
}

fn refused<T>(number: u8, place: usize) -> Result<T, Refusal> {
    Err(Refusal { number, place })
}

fn bad_hours(given: Begins) {
    assert_eq!(given, refused(19, 0));
}

/// The first process is open from 8:00 to 17:00, the second from 10:00 to 11:40, on Monday.
#[test]
fn steps_begin_as_soon_as_their_processes_are_open_and_free() {
    let laid = |run: &[u16]| on_t([&[(480, 1_020)], &[(600, 700)]], [30, 20, 40], 0, run);
    for (run, begins) in [
        (&[0, 1, 2][..], &[600, 630, 630][..]),
        (&[1, 0, 2], &[480, 600, 630]),
        // 670 to 710 is too late for the second process: a week later.
        (&[0, 2, 2], &[600, 630, 10_680]),
        // The first process doesn't wait for the second where that has no part.
        (&[2, 1], &[600, 480]),
        (&[2, 2, 1, 1], &[600, 640, 480, 500]),
        (&[2, 2, 2, 1, 0], &[600, 640, 10_680, 480, 10_720]),
        // Both wait where both have part: 680 to 710 is too late for the second.
        (&[1, 2, 2, 0], &[480, 600, 640, 10_680]),
        (&[2, 2, 0, 1], &[600, 640, 10_680, 10_710]),
    ] {
        assert_eq!(laid(run), Ok(begins.to_vec()), "{run:?}");
    }
}

/// Rules that would not fire in their turn are laid like others.
#[test]
fn rules_need_not_fire() {
    let laid = |run: &[u16]| on_t([ALL_WEEK; 2], [5, 6, 7], 100, run);
    assert_eq!(laid(&[1, 1, 1]), Ok(vec![100, 106, 112]));
    assert_eq!(laid(&[2, 0, 0, 1]), Ok(vec![100, 107, 112, 117]));
}

/// The processes are both open from 90 to 100 and from 200 to 210.
#[test]
fn a_step_needs_all_its_processes_for_its_whole_length() {
    let windows: [Windows; 2] = [&[(0, 100), (200, 300)], &[(90, 210)]];
    let laid = |length| on_t(windows, [length, 1, 1], 0, &[0, 0, 0]);
    assert_eq!(laid(10), Ok(vec![90, 200, 10_170]));
    assert_eq!(laid(4), Ok(vec![90, 94, 200]));
    assert_eq!(laid(11), refused(20, 0));
}

#[test]
fn four_processes() {
    let mut order = Order::new(&named::six_written());
    order.hours = hours(&[ALL_WEEK, ALL_WEEK, ALL_WEEK, &[(1_000, 2_000)]]);
    // Rules 1 to 4 are of one process each, 0 of all, 5 of the first two, 6 of the last two.
    for (run, begins) in [
        (&[1, 2, 3, 4, 0][..], &[0, 0, 0, 1_000, 1_010][..]),
        (&[6, 1, 5, 3, 0], &[1_000, 0, 10, 1_010, 1_020]),
        (&[0, 5, 6, 2, 4], &[1_000, 1_010, 1_010, 1_020, 1_020]),
    ] {
        order.run = run.to_vec();
        assert_eq!(order.laid(), Ok(begins.to_vec()), "{run:?}");
    }
}

#[test]
fn windows_hold_their_opening_and_not_their_closing_minute() {
    let window: Windows = &[(600, 640)];
    for (length, start, begin) in [
        (40, 0, Some(600)),
        (40, 600, Some(600)),
        (40, 601, Some(10_680)),
        (41, 0, None),
        (1, 639, Some(639)),
        (1, 640, Some(10_680)),
        (2, 639, Some(10_680)),
    ] {
        assert_eq!(first(window, length, start), begin, "{length} at {start}");
    }
}

#[test]
fn negative_minutes_count_back_from_monday() {
    let (monday, sunday): (Windows, Windows) = (&[(0, 1)], &[(10_079, 10_080)]);
    for (window, start, begin) in [
        (sunday, -1, -1),
        (sunday, -2, -1),
        (sunday, 0, 10_079),
        (sunday, -10_080, -1),
        (sunday, -10_081, -10_081),
        (monday, -1, 0),
        (monday, -10_079, 0),
        (monday, -10_080, -10_080),
        (monday, -10_081, -10_080),
        // 100 weeks are 1,008,000 minutes, 99 weeks 997,920.
        (&[(8_000, 8_001)], -1_000_000, -1_000_000),
        (&[(7_999, 8_000)], -1_000_000, -989_921),
        (&[(2_080, 2_081)], 1_000_000, 1_000_000),
        (&[(2_079, 2_080)], 1_000_000, 1_010_079),
    ] {
        assert_eq!(first(window, 1, start), Some(begin), "{window:?} {start}");
    }
}

#[test]
fn windows_that_touch_or_overlap_run_on() {
    for (windows, longest) in [
        (&[(100, 110), (110, 120)][..], 20),
        (&[(110, 120), (100, 110)], 20),
        (&[(100, 115), (105, 120)], 20),
        (&[(105, 110), (100, 120)], 20),
        (&[(100, 120), (100, 120)], 20),
        (&[(114, 120), (100, 107), (107, 114)], 20),
        (&[(100, 110), (111, 120)], 10),
        (&[(100, 110), (100, 110)], 10),
    ] {
        assert_eq!(first(windows, longest, 0), Some(100), "{windows:?}");
        assert_eq!(first(windows, longest + 1, 0), None, "{windows:?}");
    }
    // The second window alone is the first long enough.
    assert_eq!(first(&[(100, 109), (110, 120)], 10, 0), Some(110));
}

/// Open from ten minutes before Sunday midnight to ten minutes after it.
#[test]
fn windows_run_on_across_sunday_midnight() {
    for windows in [[(0, 10), (10_070, 10_080)], [(10_070, 10_080), (0, 10)]] {
        for (length, start, begin) in [
            (10, -5, Some(-5)),
            (15, -5, Some(-5)),
            (16, -5, Some(10_070)),
            (20, -11, Some(-10)),
            (20, -10, Some(-10)),
            (20, -9, Some(10_070)),
            (10, 0, Some(0)),
            (11, 0, Some(10_070)),
            (20, 20_150, Some(20_150)),
            (21, 0, None),
        ] {
            assert_eq!(first(&windows, length, start), begin, "{length} at {start}");
        }
    }
    // A closed minute on either side of midnight parts them.
    assert_eq!(first(&[(0, 10), (10_070, 10_079)], 11, 0), None);
    assert_eq!(first(&[(1, 10), (10_070, 10_080)], 11, 0), None);
}

/// Days and half days that touch are a whole week, in which any step fits everywhere.
#[test]
fn open_all_week() {
    let parts = |count: u16| -> Vec<(u16, u16)> {
        let part = 10_080 / count;
        (0..count).map(|at| (at * part, (at + 1) * part)).collect()
    };
    for windows in [ALL_WEEK, &parts(7), &parts(14)] {
        let laid = |start| on_t([windows, NEVER], [1, 1_440, 1], start, &[1; 5]);
        for start in [-1_000_000, -1, 0, 777, 9_999, 1_000_000] {
            let begins = (0..5).map(|step| start + 1_440 * step);
            assert_eq!(laid(start), Ok(begins.collect()));
        }
    }
    // Closed in minute 5,000 of each week.
    let windows: Windows = &[(0, 5_000), (5_001, 10_080)];
    assert_eq!(first(windows, 1_440, 3_560), Some(3_560));
    assert_eq!(first(windows, 1_440, 3_561), Some(5_001));
    assert_eq!(first(windows, 1_440, 10_079), Some(10_079));
}

#[test]
fn empty_runs_are_given() {
    for windows in [NEVER, ALL_WEEK] {
        assert_eq!(on_t([windows; 2], [1; 3], 0, &[]), Ok(vec![]));
    }
    let smallest = Order {
        places: 0,
        ..Order::new(&named::smallest())
    };
    assert_eq!(smallest.laid(), Ok(vec![]));
}

#[test]
fn the_first_step_that_never_fits_is_refused() {
    let windows: [Windows; 2] = [&[(0, 100), (200, 250)], &[(90, 210)]];
    for start in [-1_000_000, -1, 0, 95, 5_000, 1_000_000] {
        for (lengths, run, place) in [
            ([11, 100, 120], &[1, 2, 0][..], 2),
            ([11, 101, 121], &[2, 1, 0], 0),
            ([10, 101, 120], &[0, 2, 1, 1], 2),
            ([11, 1, 1], &[1, 1, 2, 0, 0], 3),
        ] {
            assert_eq!(on_t(windows, lengths, start, run), refused(20, place));
        }
        let given = on_t(windows, [10, 100, 120], start, &[0, 1, 2]);
        assert_eq!(given.map(|begins| begins.len()), Ok(3));
        // A process without windows never opens.
        for (run, place) in [(&[1, 2, 0][..], 1), (&[0, 1], 0), (&[1, 1, 0], 2)] {
            let given = on_t([ALL_WEEK, NEVER], [1; 3], start, run);
            assert_eq!(given, refused(20, place));
        }
    }
}

#[test]
fn starts_are_bounded() {
    for start in [-1_000_000, 1_000_000] {
        let begins = vec![start, start + 10, start + 10];
        assert_eq!(changed(|order| order.start = start), Ok(begins));
    }
    for start in [-1_000_001, 1_000_001, i64::MIN, i64::MAX] {
        bad_hours(changed(|order| order.start = start));
        // Whether or not there is a step to begin.
        bad_hours(on_t([NEVER; 2], [1; 3], start, &[]));
    }
}

/// The windows that count are looked at, whether or not a step needs their process.
#[test]
fn windows_are_bounded() {
    for (process, place) in [(0, 0), (0, 13), (1, 0), (1, 6), (1, 13)] {
        for run in [&[][..], &[1], &[0, 1, 2]] {
            let with = |opens, closes| {
                changed(|order| {
                    let all_week = order.hours.windows[process][0];
                    order.hours.windows[process] = [all_week; 14];
                    order.hours.windows[process][place] = Window { opens, closes };
                    order.hours.counts[process] = 14;
                    order.run = run.to_vec();
                })
            };
            for (opens, closes) in [(0, 1), (0, 10_080), (10_079, 10_080)] {
                assert_eq!(with(opens, closes), Ok([0, 10, 10][..run.len()].to_vec()));
            }
            for (opens, closes) in [
                (0, 10_081),
                (10_080, 10_081),
                (0, 0xFFFF),
                (0, 0),
                (500, 500),
                (501, 500),
            ] {
                bad_hours(with(opens, closes));
            }
        }
    }
}

#[test]
fn counts_are_bounded() {
    for process in [0, 1] {
        let windows = [(0, 10_080); 14].map(|(opens, closes)| Window { opens, closes });
        let with = |count| {
            changed(|order| {
                order.hours.windows[process] = windows;
                order.hours.counts[process] = count;
            })
        };
        assert_eq!(with(14), Ok(vec![0, 10, 10]));
        // Windows past the count open nothing.
        assert_eq!(with(0), refused(20, 0));
        bad_hours(with(15));
        bad_hours(with(0xFF));
    }
    let mut order = Order::new(&named::six_written());
    order.hours.counts[3] = 15;
    bad_hours(order.laid());
}

/// The lengths of all rules are looked at, also of those that the run lacks.
#[test]
fn lengths_are_bounded() {
    for rule in 0..3 {
        for run in [&[][..], &[2], &[0, 1, 2]] {
            let with = |length| {
                changed(|order| {
                    order.lengths[rule] = length;
                    order.run = run.to_vec();
                })
            };
            for length in [1, 1_440] {
                assert_eq!(with(length).map(|begins| begins.len()), Ok(run.len()));
            }
            for length in [0, 1_441, 0xFFFF] {
                bad_hours(with(length));
            }
        }
        bad_hours(changed(|order| order.lengths.truncate(rule)));
        bad_hours(changed(|order| {
            order.lengths.truncate(rule);
            order.run.clear();
        }));
    }
}

#[test]
fn rules_that_the_table_lacks_are_bad_hours() {
    for rule in [3, 4, 0xFFFF] {
        for place in 0..3 {
            bad_hours(changed(|order| order.run[place] = rule));
        }
        // A length does not make a rule.
        bad_hours(changed(|order| {
            order.run = vec![rule];
            order.lengths = vec![10; 70_000];
        }));
    }
}

#[test]
fn the_list_is_as_long_as_the_run() {
    for places in 0..3 {
        bad_hours(changed(|order| order.places = places));
    }
    for places in [3, 4] {
        assert_eq!(changed(|order| order.places = places), Ok(vec![0, 10, 10]));
    }
}

#[test]
fn runs_of_a_million_steps() {
    let laid = |steps: usize| {
        changed(|order| {
            order.run = vec![1; steps];
            order.lengths[1] = 1_440;
            order.start = 1_000_000;
            order.places = 1_000_002;
        })
    };
    let begins = laid(1_000_000).expect("a plan");
    let expected = (0..1_000_000).map(|step| 1_000_000 + 1_440 * step);
    assert!(begins.into_iter().eq(expected));
    bad_hours(laid(1_000_001));
}

/// Windows past the count, and figures of processes and rules that T lacks.
#[test]
fn other_figures_are_not_looked_at() {
    let bad = Window {
        opens: 7,
        closes: 0xFFFF,
    };
    let given = changed(|order| {
        for process in [0, 1] {
            order.hours.windows[process][1..].fill(bad);
        }
        order.hours.windows[2..].fill([bad; 14]);
        order.hours.counts[2..].fill(0xFF);
        order.lengths.extend([0, 1_441, 0xFFFF]);
    });
    assert_eq!(given, Ok(vec![0, 10, 10]));
}

/// No step fits, and one figure is bad besides.
#[test]
fn bad_hours_come_before_never_open() {
    let with = |change: fn(&mut Order)| {
        changed(|order| {
            order.hours.counts = [0; 4];
            change(order);
        })
    };
    assert_eq!(with(|_| ()), refused(20, 0));
    bad_hours(with(|order| order.start = 1_000_001));
    bad_hours(with(|order| order.hours.counts[1] = 15));
    bad_hours(with(|order| {
        order.hours.counts[1] = 1;
        order.hours.windows[1][0].closes = 0;
    }));
    bad_hours(with(|order| order.lengths[2] = 0));
    bad_hours(with(|order| order.lengths.truncate(2)));
    bad_hours(with(|order| order.run[2] = 3));
    bad_hours(with(|order| order.places = 2));
}

/// A refused table hides all bad figures.
#[test]
fn tables_come_before_bad_hours() {
    for specimen in damage::specimens() {
        let given = changed(|order| {
            order.table = specimen.bytes;
            order.start = i64::MAX;
            order.hours.counts = [0xFF; 4];
            order.lengths.clear();
            order.places = 2;
        });
        let expected = refused(specimen.number, specimen.place);
        assert_eq!(given, expected, "{}", specimen.name);
    }
}

/// The weeks of random plans, and how many of them come before minute 0.
const WEEKS: usize = 23;
const WEEKS_BEFORE: usize = 3;

/// The plan by the definitions. The windows are laid out week by week, and a step ends when its
/// processes have been open for as many minutes in a row as it takes.
fn expected(table: &Table, order: &Order) -> Begins {
    let open = [0, 1, 2, 3].map(|process| {
        let mut minutes = vec![false; WEEKS * 10_080];
        let count = usize::from(order.hours.counts[process]);
        for week in minutes.chunks_exact_mut(10_080) {
            for window in &order.hours.windows[process][..count] {
                week[usize::from(window.opens)..usize::from(window.closes)].fill(true);
            }
        }
        minutes
    });
    let zero = (WEEKS_BEFORE * 10_080) as i64;
    let mut free = [(zero + order.start) as usize; 4];
    let mut begins = Vec::new();
    for (place, &rule) in order.run.iter().enumerate() {
        let bits = participants(table, rule);
        let own = || (0..4).filter(|process| bits >> process & 1 == 1);
        let length = usize::from(order.lengths[usize::from(rule)]);
        let from = own().map(|process| free[process]).max().unwrap_or(0);
        let mut row = 0;
        let last = (from..from + 2 * 10_080).find(|&minute| {
            let is_open = own().all(|process| open[process][minute]);
            row = if is_open { row + 1 } else { 0 };
            row == length
        });
        let Some(last) = last else {
            return refused(20, place);
        };
        begins.push((last + 1 - length) as i64 - zero);
        own().for_each(|process| free[process] = last + 1);
    }
    Ok(begins)
}

/// A window of up to so many minutes, often one that opens or closes at Sunday midnight.
fn random_window(rng: &mut Rng, longest: usize) -> (u16, u16) {
    let length = rng.between(1, longest);
    let opens = match rng.below(6) {
        0 => 0,
        1 => 10_080 - length,
        _ => rng.below(10_080),
    };
    let closes = 10_080.min(opens + length);
    (opens as u16, closes as u16)
}

fn random_order(rng: &mut Rng, table: &Table) -> Order {
    let mut order = Order::new(table);
    let longest = *rng.pick(&[300, 3_000, 10_080]);
    let windows = [(); 4].map(|()| -> Vec<(u16, u16)> {
        let count = rng.below(15);
        (0..count).map(|_| random_window(rng, longest)).collect()
    });
    order.hours = hours(&windows.each_ref().map(|windows| &windows[..]));
    for length in &mut order.lengths {
        let longest = *rng.pick(&[20, 200, 1_440]);
        *length = rng.between(1, longest) as u16;
    }
    if !table.rules.is_empty() {
        let steps = rng.below(13);
        order.run = (0..steps)
            .map(|_| rng.below(table.rules.len()) as u16)
            .collect();
    }
    order.start = rng.below(40_001) as i64 - 20_000;
    order.places = 15;
    order
}

#[test]
fn plans_follow_the_definitions() {
    let (mut steps, mut waits, mut never) = (0, 0, 0);
    for seed in (440_000..442_000).map(Seed) {
        let mut rng = seed.rng();
        let shape = *rng.pick(&[Shape::TINY, Shape::DENSE, Shape::MIDDLE]);
        let table = random::table(&mut rng, &shape);
        let order = random_order(&mut rng, &table);
        let given = order.laid();
        assert_eq!(given, expected(&table, &order));
        match given {
            Ok(begins) => {
                steps += begins.len();
                waits += begins.windows(2).filter(|pair| pair[0] > pair[1]).count();
            }
            Err(refusal) => never += usize::from(refusal.place > 0),
        }
    }
    println!("steps {steps}, begins before an earlier step's {waits}, never open later {never}");
    assert!(steps > 1_000 && waits > 100 && never > 100);
}
