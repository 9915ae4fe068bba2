//! Plans on table T: begins worked out by hand, and refusals, which leave the list as it was.

use roskavel::{Cause, LONGEST_STEP, Refusal, START_BOUND, WEEK_MINUTES, WINDOWS, Week, plan};
use std::ops::Range;
use tables::named;

type Begins = Result<Vec<i64>, Refusal>;

const DIRT: i64 = -0x5A5A;
/// The places of the list behind the run's last step.
const BEHIND: usize = 2;
const ALL_WEEK: Range<u16> = 0..WEEK_MINUTES;
const MORNING: Range<u16> = 480..720;
const NOON: Range<u16> = 700..800;
const BAD: Range<u16> = Range {
    start: 720,
    end: 480,
};

/// A plan on T, whose rule 0 is one of both processes, 1 of the first and 2 of the second.
fn on_t(week: &Week, lengths: &[u16], start: i64, run: &[u16]) -> Begins {
    let mut begins = vec![DIRT; run.len() + BEHIND];
    let given = plan(&named::t().bytes(), run, week, lengths, start, &mut begins);
    let written = given.map_or(0, |()| run.len());
    assert!(begins[written..].iter().all(|&begin| begin == DIRT));
    begins.truncate(written);
    given.map(|()| begins)
}

fn refused<T>(cause: Cause, place: usize) -> Result<T, Refusal> {
    Err(Refusal { cause, place })
}

/// The week with these windows of the processes of T.
fn week(first: &[Range<u16>], second: &[Range<u16>]) -> Week {
    Week::new([first, second, &[], &[]])
}

#[test]
fn the_week_is_laid_out_as_in_c() {
    assert_eq!((size_of::<Week>(), align_of::<Week>()), (232, 2));
    let places = [(); 4].map(|()| [(); WINDOWS].map(|()| MORNING));
    let all = vec![MORNING; WINDOWS];
    assert_eq!(Week::of_places(places, [14; 4]), Week::new([&all; 4]));
}

/// The processes are both open from 600 to 720 and from 780 to 900, on Monday.
#[test]
fn steps_wait_for_their_processes_alone() {
    let week = week(&[MORNING, 780..900], &[600..1_440, 0..60]);
    for (run, begins) in [
        (&[][..], &[][..]),
        (&[0, 0, 0], &[600, 660, 780]),
        (&[1, 1, 0], &[480, 570, 660]),
        (&[0, 1, 2], &[600, 780, 660]),
        (&[2, 2, 2, 1], &[0, 30, 600, 480]),
        (&[1, 1, 1, 1, 2], &[480, 570, 780, 10_560, 0]),
    ] {
        let given = on_t(&week, &[60, 90, 30], 0, run);
        assert_eq!(given, Ok(begins.to_vec()), "{run:?}");
    }
}

/// The first process is open from Sunday 23:00 to Monday 1:00, the second for the whole week.
#[test]
fn windows_run_on_over_midnight_and_before_minute_0() {
    let week = week(&[0..60, 10_020..10_080], &[0..5_000, 5_000..10_080]);
    for (start, begins) in [
        (-10_080, [-60, 10_020]),
        (-61, [-60, 10_020]),
        (-1, [-1, 10_020]),
        (0, [10_020, 20_100]),
        (-START_BOUND, [-997_980, -987_900]),
        (START_BOUND, [1_007_940, 1_018_020]),
    ] {
        let given = on_t(&week, &[1, 61, 1], start, &[1, 1]);
        assert_eq!(given, Ok(begins.to_vec()), "{start}");
    }
    let across = on_t(&week, &[1, 1, LONGEST_STEP], -720, &[2, 2]);
    assert_eq!(across, Ok(vec![-720, 720]));
}

#[test]
fn a_step_that_never_fits_is_refused() {
    let narrow = week(&[MORNING], &[NOON]);
    let lengths = [20, 240, 100];
    assert_eq!(on_t(&narrow, &lengths, 0, &[1, 2]), Ok(vec![480, 700]));
    assert_eq!(on_t(&narrow, &lengths, 0, &[0]), Ok(vec![700]));
    for (lengths, place) in [
        ([21, 240, 100], 2),
        ([20, 241, 100], 0),
        ([20, 240, 101], 1),
    ] {
        let given = on_t(&narrow, &lengths, 0, &[1, 2, 0]);
        assert_eq!(given, refused(Cause::NeverOpen, place));
    }
    let shut = week(&[], &[ALL_WEEK]);
    assert_eq!(
        on_t(&shut, &lengths, 0, &[2, 1]),
        refused(Cause::NeverOpen, 1)
    );
    assert_eq!(on_t(&shut, &lengths, 0, &[]), Ok(vec![]));
}

#[test]
fn bad_hours_are_refused() {
    let open = week(&[ALL_WEEK], &[ALL_WEEK]);
    let longest = [LONGEST_STEP; 3];
    let fifteen = vec![ALL_WEEK; WINDOWS + 1];
    let many = vec![ALL_WEEK; 300];
    let bad = refused(Cause::BadHours, 0);
    assert_eq!(on_t(&open, &longest, 0, &[0, 1]), Ok(vec![0, 1_440]));
    let [equal, late] = [[MORNING, 480..480], [MORNING, 0..10_081]];
    for windows in [&[BAD][..], &equal, &late, &fifteen, &many] {
        assert_eq!(on_t(&week(&[ALL_WEEK], windows), &longest, 0, &[]), bad);
        assert_eq!(on_t(&week(windows, &[ALL_WEEK]), &longest, 0, &[0]), bad);
    }
    for lengths in [&longest[..2], &[], &[1, 0, 1], &[1, 1, LONGEST_STEP + 1]] {
        assert_eq!(on_t(&open, lengths, 0, &[0]), bad);
    }
    for start in [-START_BOUND - 1, START_BOUND + 1, i64::MIN, i64::MAX] {
        assert_eq!(on_t(&open, &longest, start, &[0]), bad);
    }
    assert_eq!(on_t(&open, &longest, 0, &[0, 3]), bad);
    let mut short = [DIRT];
    let given = plan(&named::t().bytes(), &[0, 1], &open, &longest, 0, &mut short);
    assert_eq!((given, short), (refused(Cause::BadHours, 0), [DIRT]));
}

/// Windows past the count, and figures for processes and rules that T lacks.
#[test]
fn what_the_table_lacks_is_not_looked_at() {
    let mut places = [(); 4].map(|()| [(); WINDOWS].map(|()| BAD));
    places[0][0] = MORNING;
    let week = Week::of_places(places.clone(), [1, 0, WINDOWS as u8, 255]);
    let lengths = [1, 240, 1, 0, u16::MAX];
    assert_eq!(on_t(&week, &lengths, 0, &[1]), Ok(vec![480]));
    let looked_at = Week::of_places(places, [2, 0, 0, 0]);
    assert_eq!(
        on_t(&looked_at, &lengths, 0, &[1]),
        refused(Cause::BadHours, 0)
    );
}

#[test]
fn slices_may_be_empty() {
    let week = Week::new([&[]; 4]);
    assert_eq!(
        plan(&[], &[], &week, &[], 0, &mut []),
        refused(Cause::Cut, 0)
    );
    let smallest = named::smallest().bytes();
    assert_eq!(plan(&smallest, &[], &week, &[], 0, &mut []), Ok(()));
}
