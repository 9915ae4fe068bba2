//! The calls on table T and on empty slices, their figures, the sizes of buffers, the records of a
//! log, and a desk.

use roskavel::{
    Answer, Cause, Desk, RECORD_BYTES, RECORD_CEILING, Record, Refusal, Run, WRITTEN_PLACES, Walk,
    answer, figures, log_bytes, log_records, records, run, scratch_bytes, walk,
};
use tables::{Table, named};

const DIRT: u8 = 0xA5;

fn refusal(cause: Cause, place: usize) -> Refusal {
    Refusal { cause, place }
}

/// Transitions, rounds and steps, which an unreachable answer has not.
type Limit = (usize, usize, Option<usize>);

fn limit(answer: Answer) -> Result<Limit, Refusal> {
    match answer {
        Answer::Reachable {
            transitions,
            rounds,
            steps,
            ..
        } => Ok((transitions, rounds, Some(steps))),
        Answer::Unreachable {
            transitions,
            rounds,
            ..
        } => Ok((transitions, rounds, None)),
        Answer::Refused(refusal) => Err(refusal),
    }
}

#[test]
fn causes_have_their_numbers() {
    for (index, cause) in Cause::ALL.iter().enumerate() {
        assert_eq!(usize::from(cause.number()), index + 1);
    }
    assert_eq!(Cause::ALL.len(), 20);
    assert_eq!(Cause::Unknown.number(), 0);
}

#[test]
fn refusals_are_told_in_words() {
    for (cause, text) in [
        (Cause::Cut, "cut (1) at byte 3"),
        (Cause::Leftover, "leftover (9) at byte 3"),
        (Cause::ShortLog, "short log (10)"),
        (Cause::IdleRule, "idle rule (12) at step 3"),
        (Cause::FullPile, "full pile (14) at step 3"),
        (Cause::BadHours, "bad hours (19)"),
        (Cause::NeverOpen, "never open (20) at step 3"),
        (Cause::Unknown, "unknown outcome (0)"),
    ] {
        let refusal = refusal(cause, 3);
        assert_eq!(refusal.to_string(), text);
        assert_eq!((refusal.number(), refusal.place), (cause.number(), 3));
    }
}

#[test]
fn sizes_are_those_that_just_serve() {
    let table = named::t().bytes();
    assert_eq!(log_bytes(3), 84);
    assert_eq!(scratch_bytes(84), 34_030);
    assert_eq!(log_records(RECORD_BYTES * 65_536), 65_535);
    for (log, scratch, cause) in [
        (84, 34_030, None),
        (83, 34_030, Some(Cause::ShortLog)),
        (84, 34_029, Some(Cause::ShortScratch)),
    ] {
        let (mut log, mut scratch) = (vec![DIRT; log], vec![DIRT; scratch]);
        let given = limit(answer(&table, &mut log, &mut scratch));
        let expected = cause.map(|cause| Err(refusal(cause, 0)));
        assert_eq!(given, expected.unwrap_or(Ok((3, 2, Some(3)))));
        let untouched = cause == Some(Cause::ShortScratch);
        let left = if untouched { DIRT } else { 0 };
        assert!(scratch.iter().all(|&byte| byte == left));
    }
}

/// No number of records or bytes is too great for the sizes.
#[test]
fn sizes_stop_at_the_ceiling() {
    let most = RECORD_BYTES * RECORD_CEILING;
    for records in [RECORD_CEILING, RECORD_CEILING + 1, usize::MAX] {
        assert_eq!(log_bytes(records), most);
    }
    for length in [most, most + RECORD_BYTES, usize::MAX] {
        assert_eq!(log_records(length), RECORD_CEILING);
        assert_eq!(scratch_bytes(length), 689_350);
    }
}

/// A verdict is never 0, nor is what tells whether an end is watched.
#[test]
fn figures_have_a_verdict_or_a_refusal() {
    let dirt = [u64::MAX; 16];
    let mut log = vec![DIRT; log_bytes(3)];
    let mut scratch = vec![DIRT; scratch_bytes(log.len())];
    let (mut page, mut pile) = ([0; 3], [DIRT; 3]);
    let whole = named::t();
    let mut without = named::t();
    without.rules.pop();
    for (table, places) in [(&whole, [0, 0, 1, 3, 2, 3]), (&without, [0, 0, 2, 1, 1, 0])] {
        let given = figures::answer(&table.bytes(), &mut log, &mut scratch, dirt);
        assert_eq!(given.values()[..6], places);
        assert_eq!(given.values()[6..], [0; 10]);
        let verdict = matches!(Answer::of(&given), Answer::Reachable { .. });
        assert_eq!(verdict, places[2] == 1);
    }
    for (table, places) in [
        (whole.bytes(), [0, 0, 1, 3, 2, 3, 1]),
        (without.bytes(), [16, 0, 0, 0, 0, 0, 0]),
        (vec![], [1, 0, 0, 0, 0, 0, 0]),
    ] {
        let given = figures::run(&table, &mut log, &mut scratch, &mut page, dirt);
        assert_eq!(given.values()[..7], places);
        assert_eq!(given.values()[7..], [0; 9]);
    }
    for (list, places) in [
        (&[0, 2, 1][..], [0, 0, 1, 0, 1, 1, 255, 255, 3, 2, 2]),
        (&[0], [0, 0, 2, 2, 0, 0, 255, 255, 1, 1, 1]),
        (&[0, 0], [12, 1, 0, 0, 0, 0, 0, 0, 1, 1, 1]),
    ] {
        let given = figures::walk(&whole.bytes(), list, &mut pile, &mut scratch, dirt);
        assert_eq!(given.values()[..11], places);
        assert_eq!(given.values()[11..], [0; 5]);
        let watched = matches!(Walk::of(&given), Walk::Walked { watched: true, .. });
        assert_eq!(watched, places[2] == 1);
    }
}

#[test]
fn rules_write_up_to_six_letters() {
    let mut log = vec![DIRT; log_bytes(8)];
    let mut scratch = vec![DIRT; scratch_bytes(log.len())];
    let six = named::six_written().bytes();
    let given = limit(answer(&six, &mut log, &mut scratch));
    assert_eq!(given, Ok((7, 2, Some(7))));
    let last = records(&log).last().expect("seven records");
    assert_eq!(last.path(), [0, 1, 2, 3, 4, 5]);
    assert_eq!(last.path().len(), WRITTEN_PLACES);
    for (table, place) in [(named::count(7).bytes(), 7), (named::old_t(), 12)] {
        let given = limit(answer(&table, &mut log, &mut scratch));
        assert_eq!(given, Err(refusal(Cause::Value, place)));
    }
}

/// Table T: rules 1 and 2 add the first two records, rule 0 the third, by a path of these.
#[test]
fn records_of_a_log() {
    let mut log = vec![DIRT; log_bytes(5) + 1];
    let mut scratch = vec![DIRT; scratch_bytes(log.len())];
    let given = limit(answer(&named::t().bytes(), &mut log, &mut scratch));
    assert_eq!(given, Ok((3, 2, Some(3))));
    let all: Vec<Record> = records(&log).collect();
    let reasons: Vec<_> = all
        .iter()
        .map(|record| (record.letter, record.round, record.rule, record.path()))
        .collect();
    assert_eq!(
        reasons,
        [
            (1, 1, Some(1), &[][..]),
            (2, 1, Some(2), &[]),
            (0, 2, Some(0), &[0, 1])
        ]
    );
    assert_eq!(all[2].before, [0, 0, 255, 255]);
    assert_eq!(all[2].after, [1, 1, 255, 255]);
    assert_eq!(all.iter().map(|record| record.steps).sum::<u32>(), 5);
    let text = "Record { letter: 2, before: [255, 0, 255, 255], after: [255, 1, 255, 255], \
                round: 1, rule: Some(2), path: [], steps: 1 }";
    assert_eq!(format!("{:?}", all[1]), text);
}

/// Logs that no call has left: of any bytes, and ended by zeros.
#[test]
fn records_of_any_bytes() {
    assert_eq!(records(&[]).next(), None);
    assert_eq!(records(&[DIRT; RECORD_BYTES - 1]).next(), None);
    assert_eq!(records(&[0; 2 * RECORD_BYTES]).next(), None);
    let mut log = [DIRT; 4 * RECORD_BYTES + 5];
    assert_eq!(records(&log).count(), 4);
    assert_eq!(
        records(&log).next().map(|record| record.path().len()),
        Some(6)
    );
    log[RECORD_BYTES..2 * RECORD_BYTES].fill(0);
    let mut left = records(&log);
    assert!(
        left.next()
            .is_some_and(|record| record.rule == Some(0xA5A5))
    );
    assert_eq!((left.next(), left.next()), (None, None));
    let full = [255; RECORD_BYTES];
    let record = records(&full).next().expect("a record");
    assert_eq!(
        (record.rule, record.path(), record.steps),
        (None, &[][..], 0xFF_FFFF)
    );
}

/// The records tell the copies of a process's states by numbers after its own.
#[test]
fn re_entry_is_answered_by_a_copy() {
    let mut log = vec![DIRT; log_bytes(6)];
    let mut scratch = vec![DIRT; scratch_bytes(log.len())];
    let table = named::re_entry().bytes();
    let given = limit(answer(&table, &mut log, &mut scratch));
    assert_eq!(given, Ok((3, 1, None)));
    let states: Vec<_> = records(&log)
        .map(|record| (record.before[0], record.after[0], record.rule))
        .collect();
    assert_eq!(states, [(0, 3, None), (2, 3, None), (1, 1, Some(0))]);
    assert!(Desk::open(&table).is_ok());
    let staying = named::staying(1).bytes();
    let given = limit(answer(&staying, &mut log, &mut scratch));
    assert_eq!(given, Ok((6, 0, Some(0))));
    let short = &mut log[..log_bytes(6) - 1];
    let given = limit(answer(&staying, short, &mut scratch));
    assert_eq!(given, Err(refusal(Cause::ShortLog, 0)));
}

#[test]
fn slices_may_be_empty() {
    let cut = refusal(Cause::Cut, 0);
    assert_eq!(answer(&[], &mut [], &mut []), Answer::Refused(cut));
    assert_eq!(run(&[], &mut [], &mut [], &mut []), Run::Refused(cut));
    let given = walk(&[], &[], &mut [], &mut []);
    assert!(
        matches!(given, Walk::Refused { refusal, counts: [0, 0, 0, 0], rest: [], .. } if refusal == cut)
    );
}

#[test]
fn a_walk_counts_the_steps_of_each_process() {
    let table = named::six_written().bytes();
    let (mut pile, mut scratch) = ([DIRT; 6], [DIRT; roskavel::WALK_SCRATCH]);
    let given = walk(&table, &[0, 4, 3, 6, 1], &mut pile, &mut scratch);
    let Walk::Walked {
        states,
        length,
        watched,
        counts,
        rest,
        ..
    } = given
    else {
        panic!("a list that fires: {given:?}");
    };
    assert_eq!((states, length, watched), ([1, 0, 2, 2], 2, false));
    assert_eq!(counts, [2, 1, 3, 3]);
    assert!(rest.is_empty());
    assert_eq!(pile, [2, 5, 0, 0, 0, 0]);
}

#[test]
fn a_refused_walk_hands_back_the_callers_list() {
    let table = named::t().bytes();
    let list = [0, 1, 1, 2];
    let (mut pile, mut scratch) = ([DIRT; 4], [DIRT; roskavel::WALK_SCRATCH]);
    let given = walk(&table, &list, &mut pile, &mut scratch);
    let Walk::Refused {
        refusal: idle,
        counts,
        rest,
        ..
    } = given
    else {
        panic!("rule 1 fires twice: {given:?}");
    };
    assert_eq!(idle, refusal(Cause::IdleRule, 2));
    assert_eq!(counts, [2, 1, 0, 0]);
    assert!(std::ptr::eq(rest, &list[2..]));
    assert_eq!(pile, [2, 0, 0, 0]);
    assert_eq!(scratch, [0; roskavel::WALK_SCRATCH]);
}

/// The first two processes' states, and the pile.
fn sight(desk: &Desk) -> ([u8; 2], Vec<u8>) {
    let sight = desk.look();
    assert_eq!(sight.states[2..], [255, 255]);
    ([sight.states[0], sight.states[1]], sight.pile().to_vec())
}

fn refused<T>(cause: Cause) -> Result<T, Refusal> {
    Err(refusal(cause, 0))
}

#[test]
fn a_desk_fires_and_returns() {
    let mut desk = Desk::open(&named::t().bytes()).unwrap();
    assert_eq!(sight(&desk), ([0, 0], vec![0]));
    assert_eq!(desk.fire(1), refused(Cause::IdleRule));
    assert_eq!(desk.fire(3), refused(Cause::NoRule));
    assert_eq!(desk.counts(), [0; 4]);
    assert_eq!(desk.fire(0), Ok(0b11));
    assert_eq!(desk.save(7), Ok(()));
    assert_eq!(desk.fire(2), Ok(0b10));
    let mut other = desk.clone();
    assert_eq!(desk.fire(1), Ok(0b01));
    assert_eq!(sight(&desk), ([1, 1], vec![]));
    assert_eq!(desk.counts(), [2, 2, 0, 0]);
    assert_eq!(desk.return_to(7), Ok(()));
    assert_eq!(desk.forget(7), Ok(()));
    assert_eq!(sight(&desk), ([0, 0], vec![1, 2]));
    assert_eq!(desk.counts(), [0; 4]);
    assert_eq!(desk.return_to(7), refused(Cause::EmptyName));
    assert_eq!(desk.forget(7), refused(Cause::EmptyName));
    // The clone stands where the desk stood, and holds what it held and counted.
    assert_eq!(sight(&other), ([0, 1], vec![1]));
    assert_eq!(other.counts(), [1, 2, 0, 0]);
    assert_eq!(other.return_to(7), Ok(()));
    assert_eq!(other.look(), desk.look());
    let text = "Desk(Sight { states: [0, 0, 255, 255], pile: [1, 2] })";
    assert_eq!(format!("{other:?}"), text);
}

#[test]
fn a_desk_refuses() {
    let opened = Desk::open(&named::re_entry_of(5).bytes());
    assert_eq!(opened.unwrap_err(), refusal(Cause::ReEntry, 24));
    assert_eq!(Desk::open(&[]).unwrap_err(), refusal(Cause::Cut, 0));
    let mut table = Table::new(1, 1, 1);
    let letter = table.letter(1);
    table.rule(letter, [0; 4], [0; 4], &[letter; WRITTEN_PLACES]);
    table.pile.push(letter);
    let mut desk = Desk::open(&table.bytes()).unwrap();
    while desk.look().pile().len() < roskavel::DESK_PILE {
        assert_eq!(desk.fire(0), Ok(1));
    }
    assert_eq!(desk.fire(0), refused(Cause::FullPile));
    assert_eq!(desk.look().pile(), [letter; 256]);
    assert_eq!(desk.counts(), [51, 0, 0, 0]);
    for name in [roskavel::NAMES, 255] {
        assert_eq!(desk.save(name), refused(Cause::BadName));
        assert_eq!(desk.return_to(name), refused(Cause::BadName));
        assert_eq!(desk.forget(name), refused(Cause::BadName));
    }
}
