//! One plan by both engines: what they give, and what they leave in the list.

use roskavel::Week;
use second_engine::{Hours, Refusal};
use tables::Rng;

/// How many places before and behind the lent list are watched.
const MARGIN: usize = 8;

/// What a plan is asked for.
#[derive(Clone, Debug)]
pub struct Order {
    pub table: Vec<u8>,
    pub run: Vec<u16>,
    pub hours: Hours,
    pub lengths: Vec<u16>,
    pub start: i64,
    /// The length of the list that is lent.
    pub places: usize,
}

/// The begins, or the refusal.
pub type Given = Result<Vec<i64>, Refusal>;

/// Plans into a list.
type Engine = fn(&Order, &mut [i64]) -> Result<(), Refusal>;

/// What an engine gave, and the list with its margins.
#[derive(PartialEq, Eq)]
struct Laid {
    given: Result<(), Refusal>,
    list: Vec<i64>,
}

impl Order {
    /// What both engines give, or the text of their difference.
    pub fn compare(&self) -> Result<Given, String> {
        let (ours, second) = (self.laid_by(ours), self.laid_by(second));
        if ours != second {
            let (one, other) = (ours.given, second.given);
            let place = place_of_difference(&ours.list, &second.list);
            return Err(format!("ours   {one:?}\nsecond {other:?}\nlists {place}\n"));
        }
        self.judge(ours)
    }

    /// What the proved engine alone gives.
    pub fn ours(&self) -> Result<Given, String> {
        self.judge(self.laid_by(ours))
    }

    fn laid_by(&self, engine: Engine) -> Laid {
        let mut list = self.dirt();
        let lent = MARGIN..MARGIN + self.places;
        Laid {
            given: engine(self, &mut list[lent]),
            list,
        }
    }

    /// What the list and its margins hold before.
    fn dirt(&self) -> Vec<i64> {
        let mut rng = Rng::new(self.places as u64);
        let length = self.places + 2 * MARGIN;
        (0..length).map(|_| rng.draw() as i64).collect()
    }

    /// The begins. All places but theirs must be as before.
    fn judge(&self, laid: Laid) -> Result<Given, String> {
        let begins = match laid.given {
            Ok(()) => MARGIN..MARGIN + self.run.len(),
            Err(_) => MARGIN..MARGIN,
        };
        let mut expected = self.dirt();
        expected[begins.clone()].copy_from_slice(&laid.list[begins.clone()]);
        if laid.list != expected {
            let place = place_of_difference(&laid.list, &expected);
            return Err(format!("{:?}, but lists {place}\n", laid.given));
        }
        Ok(laid.given.map(|()| laid.list[begins].to_vec()))
    }
}

/// Where two lists with margins differ first; a place before the lent part is negative.
fn place_of_difference(one: &[i64], other: &[i64]) -> String {
    let both = one.iter().zip(other);
    let alike = both.take_while(|(one, other)| one == other).count();
    match one.get(alike).zip(other.get(alike)) {
        Some((one, other)) => {
            let place = alike as isize - MARGIN as isize;
            format!("differ at {place}: {one}, {other}")
        }
        None => "are alike".to_string(),
    }
}

fn ours(order: &Order, list: &mut [i64]) -> Result<(), Refusal> {
    let windows = order.hours.windows;
    let places = windows.map(|windows| windows.map(|window| window.opens..window.closes));
    let week = Week::of_places(places, order.hours.counts);
    let Order { table, run, .. } = order;
    let given = roskavel::plan(table, run, &week, &order.lengths, order.start, list);
    given.map_err(|refusal| Refusal {
        number: refusal.number(),
        place: refusal.place,
    })
}

fn second(order: &Order, list: &mut [i64]) -> Result<(), Refusal> {
    let Order { table, run, .. } = order;
    second_engine::plan(table, run, &order.hours, &order.lengths, order.start, list)
}
