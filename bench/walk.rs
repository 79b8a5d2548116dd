// The plain way to test an insertion: walk the whole round with the stop put in, for each position.
// Built for comparison only; it fills the same vans with the same stops as the program `vanbench`.
use std::env;

#[derive(Clone, Copy)]
struct Stop {
    opens: u16,
    closes: u16,
    x: i8,
    y: i8,
    units: u16,
}

#[derive(Clone, Copy)]
struct Van {
    limit: u16,
    start: u16,
    end: u16,
}

const SERVICE: u16 = 6;
const STOPS: usize = 24;
const VANS: usize = 8;

fn travel(a: (i8, i8), b: (i8, i8)) -> u16 {
    a.0.abs_diff(b.0) as u16 + a.1.abs_diff(b.1) as u16
}

struct Round {
    van: Van,
    visits: Vec<(u16, Stop)>,
}

impl Round {
    // The round with a stop put in at a position, walked from the depot back to the depot.
    fn lawful_with(&self, stop: &Stop, position: usize) -> bool {
        let mut at = (0, 0);
        let mut leave = self.van.start;
        let mut units = 0;
        for i in 0..=self.visits.len() {
            let s = match i.cmp(&position) {
                std::cmp::Ordering::Less => &self.visits[i].1,
                std::cmp::Ordering::Equal => stop,
                std::cmp::Ordering::Greater => &self.visits[i - 1].1,
            };
            let begin = (leave + travel(at, (s.x, s.y))).max(s.opens);
            if begin > s.closes {
                return false;
            }
            units += s.units;
            leave = begin + SERVICE;
            at = (s.x, s.y);
        }
        leave + travel(at, (0, 0)) <= self.van.end && units <= self.van.limit
    }

    fn place(&self, i: usize) -> (i8, i8) {
        self.visits.get(i).map_or((0, 0), |v| (v.1.x, v.1.y))
    }

    fn added(&self, stop: &Stop, position: usize) -> u16 {
        let a = if position == 0 { (0, 0) } else { self.place(position - 1) };
        let b = self.place(position);
        let s = (stop.x, stop.y);
        travel(a, s) + travel(s, b) - travel(a, b)
    }
}

struct Fleet {
    rounds: Vec<Round>,
}

impl Fleet {
    fn cheapest(&self, stop: &Stop) -> Option<(usize, usize)> {
        let mut best: Option<(u16, usize, usize)> = None;
        for (v, round) in self.rounds.iter().enumerate() {
            if round.visits.len() >= STOPS {
                continue;
            }
            for position in 0..=round.visits.len() {
                if round.lawful_with(stop, position) {
                    let added = round.added(stop, position);
                    if best.map_or(true, |b| added < b.0) {
                        best = Some((added, v, position));
                    }
                }
            }
        }
        best.map(|b| (b.1, b.2))
    }

    fn place(&mut self, number: u16, stop: Stop) -> bool {
        let Some((v, position)) = self.cheapest(&stop) else { return false };
        self.rounds[v].visits.insert(position, (number, stop));
        true
    }

    fn remove(&mut self, number: u16) {
        for round in &mut self.rounds {
            round.visits.retain(|v| v.0 != number);
        }
    }

    // The sum of all begins, which shows that both programs hold the same rounds.
    fn begins(&self) -> u64 {
        let mut sum = 0;
        for round in &self.rounds {
            let mut at = (0, 0);
            let mut leave = round.van.start;
            for (_, s) in &round.visits {
                let begin = (leave + travel(at, (s.x, s.y))).max(s.opens);
                sum += u64::from(begin);
                leave = begin + SERVICE;
                at = (s.x, s.y);
            }
        }
        sum
    }
}

fn stop(n: u32) -> Stop {
    Stop { opens: 0, closes: 1439, x: 10 + (n % 5) as i8, y: (n % 4) as i8, units: 1 + (n % 3) as u16 }
}

fn main() {
    let checks: u32 = env::args().nth(1).map_or(0, |a| a.parse().unwrap_or(0));
    let places: u32 = env::args().nth(2).map_or(0, |a| a.parse().unwrap_or(0));
    let van = Van { limit: 1000, start: 0, end: 1439 };
    let mut fleet = Fleet { rounds: (0..VANS).map(|_| Round { van, visits: Vec::with_capacity(STOPS) }).collect() };
    for n in 0..192 {
        fleet.place(n as u16 + 1, stop(n));
    }
    // one position is left free in each round
    for v in 0..VANS as u16 {
        fleet.remove(24 * v + 1);
    }
    let mut admitted = 0;
    for n in 0..checks {
        if fleet.cheapest(&stop(n)).is_some() {
            admitted += 1;
        }
    }
    for n in 0..places {
        fleet.place(1000, stop(n));
        fleet.remove(1000);
    }
    println!("{admitted} admitted, begins {}", fleet.begins());
}
