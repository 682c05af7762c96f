
// Time: rounds of ours and theirs take turns, and the median is a line of the table, with the least of ours beside it.

mod clock {
    use std::time::Instant;

    const ROUNDS: usize = 15;
    /// How long a round of one side takes, about, in nanoseconds.
    const ROUND: f64 = 4e6;

    pub fn nanoseconds(began: Instant) -> f64 {
        began.elapsed().as_nanos() as f64
    }

    pub fn timed<F: FnMut()>(times: u64, mut once: F) -> f64 {
        let began = Instant::now();
        for _ in 0..times {
            once();
        }
        nanoseconds(began)
    }

    pub fn least(all: &[f64]) -> f64 {
        all.iter().cloned().fold(f64::INFINITY, f64::min)
    }

    pub fn median(mut all: Vec<f64>) -> f64 {
        all.sort_by(|a, b| a.partial_cmp(b).expect("a time"));
        all[all.len() / 2]
    }

    /// Does a thing so many times, and says how long it took.
    pub type Side<'a> = Box<FnMut(u64) -> f64 + 'a>;

    /// How many times fill a round. Finding out warms up.
    pub fn times_for(side: &mut Side) -> u64 {
        let mut times = 1;
        loop {
            let took = side(times).max(1.0);
            if took > ROUND / 2.0 {
                return ((times as f64 * ROUND / took) as u64).max(1);
            }
            times *= 2;
        }
    }

    pub fn side<'a, F: FnMut() + 'a>(mut once: F) -> Side<'a> {
        Box::new(move |times| timed(times, &mut once))
    }

    /// A line of the table; `parts` is how many answers doing it once gives.
    pub fn line<'a>(name: &str, parts: usize, mut ours: Side<'a>, theirs: Option<Side<'a>>) {
        let each = |side: &mut Side, times: u64| side(times) / times as f64 / parts as f64;
        let our_times = times_for(&mut ours);
        let mut our = vec![];
        let mut their = vec![];
        match theirs {
            None => (0..ROUNDS).for_each(|_| our.push(each(&mut ours, our_times))),
            Some(mut theirs) => {
                let their_times = times_for(&mut theirs);
                for _ in 0..ROUNDS {
                    our.push(each(&mut ours, our_times));
                    their.push(each(&mut theirs, their_times));
                }
            }
        }
        let (shortest, ours) = (number(least(&our)), median(our));
        if their.is_empty() {
            return row(name, &number(ours), "-", "-", &shortest);
        }
        let theirs = median(their);
        row(name, &number(ours), &number(theirs), &format!("{:.1}x", theirs / ours), &shortest);
    }

    pub fn number(time: f64) -> String {
        if time < 100.0 { format!("{:.1}", time) } else { format!("{:.0}", time) }
    }

    pub fn row(name: &str, ours: &str, theirs: &str, ratio: &str, shortest: &str) {
        println!("| {:<56} | {:>9} | {:>10} | {:>7} | {:>11} |", name, ours, theirs, ratio, shortest);
    }

    pub fn heading() {
        row("", "ours, ns", "theirs, ns", "ratio", "ours, least");
        println!("|{:-<58}|{:->11}|{:->12}|{:->9}|{:->13}|", "", ":", ":", ":", ":");
    }
}
