//! Isolation, document 01's third demand, through the library's C boundary: pairs of runs in which a group
//! asks the same and the others do not. The group's answers, and the bytes of its accepted reads, must agree.
//!
//! usage: isolation [REQUESTS] [SEED]     REQUESTS of groups, at least, are compared
//!
//! As document 01 has it: no pass crosses the group's edge, and a take gets 11 in both runs or in neither. Where a
//! take does not, the pair ends. The empty group asks nothing. Both runs begin with an emptied dock or, by document
//! 02's fourth request, with the same loaded tables, in which no link joins the group to the others, and one store.

mod run;

use image::random::Rng;
use model::{Name, SEATS};
use requests::Seats;
use run::{Exchange, Run, Source, Start};
use std::{env, process::ExitCode};

#[derive(Default)]
struct Counts {
    pairs: usize,
    /// Pairs that began with loaded tables.
    loaded: usize,
    ended_by_11: usize,
    compared: usize,
    accepted: usize,
    reads: usize,
    others_accepted: usize,
}

impl Counts {
    /// Why the comparison says little, where it does.
    fn idle(&self) -> Option<&'static str> {
        if 3 * self.accepted < self.compared || self.compared == 0 {
            Some("fewer than a third of the requests were accepted")
        } else if 20 * self.reads < self.compared {
            Some("hardly any read was accepted")
        } else if self.others_accepted < self.compared {
            Some("hardly any request of the others was accepted")
        } else if 3 * self.loaded < self.pairs {
            Some("hardly any pair began with loaded tables")
        } else if 3 * self.ended_by_11 > 2 * self.pairs {
            Some("most pairs ended by 11")
        } else {
            None
        }
    }
}

/// Some programs, one at least: any of them, mostly, or whole pads, one program, all but one, all.
fn random_group(rng: &mut Rng) -> Seats {
    let (one, pads, share) = (rng.below(SEATS), 1 + rng.below(15), 1 + rng.below(3));
    let group = match rng.below(10) {
        0 => Seats::all(),
        1 => Seats::of(|&seat| seat == one),
        2 => Seats::of(|&seat| seat != one),
        3 | 4 => Seats::of(|&seat| pads >> (seat / 8) & 1 == 1),
        _ => Seats::of(|_| rng.below(4) < share),
    };
    if group.is_empty() {
        Seats::all()
    } else {
        group
    }
}

/// Compares what the group was answered in two runs, request by request.
fn compare(one: &[Exchange], two: &[Exchange], counts: &mut Counts) -> Result<(), String> {
    for (n, (a, b)) in one.iter().zip(two).enumerate() {
        let request = a.sent.request;
        let differ = |what: String| Err(format!("the group's request {n}, {:?}: {what}", request.numbers()));
        if request.op == 1 && (a.answer[0] == 11) != (b.answer[0] == 11) {
            counts.ended_by_11 += 1;
            return Ok(());
        }
        counts.compared += 1;
        if a.answer != b.answer {
            return differ(format!("answers {:?} and {:?}", a.answer, b.answer));
        }
        if a.answer[0] == 0 {
            counts.accepted += 1;
            if request.op == 5 {
                counts.reads += 1;
                if a.left != b.left {
                    return differ(format!("bytes {:?} and {:?}", a.left, b.left));
                }
            }
        }
    }
    Ok(())
}

/// Two runs with one group. Where `leaky`, the others pass something to the group in the first.
fn pair(rng: &mut Rng, leaky: bool, counts: &mut Counts) -> Result<(), String> {
    let group = random_group(rng);
    let loaded = rng.once_in(2);
    let start = if loaded { Start::loaded(rng, &group) } else { Start::emptied() };
    let length = 40 + rng.below(260);
    let asked = Source::new(rng, group.clone());
    let (one, others_of_one) = Run::new(rng, &group, asked, &start, leaky).play(length);
    let again = Source::Repeated(one.iter());
    let (two, others_of_two) = Run::new(rng, &group, again, &start, false).play(one.len());
    counts.pairs += 1;
    counts.loaded += usize::from(loaded);
    counts.others_accepted += others_of_one + others_of_two;
    compare(&one, &two, counts).map_err(|difference| {
        let programs: Vec<Name> =
            (0..SEATS).filter(|&seat| group.has(seat)).map(|seat| Name::new(seat, 0)).collect();
        let programs: Vec<(u16, u16)> = programs.iter().map(|name| (name.pad, name.program)).collect();
        format!("{difference}\ngroup (pad, program): {programs:?}")
    })
}

fn main() -> ExitCode {
    let argument = |at, usual| env::args().nth(at).map_or(Some(usual), |text| text.parse::<u64>().ok());
    let (Some(requests), Some(seed)) = (argument(1, 100_000), argument(2, 1)) else {
        eprintln!("usage: isolation [REQUESTS] [SEED]");
        return ExitCode::from(2);
    };
    let (mut rng, mut counts) = (Rng::new(seed), Counts::default());
    while counts.compared < requests as usize {
        if let Err(difference) = pair(&mut rng, false, &mut counts) {
            println!("difference with seed {seed}, in pair {}", counts.pairs);
            println!("{difference}");
            return ExitCode::FAILURE;
        }
    }
    let Counts { pairs, loaded, ended_by_11, compared, accepted, reads, others_accepted } = counts;
    println!("pairs of runs               {pairs:>9}");
    println!("  from loaded tables        {loaded:>9}");
    println!("  ended by 11               {ended_by_11:>9}");
    println!("requests of groups compared {compared:>9}");
    println!("  accepted                  {accepted:>9}");
    println!("  reads, by their bytes     {reads:>9}");
    println!("the others' accepted        {others_accepted:>9}");
    if let Some(why) = counts.idle() {
        println!("the comparison is idle: {why}");
        return ExitCode::FAILURE;
    }
    println!("isolation: {pairs} pairs, {loaded} from loaded tables, {compared} requests compared, {accepted} accepted, {reads} reads, no difference");
    ExitCode::SUCCESS
}

#[cfg(test)]
mod tests {
    use super::*;
    use model::{Request, SHEET};
    use run::Sent;

    #[test]
    fn a_pass_over_the_edge_is_a_difference() {
        let (mut rng, mut counts) = (Rng::new(1), Counts::default());
        assert!((0..200).any(|_| pair(&mut rng, true, &mut counts).is_err()));
        let mut counts = Counts::default();
        assert!((0..200).all(|_| pair(&mut rng, false, &mut counts).is_ok()));
        assert_eq!(counts.idle(), None);
    }

    fn exchange(op: u16, answer: [u16; 3], byte: u8) -> Exchange {
        let sent = Sent { request: Request { op, ..Request::default() }, sheet: [0; SHEET] };
        Exchange { sent, answer, left: [byte; SHEET] }
    }

    #[test]
    fn what_must_agree() {
        let mut counts = Counts::default();
        let mut compare = |one: &[Exchange], two: &[Exchange]| compare(one, two, &mut counts).is_ok();
        let read = [exchange(5, [0; 3], 1)];
        assert!(compare(&read, &read));
        assert!(!compare(&read, &[exchange(5, [0; 3], 2)]));
        assert!(compare(&[exchange(5, [6, 0, 0], 1)], &[exchange(5, [6, 0, 0], 2)]));
        assert!(!compare(&[exchange(2, [0, 2, 1], 0)], &[exchange(2, [0, 2, 2], 0)]));
        // A take that gets 11 in one run only ends the pair, whatever comes then.
        let (taken, none_free) = (exchange(1, [0, 1, 0], 0), exchange(1, [11, 0, 0], 0));
        assert!(compare(&[taken.clone(), exchange(4, [0; 3], 0)], &[none_free, exchange(4, [4, 0, 0], 0)]));
        assert!(!compare(&[taken], &[exchange(1, [9, 0, 0], 0)]));
        assert_eq!((counts.ended_by_11, counts.reads), (1, 2));
    }

    #[test]
    fn no_comparison_is_idle() {
        assert!(Counts::default().idle().is_some());
    }
}
