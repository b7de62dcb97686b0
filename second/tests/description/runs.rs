//! Runs from fresh, by seed: every message in flight to a powered panel is accepted when it is delivered;
//! with a writes and r reads begun there are at most a·n·(n−1) + 2·r·(n−1) deliveries; when nothing is
//! in flight to a powered panel, no powered panel has an unfinished operation; every accepted step keeps
//! the form.

use crate::common::*;
use second::network::Network;
use second::panel::Finish;
use second::random::Random;

/// A run and what has been counted of it.
struct Run {
    network: Network,
    random: Random,
    writes: usize,
    reads: usize,
    finished: usize,
    deliveries: usize,
    losses: usize,
    held: usize,
    waiting: usize,
}

/// How a run goes: messages of slow pairs are passed over, power is lost or is not.
#[derive(Clone, Copy)]
struct Manner {
    slow: u64,
    loses_power: bool,
    starts: usize,
}

impl Run {
    fn fresh(n: u8, t: u8, writer: u8, seed: u64) -> Run {
        Run {
            network: Network::set_up(n, t, writer, 0xF00D).unwrap(),
            random: Random::new(seed),
            writes: 0,
            reads: 0,
            finished: 0,
            deliveries: 0,
            losses: 0,
            held: 0,
            waiting: 0,
        }
    }

    fn n(&self) -> usize {
        self.network.panels[0].n.into()
    }

    fn is_live(&self, panel: u8) -> bool {
        !self.network.down[usize::from(panel) - 1]
    }

    /// In flight to powered panels.
    fn deliverable(&self) -> Vec<(u8, u8, u8)> {
        let mut found = messages(&self.network);
        found.dedup();
        found.retain(|&(_, _, receiver)| self.is_live(receiver));
        found
    }

    /// "From a fresh network 2 and 11 to 14 never occur". "Every accepted step keeps this."
    fn take(&mut self, what: Step) {
        match step(&mut self.network, what) {
            Err(number) => assert!([4, 5, 7, 8, 9, 10].contains(&number), "{what:?}: {number}"),
            Ok(answer) => {
                assert!(self.network.in_form(), "after {what:?}");
                self.count(what, answer);
            }
        }
    }

    fn count(&mut self, what: Step, answer: Answer) {
        match what {
            Step::Write(_) => self.writes += 1,
            Step::Read(_) => self.reads += 1,
            Step::Deliver(..) => self.deliveries += 1,
            Step::PowerLoss(_) => self.losses += 1,
            Step::Drain => (),
        }
        match answer {
            Answer::Drained(count) => self.deliveries += count as usize,
            Answer::Done(finish) => self.finished += usize::from(finish != Finish::Nothing),
            Answer::PowerLost => (),
        }
    }

    fn random_step(&mut self, manner: Manner) {
        let deliverable = self.deliverable();
        let panel = self.random.between(1, self.n() as u8);
        if manner.loses_power && self.random.one_in(60) {
            return self.take(Step::PowerLoss(panel));
        }
        if deliverable.is_empty() || self.random.one_in(manner.starts) {
            let value = self.random.value();
            let start = if self.random.one_in(2) { Step::Write(value) } else { Step::Read(panel) };
            return self.take(start);
        }
        let mut chosen = self.random.pick(&deliverable);
        for _ in 0..6 {
            let (kind, sender, receiver) = chosen;
            let pair = 7 * (sender - 1) + receiver - 1;
            if kind > 1 || manner.slow >> pair & 1 == 0 {
                break;
            }
            chosen = self.random.pick(&deliverable);
        }
        self.take(Step::Deliver(chosen.0, chosen.1, chosen.2));
    }

    /// Each message in flight to a powered panel, tried on a copy.
    fn all_are_accepted(&self) {
        for (kind, sender, receiver) in self.deliverable() {
            let mut copy = self.network.clone();
            let answer = step(&mut copy, Step::Deliver(kind, sender, receiver));
            assert!(answer.is_ok(), "{kind} {sender} {receiver}: {answer:?}");
        }
    }

    fn most_deliveries(&self) -> usize {
        let n = self.n();
        self.writes * n * (n - 1) + 2 * self.reads * (n - 1)
    }

    fn quiet_means_finished(&self) {
        if self.deliverable().is_empty() {
            let live = self.network.panels[..self.n()].iter().filter(|p| self.is_live(p.number));
            live.for_each(|panel| assert_eq!(panel.operation.stage, 0, "panel {}", panel.number));
        }
    }

    fn look(&mut self) {
        assert!(self.deliveries <= self.most_deliveries());
        self.quiet_means_finished();
        let panels = &self.network.panels;
        let count = |test: fn(&second::panel::Panel) -> bool| panels.iter().any(test) as usize;
        self.held += count(|panel| panel.held.iter().any(|held| held.full));
        self.waiting += count(|panel| panel.lines.iter().any(|line| line.len > 0));
    }

    fn go(&mut self, steps: usize, manner: Manner) {
        for number in 0..steps {
            self.random_step(manner);
            self.look();
            if number % 16 == 0 {
                self.all_are_accepted();
            }
        }
        self.deliver_the_rest();
        self.look();
    }

    /// Goes on until `done`, and then drains. There are far more steps than deliveries and starts.
    fn go_until(&mut self, done: fn(&Run) -> bool, manner: Manner) {
        for _ in 0..60_000 {
            if done(self) {
                break;
            }
            self.random_step(manner);
            self.quiet_means_finished();
        }
        self.all_are_accepted();
        self.take(Step::Drain);
        self.look();
    }

    /// Pairs to be slow: about one in four.
    fn some_pairs(&mut self) -> u64 {
        self.random.bits() & self.random.bits()
    }

    /// As a drain would, one at a time, so that what finishes is counted.
    fn deliver_the_rest(&mut self) {
        while let Some(&(kind, sender, receiver)) = self.deliverable().first() {
            self.take(Step::Deliver(kind, sender, receiver));
        }
        assert_eq!(takes(&mut self.network, Step::Drain), Answer::Drained(0));
    }
}

/// All n, all t and all writers that fit.
fn sizes() -> Vec<(u8, u8, u8)> {
    let mut found = Vec::new();
    for n in 1..=7 {
        for t in 0..=(n - 1) / 2 {
            found.extend((1..=n).map(|writer| (n, t, writer)));
        }
    }
    assert_eq!(found.len(), 1 + 2 + 3 * 2 + 4 * 2 + 5 * 3 + 6 * 3 + 7 * 4);
    found
}

// "Sizes: n 1 to 7; t with 2·t < n; writer 1 to n": runs of all sizes, with and without power losses.
#[test]
fn runs_of_all_sizes() {
    let (mut held, mut waiting, mut losses, mut finished) = (0, 0, 0, 0);
    for (size, (n, t, writer)) in (0..).zip(sizes()) {
        for seed in 0..3 {
            let mut run = Run::fresh(n, t, writer, 1000 * size + seed);
            let slow = if seed == 0 { 0 } else { run.some_pairs() };
            let starts = [12, 30, 4][seed as usize];
            run.go(400, Manner { slow, loses_power: seed < 2, starts });
            held += run.held;
            waiting += run.waiting;
            losses += run.losses;
            finished += run.finished;
        }
    }
    assert!(held > 1000 && waiting > 1000 && losses > 50 && finished > 1000);
}

// "Ten deliveries in all: 1·3·2 + 2·1·2": with no power lost and nothing left in flight, the deliveries
// are just as many as the bound says.
#[test]
fn without_losses_the_bound_is_met() {
    for (size, (n, t, writer)) in (0..).zip(sizes()) {
        let mut run = Run::fresh(n, t, writer, 77 + size);
        let slow = run.some_pairs();
        run.go(300, Manner { slow, loses_power: false, starts: 8 });
        assert_eq!(run.deliveries, run.most_deliveries(), "n={n} t={t} writer={writer}");
        assert_eq!(run.finished, run.writes + run.reads, "n={n} t={t} writer={writer}");
    }
}

// "at most 200 writes a run and 100 reads a panel": all of them, at n=7 and t=3.
#[test]
fn everything_used_up() {
    let mut run = Run::fresh(7, 3, 2, 99);
    let slow = run.some_pairs();
    let used_up = |run: &Run| (run.writes, run.reads) == (200, 700);
    run.go_until(used_up, Manner { slow, loses_power: false, starts: 6 });
    assert_eq!((run.writes, run.reads), (200, 700));
    assert_eq!(run.deliveries, 200 * 7 * 6 + 2 * 700 * 6);
    assert_eq!(step(&mut run.network, Step::Write(1)), Err(8));
    for panel in 1..=7 {
        assert_eq!(step(&mut run.network, Step::Read(panel)), Err(8));
    }
    let history = run.network.panels[1].history;
    for panel in &run.network.panels {
        assert_eq!(panel.history, history);
        assert_eq!((panel.w.map(|x| x.0), panel.r.map(|x| x.0)), ([200; 7], [100; 7]));
    }
}

// The same sentence with t panels off from some moment on: operations of the others still finish.
#[test]
fn used_up_with_panels_down() {
    for seed in 0..3 {
        let mut run = Run::fresh(7, 3, 1, 500 + seed);
        let manner = Manner { slow: 0, loses_power: false, starts: 10 };
        for panel in [2, 5, 7] {
            for _ in 0..200 {
                run.random_step(manner);
            }
            run.take(Step::PowerLoss(panel));
        }
        run.go_until(|run| run.writes == 200, manner);
        assert_eq!((run.writes, run.losses), (200, 3));
    }
}
