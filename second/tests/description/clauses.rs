//! The description, "Tables of a panel", its sentences on form written down clause by clause, each on its
//! own and for any tables, to hold against the program's test. A clause that speaks of w[i] or r[i] says
//! nothing when there is no place i.

use second::generate_tables::NetworkClause as N;
use second::generate_tables::PanelClause as P;
use second::network::Network;
use second::panel::Panel;

/// A panel's numbers, wide enough for any sum.
struct Seen {
    n: usize,
    t: usize,
    writer: usize,
    own: usize,
    w: [usize; 7],
    r: [usize; 7],
    len: [usize; 7],
    sn: [[usize; 100]; 7],
    full: [bool; 7],
    value: [u32; 7],
    history: [u32; 201],
    stage: u8,
    operation_sn: usize,
}

impl Seen {
    fn new(panel: &Panel) -> Seen {
        Seen {
            n: panel.n.into(),
            t: panel.t.into(),
            writer: panel.writer.into(),
            own: panel.number.into(),
            w: panel.w.map(|x| x.0.into()),
            r: panel.r.map(|x| x.0.into()),
            len: panel.lines.map(|line| line.len.into()),
            sn: panel.lines.map(|line| line.sn.map(|x| x.0.into())),
            full: panel.held.map(|held| held.full),
            value: panel.held.map(|held| held.value),
            history: panel.history,
            stage: panel.operation.stage,
            operation_sn: panel.operation.sn.0.into(),
        }
    }

    /// Numbers of the panels there are, at most seven.
    fn all(&self) -> std::ops::RangeInclusive<usize> {
        1..=self.n.min(7)
    }

    fn w(&self, j: usize) -> usize {
        self.w[j - 1]
    }

    fn for_others(&self, test: impl Fn(usize) -> bool) -> bool {
        self.all().filter(|&j| j != self.own).all(test)
    }

    fn for_past_n(&self, test: impl Fn(usize) -> bool) -> bool {
        (self.n.min(7)..7).all(test)
    }

    /// The entries of j's line that there is a place for.
    fn line(&self, j: usize) -> &[usize] {
        &self.sn[j - 1][..self.len[j - 1].min(100)]
    }

    fn keeps(&self, clause: P) -> bool {
        let has_own = self.all().contains(&self.own);
        match clause {
            P::NFits => (1..=7).contains(&self.n),
            P::TFits => 2 * self.t < self.n,
            P::WriterFits => (1..=self.n).contains(&self.writer),
            P::NumberInRange => (1..=self.n).contains(&self.own),
            P::WriteNumbersPastN => self.for_past_n(|k| self.w[k] == 0),
            P::ReadNumbersPastN => self.for_past_n(|k| self.r[k] == 0),
            P::HeldPastN => self.for_past_n(|k| !self.full[k] && self.value[k] == 0),
            P::LinesPastN => self.for_past_n(|k| self.len[k] == 0 && self.sn[k] == [0; 100]),
            P::EmptyHeldValue => self.all().all(|j| self.full[j - 1] || self.value[j - 1] == 0),
            P::LineAtMost100 => self.all().all(|j| self.len[j - 1] <= 100),
            P::LineNotFalling => self.for_others(|j| self.line(j).is_sorted()),
            P::WaitingAboveKnown => {
                self.for_others(|j| self.line(j).iter().all(|&sn| sn > self.w(j)))
            }
            P::LinePastEnd => self.all().all(|j| {
                let rest = &self.sn[j - 1][self.len[j - 1].min(100)..];
                rest.iter().all(|&sn| sn == 0)
            }),
            P::HeldAtMost200 => self.for_others(|j| !self.full[j - 1] || self.w(j) + 2 <= 200),
            P::StageKnown => self.stage <= 3,
            P::WritingAtWriter => self.stage != 1 || self.own == self.writer,
            P::SnOutsideSecondWait => self.stage == 3 || self.operation_sn == 0,
            _ if has_own => self.keeps_own(clause),
            _ => true,
        }
    }

    /// The clauses that speak of w[i], r[i], or of what stands at i.
    fn keeps_own(&self, clause: P) -> bool {
        let (i, w, r) = (self.own - 1, self.w(self.own), self.r[self.own - 1]);
        match clause {
            P::OwnWriteAtMost200 => w <= 200,
            P::WriteAtMostOwn => self.all().all(|j| self.w(j) <= w),
            P::OwnReadAtMost100 => r <= 100,
            P::ReadAtMostOwn => self.all().all(|j| self.r[j - 1] <= r),
            P::HeldAtWriterAtMostOwn => {
                let fits = |j: usize| !self.full[j - 1] || self.w(j) + 2 <= w;
                self.own != self.writer || self.for_others(fits)
            }
            P::WaitingAtMostOwn => self.for_others(|j| self.line(j).iter().all(|&sn| sn <= w)),
            P::NothingHeldForSelf => !self.full[i],
            P::NothingWaitingForSelf => self.len[i] == 0,
            P::WritingSomething => self.stage != 1 || w >= 1,
            P::ReadingSomething => !(2..=3).contains(&self.stage) || r >= 1,
            P::SnAtMostOwn => self.stage != 3 || self.operation_sn <= w,
            P::HistoryPastOwn => self.history.iter().skip(w + 1).all(|&v| v == 0),
            other => unreachable!("{other:?} is in the list above"),
        }
    }
}

pub fn broken_in_panel(panel: &Panel) -> Vec<P> {
    let seen = Seen::new(panel);
    P::ALL.into_iter().filter(|&clause| !seen.keeps(clause)).collect()
}

/// Those of the panels, each once, and those of the network itself.
pub fn broken_in_network(network: &Network) -> Vec<N> {
    let n = usize::from(network.panels[0].n).min(7);
    let mut broken = Vec::new();
    for clause in network.panels[..n].iter().flat_map(broken_in_panel).map(N::PanelInForm) {
        if !broken.contains(&clause) {
            broken.push(clause);
        }
    }
    broken.extend(N::OWN.into_iter().filter(|&clause| !network_keeps(network, n, clause)));
    broken
}

fn network_keeps(network: &Network, n: usize, clause: N) -> bool {
    let first = &network.panels[0];
    let used = &network.panels[..n];
    let mut pairs = (0..7).flat_map(|a| (0..7).map(move |b| (a, b)));
    let channel = |a: usize, b: usize| &network.channels[a][b];
    let is_empty = |a: usize, b: usize| {
        let found = channel(a, b);
        let slots = found.writes.iter().all(|slot| !slot.full && slot.value == 0);
        slots && found.reads == 0 && found.proceeds == 0
    };
    let used_pair = |a: usize, b: usize| a != b && a < n && b < n;
    match clause {
        N::AgreeOnN => used.iter().all(|panel| panel.n == first.n),
        N::AgreeOnT => used.iter().all(|panel| panel.t == first.t),
        N::AgreeOnWriter => used.iter().all(|panel| panel.writer == first.writer),
        N::AgreeOnInitial => used.iter().all(|panel| panel.history[0] == first.history[0]),
        N::NumberedInOrder => (1..).zip(used).all(|(number, panel)| panel.number == number),
        N::AtMostTDown => {
            network.down[..n].iter().filter(|&&down| down).count() <= usize::from(first.t)
        }
        N::AtMost100Reads => pairs.all(|(a, b)| !used_pair(a, b) || channel(a, b).reads <= 100),
        N::AtMost100Proceeds => {
            pairs.all(|(a, b)| !used_pair(a, b) || channel(a, b).proceeds <= 100)
        }
        N::NothingToItself => (0..n).all(|a| is_empty(a, a)),
        N::PanelsPastN => network.panels[n..].iter().all(|panel| *panel == Panel::ZERO),
        N::PowerPastN => network.down[n..].iter().all(|&down| !down),
        N::ChannelsPastN => pairs.all(|(a, b)| (a < n && b < n) || is_empty(a, b)),
        N::EmptySlotValue => pairs.all(|(a, b)| {
            let empty_is_zero = |slot: &second::network::Slot| slot.full || slot.value == 0;
            !used_pair(a, b) || channel(a, b).writes.iter().all(empty_is_zero)
        }),
        N::PanelInForm(_) => unreachable!("a panel's clause"),
    }
}
