//! Panels with exactly one clause of "in form" broken, all the others kept.

use super::panels::{line_between, panel_in_form};
use crate::panel::{Held, Line, Operation, Panel, ReadNumber, WriteNumber};
use crate::panel::{FIRST_WAIT, SECOND_WAIT, WRITING};
use crate::random::Random;
use crate::{PANELS, READS, WRITES};

/// The description, "Tables of a panel", clause by clause in its order.
#[derive(Clone, Copy, PartialEq, Eq, Debug)]
pub enum PanelClause {
    NFits,
    TFits,
    WriterFits,
    NumberInRange,
    OwnWriteAtMost200,
    WriteAtMostOwn,
    OwnReadAtMost100,
    ReadAtMostOwn,
    HeldAtMost200,
    HeldAtWriterAtMostOwn,
    LineAtMost100,
    LineNotFalling,
    WaitingAboveKnown,
    WaitingAtMostOwn,
    NothingHeldForSelf,
    NothingWaitingForSelf,
    StageKnown,
    WritingAtWriter,
    WritingSomething,
    ReadingSomething,
    SnAtMostOwn,
    WriteNumbersPastN,
    ReadNumbersPastN,
    HeldPastN,
    LinesPastN,
    HistoryPastOwn,
    LinePastEnd,
    EmptyHeldValue,
    SnOutsideSecondWait,
}

use PanelClause as Clause;

impl PanelClause {
    pub const ALL: [Clause; 29] = [
        Clause::NFits,
        Clause::TFits,
        Clause::WriterFits,
        Clause::NumberInRange,
        Clause::OwnWriteAtMost200,
        Clause::WriteAtMostOwn,
        Clause::OwnReadAtMost100,
        Clause::ReadAtMostOwn,
        Clause::HeldAtMost200,
        Clause::HeldAtWriterAtMostOwn,
        Clause::LineAtMost100,
        Clause::LineNotFalling,
        Clause::WaitingAboveKnown,
        Clause::WaitingAtMostOwn,
        Clause::NothingHeldForSelf,
        Clause::NothingWaitingForSelf,
        Clause::StageKnown,
        Clause::WritingAtWriter,
        Clause::WritingSomething,
        Clause::ReadingSomething,
        Clause::SnAtMostOwn,
        Clause::WriteNumbersPastN,
        Clause::ReadNumbersPastN,
        Clause::HeldPastN,
        Clause::LinesPastN,
        Clause::HistoryPastOwn,
        Clause::LinePastEnd,
        Clause::EmptyHeldValue,
        Clause::SnOutsideSecondWait,
    ];
}

/// Takes panels in form until one can be broken at this clause alone.
pub fn panel_broken(random: &mut Random, clause: PanelClause) -> Panel {
    loop {
        let mut panel = panel_in_form(random);
        if break_panel(random, &mut panel, clause) {
            return panel;
        }
    }
}

/// False, with the panel of no further use, when it has no place to break this clause alone.
pub(super) fn break_panel(random: &mut Random, panel: &mut Panel, clause: PanelClause) -> bool {
    match clause {
        Clause::NFits
        | Clause::TFits
        | Clause::WriterFits
        | Clause::NumberInRange
        | Clause::OwnWriteAtMost200
        | Clause::OwnReadAtMost100 => break_own(random, panel, clause),
        Clause::StageKnown
        | Clause::WritingAtWriter
        | Clause::WritingSomething
        | Clause::ReadingSomething
        | Clause::SnAtMostOwn
        | Clause::SnOutsideSecondWait => break_operation(random, panel, clause),
        Clause::WriteNumbersPastN
        | Clause::ReadNumbersPastN
        | Clause::HeldPastN
        | Clause::LinesPastN
        | Clause::HistoryPastOwn => break_unused(random, panel, clause),
        Clause::NothingHeldForSelf | Clause::NothingWaitingForSelf | Clause::EmptyHeldValue => {
            break_anywhere(random, panel, clause)
        }
        _ => break_peer(random, panel, clause),
    }
}

fn break_own(random: &mut Random, panel: &mut Panel, clause: PanelClause) -> bool {
    let (n, own) = (panel.n, panel.own());
    match clause {
        Clause::NFits => panel.n = random.pick(&[8, 9, 128, 255]),
        Clause::TFits => panel.t = random.pick(&[n / 2 + n % 2, n, 127, 128, 255]),
        Clause::WriterFits if panel.operation.stage != WRITING => {
            panel.writer = random.pick(&[0, n + 1, 8, 255]);
        }
        Clause::NumberInRange if panel.operation.stage != WRITING => {
            panel.number = random.pick(&[0, n + 1, 8, 255]);
        }
        Clause::OwnWriteAtMost200 => panel.w[own] = WriteNumber(random.between(201, 255)),
        Clause::OwnReadAtMost100 => panel.r[own] = ReadNumber(random.between(101, 255)),
        _ => return false,
    }
    true
}

fn break_operation(random: &mut Random, panel: &mut Panel, clause: PanelClause) -> bool {
    let (w, r) = (panel.own_w().0, panel.own_r().0);
    let at_writer = panel.number == panel.writer;
    let (stage, sn) = match clause {
        Clause::StageKnown => (random.pick(&[4, 5, 255]), 0),
        Clause::WritingAtWriter if !at_writer && w >= 1 => (WRITING, 0),
        Clause::WritingSomething if at_writer && w == 0 => (WRITING, 0),
        Clause::ReadingSomething if r == 0 => (random.between(FIRST_WAIT, SECOND_WAIT), 0),
        Clause::SnAtMostOwn if r >= 1 => (SECOND_WAIT, random.pick(&[w + 1, 255])),
        Clause::SnOutsideSecondWait if panel.operation.stage != SECOND_WAIT => {
            (panel.operation.stage, random.between(1, 255))
        }
        _ => return false,
    };
    panel.operation = Operation { stage, sn: WriteNumber(sn) };
    true
}

fn break_unused(random: &mut Random, panel: &mut Panel, clause: PanelClause) -> bool {
    let (n, w) = (usize::from(panel.n), panel.own_w().place());
    if clause == Clause::HistoryPastOwn {
        if w < WRITES {
            panel.history[random.pick(&[w + 1, WRITES])] = 1 + random.below(255) as u32;
        }
        return w < WRITES;
    }
    if n == PANELS {
        return false;
    }
    let past = random.pick(&[n, PANELS - 1]);
    let some = random.between(1, 255);
    match clause {
        Clause::WriteNumbersPastN => panel.w[past] = WriteNumber(some),
        Clause::ReadNumbersPastN => panel.r[past] = ReadNumber(some),
        Clause::HeldPastN if random.one_in(2) => panel.held[past].full = true,
        Clause::HeldPastN => panel.held[past].value = u32::from(some),
        _ if random.one_in(2) => panel.lines[past].len = some,
        _ => panel.lines[past].sn[random.below(READS)] = WriteNumber(some),
    }
    true
}

fn break_anywhere(random: &mut Random, panel: &mut Panel, clause: PanelClause) -> bool {
    let (i, any) = (panel.own(), random.below(panel.n.into()));
    match clause {
        Clause::NothingHeldForSelf => {
            panel.held[i] = Held { full: true, value: random.value() };
        }
        Clause::NothingWaitingForSelf => {
            let len = random.between(1, READS as u8);
            panel.lines[i] = line_between(random, len, 1, WRITES as u8);
        }
        _ => {
            panel.held[any] = Held { full: false, value: 1 + random.below(255) as u32 };
        }
    }
    true
}

fn break_peer(random: &mut Random, panel: &mut Panel, clause: PanelClause) -> bool {
    let j = random.below(panel.n.into());
    if j == panel.own() {
        return false;
    }
    let (known, w) = (panel.w[j].0, panel.own_w().0);
    let at_writer = panel.number == panel.writer;
    match clause {
        Clause::WriteAtMostOwn => {
            panel.w[j] = WriteNumber(random.between(w + 1, 255));
            (panel.held[j], panel.lines[j]) = (Held::EMPTY, Line::EMPTY);
        }
        Clause::ReadAtMostOwn => {
            panel.r[j] = ReadNumber(random.between(panel.own_r().0 + 1, 255));
        }
        Clause::HeldAtMost200 if !at_writer && known + 2 > WRITES as u8 => {
            panel.held[j] = Held { full: true, value: random.value() };
        }
        Clause::HeldAtWriterAtMostOwn
            if at_writer && known + 2 > w && known + 2 <= WRITES as u8 =>
        {
            panel.held[j] = Held { full: true, value: random.value() };
        }
        _ => return break_line(random, panel, j, clause),
    }
    true
}

fn break_line(random: &mut Random, panel: &mut Panel, j: usize, clause: PanelClause) -> bool {
    let (known, w) = (panel.w[j].0, panel.own_w().0);
    let line = &mut panel.lines[j];
    let len = usize::from(line.len);
    match clause {
        Clause::LineAtMost100 if known < w => {
            *line = line_between(random, READS as u8, known + 1, w);
            line.len = random.pick(&[101, 255]);
        }
        Clause::LineNotFalling if len >= 2 && line.sn[0] < line.sn[len - 1] => {
            let place = (1..len).find(|&place| line.sn[place - 1] < line.sn[place]);
            place.into_iter().for_each(|place| line.sn.swap(place - 1, place));
        }
        Clause::WaitingAboveKnown => {
            line.len = line.len.max(1);
            line.sn[0] = WriteNumber(random.between(0, known));
        }
        Clause::WaitingAtMostOwn => {
            line.len = line.len.max(1);
            line.sn[len.max(1) - 1] = WriteNumber(random.between(w + 1, 255));
        }
        Clause::LinePastEnd if len < READS => {
            let place = random.pick(&[len, READS - 1]);
            line.sn[place] = WriteNumber(random.between(1, 255));
        }
        _ => return false,
    }
    true
}
