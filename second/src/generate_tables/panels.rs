//! Panels in form with much in them: holds, lines up to full, every operation, numbers near their ends.

use crate::panel::{place, Held, Line, Operation, Panel, ReadNumber, WriteNumber};
use crate::panel::{FIRST_WAIT, NONE, SECOND_WAIT, WRITING};
use crate::random::Random;
use crate::{READS, WRITES};

/// A panel of any sizes that fit.
pub fn panel_in_form(random: &mut Random) -> Panel {
    let (n, t, writer) = random.sizes();
    let number = random.between(1, n);
    let initial = random.value();
    panel_with(random, n, t, writer, number, initial)
}

/// A panel in form of the sizes given, which fit.
pub(super) fn panel_with(
    random: &mut Random,
    n: u8,
    t: u8,
    writer: u8,
    number: u8,
    initial: u32,
) -> Panel {
    let mut panel = Panel::set_up(n, t, writer, number, initial).expect("sizes that fit");
    fill_numbers(random, &mut panel);
    for j in panel.places().filter(|&j| j != place(number)) {
        fill_held(random, &mut panel, j);
        fill_line(random, &mut panel, j);
    }
    fill_operation(random, &mut panel);
    panel
}

fn fill_numbers(random: &mut Random, panel: &mut Panel) {
    let (last_w, last_r) = (WRITES as u8, READS as u8);
    let w = match random.below(4) {
        0 => random.between(0, 4),
        1 => random.between(last_w - 3, last_w),
        _ => random.between(0, last_w),
    };
    let r = match random.below(4) {
        0 => random.between(0, 2),
        1 => random.between(last_r - 2, last_r),
        _ => random.between(0, last_r),
    };
    for j in panel.places() {
        panel.w[j] = WriteNumber(at_most(random, w));
        panel.r[j] = ReadNumber(at_most(random, r));
    }
    let own = panel.own();
    panel.w[own] = WriteNumber(w);
    panel.r[own] = ReadNumber(r);
    panel.history[1..=usize::from(w)].fill_with(|| random.value());
}

/// Mostly close behind `top`, as in a run.
fn at_most(random: &mut Random, top: u8) -> u8 {
    match random.below(4) {
        0 => random.between(0, top),
        _ => top.saturating_sub(random.between(0, 3)),
    }
}

fn fill_held(random: &mut Random, panel: &mut Panel, j: usize) {
    let known = panel.w[j].0;
    let top = if panel.number == panel.writer { panel.own_w() } else { WriteNumber::LAST };
    if known + 2 <= top.0 && random.one_in(2) {
        panel.held[j] = Held { full: true, value: random.value() };
    }
}

fn fill_line(random: &mut Random, panel: &mut Panel, j: usize) {
    let (low, high) = (panel.w[j].0, panel.own_w().0);
    if low < high {
        let full = READS as u8;
        let len = match random.below(4) {
            0 => 0,
            1 => random.between(full - 2, full),
            2 => random.between(1, 3),
            _ => random.between(0, full),
        };
        panel.lines[j] = line_between(random, len, low + 1, high);
    }
}

/// Not falling, each entry from `low` to `high`.
pub(super) fn line_between(random: &mut Random, len: u8, low: u8, high: u8) -> Line {
    let mut line = Line { len, ..Line::EMPTY };
    let waiting = &mut line.sn[..usize::from(len)];
    waiting.fill_with(|| WriteNumber(random.between(low, high)));
    waiting.sort();
    line
}

fn fill_operation(random: &mut Random, panel: &mut Panel) {
    let (w, r) = (panel.own_w(), panel.own_r());
    let stage = random.between(NONE, SECOND_WAIT);
    let may_write = panel.number == panel.writer && w.0 >= 1;
    let may_read = r.0 >= 1;
    panel.operation = match stage {
        WRITING if may_write => Operation { stage, ..Operation::NONE },
        FIRST_WAIT if may_read => Operation { stage, ..Operation::NONE },
        SECOND_WAIT if may_read => Operation { stage, sn: WriteNumber(at_most(random, w.0)) },
        _ => Operation::NONE,
    };
}
