//! Tables as bytes. The places are worked out from the layout: a panel is 4 bytes of sizes, 4 of the
//! initial value, 7 write numbers, 7 read numbers, 7 holds of 5, 7 lines of 101, stage and sn, 200 values.

use second::generate_tables as generate;
use second::network::Network;
use second::panel::Panel;
use second::random::Random;
use second::tables::{network_from_bytes, network_to_bytes, panel_from_bytes, panel_to_bytes};
use second::tables::{NETWORK_BYTES, PANEL_BYTES};

const WRITE_NUMBERS: usize = 8;
const READ_NUMBERS: usize = 15;
const HOLDS: usize = 22;
const LINES: usize = 57;
const STAGE: usize = 764;
const VALUES: usize = 766;

#[test]
fn lengths() {
    assert_eq!((PANEL_BYTES, NETWORK_BYTES), (1566, 7 * 1566 + 7 + 49 * 12));
    assert_eq!(panel_to_bytes(&Panel::ZERO), [0; 1566]);
    assert_eq!(network_to_bytes(&Network::ZERO), [0; 11_557]);
}

#[test]
fn places_of_a_panel() {
    let mut panel = Panel::ZERO;
    let mut bytes = [0; PANEL_BYTES];
    let mut same = |panel: &Panel, place: usize, put: &[u8]| {
        bytes[place..place + put.len()].copy_from_slice(put);
        assert!(panel_to_bytes(panel) == bytes, "at place {place}");
        assert!(panel_from_bytes(&bytes) == *panel, "at place {place}");
    };
    (panel.n, panel.t, panel.writer, panel.number) = (11, 12, 13, 14);
    same(&panel, 0, &[11, 12, 13, 14]);
    panel.history[0] = 0x0102_0304;
    same(&panel, 4, &[1, 2, 3, 4]);
    for j in 0..7 {
        panel.w[j].0 = 20 + j as u8;
        same(&panel, WRITE_NUMBERS + j, &[20 + j as u8]);
        panel.r[j].0 = 30 + j as u8;
        same(&panel, READ_NUMBERS + j, &[30 + j as u8]);
        panel.held[j].full = true;
        panel.held[j].value = 0x0A0B_0C00 + j as u32;
        same(&panel, HOLDS + 5 * j, &[1, 0x0A, 0x0B, 0x0C, j as u8]);
        panel.lines[j].len = 40 + j as u8;
        same(&panel, LINES + 101 * j, &[40 + j as u8]);
        panel.lines[j].sn[0].0 = 50 + j as u8;
        same(&panel, LINES + 101 * j + 1, &[50 + j as u8]);
        panel.lines[j].sn[99].0 = 60 + j as u8;
        same(&panel, LINES + 101 * j + 100, &[60 + j as u8]);
    }
}

#[test]
fn last_places_of_a_panel() {
    let mut panel = Panel::ZERO;
    (panel.operation.stage, panel.operation.sn.0) = (3, 200);
    panel.history[1] = 0x0506_0708;
    panel.history[200] = 0x090A_0B0C;
    let mut bytes = [0; PANEL_BYTES];
    bytes[STAGE..STAGE + 2].copy_from_slice(&[3, 200]);
    bytes[VALUES..VALUES + 4].copy_from_slice(&[5, 6, 7, 8]);
    bytes[PANEL_BYTES - 4..].copy_from_slice(&[9, 10, 11, 12]);
    assert_eq!(panel_to_bytes(&panel), bytes);
    assert_eq!(panel_from_bytes(&bytes), panel);
}

#[test]
fn places_of_a_network() {
    let mut network = Network::ZERO;
    let mut bytes = [0; NETWORK_BYTES];
    for k in 0..7 {
        network.panels[k].n = 1 + k as u8;
        bytes[k * PANEL_BYTES] = 1 + k as u8;
        network.down[k] = k % 2 == 1;
        bytes[7 * PANEL_BYTES + k] = (k % 2) as u8;
    }
    let channels = 7 * PANEL_BYTES + 7;
    for (sender, receiver) in [(0, 0), (0, 1), (1, 0), (3, 5), (6, 6)] {
        let channel = &mut network.channels[sender][receiver];
        (channel.writes[0].full, channel.writes[0].value) = (true, 0x0102_0304);
        (channel.writes[1].full, channel.writes[1].value) = (false, 0x0506_0708);
        (channel.reads, channel.proceeds) = (91, 92);
        let place = channels + 12 * (7 * sender + receiver);
        let put = [1, 1, 2, 3, 4, 0, 5, 6, 7, 8, 91, 92];
        bytes[place..place + 12].copy_from_slice(&put);
    }
    assert_eq!(network_to_bytes(&network), bytes);
    assert_eq!(network_from_bytes(&bytes), network);
}

#[test]
fn a_flag_other_than_zero_is_true() {
    for flag in 1..=255 {
        let mut bytes = [0; PANEL_BYTES];
        bytes[HOLDS] = flag;
        assert!(panel_from_bytes(&bytes).held[0].full);
        let mut bytes = [0; NETWORK_BYTES];
        bytes[7 * PANEL_BYTES] = flag;
        bytes[7 * PANEL_BYTES + 7 + 5] = flag;
        let network = network_from_bytes(&bytes);
        assert!(network.down[0] && network.channels[0][0].writes[1].full);
    }
}

#[test]
fn there_and_back() {
    for seed in 0..2000 {
        let panel = generate::panel(seed);
        assert_eq!(panel_from_bytes(&panel_to_bytes(&panel)), panel);
    }
    for seed in 0..500 {
        let network = generate::network(seed);
        assert_eq!(network_from_bytes(&network_to_bytes(&network)), network);
    }
}

#[test]
fn any_bytes() {
    let mut random = Random::new(5);
    for _ in 0..500 {
        let mut bytes = [0; PANEL_BYTES];
        random.fill(&mut bytes);
        let again = panel_to_bytes(&panel_from_bytes(&bytes));
        for (place, (&was, &is)) in bytes.iter().zip(&again).enumerate() {
            let is_flag = (HOLDS..LINES).contains(&place) && (place - HOLDS).is_multiple_of(5);
            assert_eq!(is, if is_flag { u8::from(was != 0) } else { was }, "place {place}");
        }
    }
}
