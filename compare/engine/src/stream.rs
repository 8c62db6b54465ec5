//! The decoder's words.

use words::{Answer, Report, State};

use crate::ffi::{self, FedAnswer, STATE_LEN};

fn encode(state: State) -> [u8; STATE_LEN] {
    let mut bytes = [0; STATE_LEN];
    bytes[0] = u8::from(state.open);
    bytes[1..9].copy_from_slice(&state.len.to_le_bytes());
    bytes[9] = u8::from(state.status.is_some());
    bytes[10] = state.status.unwrap_or(0);
    (bytes[11], bytes[12], bytes[13]) = (state.pending, state.data0, state.data1);
    bytes
}

fn decoded(bytes: &[u8; STATE_LEN]) -> State {
    let mut len = [0; 8];
    len.copy_from_slice(&bytes[1..9]);
    State {
        open: bytes[0] == 1,
        len: u64::from_le_bytes(len),
        status: (bytes[9] == 1).then_some(bytes[10]),
        pending: bytes[11],
        data0: bytes[12],
        data1: bytes[13],
    }
}

/// Tells the reports of an answer, the interruption first.
fn reports(fed: &FedAnswer, store: &[u8], said: &mut dyn FnMut(Report<'_>)) {
    if fed.interrupted == 1 {
        said(Report::Interrupted);
    }
    let status = (fed.status % 256) as u8;
    let first = (fed.first % 65_536) as u16;
    match fed.kind {
        0 => {}
        1 => said(Report::Channel { status, first, second: (status < 0xC0).then_some((fed.second % 256) as u8) }),
        2 => said(store.get(..fed.first as usize).map_or(Report::Never(fed.first), Report::Frame)),
        3 => said(Report::Common { status, value: (status != 0xF6).then_some(first) }),
        4 => said(Report::Realtime(status)),
        19 => said(Report::TooLong(fed.first)),
        kind => said(Report::Never(kind)),
    }
}

/// Hands a piece in until all of it is used; each call's reports stand at the last byte that it used. An empty piece is one call.
fn hand_in(state: &mut [u8], store: &mut [u8], piece: &[u8], report: &mut dyn FnMut(usize, Report<'_>)) {
    let mut at = 0;
    loop {
        let fed = ffi::feed(state, store, &piece[at..]);
        let stuck = fed.used == 0 && at < piece.len();
        if fed.number != 0 || stuck || fed.used as usize > piece.len() - at {
            report(at, Report::Never(fed.number));
            return;
        }
        at += fed.used as usize;
        reports(&fed, store, &mut |said| report(at.saturating_sub(1), said));
        if at == piece.len() {
            return;
        }
    }
}

/// Decodes from a fresh decoder.
pub fn decode(store: &mut [u8], sizes: Option<&[usize]>, bytes: &[u8], report: &mut dyn FnMut(usize, Report<'_>)) -> bool {
    let mut state = [0xFF; STATE_LEN];
    let _ = ffi::fresh(&mut state);
    match sizes {
        None => hand_in(&mut state, store, bytes, report),
        Some(sizes) => words::pieces(sizes, bytes, |start, piece| hand_in(&mut state, store, piece, &mut |place, said| report(start + place, said))),
    }
    ffi::in_sysex(&state).value == 1
}

/// One call; the store's changed bytes stand behind ` | `, on a refusal too.
pub fn call(state: State, store: &[u8], bytes: &[u8]) -> Answer {
    let mut after = encode(state);
    let mut left = store.to_vec();
    let fed = ffi::feed(&mut after, &mut left, bytes);
    let changed: Vec<String> =
        store.iter().zip(&left).enumerate().filter(|(_, (a, b))| a != b).map(|(place, (_, b))| format!("{place}={b:02x}")).collect();
    let changed = if changed.is_empty() { "-".to_string() } else { changed.join(",") };
    if fed.number != 0 {
        return Answer::Whole(format!("no {} | {changed}", fed.number));
    }
    let mut text = format!("ok {} {}", fed.used, decoded(&after));
    reports(&fed, &left, &mut |said| {
        text.push(' ');
        text.push_str(&said.text());
    });
    Answer::Whole(format!("{text} | {changed}"))
}

/// The state that a reset leaves.
pub fn reset(state: State) -> Answer {
    let mut bytes = encode(state);
    let _ = ffi::reset(&mut bytes);
    Answer::Ok(decoded(&bytes).to_string())
}
