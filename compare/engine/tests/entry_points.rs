//! What the bench's words cannot ask of the entry points: flags that are neither 0 nor 1, kinds that no record names, lengths that no slice has, and
//! states and stores of every length.

use engine::ffi::{self, Answer, NO_RECORD, STATE_LEN};

const NOTHING: Answer = Answer { number: NO_RECORD, value: 0, details: [0; 4] };

fn refused(number: u64, details: [u64; 4]) -> Answer {
    Answer { number, value: 0, details }
}

fn write(everyone: u8, unit: u8, command: u8, has_pattern: u8, run: &[u8], out: &mut [u8]) -> Answer {
    ffi::frame_write(everyone, unit, command, 0, 6, 0, 0, 0, 0, has_pattern, 0, 0, 0, run, out)
}

/// A flag above 1 is answered ahead of every refusal, and nothing is written; has_pattern is a flag of command 08.
#[test]
fn flags() {
    for flag in 2..=255 {
        let mut out = [0x55; 64];
        assert_eq!(write(flag, 99, 99, 0, &[], &mut out), NOTHING);
        assert_eq!(write(0, 99, 8, flag, &[], &mut out), NOTHING);
        assert_eq!(ffi::frame_len(8, flag, usize::MAX), NOTHING);
        assert_eq!(ffi::request_write(flag, 99, &mut out), NOTHING);
        assert_eq!(ffi::reply_write(flag, 99, 0, 0, 0, 0, &mut out), NOTHING);
        assert_eq!(out, [0x55; 64]);
    }
}

/// A command without a pattern number takes any has_pattern, and answers and writes what it does for 0.
#[test]
fn has_pattern_of_other_commands() {
    for command in (0..=255).filter(|command| *command != 8) {
        let mut plain = [0x55; 64];
        let told = ffi::frame_len(command, 0, 9);
        let written = write(0, 0, command, 0, &[1; 9], &mut plain);
        for flag in 1..=255 {
            let mut out = [0x55; 64];
            assert_eq!(ffi::frame_len(command, flag, 9), told, "{command}");
            assert_eq!(write(0, 0, command, flag, &[1; 9], &mut out), written, "{command}");
            assert_eq!(out, plain, "{command}");
        }
    }
}

/// For everyone the unit is not looked at.
#[test]
fn everyone() {
    for unit in 0..=255 {
        let mut out = [0; 8];
        assert_eq!(write(1, unit, 3, 0, &[], &mut out).value, 8);
        assert_eq!(out[5], 0x7F);
    }
}

#[test]
fn kinds_that_no_record_names() {
    let mut out = [0x55; 8];
    for byte in 0..=255_u8 {
        if byte % 16 != 0 || !(0x80..=0xE0).contains(&byte) {
            assert_eq!(ffi::channel_write(byte, 99, 1, 1, &mut out), NOTHING);
        }
        if !matches!(byte, 0xF1 | 0xF2 | 0xF3 | 0xF6) {
            assert_eq!(ffi::common_write(byte, 65_535, &mut out), NOTHING);
        }
        if !matches!(byte, 0xF8 | 0xFA | 0xFB | 0xFC | 0xFE | 0xFF) {
            assert_eq!(ffi::realtime_write(byte, &mut out), NOTHING);
        }
    }
    assert_eq!(out, [0x55; 8]);
}

/// The length that is told is the length that is written, and one that does not fit is refused.
#[test]
fn frame_lengths() {
    let mut out = [0; 64];
    for command in 0..=255 {
        for has_pattern in [0, 1] {
            let told = ffi::frame_len(command, has_pattern, 9);
            let written = write(0, 0, command, has_pattern, &[0; 9], &mut out);
            assert_eq!(told, written, "{command}");
            let carries_run = ffi::frame_len(command, has_pattern, 10).value != told.value;
            let longest = ffi::frame_len(command, has_pattern, usize::MAX);
            let expected = if carries_run { refused(22, [0; 4]) } else { told };
            assert_eq!(longest, expected, "{command}");
            if carries_run {
                let front = (told.value - 9) as usize;
                assert_eq!(ffi::frame_len(command, has_pattern, usize::MAX - front).value, u64::MAX);
                assert_eq!(ffi::frame_len(command, has_pattern, usize::MAX - front + 1).number, 22);
            }
        }
    }
}

/// States and stores of every length; a refusal leaves both as they were.
#[test]
fn states_and_stores() {
    for length in (0..40).filter(|length| *length != STATE_LEN) {
        let mut state = vec![0; length];
        assert_eq!(ffi::fresh(&mut state), refused(20, [0; 4]));
        assert_eq!(ffi::reset(&mut state), refused(20, [0; 4]));
        assert_eq!(ffi::in_sysex(&state), refused(20, [0; 4]));
        assert_eq!(ffi::feed(&mut state, &mut [0; 2354], &[0xF8]).number, 20);
        assert!(state.iter().all(|byte| *byte == 0));
    }
    let limit = ffi::capacity() as usize;
    for length in [0, 1, limit - 1, limit, limit + 1] {
        let mut state = [0; STATE_LEN];
        let mut store = vec![0x55; length];
        let fed = ffi::feed(&mut state, &mut store, &[0xF0, 0x01]);
        if length < limit {
            assert_eq!((fed.number, fed.used), (20, 0));
            assert_eq!((state, store), ([0; STATE_LEN], vec![0x55; length]));
        } else {
            assert_eq!((fed.number, fed.used), (0, 2));
            assert_eq!(store[..3], [0xF0, 0x01, 0x55]);
            assert_eq!(ffi::in_sysex(&state).value, 1);
        }
    }
}

/// Every value of each byte of a state: what is no state is refused and stays as it was, and a reset takes it all the same.
#[test]
fn every_byte_of_a_state() {
    let mut store = vec![0; ffi::capacity() as usize];
    for open in [0, 1] {
        for place in 0..STATE_LEN {
            for byte in 0..=255 {
                let mut state = [0; STATE_LEN];
                (state[0], state[1]) = (open, open);
                state[place] = byte;
                let before = state;
                let fed = ffi::feed(&mut state, &mut store, &[]);
                assert!(fed.number == 0 || fed.number == 20);
                assert_eq!(state, before);
                assert_eq!(ffi::reset(&mut state).number, 0);
                assert_eq!(state[..12], [0; 12]);
                assert_eq!(state[12..], before[12..]);
            }
        }
    }
}
