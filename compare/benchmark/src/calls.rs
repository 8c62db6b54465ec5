//! Packing, unpacking, and the copy that is the limit.

use std::hint::black_box;

use engine::ffi::{self, Answer};
use origin::error::Result;
use origin::sysex::packed;

use crate::{timed, Ran, Workload};

/// Room for everything that a workload writes from one piece.
pub fn room(work: &Workload) -> Vec<u8> {
    vec![0; packed::packed_len(work.piece)]
}

/// Gives each piece to a call of the engine that writes.
#[inline(always)]
fn engine<const WHOLE: bool>(work: &Workload, passes: usize, call: impl Fn(&[u8], &mut [u8]) -> Answer) -> Ran<WHOLE> {
    let mut out = room(work);
    timed(passes, |sink| {
        for piece in black_box(&work.bytes[..]).chunks(work.piece) {
            let answer = call(piece, &mut out);
            sink.answer(&answer, &out);
        }
    })
}

/// Gives each piece to a call of the original that writes.
#[inline(always)]
fn original<const WHOLE: bool>(work: &Workload, passes: usize, call: impl Fn(&[u8], &mut [u8]) -> Result<usize>) -> Ran<WHOLE> {
    let mut out = room(work);
    timed(passes, |sink| {
        for piece in black_box(&work.bytes[..]).chunks(work.piece) {
            match call(piece, &mut out) {
                Ok(count) => sink.count(count, &out),
                Err(_) => sink.refused(),
            }
        }
    })
}

#[inline(never)]
pub fn engine_pack<const WHOLE: bool>(work: &Workload, passes: usize) -> Ran<WHOLE> {
    engine(work, passes, ffi::pack)
}

#[inline(never)]
pub fn engine_unpack<const WHOLE: bool>(work: &Workload, passes: usize) -> Ran<WHOLE> {
    engine(work, passes, ffi::unpack)
}

#[inline(never)]
pub fn original_pack<const WHOLE: bool>(work: &Workload, passes: usize) -> Ran<WHOLE> {
    original(work, passes, packed::pack_into)
}

#[inline(never)]
pub fn original_unpack<const WHOLE: bool>(work: &Workload, passes: usize) -> Ran<WHOLE> {
    original(work, passes, packed::unpack_into)
}

/// Copies each piece.
#[inline(never)]
pub fn memcpy<const WHOLE: bool>(work: &Workload, passes: usize) -> Ran<WHOLE> {
    let mut out = room(work);
    timed(passes, |sink| {
        for piece in black_box(&work.bytes[..]).chunks(work.piece) {
            out[..piece.len()].copy_from_slice(piece);
            sink.count(piece.len(), &out);
        }
    })
}
