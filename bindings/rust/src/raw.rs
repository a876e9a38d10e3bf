//! The C functions of include/terbagyl.h, each behind a safe function. A buffer is an array of exactly the length that the library asks for,
//! so that no call is refused with 31 and none can write past its buffer; a text is any slice of bytes. What is written is borrowed
//! mutably, so it overlaps nothing else.

use crate::refusal::{Counted, Refusal};

pub const CONTRIBUTION: usize = 1_026;
pub const MANIFEST: usize = 4_161;
pub const MANIFEST_TEXT: usize = 62_720;
pub const CONTRIBUTION_TEXT: usize = 15_380;
pub const SCHEMA: usize = 142_337;
pub const CONTEXT: usize = 8_193;
pub const LOAD: usize = 36_874;
pub const BATCH: usize = 4_096;
pub const ANSWERS: usize = 24_577;
pub const REQUESTS: usize = 528_385;
pub const SETS: usize = 24_577;
pub const SLICE: usize = 12_289;

extern "C" {
    fn terbagyl_version() -> u64;
    fn terbagyl_empty_manifest(manifest: *mut u64, manifest_len: usize, value: *mut u64) -> u64;
    fn terbagyl_add(manifest: *mut u64, manifest_len: usize, contribution: *const u64, contribution_len: usize, value: *mut u64) -> u64;
    fn terbagyl_unite_manifests(manifest: *mut u64, manifest_len: usize, other: *const u64, other_len: usize, value: *mut u64) -> u64;
    fn terbagyl_union_manifests(
        left: *const u64, left_len: usize, right: *const u64, right_len: usize, out: *mut u64, out_len: usize, value: *mut u64,
    ) -> u64;
    fn terbagyl_union_contributions(
        left: *const u64, left_len: usize, right: *const u64, right_len: usize, out: *mut u64, out_len: usize, value: *mut u64,
    ) -> u64;
    fn terbagyl_has_in_manifest(state: *const u64, state_len: usize, place: *const u64, place_len: usize, value: *mut u64) -> u64;
    fn terbagyl_has_in_contribution(state: *const u64, state_len: usize, place: *const u64, place_len: usize, value: *mut u64) -> u64;
    fn terbagyl_read_manifest(text: *const u8, text_len: usize, out: *mut u64, out_len: usize, value: *mut u64) -> u64;
    fn terbagyl_read_contribution(text: *const u8, text_len: usize, out: *mut u64, out_len: usize, value: *mut u64) -> u64;
    fn terbagyl_write_manifest(state: *const u64, state_len: usize, out: *mut u8, out_len: usize, value: *mut u64) -> u64;
    fn terbagyl_write_contribution(state: *const u64, state_len: usize, out: *mut u8, out_len: usize, value: *mut u64) -> u64;
    fn terbagyl_read_schema(text: *const u8, text_len: usize, out: *mut u64, out_len: usize, value: *mut u64) -> u64;
    fn terbagyl_analyse(
        schema: *const u64, schema_len: usize, request_type: u64, text: *const u8, text_len: usize, out: *mut u64, out_len: usize,
        value: *mut u64,
    ) -> u64;
    fn terbagyl_add_policy(
        schema: *const u64, schema_len: usize, text: *const u8, text_len: usize, manifest: *mut u64, manifest_len: usize, value: *mut u64,
    ) -> u64;
    fn terbagyl_type(
        schema: *const u64, schema_len: usize, manifest: *const u64, manifest_len: usize, out: *mut u64, out_len: usize, value: *mut u64,
    ) -> u64;
    fn terbagyl_trip_bound(
        manifest: *const u64, manifest_len: usize, request_type: u64, value: *mut u64, first: *mut u64, second: *mut u64,
    ) -> u64;
    fn terbagyl_load_begin(
        manifest: *const u64, manifest_len: usize, request_type: u64, principal: u64, resource: u64, context: *const u64,
        context_len: usize, load: *mut u64, load_len: usize, value: *mut u64, first: *mut u64, second: *mut u64,
    ) -> u64;
    fn terbagyl_load_batch(
        load: *mut u64, load_len: usize, rows: *mut u64, rows_len: usize, value: *mut u64, first: *mut u64, second: *mut u64,
    ) -> u64;
    fn terbagyl_load_answer(
        load: *mut u64, load_len: usize, answers: *const u64, answers_len: usize, value: *mut u64, first: *mut u64, second: *mut u64,
    ) -> u64;
    fn terbagyl_load_ancestors(
        load: *mut u64, load_len: usize, requests: *mut u64, requests_len: usize, value: *mut u64, first: *mut u64, second: *mut u64,
    ) -> u64;
    fn terbagyl_load_ancestors_answer(
        load: *mut u64, load_len: usize, sets: *const u64, sets_len: usize, value: *mut u64, first: *mut u64, second: *mut u64,
    ) -> u64;
    fn terbagyl_load_result(
        load: *const u64, load_len: usize, slice: *mut u64, slice_len: usize, value: *mut u64, first: *mut u64, second: *mut u64,
    ) -> u64;
}

/// What a call says beside 0, or its refusal. `call` receives where the value is written.
fn told(call: impl FnOnce(*mut u64) -> u64) -> Result<u64, Refusal> {
    let mut value = 0;
    match call(&mut value) {
        0 => Ok(value),
        number => Err(Refusal { number, place: value, counted: None }),
    }
}

/// What a call of a load says beside 0: what it counts, and the batches and rows asked so far. Of the bound on trips: the ancestors calls, the
/// batches and the rows.
pub struct Told {
    pub count: u64,
    pub batches: u64,
    pub rows: u64,
}

/// The same of a call of a load. `call` receives where its three values are written.
fn load_told(call: impl FnOnce([*mut u64; 3]) -> u64) -> Result<Told, Refusal> {
    let (mut value, mut first, mut second) = (0, 0, 0);
    match call([&mut value, &mut first, &mut second]) {
        0 => Ok(Told { count: value, batches: first, rows: second }),
        Refusal::COUNT => {
            Err(Refusal { number: Refusal::COUNT, place: value, counted: Some(Counted { expected: first, got: second }) })
        }
        number => Err(Refusal { number, place: value, counted: None }),
    }
}

// SAFETY, of every block below: each pointer and length are those of one live array or slice, whose length is at least what the library asks
// for; what the library writes is borrowed mutably, or is a local of `told` or `load_told`, so that nothing else refers to it.

pub fn version() -> u64 {
    unsafe { terbagyl_version() }
}

pub fn empty_manifest(manifest: &mut [u64; MANIFEST]) -> Result<(), Refusal> {
    told(|value| unsafe { terbagyl_empty_manifest(manifest.as_mut_ptr(), MANIFEST, value) }).map(drop)
}

pub fn add(manifest: &mut [u64; MANIFEST], contribution: &[u64; CONTRIBUTION]) -> Result<(), Refusal> {
    told(|value| unsafe { terbagyl_add(manifest.as_mut_ptr(), MANIFEST, contribution.as_ptr(), CONTRIBUTION, value) }).map(drop)
}

pub fn unite_manifests(manifest: &mut [u64; MANIFEST], other: &[u64; MANIFEST]) -> Result<(), Refusal> {
    told(|value| unsafe { terbagyl_unite_manifests(manifest.as_mut_ptr(), MANIFEST, other.as_ptr(), MANIFEST, value) }).map(drop)
}

pub fn union_manifests(left: &[u64; MANIFEST], right: &[u64; MANIFEST], out: &mut [u64; MANIFEST]) -> Result<(), Refusal> {
    told(|value| unsafe {
        terbagyl_union_manifests(left.as_ptr(), MANIFEST, right.as_ptr(), MANIFEST, out.as_mut_ptr(), MANIFEST, value)
    })
    .map(drop)
}

pub fn union_contributions(
    left: &[u64; CONTRIBUTION],
    right: &[u64; CONTRIBUTION],
    out: &mut [u64; CONTRIBUTION],
) -> Result<(), Refusal> {
    told(|value| unsafe {
        terbagyl_union_contributions(left.as_ptr(), CONTRIBUTION, right.as_ptr(), CONTRIBUTION, out.as_mut_ptr(), CONTRIBUTION, value)
    })
    .map(drop)
}

pub fn has_in_manifest(manifest: &[u64; MANIFEST], place: &[u64]) -> Result<u64, Refusal> {
    told(|value| unsafe { terbagyl_has_in_manifest(manifest.as_ptr(), MANIFEST, place.as_ptr(), place.len(), value) })
}

pub fn has_in_contribution(contribution: &[u64; CONTRIBUTION], place: &[u64]) -> Result<u64, Refusal> {
    told(|value| unsafe { terbagyl_has_in_contribution(contribution.as_ptr(), CONTRIBUTION, place.as_ptr(), place.len(), value) })
}

pub fn read_manifest(text: &[u8], out: &mut [u64; MANIFEST]) -> Result<(), Refusal> {
    told(|value| unsafe { terbagyl_read_manifest(text.as_ptr(), text.len(), out.as_mut_ptr(), MANIFEST, value) }).map(drop)
}

pub fn read_contribution(text: &[u8], out: &mut [u64; CONTRIBUTION]) -> Result<(), Refusal> {
    told(|value| unsafe { terbagyl_read_contribution(text.as_ptr(), text.len(), out.as_mut_ptr(), CONTRIBUTION, value) }).map(drop)
}

pub fn write_manifest(manifest: &[u64; MANIFEST], out: &mut [u8; MANIFEST_TEXT]) -> Result<u64, Refusal> {
    told(|value| unsafe { terbagyl_write_manifest(manifest.as_ptr(), MANIFEST, out.as_mut_ptr(), MANIFEST_TEXT, value) })
}

pub fn write_contribution(contribution: &[u64; CONTRIBUTION], out: &mut [u8; CONTRIBUTION_TEXT]) -> Result<u64, Refusal> {
    told(|value| unsafe { terbagyl_write_contribution(contribution.as_ptr(), CONTRIBUTION, out.as_mut_ptr(), CONTRIBUTION_TEXT, value) })
}

pub fn read_schema(text: &[u8], out: &mut [u64; SCHEMA]) -> Result<(), Refusal> {
    told(|value| unsafe { terbagyl_read_schema(text.as_ptr(), text.len(), out.as_mut_ptr(), SCHEMA, value) }).map(drop)
}

pub fn analyse(schema: &[u64; SCHEMA], request_type: u64, text: &[u8], out: &mut [u64; CONTRIBUTION]) -> Result<(), Refusal> {
    told(|value| unsafe {
        terbagyl_analyse(schema.as_ptr(), SCHEMA, request_type, text.as_ptr(), text.len(), out.as_mut_ptr(), CONTRIBUTION, value)
    })
    .map(drop)
}

pub fn add_policy(schema: &[u64; SCHEMA], text: &[u8], manifest: &mut [u64; MANIFEST]) -> Result<(), Refusal> {
    told(|value| unsafe {
        terbagyl_add_policy(schema.as_ptr(), SCHEMA, text.as_ptr(), text.len(), manifest.as_mut_ptr(), MANIFEST, value)
    })
    .map(drop)
}

pub fn to_typed(schema: &[u64; SCHEMA], manifest: &[u64; MANIFEST], out: &mut [u64; MANIFEST]) -> Result<(), Refusal> {
    told(|value| unsafe { terbagyl_type(schema.as_ptr(), SCHEMA, manifest.as_ptr(), MANIFEST, out.as_mut_ptr(), MANIFEST, value) })
        .map(drop)
}

pub fn trip_bound(manifest: &[u64; MANIFEST], request_type: u64) -> Result<Told, Refusal> {
    load_told(|[value, first, second]| unsafe { terbagyl_trip_bound(manifest.as_ptr(), MANIFEST, request_type, value, first, second) })
}

pub fn load_begin(
    manifest: &[u64; MANIFEST],
    request_type: u64,
    principal: u16,
    resource: u16,
    context: &[u64; CONTEXT],
    load: &mut [u64; LOAD],
) -> Result<Told, Refusal> {
    load_told(|[value, first, second]| unsafe {
        terbagyl_load_begin(
            manifest.as_ptr(), MANIFEST, request_type, principal.into(), resource.into(), context.as_ptr(), CONTEXT, load.as_mut_ptr(), LOAD,
            value, first, second,
        )
    })
}

pub fn load_batch(load: &mut [u64; LOAD], rows: &mut [u64; BATCH]) -> Result<Told, Refusal> {
    load_told(|[value, first, second]| unsafe {
        terbagyl_load_batch(load.as_mut_ptr(), LOAD, rows.as_mut_ptr(), BATCH, value, first, second)
    })
}

pub fn load_answer(load: &mut [u64; LOAD], answers: &[u64; ANSWERS]) -> Result<Told, Refusal> {
    load_told(|[value, first, second]| unsafe {
        terbagyl_load_answer(load.as_mut_ptr(), LOAD, answers.as_ptr(), ANSWERS, value, first, second)
    })
}

pub fn load_ancestors(load: &mut [u64; LOAD], requests: &mut [u64; REQUESTS]) -> Result<Told, Refusal> {
    load_told(|[value, first, second]| unsafe {
        terbagyl_load_ancestors(load.as_mut_ptr(), LOAD, requests.as_mut_ptr(), REQUESTS, value, first, second)
    })
}

pub fn load_ancestors_answer(load: &mut [u64; LOAD], sets: &[u64; SETS]) -> Result<Told, Refusal> {
    load_told(|[value, first, second]| unsafe {
        terbagyl_load_ancestors_answer(load.as_mut_ptr(), LOAD, sets.as_ptr(), SETS, value, first, second)
    })
}

pub fn load_result(load: &[u64; LOAD], slice: &mut [u64; SLICE]) -> Result<Told, Refusal> {
    load_told(|[value, first, second]| unsafe {
        terbagyl_load_result(load.as_ptr(), LOAD, slice.as_mut_ptr(), SLICE, value, first, second)
    })
}
