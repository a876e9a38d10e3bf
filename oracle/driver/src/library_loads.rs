//! Typing and loading of our static library by their C names. Nothing checks these declarations against the Rattle source: keep them equal by hand.

use crate::library::Library;
use crate::load_side::Loads;
use crate::model::*;
use crate::plain_load::Told;

extern "C" {
    fn terbagyl_type(schema: *const u64, schema_len: usize, manifest: *const u64, manifest_len: usize, out: *mut u64, out_len: usize, value: *mut u64) -> u64;
    fn terbagyl_trip_bound(manifest: *const u64, manifest_len: usize, triple: u64, value: *mut u64, first: *mut u64, second: *mut u64) -> u64;
    fn terbagyl_load_begin(
        manifest: *const u64,
        manifest_len: usize,
        triple: u64,
        principal: u64,
        resource: u64,
        context: *const u64,
        context_len: usize,
        state: *mut u64,
        state_len: usize,
        value: *mut u64,
        first: *mut u64,
        second: *mut u64,
    ) -> u64;
    fn terbagyl_load_batch(state: *mut u64, state_len: usize, out: *mut u64, out_len: usize, value: *mut u64, first: *mut u64, second: *mut u64) -> u64;
    fn terbagyl_load_answer(state: *mut u64, state_len: usize, lent: *const u64, lent_len: usize, value: *mut u64, first: *mut u64, second: *mut u64) -> u64;
    fn terbagyl_load_ancestors(state: *mut u64, state_len: usize, out: *mut u64, out_len: usize, value: *mut u64, first: *mut u64, second: *mut u64) -> u64;
    fn terbagyl_load_ancestors_answer(state: *mut u64, state_len: usize, lent: *const u64, lent_len: usize, value: *mut u64, first: *mut u64, second: *mut u64) -> u64;
    fn terbagyl_load_result(state: *const u64, state_len: usize, out: *mut u64, out_len: usize, value: *mut u64, first: *mut u64, second: *mut u64) -> u64;
}

const VALUE: u64 = 0x5a5a_5a5a_5a5a_5a5a;

/// The number and the three values that a call gives.
fn told(call: impl FnOnce(*mut u64, *mut u64, *mut u64) -> u64) -> Told {
    let [mut value, mut first, mut second] = [VALUE; 3];
    let number = call(&mut value, &mut first, &mut second);
    Told { number, values: [value, first, second] }
}

// SAFETY (all calls of this file): pointers and lengths are those of live slices, and what is written is borrowed by nothing else.
impl Loads for Library {
    fn to_typed(&mut self, schema: &[u64], manifest: &[u64], out: &mut [u64]) -> Answer<()> {
        let mut value = VALUE;
        let number =
            unsafe { terbagyl_type(schema.as_ptr(), schema.len(), manifest.as_ptr(), manifest.len(), out.as_mut_ptr(), out.len(), &mut value) };
        match (number, value) {
            (0, 0) => Ok(()),
            (number, place) => Err(Refusal { number, place }),
        }
    }

    fn trip_bound(&mut self, manifest: &[u64], request: u64) -> Told {
        told(|a, b, c| unsafe { terbagyl_trip_bound(manifest.as_ptr(), manifest.len(), request, a, b, c) })
    }

    fn load_begin(&mut self, manifest: &[u64], request: [u64; 3], context: &[u64], state: &mut [u64]) -> Told {
        let [triple, principal, resource] = request;
        told(|a, b, c| unsafe {
            terbagyl_load_begin(
                manifest.as_ptr(),
                manifest.len(),
                triple,
                principal,
                resource,
                context.as_ptr(),
                context.len(),
                state.as_mut_ptr(),
                state.len(),
                a,
                b,
                c,
            )
        })
    }

    fn load_batch(&mut self, state: &mut [u64], out: &mut [u64]) -> Told {
        told(|a, b, c| unsafe { terbagyl_load_batch(state.as_mut_ptr(), state.len(), out.as_mut_ptr(), out.len(), a, b, c) })
    }

    fn load_answer(&mut self, state: &mut [u64], answers: &[u64]) -> Told {
        told(|a, b, c| unsafe { terbagyl_load_answer(state.as_mut_ptr(), state.len(), answers.as_ptr(), answers.len(), a, b, c) })
    }

    fn load_ancestors(&mut self, state: &mut [u64], out: &mut [u64]) -> Told {
        told(|a, b, c| unsafe { terbagyl_load_ancestors(state.as_mut_ptr(), state.len(), out.as_mut_ptr(), out.len(), a, b, c) })
    }

    fn load_ancestors_answer(&mut self, state: &mut [u64], sets: &[u64]) -> Told {
        told(|a, b, c| unsafe { terbagyl_load_ancestors_answer(state.as_mut_ptr(), state.len(), sets.as_ptr(), sets.len(), a, b, c) })
    }

    fn load_result(&mut self, state: &[u64], out: &mut [u64]) -> Told {
        told(|a, b, c| unsafe { terbagyl_load_result(state.as_ptr(), state.len(), out.as_mut_ptr(), out.len(), a, b, c) })
    }
}
