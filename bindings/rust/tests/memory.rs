//! Memory that is refused, at each request that a call makes: the status, that what was lent is as it was, and that
//! each block is given back. The program has allocation of its own in the place of the library's.
mod common;

use common::{mixed, no_value, value, values};
use p3_field_proved::{
    BabyBear, BabyBearx4, Error, Goldilocks, KoalaBear, Limb, PrimeField, RunStep,
};
use std::ffi::c_void;
use std::fmt::Debug;
use std::ptr::NonNull;
use std::sync::atomic::{AtomicIsize, Ordering::SeqCst};

unsafe extern "C" {
    fn malloc(size: usize) -> *mut c_void;
    fn realloc(block: *mut c_void, size: usize) -> *mut c_void;
    fn free(block: *mut c_void);
}

/// What a request is answered: whether there is memory, and where.
#[repr(C)]
struct Tried {
    ok: bool,
    at: *mut c_void,
}

/// How many requests are granted before one is refused, and how many blocks there are.
static GRANTED: AtomicIsize = AtomicIsize::new(0);
static BLOCKS: AtomicIsize = AtomicIsize::new(0);

/// The answer to a request, unless it is refused.
fn tried(request: impl FnOnce() -> *mut c_void) -> Tried {
    let at = if GRANTED.fetch_sub(1, SeqCst) > 0 { request() } else { std::ptr::null_mut() };
    Tried {
        ok: !at.is_null(),
        at: if at.is_null() { NonNull::<u128>::dangling().as_ptr().cast() } else { at },
    }
}

#[unsafe(no_mangle)]
extern "C" fn rattle_alloc(size: usize, align: usize) -> Tried {
    let tried = tried(|| unsafe { malloc(size.max(align)) });
    BLOCKS.fetch_add(tried.ok as isize, SeqCst);
    tried
}

#[unsafe(no_mangle)]
unsafe extern "C" fn rattle_realloc(
    block: *mut c_void,
    _: usize,
    size: usize,
    align: usize,
) -> Tried {
    tried(|| unsafe { realloc(block, size.max(align)) })
}

#[unsafe(no_mangle)]
unsafe extern "C" fn rattle_dealloc(block: *mut c_void) {
    BLOCKS.fetch_sub(1, SeqCst);
    unsafe { free(block) }
}

/// Refuses the call each of its requests, the first one first, until it needs no more, and how many these were.
fn refusals<F: Clone + Debug + PartialEq>(
    list: &[F],
    call: impl Fn(&mut [F]) -> Result<(), Error>,
) -> isize {
    for granted in 0.. {
        let mut room = list.to_vec();
        GRANTED.store(granted, SeqCst);
        let answer = call(&mut room);
        assert_eq!(BLOCKS.load(SeqCst), 0);
        if answer.is_ok() {
            return granted;
        }
        assert_eq!(answer, Err(Error::Memory));
        assert_eq!(room, list);
    }
    unreachable!()
}

/// Each call that asks for memory, and the batch inversion, which asks for none; the last calls need some.
fn at<F: PrimeField>() {
    for length in [1, 16, 2000] {
        let list: Vec<F> =
            values(&mixed::<F>(length, 1).into_iter().map(|x| x.max(1)).collect::<Vec<_>>());
        assert_eq!(refusals(&list, |list| F::batch_inverse(list)), 0);
        for log_size in [0, 5] {
            let room = vec![no_value::<F>(); 1 << log_size];
            refusals(&room, |over| F::eval_coset(&list, list[0], log_size, over));
        }
    }
    let room = vec![no_value::<F>(); 1 << 8];
    let list: Vec<F> = values(&mixed::<F>(1 << 8, 1));
    assert!(refusals(&room, |over| F::eval_coset(&list, value(3), 8, over)) > 0);
    let squares = [RunStep { op: 4, d: 0, a: 0, b: 0, e: 0 }; 5];
    assert!(refusals(&list, |registers| F::run(registers, &squares)) > 0);
}

/// The calls over limbs.
fn limbs_at<F: Limb>() {
    let list: Vec<F> = values(&mixed::<F>(40, 1));
    assert!(refusals(&list, |limbs| F::pack(limbs, 30).map(|_| ())) > 0);
    assert!(refusals(&list, |limbs| F::split(value(7), 3, limbs)) > 0);
}

#[test]
fn memory_is_refused() {
    at::<BabyBear>();
    at::<KoalaBear>();
    at::<Goldilocks>();
    limbs_at::<BabyBear>();
    limbs_at::<KoalaBear>();
    let list = vec![BabyBearx4::from_numbers([1, 2, 3, 4]).expect("a value"); 40];
    assert!(refusals(&list, BabyBearx4::batch_inverse) > 0);
}
