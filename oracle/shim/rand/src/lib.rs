//! Stands for rand 0.8: every draw comes out of a queue that the driver fills; an empty queue is the driver's fault.
use std::cell::{Cell, RefCell};
use std::collections::VecDeque;

pub mod oracle {
    use super::*;
    thread_local! {
        pub(crate) static BYTES: RefCell<VecDeque<u8>> = const { RefCell::new(VecDeque::new()) };
        pub(crate) static FLOATS: RefCell<VecDeque<f64>> = const { RefCell::new(VecDeque::new()) };
        pub(crate) static FIXED: Cell<bool> = const { Cell::new(false) };
    }
    pub fn push_bytes(b: &[u8]) {
        BYTES.with(|q| q.borrow_mut().extend(b));
    }
    /// The factor that the next `gen_range(a..=b)` over f64 gives.
    pub fn push_float(f: f64) {
        FLOATS.with(|q| q.borrow_mut().push_back(f));
    }
    /// Bytes and factors not drawn.
    pub fn left() -> (usize, usize) {
        (BYTES.with(|q| q.borrow().len()), FLOATS.with(|q| q.borrow().len()))
    }
    pub fn clear() {
        BYTES.with(|q| q.borrow_mut().clear());
        FLOATS.with(|q| q.borrow_mut().clear());
    }
    /// From now on every byte is 5A and every factor 1.03, at next to no cost.
    pub fn set_fixed(fixed: bool) {
        FIXED.set(fixed);
    }
}

pub struct ThreadRng(());

pub fn thread_rng() -> ThreadRng {
    ThreadRng(())
}

pub fn random<T>() -> T
where
    distributions::Standard: distributions::Distribution<T>,
{
    thread_rng().r#gen()
}

pub trait RngCore {
    fn fill(&mut self, out: &mut [u8]);
    fn next_float(&mut self) -> f64;
}

impl RngCore for ThreadRng {
    fn fill(&mut self, out: &mut [u8]) {
        if oracle::FIXED.get() {
            return out.fill(0x5a);
        }
        oracle::BYTES.with(|q| {
            let mut q = q.borrow_mut();
            for b in out {
                *b = q.pop_front().expect("no random byte injected");
            }
        })
    }
    fn next_float(&mut self) -> f64 {
        if oracle::FIXED.get() {
            return 1.03;
        }
        oracle::FLOATS.with(|q| q.borrow_mut().pop_front().expect("no random factor injected"))
    }
}

pub trait SampleRange<T> {
    fn sample<R: RngCore + ?Sized>(self, rng: &mut R) -> T;
}

impl SampleRange<f64> for std::ops::RangeInclusive<f64> {
    fn sample<R: RngCore + ?Sized>(self, rng: &mut R) -> f64 {
        let f = rng.next_float();
        assert!(self.contains(&f), "injected factor outside the asked range");
        f
    }
}

impl SampleRange<u16> for std::ops::Range<u16> {
    fn sample<R: RngCore + ?Sized>(self, rng: &mut R) -> u16 {
        let mut b = [0; 2];
        rng.fill(&mut b);
        self.start + u16::from_be_bytes(b) % (self.end - self.start)
    }
}

pub trait Rng: RngCore {
    fn r#gen<T>(&mut self) -> T
    where
        distributions::Standard: distributions::Distribution<T>,
    {
        distributions::Distribution::sample(&distributions::Standard, self)
    }
    fn gen_range<T, S: SampleRange<T>>(&mut self, range: S) -> T {
        range.sample(self)
    }
}

impl<R: RngCore + ?Sized> Rng for R {}

pub mod distributions {
    use super::Rng;
    pub struct Standard;
    pub trait Distribution<T> {
        fn sample<R: Rng + ?Sized>(&self, rng: &mut R) -> T;
    }
    impl Distribution<u64> for Standard {
        fn sample<R: Rng + ?Sized>(&self, rng: &mut R) -> u64 {
            let mut b = [0; 8];
            rng.fill(&mut b);
            u64::from_be_bytes(b)
        }
    }
    impl Distribution<u8> for Standard {
        fn sample<R: Rng + ?Sized>(&self, rng: &mut R) -> u8 {
            let mut b = [0; 1];
            rng.fill(&mut b);
            b[0]
        }
    }
    impl<T, const N: usize> Distribution<[T; N]> for Standard
    where
        Standard: Distribution<T>,
    {
        fn sample<R: Rng + ?Sized>(&self, rng: &mut R) -> [T; N] {
            std::array::from_fn(|_| Distribution::<T>::sample(&Standard, rng))
        }
    }
}
