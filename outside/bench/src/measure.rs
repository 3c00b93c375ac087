//! Timing.

use crate::rows::Row;
use std::cell::RefCell;
use std::hint::black_box;
use std::rc::Rc;

/// A buffer that all measurements of one contestant share. It is filled once
/// and never cleared.
pub type Shared = Rc<RefCell<Vec<u8>>>;

/// The new buffers of the library, of the tuned model and of the copy.
pub struct Buffers(pub [Shared; 3]);

impl Buffers {
    pub fn new(length: usize) -> Buffers {
        Buffers([(); 3].map(|()| Rc::new(RefCell::new(vec![0xA5; length]))))
    }
}

/// Does some calls, and hands back the nanoseconds of one event.
pub type Calls = Box<dyn FnMut() -> f64>;

/// Something to measure: the library, the tuned model and a plain copy.
pub struct Item {
    pub row: Row,
    pub calls: [Calls; 3],
}

impl Item {
    /// Measures a few times, in turn, and keeps the least of each.
    pub fn measure(&mut self, times: u32) {
        for _ in 0..times {
            for (least, calls) in self.row.times.iter_mut().zip(&mut self.calls) {
                *least = least.min(calls());
            }
        }
    }
}

/// The nanoseconds of processor time that some work takes, for each of so
/// many events. Time in which another program has the processor is not in it.
pub fn time(events: usize, work: impl FnOnce()) -> f64 {
    let start = processor_time();
    work();
    (processor_time() - start) as f64 / events as f64
}

/// A plain copy of the same bytes.
pub fn plain_copy(olds: Rc<Vec<Vec<u8>>>, new: Shared) -> Calls {
    Box::new(move || {
        let mut new = new.borrow_mut();
        time(olds.len(), || {
            for old in olds.iter() {
                new[..old.len()].copy_from_slice(black_box(old));
                black_box(&mut new[..]);
            }
        })
    })
}

#[repr(C)]
struct Timespec {
    seconds: i64,
    nanoseconds: i64,
}

extern "C" {
    fn clock_gettime(clock: i32, time: *mut Timespec) -> i32;
}

/// Linux's clock of the processor time of this thread.
const THREAD_CLOCK: i32 = 3;

fn processor_time() -> i64 {
    let mut time = Timespec {
        seconds: 0,
        nanoseconds: 0,
    };
    // SAFETY: a struct as Linux on x86-64 has it, and alone borrowed.
    let status = unsafe { clock_gettime(THREAD_CLOCK, &mut time) };
    assert_eq!(status, 0, "no clock of the processor time");
    time.seconds * 1_000_000_000 + time.nanoseconds
}
