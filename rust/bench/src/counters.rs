//! Counts of instructions, where the machine lets a program read them: Linux's perf events, of this thread and outside the kernel.
use std::fs::File;
use std::io::{self, Read};
use std::os::fd::FromRawFd;

/// The first 64 bytes of the kernel's `perf_event_attr`, which is as much as its first version had.
#[repr(C)]
#[derive(Default)]
struct Attributes {
    kind: u32,
    size: u32,
    config: u64,
    sampling: [u64; 3],
    flags: u64,
    rest: [u64; 2],
}

const PERF_EVENT_OPEN: i64 = 298;
const HARDWARE: u32 = 0;
const INSTRUCTIONS: u64 = 1;
const NOT_KERNEL_NOR_HYPERVISOR: u64 = 1 << 5 | 1 << 6;

unsafe extern "C" {
    fn syscall(number: i64, ...) -> i64;
}

pub struct Counter(File);

impl Counter {
    pub fn open() -> io::Result<Counter> {
        let size = size_of::<Attributes>() as u32;
        let wanted =
            Attributes { kind: HARDWARE, size, config: INSTRUCTIONS, flags: NOT_KERNEL_NOR_HYPERVISOR, ..Default::default() };
        // This thread, on any processor, in no group, without flags. The kernel reads the attributes and keeps no pointer.
        let fd = unsafe { syscall(PERF_EVENT_OPEN, &raw const wanted, 0i32, -1i32, -1i32, 0u64) };
        if fd < 0 {
            return Err(io::Error::last_os_error());
        }
        // The descriptor is new, and nobody else has it.
        Ok(Counter(unsafe { File::from_raw_fd(fd as i32) }))
    }

    fn count(&self) -> u64 {
        let mut bytes = [0; 8];
        (&self.0).read_exact(&mut bytes).expect("a counter that is open can be read");
        u64::from_ne_bytes(bytes)
    }

    /// How many instructions the work takes.
    pub fn of<R>(&self, work: impl FnOnce() -> R) -> u64 {
        let before = self.count();
        std::hint::black_box(work());
        self.count() - before
    }
}
