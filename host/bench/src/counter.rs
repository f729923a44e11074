//! Instructions instead of time: an emulator with the plugin of count/count.c counts them, and tells the count when asked.

use std::io::Read;
use std::os::fd::AsRawFd;
use std::os::unix::net::UnixStream;

extern "C" {
    fn syscall(number: i64, ...) -> i64;
}

/// A call of the system that does not exist; the plugin takes it as the question. As in count/count.c.
const ASK: i64 = 0x616b_7479;

/// Where the plugin writes, and where that is read.
pub struct Counter {
    told: UnixStream,
    heard: UnixStream,
}

impl Counter {
    /// `None` where nobody counts.
    pub fn find() -> Option<Counter> {
        let (told, heard) = UnixStream::pair().ok()?;
        heard.set_nonblocking(true).ok()?;
        let counter = Counter { told, heard };
        counter.now().map(|_| counter)
    }

    /// How many instructions the work takes, the few of the asking included.
    pub fn taken(&self, work: impl FnOnce()) -> u64 {
        let before = self.now().expect("it counted before");
        work();
        self.now().expect("it counted before") - before
    }

    fn now(&self) -> Option<u64> {
        // SAFETY: without the plugin the system refuses the call; with it eight bytes arrive at a file of ours.
        unsafe {
            syscall(ASK, i64::from(self.told.as_raw_fd()));
        }
        let mut count = [0; 8];
        (&self.heard).read_exact(&mut count).ok()?;
        Some(u64::from_ne_bytes(count))
    }
}

/// Whether the processor says that qemu emulates it; elsewhere than on x86-64 what runs was compiled for the machine (tools/native).
#[cfg(target_arch = "x86_64")]
pub fn emulated() -> bool {
    /// The part of the processor's description that a hypervisor or an emulator signs.
    const SIGNED: u32 = 0x4000_0000;
    // SAFETY: every x86-64 processor describes itself.
    #[allow(unused_unsafe)]
    let signature = unsafe { std::arch::x86_64::__cpuid(SIGNED) };
    [signature.ebx, signature.ecx, signature.edx].map(u32::to_le_bytes)
        == [*b"TCGT", *b"CGTC", *b"GTCG"]
}

#[cfg(not(target_arch = "x86_64"))]
pub fn emulated() -> bool {
    false
}
