//! Memory between two pages that can't be touched.
use std::ffi::{c_int, c_void};
use std::ptr;

const PAGE: usize = 4096;
const PROT_NONE: c_int = 0;
const PROT_READ_AND_WRITE: c_int = 1 | 2;
const MAP_PRIVATE_AND_ANONYMOUS: c_int = 0x02 | 0x20;

extern "C" {
    fn mmap(address: *mut c_void, size: usize, protection: c_int, flags: c_int, file: c_int, offset: i64) -> *mut c_void;
    fn mprotect(address: *mut c_void, size: usize, protection: c_int) -> c_int;
    fn munmap(address: *mut c_void, size: usize) -> c_int;
}

/// The end of the memory at which a buffer lies: a byte beyond the buffer on that side is a fault.
#[derive(Clone, Copy)]
pub enum Edge {
    Front,
    Back,
}

pub struct Guarded {
    map: *mut u8,
    size: usize,
}

impl Guarded {
    /// Of at least so many bytes.
    pub fn new(least: usize) -> Guarded {
        let size = least.next_multiple_of(PAGE);
        // SAFETY: A new mapping at an address of the system's choice touches no memory of this process.
        let map = unsafe { mmap(ptr::null_mut(), size + 2 * PAGE, PROT_NONE, MAP_PRIVATE_AND_ANONYMOUS, -1, 0) };
        assert_ne!(map as isize, -1, "mmap");
        let map = map.cast::<u8>();
        // SAFETY: The stretch lies in the mapping made above, from its second page to its last but one.
        let opened = unsafe { mprotect(map.add(PAGE).cast(), size, PROT_READ_AND_WRITE) };
        assert_eq!(opened, 0, "mprotect");
        Guarded { map, size }
    }

    /// The bytes, copied to an edge.
    pub fn lend(&mut self, bytes: &[u8], edge: Edge) -> &mut [u8] {
        assert!(bytes.len() <= self.size);
        let start = match edge {
            Edge::Front => PAGE,
            Edge::Back => PAGE + self.size - bytes.len(),
        };
        // SAFETY: The stretch lies between the guard pages, is zeros or bytes lent before, and is borrowed as long as `self` is.
        let lent = unsafe { std::slice::from_raw_parts_mut(self.map.add(start), bytes.len()) };
        lent.copy_from_slice(bytes);
        lent
    }
}

impl Drop for Guarded {
    fn drop(&mut self) {
        // SAFETY: This is the mapping that `new` made, and nothing borrows from it any more.
        unsafe { munmap(self.map.cast(), self.size + 2 * PAGE) };
    }
}

/// Has this very test run in a process of its own, which touches the byte beyond an edge: the system has to end it.
#[test]
fn a_byte_beyond_is_a_fault() {
    use std::os::unix::process::ExitStatusExt;
    const SIGSEGV: i32 = 11;
    const TOUCH: &str = "SIGNON_TOUCH";
    let mut memory = Guarded::new(1);
    match std::env::var(TOUCH).as_deref() {
        Ok("front") => touch(memory.lend(&[7], Edge::Front).as_ptr().wrapping_sub(1)),
        Ok(_) => touch(memory.lend(&[7], Edge::Back).as_ptr().wrapping_add(1)),
        Err(_) => {
            for edge in ["front", "back"] {
                let this = std::env::current_exe().unwrap();
                let ran = std::process::Command::new(this).args(["--exact", "guard::a_byte_beyond_is_a_fault"]).env(TOUCH, edge).output().unwrap();
                assert_eq!(ran.status.signal(), Some(SIGSEGV), "{edge}");
            }
        }
    }
}

fn touch(byte: *const u8) {
    // SAFETY: None: the read is to end the process.
    unsafe { byte.read_volatile() };
}
