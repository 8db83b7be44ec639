pub mod address;
pub mod memory;

pub mod processor {
    /// Nobody else runs, so a wait would never end: the call does not finish.
    pub fn spin_wait_iteration() {
        panic!("waits forever");
    }
}
