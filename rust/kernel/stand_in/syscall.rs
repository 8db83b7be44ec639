pub mod sync {
    use core::time::Duration;

    use twizzler_abi::syscall::ThreadSync;
    use twizzler_rt_abi::Result;

    use crate::thread::{CriticalGuard, ThreadRef};

    pub fn requeue_all() {}
    pub fn add_to_requeue(_: ThreadRef) {}
    pub fn add_all_to_requeue(_: impl Iterator<Item = ThreadRef>) {}
    pub fn finish_blocking(_: CriticalGuard) {
        panic!("waits forever");
    }
    pub fn sys_thread_sync(_: &mut [ThreadSync], _: Option<&mut Duration>) -> Result<usize> {
        Ok(0)
    }
}
