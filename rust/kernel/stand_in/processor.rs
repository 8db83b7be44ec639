/// Nobody else runs: what is not so at once never is.
pub fn spin_wait_until<R>(mut until: impl FnMut() -> Option<R>, _pause: impl FnMut()) -> R {
    until().expect("waits forever")
}

pub mod mp {
    use core::sync::atomic::AtomicUsize;

    pub static NR_CPUS: AtomicUsize = AtomicUsize::new(1);
}

pub mod sched {
    use crate::thread::ThreadRef;

    bitflags::bitflags! {
        #[derive(Clone, Copy)]
        pub struct SchedFlags: u32 {
            const YIELD = 1;
            const PREEMPT = 2;
            const REINSERT = 4;
        }
    }

    pub fn schedule(_: SchedFlags) {
        panic!("waits forever");
    }

    pub fn schedule_thread(_: ThreadRef) {}
}
