//! No threads: the calls run as they do before threading is started.
use alloc::sync::Arc;

use intrusive_collections::LinkedListLink;
use twizzler_abi::{object::ObjID, thread::ExecutionState};

use self::priority::Priority;

pub struct Thread {
    pub mutex_link: LinkedListLink,
    pub memwait_link: LinkedListLink,
    pub condvar_link: LinkedListLink,
}
pub type ThreadRef = Arc<Thread>;
pub struct CriticalGuard;

pub fn current_thread_ref() -> Option<&'static ThreadRef> {
    None
}

impl Thread {
    pub fn id(&self) -> u64 {
        0
    }
    pub fn objid(&self) -> ObjID {
        ObjID::new(0)
    }
    pub fn is_critical(&self) -> bool {
        false
    }
    pub fn is_idle_thread(&self) -> bool {
        false
    }
    pub fn enter_critical(&self) -> CriticalGuard {
        CriticalGuard
    }
    pub fn set_state(&self, _: ExecutionState) {}
    pub fn set_sync_sleep(&self) {}
    pub fn set_sync_sleep_done(&self) {}
    pub fn reset_sync_sleep(&self) -> bool {
        false
    }
    pub fn reset_sync_sleep_done(&self) -> bool {
        false
    }
    pub fn effective_priority(&self) -> Priority {
        Priority::USER
    }
    pub fn get_donated_priority(&self) -> Option<Priority> {
        None
    }
    pub fn donate_priority(&self, _: Priority) {}
    pub fn remove_donated_priority(&self) {}
}

pub mod priority {
    #[derive(Clone, Copy, PartialEq, Eq, PartialOrd, Ord)]
    pub struct Priority(u8);
    impl Priority {
        pub const BACKGROUND: Self = Self(0);
        pub const USER: Self = Self(1);
        pub const REALTIME: Self = Self(2);
    }
}

pub mod entry {
    use super::{ThreadRef, priority::Priority};

    pub fn start_new_kernel(_: Priority, _: extern "C" fn(), _: usize) -> ThreadRef {
        unimplemented!()
    }
    pub fn run_closure_in_new_thread<R>(_: Priority, _: impl FnOnce() -> R) -> (ThreadRef, ()) {
        unimplemented!()
    }
}
