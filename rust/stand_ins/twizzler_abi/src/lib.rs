//! What the page ranges take from the kernel's interface. `MAX_SIZE` is 01's: 262,144 pages of 4,096 bytes.
pub mod object {
    pub const MAX_SIZE: usize = 1 << 30;
    pub const NULLPAGE_SIZE: usize = 4096;

    #[derive(Clone, Copy, PartialEq, Eq, PartialOrd, Ord, Hash, Default, Debug)]
    pub struct ObjID(u128);
    impl ObjID {
        pub const fn new(id: u128) -> Self {
            Self(id)
        }
        pub fn parts(&self) -> [u64; 2] {
            [(self.0 >> 64) as u64, self.0 as u64]
        }
    }
    impl From<u128> for ObjID {
        fn from(id: u128) -> Self {
            Self(id)
        }
    }
    impl core::fmt::Display for ObjID {
        fn fmt(&self, f: &mut core::fmt::Formatter<'_>) -> core::fmt::Result {
            write!(f, "{:x}", self.0)
        }
    }

    bitflags::bitflags! {
        #[derive(Clone, Copy, PartialEq, Eq, PartialOrd, Ord, Debug)]
        pub struct Protections: u16 {
            const READ = 1;
            const WRITE = 2;
            const EXEC = 4;
        }
    }
}

pub mod device {
    pub const NUM_DEVICE_INTERRUPTS: usize = 32;

    #[derive(Clone, Copy, PartialEq, Eq, PartialOrd, Ord, Debug)]
    pub enum CacheType {
        WriteBack,
        WriteCombining,
    }
}

pub mod meta {
    use super::object::{ObjID, Protections};

    bitflags::bitflags! {
        #[derive(Clone, Copy, Default, Debug)]
        pub struct MetaFlags: u16 {
            const NONE = 0;
        }
    }

    #[derive(Clone, Copy, Debug)]
    pub struct MetaInfo {
        pub nonce: twizzler_rt_abi::object::Nonce,
        pub kuid: ObjID,
        pub flags: MetaFlags,
        pub default_prot: Protections,
        pub fotcount: u16,
        pub extcount: u16,
    }
}

pub mod syscall {
    use super::object::ObjID;

    #[derive(Clone, Copy, PartialEq, Eq, Debug)]
    pub enum LifetimeType {
        Volatile,
        Persistent,
    }

    #[derive(Clone, Copy, Default, Debug)]
    pub struct BackingType;

    #[derive(Clone, Copy, Debug)]
    pub struct ObjectInfo {
        pub id: ObjID,
        pub maps: usize,
        pub ties_to: usize,
        pub ties_from: usize,
        pub life: LifetimeType,
        pub backing: BackingType,
        pub pages: usize,
    }

    bitflags::bitflags! {
        #[derive(Clone, Copy, Debug)]
        pub struct ThreadSyncFlags: u32 {
            const INVERT = 1;
        }
    }

    #[derive(Clone, Copy, Debug)]
    pub enum ThreadSyncOp {
        Equal,
    }
    impl ThreadSyncOp {
        pub fn check<T: Eq>(&self, a: T, b: T, flags: ThreadSyncFlags) -> bool {
            (a == b) != flags.contains(ThreadSyncFlags::INVERT)
        }
    }

    #[derive(Clone, Copy, Debug)]
    pub struct ThreadSyncSleep;
    #[derive(Clone, Copy, Debug)]
    pub struct ThreadSync;
    impl ThreadSync {
        pub fn new_sleep(_: ThreadSyncSleep) -> Self {
            Self
        }
    }
}

pub mod pager {
    bitflags::bitflags! {
        #[derive(Clone, Copy, Debug)]
        pub struct PagerFlags: u32 {
            const PREFETCH = 1;
        }
    }

    #[derive(Clone, Copy, Debug)]
    pub struct PhysRange {
        pub start: u64,
        pub end: u64,
    }
    impl PhysRange {
        pub fn pages(&self) -> impl Iterator<Item = u64> {
            (self.start..self.end).step_by(4096)
        }
        pub fn len(&self) -> usize {
            (self.end - self.start) as usize
        }
        pub fn is_empty(&self) -> bool {
            self.start == self.end
        }
    }
}

pub mod thread {
    #[derive(Clone, Copy, PartialEq, Eq, Debug)]
    pub enum ExecutionState {
        Running,
        Sleeping,
    }
}
