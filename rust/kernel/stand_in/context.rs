//! Page tables are left out: nothing is mapped, so nothing is invalidated.
use alloc::sync::Arc;
use core::ops::Range;

use twizzler_abi::object::ObjID;

use crate::{
    idcounter::{Id, IdCounter, StableId},
    obj::{InvalidateMode, PageNumber},
    once::Once,
};

static IDS: IdCounter = IdCounter::new();

pub struct Context {
    id: Id<'static>,
}
pub type ContextRef = Arc<Context>;

impl StableId for Context {
    fn id(&self) -> &Id<'_> {
        &self.id
    }
}

pub trait UserContext {
    fn invalidate_object(&self, obj: ObjID, range: &Range<PageNumber>, mode: InvalidateMode);
}

impl UserContext for Context {
    fn invalidate_object(&self, _obj: ObjID, _range: &Range<PageNumber>, _mode: InvalidateMode) {}
}

static KERNEL_CONTEXT: Once<ContextRef> = Once::new();

pub fn kernel_context() -> &'static ContextRef {
    KERNEL_CONTEXT.call_once(|| Arc::new(Context { id: IDS.next() }))
}
