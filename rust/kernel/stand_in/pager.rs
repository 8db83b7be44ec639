//! The pager is left out: what is not there stays absent.
use twizzler_abi::pager::PagerFlags;

use crate::obj::{ObjectRef, PageNumber};

pub fn ensure_in_core(_: &ObjectRef, _: PageNumber, _: usize, _: PagerFlags) {}

pub fn get_object_page(_: &ObjectRef, _: PageNumber) -> bool {
    false
}

pub fn sync_object(_: &ObjectRef) {}
