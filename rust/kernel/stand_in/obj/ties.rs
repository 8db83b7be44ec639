use alloc::sync::Arc;

use twizzler_abi::object::ObjID;

use super::Object;

pub struct Ties;
pub static TIE_MGR: Ties = Ties;

impl Ties {
    pub fn lookup_object(&self, _: ObjID) -> Option<Arc<Object>> {
        None
    }
    pub fn delete_object(&self, _: Arc<Object>) {}
    pub fn create_object_ties(&self, _: ObjID, _: impl Iterator<Item = ObjID>) {}
}
