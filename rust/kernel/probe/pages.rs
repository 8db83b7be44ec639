//! The page that a reference leads to.
use super::*;

pub fn page(p: &PageRef) -> &Arc<Page> {
    &p.page
}
