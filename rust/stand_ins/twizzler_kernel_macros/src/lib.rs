//! The kernel's own tests are not built.
use proc_macro::TokenStream;

#[proc_macro_attribute]
pub fn kernel_test(_: TokenStream, _: TokenStream) -> TokenStream {
    TokenStream::new()
}
