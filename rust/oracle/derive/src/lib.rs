//! Stands in for kermit's `kermit_derive`, whose text is not at hand.
//!
//! `IntoTrieIter` gives a trie iterator its `IntoIterator`. The one struct that derives it here is `ColumnTrieIter`, so the impl is written out for it
//! in the oracle (`stand_ins.rs`), and the derive itself adds nothing.
use proc_macro::TokenStream;

#[proc_macro_derive(IntoTrieIter)]
pub fn into_trie_iter(_: TokenStream) -> TokenStream {
    TokenStream::new()
}
