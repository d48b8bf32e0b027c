//! The Rust as the judge: its own files, but for the order on neighbours, which has the tie rules of
//! document 01.

/// Takes the place of the macro of the same name, which is in none of the files: a walk in order.
#[macro_export]
macro_rules! vec_iter_mut {
    ($list:ident, $places:ident) => {
        let $places = $list.iter_mut();
    };
}

include!(concat!(env!("OUT_DIR"), "/modules.rs"));
