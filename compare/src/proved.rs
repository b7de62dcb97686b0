//! The exported calls of the proved library, as safe functions.

/// Declares calls with the parameters that crates/compared/src gives them. A slice crosses as a pointer and
/// a length; the rules marked `@` go through the parameters and gather how each is declared and passed.
macro_rules! proved {
    (@ $call:ident $given:tt [$($declared:tt)*] [$($passed:tt)*]
        $slice:ident: &[$item:ty] $(, $($rest:tt)*)?) => {
        proved!(@ $call $given [$($declared)* _: *const $item, _: usize,]
            [$($passed)* $slice.as_ptr(), $slice.len(),] $($($rest)*)?)
    };
    (@ $call:ident $given:tt [$($declared:tt)*] [$($passed:tt)*]
        $slice:ident: &mut [$item:ty] $(, $($rest:tt)*)?) => {
        proved!(@ $call $given [$($declared)* _: *mut $item, _: usize,]
            [$($passed)* $slice.as_mut_ptr(), $slice.len(),] $($($rest)*)?)
    };
    (@ $call:ident $given:tt [$($declared:tt)*] [$($passed:tt)*]
        $number:ident: $kind:ty $(, $($rest:tt)*)?) => {
        proved!(@ $call $given [$($declared)* _: $kind,] [$($passed)* $number,] $($($rest)*)?)
    };
    (@ $call:ident [$($given:ty)?] [$($declared:tt)*] [$($passed:tt)*]) => {{
        extern "C" {
            fn $call($($declared)*) $(-> $given)?;
        }
        // SAFETY: each pointer and length are those of a live slice of its own. The callee only reads the
        // slices that are not `mut`; the others are borrowed mutably.
        unsafe { $call($($passed)*) }
    }};
    ($(fn $call:ident($($parameters:tt)*) $(-> $given:ty)?;)*) => {$(
        #[allow(clippy::too_many_arguments, reason = "as many as the proved call has")]
        fn $call($($parameters)*) $(-> $given)? {
            proved!(@ $call [$($given)?] [] [] $($parameters)*)
        }
    )*};
}

pub(crate) use proved;
