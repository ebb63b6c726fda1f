//! C structs.

/// Declares structs as in a header: the name in C and here, size and alignment, and the offset before each field. The
/// numbers are asserted here; strandlodge-sys/c/layouts.c, made together with them, asserts that they are those of the
/// header.
macro_rules! structs {
    ($(
        $(#[$about:meta])*
        $c:ident as $name:ident, $size:literal aligned to $align:literal {
            $($(#[$what:meta])* $at:literal $field:ident: $type:ty,)*
        }
    )*) => {
        $(
            $(#[$about])*
            #[repr(C)]
            #[derive(Debug, Clone, Copy, PartialEq, Eq)]
            pub struct $name {
                $($(#[$what])* pub $field: $type,)*
            }
        )*

        layouts!($($c as $name, $size aligned to $align { $($at $field,)* })*);
    };
}

/// Asserts the numbers of structs.
macro_rules! layouts {
    ($($c:ident as $name:ty, $size:literal aligned to $align:literal { $($at:literal $field:ident,)* })*) => {
        $(
            const _: () = {
                assert!(size_of::<$name>() == $size && align_of::<$name>() == $align);
                $(assert!(std::mem::offset_of!($name, $field) == $at);)*
            };
        )*
    };
}
