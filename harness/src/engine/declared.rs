//! What the table of C functions is made into.

/// Wraps each function, and lists them all.
macro_rules! functions {
    ($($function:ident($($argument:tt)*) refused by [$($number:literal),*];)*) => {
        $(wrapper! { $function () () () $($argument)*, })*

        /// A function of the table.
        #[allow(non_camel_case_types)]
        #[derive(Clone, Copy, Debug, PartialEq, Eq)]
        pub enum Function {
            $($function),*
        }

        impl Function {
            /// All of them in their order: name, and the numbers that refuse.
            pub const ALL: &[(&str, &[u64])] =
                &[$((stringify!($function), &[$($number),*])),*];
        }
    };
}

/// Goes through the arguments of one function and collects what C is declared
/// to take, what the wrapper takes, and what it hands over.
macro_rules! wrapper {
    ($function:ident ($($c:tt)*) ($($taken:tt)*) ($($handed:tt)*)
        study, $($rest:tt)*) => {
        wrapper! {
            $function ($($c)*) ($($taken)*) ($($handed)*)
            words: [mut u64], speeds: [mut f64], $($rest)*
        }
    };
    ($function:ident ($($c:tt)*) ($($taken:tt)*) ($($handed:tt)*)
        $list:ident: [mut $element:ty], $($rest:tt)*) => {
        wrapper! {
            $function
            ($($c)* _: *mut $element, _: usize,)
            ($($taken)* $list: &mut [$element],)
            ($($handed)* $list.as_mut_ptr(), $list.len(),)
            $($rest)*
        }
    };
    ($function:ident ($($c:tt)*) ($($taken:tt)*) ($($handed:tt)*)
        $list:ident: [$element:ty], $($rest:tt)*) => {
        wrapper! {
            $function
            ($($c)* _: *const $element, _: usize,)
            ($($taken)* $list: &[$element],)
            ($($handed)* $list.as_ptr(), $list.len(),)
            $($rest)*
        }
    };
    ($function:ident ($($c:tt)*) ($($taken:tt)*) ($($handed:tt)*)
        $number:ident: $kind:ty, $($rest:tt)*) => {
        wrapper! {
            $function
            ($($c)* _: $kind,)
            ($($taken)* $number: $kind,)
            ($($handed)* $number,)
            $($rest)*
        }
    };
    ($function:ident ($($c:tt)*) ($($taken:tt)*) ($($handed:tt)*)) => {
        pub fn $function($($taken)*) -> u64 {
            extern "C" {
                fn $function($($c)*) -> u64;
            }
            // SAFETY: pointers and lengths are those of live slices, and no
            // slice that may be written overlaps another.
            unsafe { $function($($handed)*) }
        }
    };
}
