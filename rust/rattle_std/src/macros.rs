//! The kit's macros, which take an allocator or a runtime before a semicolon.

/// What a proof says is never false: looked at where debug assertions are on.
#[macro_export]
macro_rules! prove {
    ($($t:tt)*) => { ::core::debug_assert!($($t)*) };
}

#[macro_export]
macro_rules! assert_with {
    ($rt:expr; $($t:tt)*) => {{ let _ = &$rt; ::core::assert!($($t)*) }};
}

#[macro_export]
macro_rules! assert_eq_with {
    ($rt:expr; $($t:tt)*) => {{ let _ = &$rt; ::core::assert_eq!($($t)*) }};
}

#[macro_export]
macro_rules! assert_ne_with {
    ($rt:expr; $($t:tt)*) => {{ let _ = &$rt; ::core::assert_ne!($($t)*) }};
}

#[macro_export]
macro_rules! format_in {
    (in $alloc:expr; $($t:tt)*) => { $crate::alloc::formatted($alloc, ::core::format_args!($($t)*)) };
}

#[macro_export]
macro_rules! vec_in {
    (in $alloc:expr) => { Ok::<_, $crate::alloc::AllocError>($crate::Vec::new($alloc)) };
    (in $alloc:expr; $value:expr; $count:expr) => {{
        let mut made = $crate::Vec::new($alloc);
        made.resize($count, $value).map(|()| made)
    }};
    (in $alloc:expr; $($value:expr),* $(,)?) => { $crate::CollectIn::collect_in([$($value),*].into_iter(), $alloc) };
}

#[macro_export]
macro_rules! print {
    ($rt:expr; $($t:tt)*) => { $crate::io::Print::print(&$rt, ::core::format_args!($($t)*)) };
}

#[macro_export]
macro_rules! println {
    ($rt:expr; $($t:tt)*) => { $crate::io::Print::println(&$rt, ::core::format_args!($($t)*)) };
}

#[macro_export]
macro_rules! eprint {
    ($rt:expr; $($t:tt)*) => { $crate::io::Eprint::eprint(&$rt, ::core::format_args!($($t)*)) };
}

#[macro_export]
macro_rules! eprintln {
    ($rt:expr; $($t:tt)*) => { $crate::io::Eprint::eprintln(&$rt, ::core::format_args!($($t)*)) };
}

/// A program's `main`, and its memory: `started` is what the kit calls `main`.
#[cfg(feature = "os")]
#[macro_export]
macro_rules! program {
    ($sentence:literal) => {
        #[global_allocator]
        static MEMORY: $crate::memory::Memory = $crate::memory::Memory::of($sentence);

        fn main() -> impl $crate::process::Termination { $crate::memory::answered(|| started($crate::HostRuntime)) }
    };
}
