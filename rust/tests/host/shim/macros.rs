//! Macros that are handed the runtime, or an allocator.

/// Asserts: the runtime would end the process.
macro_rules! rt_assert {
    ($rt:expr; $($args:tt)*) => {{ let _ = &$rt; ::core::assert!($($args)*) }};
}

/// Asserts that two values are the same.
macro_rules! rt_assert_eq {
    ($rt:expr; $($args:tt)*) => {{ let _ = &$rt; ::core::assert_eq!($($args)*) }};
}

/// A vector in an allocator's memory.
macro_rules! rt_vec {
    (in $alloc:expr; $item:expr; $len:expr) => {{
        let mut all = $crate::proved::shim::vec::Vec::new($alloc);
        all.resize($len, $item).map(|()| all)
    }};
    (in $alloc:expr; $($item:expr),* $(,)?) => {
        $crate::proved::shim::text::CollectIn::collect_in::<$crate::proved::shim::vec::Vec<_, _>, _>(
            [$($item),*].into_iter(),
            $alloc,
        )
    };
}

/// A text in an allocator's memory.
macro_rules! rt_format {
    (in $alloc:expr; $($args:tt)*) => {{
        let mut text = $crate::proved::shim::text::String::new($alloc);
        text.write_fmt(::core::format_args!($($args)*)).map(|()| text)
    }};
}

/// Prints.
macro_rules! rt_print {
    ($rt:expr; $($args:tt)*) => {{
        let _ = &$rt;
        $crate::proved::shim::world::print(::core::format_args!($($args)*))
    }};
}

/// Prints a line.
macro_rules! rt_println {
    ($rt:expr; $($args:tt)*) => {{
        let _ = &$rt;
        $crate::proved::shim::world::print(::core::format_args!("{}\n", ::core::format_args!($($args)*)))
    }};
}

pub(crate) use {rt_assert, rt_assert_eq, rt_format, rt_print, rt_println, rt_vec};
