//! Stands in for what Rattle's std has and Rust's has not, for a port crate that names it: `num`, each function by the Rust operation that
//! its contract names, and `host`, what a program is handed, by Rust's own input and output.
pub mod num {
    macro_rules! wrapping {
        ($($add:ident $sub:ident $of:ty;)*) => { $(
            pub fn $add(a: $of, b: $of) -> $of { a.wrapping_add(b) }
            pub fn $sub(a: $of, b: $of) -> $of { a.wrapping_sub(b) }
        )* };
    }
    wrapping! {
        wrapping_add_u8 wrapping_sub_u8 u8;
        wrapping_add_u16 wrapping_sub_u16 u16;
        wrapping_add_u32 wrapping_sub_u32 u32;
        wrapping_add_u64 wrapping_sub_u64 u64;
        wrapping_add_usize wrapping_sub_usize usize;
    }

    macro_rules! casts {
        ($($name:ident $from:ty, $to:ty;)*) => { $(
            pub fn $name(x: $from) -> $to { x as $to }
        )* };
    }
    casts! {
        f32_to_f64_with_nan f32, f64;
        truncating_f64_to_u64 f64, u64;
        truncating_f64_to_i64 f64, i64;
        truncating_f32_to_u64 f32, u64;
        truncating_f32_to_i64 f32, i64;
        nearest_u64_to_f64 u64, f64;
        nearest_i64_to_f64 i64, f64;
        nearest_u32_to_f32 u32, f32;
        nearest_i32_to_f32 i32, f32;
        nearest_usize_to_f64 usize, f64;
    }

    /// The pattern of x; the quiet one with no other bit for every NaN.
    pub fn f64_to_bits_with_nan(x: f64) -> u64 {
        if x.is_nan() { 0x7ff8_0000_0000_0000 } else { x.to_bits() }
    }
    pub fn f64_from_bits_with_nan(b: u64) -> f64 {
        f64::from_bits(b)
    }
}

pub mod alloc {
    #[derive(Clone, Copy, Debug)]
    pub struct Global;

    #[derive(Debug)]
    pub struct AllocError;

    impl From<AllocError> for std::io::Error {
        fn from(_: AllocError) -> std::io::Error {
            std::io::Error::from(std::io::ErrorKind::OutOfMemory)
        }
    }
}

pub mod host {
    use crate::alloc::{AllocError, Global};
    use std::fmt::Display;
    use std::io::{self, Write};
    use std::ops::{Deref, DerefMut};

    #[derive(Clone, Copy)]
    pub struct HostRuntime;

    impl HostRuntime {
        pub fn stdin(&self) -> io::StdinLock<'static> {
            io::stdin().lock()
        }
        pub fn stdout(&self) -> io::StdoutLock<'static> {
            io::stdout().lock()
        }
        pub fn stderr(&self) -> io::StderrLock<'static> {
            io::stderr().lock()
        }
    }

    pub trait Print {
        fn print(&self, text: impl Display) -> io::Result<()> {
            write!(io::stdout(), "{text}")
        }
        fn println(&self, text: impl Display) -> io::Result<()> {
            writeln!(io::stdout(), "{text}")
        }
        fn write_all(&self, bytes: &[u8]) -> io::Result<()> {
            io::stdout().write_all(bytes)
        }
    }
    impl Print for HostRuntime {}

    pub trait Eprint {
        fn eprint(&self, text: impl Display) -> io::Result<()> {
            write!(io::stderr(), "{text}")
        }
        fn eprintln(&self, text: impl Display) -> io::Result<()> {
            writeln!(io::stderr(), "{text}")
        }
    }
    impl Eprint for HostRuntime {}

    pub trait Input {
        fn reader(&self) -> io::StdinLock<'static> {
            io::stdin().lock()
        }
    }
    impl Input for HostRuntime {}

    pub trait Alloc {
        fn alloc(&self) -> Global {
            Global
        }
    }
    impl Alloc for HostRuntime {}
    pub use self::Alloc as AllocGlobal;

    /// What is written to a runtime's standard output.
    pub fn writer(_: &impl Print) -> io::StdoutLock<'static> {
        io::stdout().lock()
    }

    /// Rust's own, that is handed an allocator and says when there is no memory.
    pub struct Vec<T>(std::vec::Vec<T>);

    impl<T> Vec<T> {
        pub fn new(_: Global) -> Vec<T> {
            Vec(std::vec::Vec::new())
        }
        pub fn push(&mut self, x: T) -> Result<(), AllocError> {
            self.0.push(x);
            Ok(())
        }
        pub fn of(items: std::vec::Vec<T>) -> Result<Vec<T>, AllocError> {
            Ok(Vec(items))
        }
    }

    impl<T> Deref for Vec<T> {
        type Target = std::vec::Vec<T>;
        fn deref(&self) -> &std::vec::Vec<T> {
            &self.0
        }
    }

    impl<T> DerefMut for Vec<T> {
        fn deref_mut(&mut self) -> &mut std::vec::Vec<T> {
            &mut self.0
        }
    }

    #[macro_export]
    macro_rules! host_vec {
        (in $alloc:expr; $($items:tt)*) => { { let _ = $alloc; $crate::host::Vec::of(std::vec![$($items)*]) } };
    }
    #[macro_export]
    macro_rules! host_print {
        ($rt:expr; $($text:tt)+) => { $rt.print(format_args!($($text)+)) };
    }
    #[macro_export]
    macro_rules! host_println {
        ($rt:expr) => { $rt.println("") };
        ($rt:expr; $($text:tt)+) => { $rt.println(format_args!($($text)+)) };
    }
    #[macro_export]
    macro_rules! host_eprint {
        ($rt:expr; $($text:tt)+) => { $rt.eprint(format_args!($($text)+)) };
    }
    #[macro_export]
    macro_rules! host_eprintln {
        ($rt:expr) => { $rt.eprintln("") };
        ($rt:expr; $($text:tt)+) => { $rt.eprintln(format_args!($($text)+)) };
    }
}
