//! What a program has of its host: here its words, its files and what it printed are those that a
//! test gave it and asks for.

use std::cell::RefCell;
use std::fmt;
use std::path::PathBuf;

/// What a program is run in.
#[derive(Default)]
pub struct World {
    /// Its words, without its name, as bytes.
    pub args: Vec<Vec<u8>>,
    /// Where its files lie.
    pub folder: PathBuf,
    /// What it printed.
    pub printed: Vec<u8>,
}

thread_local! {
    static WORLD: RefCell<World> = RefCell::default();
}

/// Runs a program in a world, and answers the world as it left it, and its status.
pub fn run<E: process::Ended>(world: World, program: fn() -> E) -> (World, u8) {
    WORLD.set(world);
    let status = program().status();
    (WORLD.take(), status)
}

/// Prints to the world.
pub fn print(args: fmt::Arguments<'_>) -> std::io::Result<()> {
    std::io::Write::write_fmt(&mut io::Out, args)
}

/// The runtime.
pub mod rt {
    use super::super::alloc::Global;

    /// The runtime, which has nothing of its own here.
    pub struct HostRuntime;

    /// What has an allocator.
    pub trait AllocGlobal {
        /// The allocator.
        fn alloc(&self) -> Global {
            Global
        }
    }

    /// What may print.
    pub trait Print {}

    /// What may read files.
    pub trait Files {}

    impl AllocGlobal for HostRuntime {}
    impl Print for HostRuntime {}
    impl Files for HostRuntime {}
    impl super::env::Env for HostRuntime {}
    impl super::process::Abort for HostRuntime {}
}

/// How a program ends.
pub mod process {
    /// What may end the process.
    pub trait Abort {}

    /// The status of a program.
    pub struct ExitCode(u8);

    impl From<u8> for ExitCode {
        fn from(status: u8) -> Self {
            Self(status)
        }
    }

    /// What a program ends with.
    pub trait Ended {
        /// Its status.
        fn status(self) -> u8;
    }

    impl Ended for ExitCode {
        fn status(self) -> u8 {
            self.0
        }
    }

    impl Ended for std::io::Result<()> {
        fn status(self) -> u8 {
            u8::from(self.is_err())
        }
    }
}

/// The words of a program.
pub mod env {
    use super::super::text::String;

    /// What may read them.
    pub trait Env {}

    /// The program's name, and its words. As in Rattle, one that is not UTF-8 is an error.
    pub fn args<R>(_: &R) -> std::io::Result<impl Iterator<Item = String>> {
        let words = super::WORLD.with_borrow(|world| world.args.clone());
        let words: Result<Vec<_>, _> = words
            .into_iter()
            .map(std::string::String::from_utf8)
            .collect();
        let words = words.map_err(|_| std::io::ErrorKind::InvalidData)?;
        Ok(["program".to_owned()]
            .into_iter()
            .chain(words)
            .map(String::from))
    }
}

/// The files of a program.
pub mod fs {
    use super::super::text::String;

    /// A file's text.
    pub fn read_to_string<R>(_: &R, path: &str) -> std::io::Result<String> {
        let path = super::WORLD.with_borrow(|world| world.folder.join(path));
        std::fs::read_to_string(path).map(String::from)
    }
}

/// What a program prints.
pub mod io {
    use super::super::alloc::AllocError;
    pub use std::io::{Error, ErrorKind, Result, Write};

    /// What prints to the world.
    pub struct Out;

    impl Write for Out {
        fn write(&mut self, bytes: &[u8]) -> Result<usize> {
            super::WORLD.with_borrow_mut(|world| world.printed.extend_from_slice(bytes));
            Ok(bytes.len())
        }

        fn flush(&mut self) -> Result<()> {
            Ok(())
        }
    }

    /// What prints.
    pub fn writer<R>(_: &R) -> Out {
        Out
    }

    impl From<AllocError> for Error {
        fn from(_: AllocError) -> Self {
            ErrorKind::OutOfMemory.into()
        }
    }
}
