//! The tests of the proved library, over what the compiler makes of it here, and its programs: each
//! has to print what is stored beside its sources. `replay` is one of them, which asks every line
//! of `crates/replay/data`.

#[path = "host/mod.rs"]
mod proved;

use proved::bitvec_vec::prelude::{BitVec, Lsb0};
use proved::shim::alloc::{AllocError, Allocator, Global};
use proved::shim::world::{World, process::Ended, run};
use std::cell::Cell;
use std::fs;
use std::path::Path;

/// Runs a program as the gate does: on the words of its file `args`, over its folder `data`.
fn prints<E: Ended>(name: &str, program: fn() -> E) {
    let crates = Path::new(env!("CARGO_MANIFEST_DIR"))
        .join("crates")
        .join(name);
    let read = |file: &str| fs::read_to_string(crates.join(file)).unwrap_or_default();
    let args = read("args")
        .lines()
        .map(|it| it.as_bytes().to_vec())
        .collect();
    let (world, status) = run(
        World {
            args,
            folder: crates.join("data"),
            ..World::default()
        },
        program,
    );
    let printed = String::from_utf8(world.printed).expect("a text");
    let differs = printed
        .lines()
        .zip(read("stdout").lines())
        .find(|(is, was)| is != was)
        .map(|(is, was)| format!("{is}, and not {was}"));
    assert_eq!(differs, None);
    assert!(
        printed == read("stdout"),
        "{name} prints more or less than it should"
    );
    let wanted = read("status").trim().parse().unwrap_or(0);
    assert_eq!(status, wanted);
}

macro_rules! programs {
    ($($name:ident)*) => {
        $(#[test]
        fn $name() {
            prints(stringify!($name), proved::$name::main);
        })*

        /// No program is left out but the one that times.
        #[test]
        fn all_programs_are_here() {
            let crates = Path::new(env!("CARGO_MANIFEST_DIR")).join("crates");
            let folders = fs::read_dir(crates).expect("crates").map(|it| it.expect("a folder").path());
            let programs = folders.filter(|it| it.join("src/main.rt").exists());
            let mut names: Vec<_> = programs.filter_map(|it| Some(it.file_name()?.to_str()?.to_owned())).collect();
            names.sort();
            let mut here = vec!["bench", $(stringify!($name)),*];
            here.sort_unstable();
            assert_eq!(names, here);
        }
    };
}

programs!(
    bits example_guide example_packet_cli example_primes example_sets example_sps_cli freemap_cli replay
);

/// Words of which one is no text end each program that reads words in the same way.
#[test]
fn words_that_are_no_text_are_told() {
    let programs: [fn() -> proved::shim::process::ExitCode; 3] = [
        proved::bits::main,
        proved::freemap_cli::main,
        proved::example_sps_cli::main,
    ];
    for program in programs {
        for args in [vec![vec![0xff]], vec![b"64".to_vec(), vec![b'a', 0xc3]]] {
            let (world, status) = run(
                World {
                    args,
                    ..World::default()
                },
                program,
            );
            assert_eq!(world.printed, b"an argument is not text in UTF-8\n");
            assert_eq!(status, 3);
        }
    }
}

/// An allocator that refuses once it is told to.
#[derive(Clone)]
struct Told<'a>(&'a Cell<bool>);

impl Allocator for Told<'_> {
    fn allocate(&self, size: usize, align: usize) -> Result<*mut u8, AllocError> {
        if self.0.get() {
            return Err(AllocError);
        }
        Global.allocate(size, align)
    }
}

#[test]
fn try_clone_answers_where_memory_is_refused() {
    let told = Cell::new(false);
    let bits = BitVec::<u8, Lsb0, _>::repeat(Told(&told), true, 9).expect("memory");
    assert!(bits.try_clone().is_ok_and(|copy| copy == bits));
    told.set(true);
    assert_eq!(bits.try_clone().err(), Some(AllocError));
}

#[test]
#[should_panic(expected = "memory for a copy")]
fn clone_panics_where_memory_is_refused() {
    let told = Cell::new(false);
    let bits = BitVec::<u8, Lsb0, _>::repeat(Told(&told), true, 9).expect("memory");
    told.set(true);
    let _ = bits.clone();
}
