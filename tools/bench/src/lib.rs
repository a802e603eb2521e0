//! Measures the proved calls and the given Rust on the same texts: tokens alone, and whole sections; and the tree call and the value call beside
//! the section call. There is a program for each of four places at which the code can stand in its lines of 64 bytes; `bench` runs them and prints the
//! table.
pub mod families;
pub mod measure;
pub mod place;
pub mod table;
mod varied;

/// A program that measures with the code behind its own, the library's and the Rust's, moved on by so many bytes. The linker puts the
/// program's own code first, and aligns no function to more than 16 bytes.
#[macro_export]
macro_rules! moved_by {
    ($bytes:literal) => {
        // R: kept although nothing calls it.
        std::arch::global_asm!(
            ".pushsection .text.moved, \"axR\", @progbits",
            ".balign 64",
            concat!(".skip ", $bytes),
            ".popsection"
        );

        fn main() {
            bench::place::print_measured(&bench::families::all(), &bench::families::values())
        }
    };
}
