//! Links the archives for benchmarks alone: the acts without the test, and the
//! checksum both ways.

#[path = "../ventorupo/archives.rs"]
mod archives;

fn main() {
    archives::link(&["acts", "sums"]);
}
