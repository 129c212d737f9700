//! Links the archive of the test, for checks and benchmarks alone.

#[path = "../ventorupo/archives.rs"]
mod archives;

fn main() {
    archives::link(&["rules"]);
}
