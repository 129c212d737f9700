//! Links the proved library's archive.

mod archives;

fn main() {
    archives::link(&["ventorupo"]);
}
