//! Lists the Rust's files, with the stand-in for `neighbor.rs`.

fn main() {
    hora_source::write_modules(hora_source::Neighbors::TieRules);
}
