//! Lists the Rust's files, `neighbor.rs` among them.

fn main() {
    hora_source::write_modules(hora_source::Neighbors::AsGiven);
}
