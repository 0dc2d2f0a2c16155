//! Writes the world of the tests, 120,000 polygons over the limits of one mesh, to standard output:
//! `cargo run -p tool --example world > world.obj`.

#[allow(dead_code)] // the tests take more of it
#[path = "../tests/common/world.rs"]
mod world;

fn main() -> std::io::Result<()> {
    std::io::Write::write_all(&mut std::io::stdout(), world::obj().as_bytes())
}
