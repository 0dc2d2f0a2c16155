//! A server's loop: loads the folder that `bounds prepare MESH --out DIR` wrote, and lets 16 wheels ask 100,000 times which
//! polygons are at their place, by the records alone and with the float filter. Without a folder it prepares a terrain in
//! memory and goes through the same files as bytes. The loop allocates nothing. server.c asks the same queries.
//!
//! cargo run --release -p bounds --example server -- [DIR [QUERIES]]
use bounds::prepare::PolygonPlace;
use bounds::tree::{Addresses, Found, TreeBytes};
use bounds::{Error, Geometry, PreparedTree, Vec3};
use std::process::ExitCode;
use std::time::Instant;

const WHEELS: usize = 16;
const QUERIES: usize = 100_000;
/// The least time of so many counts, since what else runs on the machine only adds time.
const ROUNDS: usize = 10;
/// So many queries are held to comparing every box.
const COMPARED: usize = 500;

/// 40 by 38 squares of a metre, two triangles each: 3,040, with hills.
fn terrain() -> Geometry {
    const WIDE: u16 = 41;
    let height = |x: u16, y: u16| (x * 7 % 11) as f32 * 0.2 + (y * 5 % 13) as f32 * 0.3;
    let at = |i: u16| Vec3::new(100.0 + (i % WIDE) as f32, -200.0 + (i / WIDE) as f32, height(i % WIDE, i / WIDE));
    let vertices: Vec<Vec3> = (0..WIDE * 39).map(at).collect();
    let square = |i: u16| {
        let low = i / 40 * WIDE + i % 40;
        [[low, low + 1, low + WIDE], [low + 1, low + WIDE + 1, low + WIDE]]
    };
    let triangles: Vec<[u16; 3]> = (0..40 * 38).flat_map(square).collect();
    Geometry::from_triangles(&vertices, &triangles)
}

/// A tree as a server gets it from a converter: by the bytes of its files.
fn in_memory() -> Result<PreparedTree, Error> {
    let tree = terrain().prepare()?.bvh.expect("kind 8 with polygons");
    let header = tree.header(Addresses::default())?;
    let order: Vec<u8> = tree.order.iter().flat_map(|place| place.to_le_bytes()).collect();
    let bytes =
        TreeBytes { header: &header, node_bytes: &tree.node_bytes, tree_bytes: &tree.tree_bytes, order: &order };
    PreparedTree::read(&bytes, tree.boxes().to_vec())
}

/// Each wheel stands somewhere in the box around all and drives on by 0.1; where it leaves it, it begins somewhere else. It
/// asks for a column: 0.7 long, 0.3 wide, as high as all.
fn wheels(tree: &PreparedTree, queries: usize) -> Vec<(Vec3, Vec3)> {
    let (min, max) = (tree.built.bb_min, tree.built.bb_max);
    let mut state = 1u32;
    let mut drawn = || {
        state = state.wrapping_mul(1_664_525).wrapping_add(1_013_904_223);
        (state >> 8) as f32 / 16_777_216.0
    };
    let mut at = [(f32::INFINITY, 0.0); WHEELS];
    let column = |i: usize| {
        let (x, y) = &mut at[i % WHEELS];
        *x += 0.1;
        if *x > max.x {
            (*x, *y) = (min.x + drawn() * (max.x - min.x), min.y + drawn() * (max.y - min.y));
        }
        (Vec3::new(*x - 0.35, *y - 0.15, min.z), Vec3::new(*x + 0.35, *y + 0.15, max.z))
    };
    (0..queries).map(column).collect()
}

/// Asks all queries, and says how long one takes and how much it finds.
fn ask_all(how: &str, queries: &[(Vec3, Vec3)], mut ask: impl FnMut(Vec3, Vec3, &mut Found<PolygonPlace>)) {
    let mut into = Found::default();
    let mut round = || {
        let (start, mut found, mut read) = (Instant::now(), 0, 0);
        for &(min, max) in queries {
            ask(min, max, &mut into);
            (found, read) = (found + into.places.len(), read + into.reads);
        }
        (start.elapsed(), found, read)
    };
    let (least, found, read) = (0..ROUNDS).map(|_| round()).min().expect("rounds");
    let each = |of: f64| of / queries.len() as f64;
    println!(
        "{how:<18} {:>7.0} ns a query, {:>6.2} found a query, {:>6.1} records read",
        each(least.as_nanos() as f64),
        each(found as f64),
        each(read as f64)
    );
}

fn serve(folder: Option<String>, queries: usize) -> Result<(), Error> {
    let tree = match &folder {
        Some(folder) => PreparedTree::load(folder)?,
        None => in_memory()?,
    };
    tree.premises()?; // so no polygon whose box meets a query is missed
    println!("{} polygons, {WHEELS} wheels, {queries} queries", tree.boxes().len());
    let queries = wheels(&tree, queries);
    ask_all("by the records", &queries, |min, max, found| {
        tree.candidates_into(min, max, found);
    });
    ask_all("with the filter", &queries, |min, max, found| {
        tree.query_into(min, max, found);
    });
    let mut found = Found::default();
    for &(min, max) in queries.iter().take(COMPARED) {
        let met = tree.boxes().iter().filter(|item| item.meets(min, max)).count();
        assert_eq!(tree.query_into(min, max, &mut found).len(), met, "not what comparing all boxes gives");
    }
    Ok(())
}

fn main() -> ExitCode {
    let mut words = std::env::args().skip(1);
    let (folder, queries) = (words.next(), words.next().map_or(Some(QUERIES), |n| n.parse().ok()));
    let Some(queries) = queries else {
        eprintln!("usage: server [DIR [QUERIES]]");
        return ExitCode::from(2);
    };
    match serve(folder, queries) {
        Ok(()) => ExitCode::SUCCESS,
        Err(error) => {
            eprintln!("server: {error}");
            ExitCode::FAILURE
        }
    }
}
