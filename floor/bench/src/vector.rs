//! Whether the library's three hot loops, and a polygon's box, take several numbers at once. The source is written so that the compiler does
//! it, but nothing else would tell when it no longer does, and the loops would be slow again.

use std::process::{Command, ExitCode};

/// The word that asks this program for it.
pub const WORD: &str = "vector-code";

/// A function's name and its instructions.
struct Function<'a> {
    name: &'a str,
    code: Vec<Instruction<'a>>,
}

struct Instruction<'a> {
    name: &'a str,
    /// The last operand is written.
    operands: Vec<&'a str>,
}

/// Of `objdump -d --no-show-raw-insn`.
fn functions(listing: &str) -> Vec<Function<'_>> {
    let mut functions: Vec<Function> = Vec::new();
    for line in listing.lines() {
        if let Some((_, name)) = line.strip_suffix(">:").and_then(|head| head.split_once(" <")) {
            functions.push(Function { name, code: Vec::new() });
        } else if let (Some(function), Some((_, code))) = (functions.last_mut(), line.split_once(":\t")) {
            function.code.extend(instruction(code));
        }
    }
    functions
}

fn instruction(code: &str) -> Option<Instruction<'_>> {
    let code = code.split('#').next()?.trim();
    let (name, rest) = code.split_once(' ').unwrap_or((code, ""));
    let mut depth = 0;
    let outside = |c: char| {
        depth += (c == '(') as i32 - (c == ')') as i32;
        c == ',' && depth == 0
    };
    Some(Instruction { name, operands: rest.split(outside).map(str::trim).collect() }).filter(|i| !i.name.is_empty())
}

impl Instruction<'_> {
    fn writes(&self, register: &str) -> bool {
        self.operands.last() == Some(&register)
    }

    /// Four floats from memory into a register.
    fn loads(&self) -> bool {
        ["movups", "movaps", "movupd", "movdqu", "movdqa"].contains(&self.name)
            && self.operands.first().is_some_and(|from| from.ends_with(')') && !from.contains("%rip"))
    }
}

/// What the walk, the counts, the rays and the box have and what they lack, a line each; `Err` where one lacks something.
fn judged(listing: &str) -> Result<String, String> {
    let functions = functions(listing);
    let triangle = corners(&functions, "triangle_float_box", 2);
    let other = corners(&functions, "moved_float_box", 3);
    let parts = [walk(&functions), counts(&functions), rays(&functions), triangle, other];
    let whole = parts.iter().all(Result::is_ok);
    let line = |found: Result<String, String>| match found {
        Ok(has) => format!("has     {has}\n"),
        Err(why) => format!("LACKS   {why}\n"),
    };
    let lines: String = parts.into_iter().map(line).collect();
    if whole {
        Ok(lines)
    } else {
        Err(lines)
    }
}

/// The functions whose names have one of these parts; `Err` where there is none.
fn named<'a>(functions: &'a [Function], what: &str, parts: &[&str]) -> Result<Vec<&'a Function<'a>>, String> {
    let of: Vec<_> = functions.iter().filter(|f| parts.iter().any(|part| f.name.contains(part))).collect();
    match of.is_empty() {
        true => Err(format!("{what}: no function named {} in the archive", parts.join(", "))),
        false => Ok(of),
    }
}

fn count(functions: &[&Function], name: &str) -> usize {
    functions.iter().flat_map(|f| &f.code).filter(|i| i.name == name).count()
}

fn names(functions: &[&Function]) -> String {
    functions.iter().map(|f| f.name).collect::<Vec<_>>().join(", ")
}

/// One compare for the eight numbers of a record, where trees are passed over and where nodes are read; and no number
/// taken out of the vector, for which the loops would wait.
fn walk(functions: &[Function]) -> Result<String, String> {
    let of = named(functions, "walk", &["walk"])?;
    let (found, taken) = (count(&of, "pcmpgtw"), count(&of, "pextrw"));
    match found {
        _ if taken > 0 => Err(format!(
            "walk: {taken} pextrw in {}, none is wanted: a record's numbers are taken out of the vector, and not read again",
            names(&of)
        )),
        2.. => Ok(format!("walk: {found} pcmpgtw in {}", names(&of))),
        _ => Err(format!(
            "walk: {found} pcmpgtw in {}, two are wanted, of the tree loop and of the node loop: a record's numbers are \
             compared one by one",
            names(&of)
        )),
    }
}

/// Where counts stand if they are not inlined, and where they are.
const COUNTS: [&str; 6] = ["count_below", "divide", "put_inner", "grow", "build_core", "build_bvh"];

/// Four lanes of a centre loaded, compared and counted, with nothing computed on the way.
fn counts(functions: &[Function]) -> Result<String, String> {
    let of = named(functions, "counts", &COUNTS)?;
    let mut nearly = None;
    for function in &of {
        for at in (0..function.code.len()).filter(|&at| function.code[at].name == "cmpltps") {
            match counted(&function.code, at) {
                Ok(()) => return Ok(format!("counts: movups, cmpltps, psubd in {}", function.name)),
                Err(why) => nearly = nearly.or(why.map(|why| format!("; nearest in {}: {why}", function.name))),
            }
        }
    }
    Err(format!(
        "counts: no loaded centre that is compared (cmpltps) and counted (psubd) in {}: the four lanes are not taken at \
         once{}",
        names(&of),
        nearly.unwrap_or_default()
    ))
}

/// How far the load and the count may stand from the compare: an unrolled loop mixes several.
const NEAR: usize = 16;

/// Whether this compare is one of the counts; else what is wrong with it, if it counts.
fn counted(code: &[Instruction], at: usize) -> Result<(), Option<String>> {
    let Some(&register) = code[at].operands.last() else { return Err(None) };
    let after = &code[at + 1..code.len().min(at + 1 + NEAR)];
    if !after.iter().any(|i| i.name == "psubd" && i.operands.first() == Some(&register)) {
        return Err(None);
    }
    let before = code[at.saturating_sub(NEAR)..at].iter().rev().find(|i| i.writes(register));
    match before {
        Some(i) if i.loads() => Ok(()),
        Some(i) => Err(Some(format!("what cmpltps compares comes from {} {}", i.name, i.operands.join(",")))),
        None => Err(Some("what cmpltps compares is not loaded near it".to_string())),
    }
}

/// Where the rays stand if they are not inlined, and where they are.
const RAYS: [&str; 4] = ["rays::", "shrink", "shrunk", "hits"];

/// A ray against four triangles has a division and 27 products; an unrolled or a mixed loop has them within so many
/// instructions of the division.
const PRODUCTS: usize = 20;
const AROUND: usize = 150;

/// Four triangles at once: a division, and the products around it. The given and the shrunk triangles have a loop each, or
/// one in a function that both call.
fn rays(functions: &[Function]) -> Result<String, String> {
    let of = named(functions, "rays", &RAYS)?;
    let products = |code: &[Instruction], at: usize| {
        let near = &code[at.saturating_sub(AROUND)..code.len().min(at + AROUND)];
        near.iter().filter(|i| i.name == "mulps").count()
    };
    let mut nearly = String::new();
    for function in &of {
        let code = &function.code;
        let divisions = (0..code.len()).filter(|&at| code[at].name == "divps");
        let loops = divisions.filter(|&at| products(code, at) >= PRODUCTS).count();
        let wanted = if function.name.contains("hits") { 1 } else { 2 };
        if loops >= wanted {
            return Ok(format!("rays: {loops} divps with {PRODUCTS} mulps or more around it in {}", function.name));
        }
        if loops > 0 {
            nearly = format!("; {} has {loops} of {wanted}", function.name);
        }
    }
    Err(format!(
        "rays: no divps with {PRODUCTS} mulps around it for the given and for the shrunk triangles in {}: triangles are taken \
         one by one{nearly}",
        names(&of)
    ))
}

/// Both corners of a box in four lanes: so many minima and maxima, one fewer than it has vertices.
fn corners(functions: &[Function], name: &str, wanted: usize) -> Result<String, String> {
    let of = named(functions, "box", &[name])?;
    let (low, high) = (count(&of, "minps"), count(&of, "maxps"));
    let found = format!("box: {low} minps and {high} maxps in {}", names(&of));
    match low.min(high) {
        enough if enough >= wanted => Ok(found),
        _ => Err(format!("{found}, {wanted} of each are wanted: a corner is made number by number")),
    }
}

/// Prints what was found in the archive that is named.
pub fn looked(words: &[String]) -> ExitCode {
    let [archive] = words else {
        eprintln!("bench: {WORD} takes an archive");
        return ExitCode::from(2);
    };
    match disassembled(archive).map(|listing| judged(&listing)) {
        Ok(Ok(lines)) => {
            print!("{lines}");
            ExitCode::SUCCESS
        }
        Ok(Err(lines)) => {
            println!("{lines}The source is written for these instructions; without them {archive} is slow.");
            ExitCode::FAILURE
        }
        Err(why) => {
            eprintln!("bench: {why}");
            ExitCode::from(2)
        }
    }
}

fn disassembled(archive: &str) -> Result<String, String> {
    let out = Command::new("objdump").args(["-d", "--no-show-raw-insn", "--", archive]).output();
    let out = out.map_err(|e| format!("objdump: {e}"))?;
    if out.status.success() {
        Ok(String::from_utf8_lossy(&out.stdout).into_owned())
    } else {
        Err(format!("objdump: {}", String::from_utf8_lossy(&out.stderr).trim()))
    }
}

#[cfg(test)]
mod tests {
    use super::*;

    const WALK: &str = "\
0000000000000000 <bounds_walk>:
  10:\tpxor   %xmm1,%xmm2
  14:\tpcmpgtw %xmm0,%xmm2
  18:\tpcmpgtw %xmm0,%xmm3
";

    /// The loop unrolled by two.
    const COUNTS: &str = "\
0000000000000000 <bounds_build_bvh>:
     760:\tmov    (%rbx,%rcx,4),%edx
     763:\tmovups (%r14,%rdx,4),%xmm3
     768:\tcmpltps %xmm1,%xmm3
     76c:\tmov    0x4(%rbx,%rcx,4),%edx
     770:\tmovups (%r14,%rdx,4),%xmm4
     775:\tcmpltps %xmm1,%xmm4
     779:\tpsubd  %xmm3,%xmm2
     77d:\tpsubd  %xmm4,%xmm2
";

    /// Two lanes, computed from the box each time.
    const COMPUTED: &str = "\
0000000000000000 <bounds_build_bvh>:
     78a:\tmovsd  0x8(%r14,%rsi,1),%xmm3
     791:\tmovsd  0x14(%r14,%rsi,1),%xmm4
     798:\taddps  %xmm3,%xmm4
     79b:\tmulps  %xmm5,%xmm4
     79e:\tcmpltps %xmm1,%xmm4
     7a2:\tpsubd  %xmm4,%xmm2
";

    /// A division among so many products.
    fn rays(division: &str, products: usize) -> String {
        let half = "  10:\tmulps  %xmm1,%xmm2\n  14:\taddps  %xmm2,%xmm3\n".repeat(products / 2);
        format!("0000000000000000 <rays::rows::hits_in>:\n{half}  40:\t{division}  %xmm3,%xmm4\n{half}")
    }

    const CORNERS: &str = "\
0000000000000000 <bounds_triangle_float_box>:
 2fc:\tminps  %xmm0,%xmm13
 300:\tminps  %xmm1,%xmm13
 309:\tmaxps  %xmm0,%xmm15
 30d:\tmaxps  %xmm1,%xmm15

0000000000000000 <bounds_moved_float_box>:
  5d:\tminps  %xmm4,%xmm2
  60:\tminps  %xmm5,%xmm2
  63:\tminps  %xmm6,%xmm2
  70:\tmaxps  %xmm4,%xmm0
  73:\tmaxps  %xmm5,%xmm0
  76:\tmaxps  %xmm6,%xmm0
";

    #[test]
    fn all_parts_are_found() {
        let found = judged(&format!("{WALK}\n{COUNTS}\n{}\n{CORNERS}", rays("divps", 26))).expect("vector code");
        let lines = [
            "has     walk: 2 pcmpgtw in bounds_walk",
            "has     counts: movups, cmpltps, psubd in bounds_build_bvh",
            "has     rays: 1 divps with 20 mulps or more around it in rays::rows::hits_in",
            "has     box: 2 minps and 2 maxps in bounds_triangle_float_box",
            "has     box: 3 minps and 3 maxps in bounds_moved_float_box",
        ];
        assert_eq!(found.lines().collect::<Vec<_>>(), lines);
    }

    #[test]
    fn rays_one_by_one_are_found() {
        let lacking = |rays: &str| judged(&format!("{WALK}\n{COUNTS}\n{CORNERS}\n{rays}")).expect_err("no vector code");
        assert!(lacking(&rays("divss", 26)).contains("LACKS   rays: no divps with 20 mulps around it"));
        assert!(lacking(&rays("divps", 4)).contains("in rays::rows::hits_in: triangles are taken one by one\n"));
        assert!(lacking("").contains("LACKS   rays: no function named rays::"));
        // Inlined, the loops of both sorts have to have it.
        let inlined = rays("divps", 26).replace("rays::rows::hits_in", "bounds_calculate_verts_shrunk");
        assert!(lacking(&inlined).contains("; bounds_calculate_verts_shrunk has 1 of 2"));
        let second: String = rays("divps", 26).lines().skip(1).map(|line| format!("{line}\n")).collect();
        assert!(judged(&format!("{WALK}\n{COUNTS}\n{CORNERS}\n{inlined}{second}")).is_ok());
    }

    #[test]
    fn a_box_number_by_number_is_found() {
        let judge = |corners: &str| judged(&format!("{WALK}\n{COUNTS}\n{}\n{corners}", rays("divps", 26)));
        let lacks = |corners: &str, what: &str| judge(corners).expect_err("number by number").contains(what);
        let once = CORNERS.replace(" 30d:\tmaxps  %xmm1,%xmm15\n", "");
        assert!(lacks(&once, "LACKS   box: 2 minps and 1 maxps in bounds_triangle_float_box, 2 of each are wanted"));
        let twice = CORNERS.replace("  63:\tminps  %xmm6,%xmm2\n", "");
        assert!(lacks(&twice, "LACKS   box: 2 minps and 3 maxps in bounds_moved_float_box, 3 of each are wanted"));
        assert!(lacks("", "LACKS   box: no function named triangle_float_box"));
        assert!(lacks("", "LACKS   box: no function named moved_float_box"));
    }

    #[test]
    fn what_is_lacking_is_named() {
        let walk = "0000000000000000 <bounds_walk>:\n  10:\tcmp    %ax,%bx\n";
        let why = judged(&format!("{walk}\n{COMPUTED}")).expect_err("none");
        assert!(why.contains("walk: 0 pcmpgtw in bounds_walk"), "{why}");
        assert!(why.contains("counts: no loaded centre") && why.contains("comes from mulps %xmm5,%xmm4"), "{why}");
        let why = judged(WALK).expect_err("no build");
        assert!(why.starts_with("has     walk") && why.contains("LACKS   counts: no function named"), "{why}");
        let once = WALK.replace("  18:\tpcmpgtw %xmm0,%xmm3\n", "");
        assert!(judged(&format!("{once}{COUNTS}")).expect_err("one").contains("walk: 1 pcmpgtw"));
        let taken = format!("{WALK}  1c:\tpextrw $0x6,%xmm8,%esi\n");
        assert!(judged(&format!("{taken}{COUNTS}")).expect_err("one").contains("walk: 1 pextrw in bounds_walk"));
    }

    #[test]
    fn a_compare_that_counts_nothing_is_no_count() {
        let fold = "0000000000000000 <bounds_build_bvh>:\n  10:\tmovups (%rax),%xmm3\n  14:\tcmpltps %xmm1,%xmm3\n";
        let why = judged(&format!("{WALK}\n{fold}")).expect_err("no counts");
        assert!(why.contains("counts: no loaded centre") && !why.contains("nearest"), "{why}");
    }
}
