//! The help texts. Each command's begins with its usage and ends with examples.

use crate::cli::Command;
use crate::commands;

const HEAD: &str =
    "bounds: collision meshes prepared and trees of boxes built by the proved library, explained rule by rule

";

const FOOT: &str = "
A MESH is a Wavefront .obj, or a text that begins with `bounds mesh 1`: see `bounds prepare --help`. A FILE holds boxes: as
text, six numbers a line (min x y z, max x y z), `absent` for an entry that is not there, `#` before a comment, numbers as
decimals, inf, nan or 0x and eight digits; or as child box records of 32 bytes (min, w, max, w; w is ignored). `-` is
standard input. A DUMP is a folder that `bounds prepare --out` or `bounds build --out` wrote, or a MESH or FILE, of which it
is made.

Options of every command: --json for an answer that programs read, --help. Where a MESH is read: --kind 4 or 8 (8 without
it), --margin M (0.04 without it). Where a FILE is read: --text or --records where its form is not to be guessed,
--threshold N (1 without it).

Exit status: 0 an answer; 1 refused, by its number and in words; 2 usage, or a file that cannot be used.

examples
  bounds prepare terrain.obj --out terrain
  bounds query terrain 110,-190,-50 113,-187,50
  bounds explain terrain polygon 3 link 1
  bounds draw terrain -o terrain.svg

  printf '0 0 0 1 1 1\\n2 0 0 3 1 1\\n' > two.txt
  bounds build two.txt --out two
  bounds query two 0.5,0.5,0.5 2.5,0.5,0.5
  bounds explain two node 0 min.x

`bounds COMMAND --help` says more of each. Rules are those of docs/RULES.md.
";

/// What the tool can do.
pub fn overview() -> String {
    let line = |command: &Command| format!("  {:<9}{}\n", command.name, command.does);
    HEAD.to_string() + &commands::table().iter().map(line).collect::<String>() + FOOT
}

/// What a command does.
pub fn of(command: &Command) -> String {
    format!("usage: {}\n", command.help.trim_end())
}
