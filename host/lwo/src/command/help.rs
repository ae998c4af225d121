//! What `--help` and `--version` print.

use std::io::{self, Write};

use super::Outcome;

const HELP: &str = "\
lwo reads LightWave object files of the kinds LWOB and LWO2.

  lwo check FILE...      tell on one line for each file whether it is accepted,
                         and if not, what is wrong with it and at which byte;
                         -v tells also which chunks were skipped
  lwo boards FILE...     print for each surface name its faces, patches and
                         vertices, the size of the panel in millimetres and the
                         colour, part by part where the file names the parts of
                         a figure; and the counts of all files together
  lwo list FILE...       print what each file holds: its counts and polygons
  lwo canonical IN OUT   read IN and write what it holds to OUT, as an LWO2 file
                         in the one canonical form
  lwo --help             print this
  lwo --version          print the version

In the place of a file's name, - is standard input, or standard output for OUT.
Put -- before names that begin with a minus sign. Where check or boards is given
a folder, it reads the .lwo files in it and in the folders in it, but for hidden
ones and links to folders.

A refused file is told as 'refused 9 at 86 (POLS at 68)': the number of what is
wrong, the byte where it begins, counted from 0, and the chunk that this byte is
in, with where that begins. What the number means comes after it, and then what
was found there and what was expected. Where something is missing, the byte is
the one where it would begin. A file may have up to 16,777,216 bytes; a longer
one is refused with 1. list prints the number and the byte alone.

With --json, check, boards and list print one JSON object a line: one for each
file, and for boards of several files a last one with the total.

What is written:
  OUT is written whole or not at all. Where something is there already, nothing
  is written, unless -f or --force is given; even then never over IN, by
  whatever name or link, over a read-only file, a folder, a device or a pipe, or
  through a link to nothing. Nor is OUT written to a terminal without --force.
  With --force a new file takes the old one's name. It has the old one's
  permissions, and its owner and group where you may give them; other names of
  the old file (hard links) keep the old file. Where OUT is a link, the file
  that it leads to is replaced.
  While it is written it is called .lwo-NUMBER-NUMBER.tmp, in OUT's folder. A
  command that is interrupted takes that file away; one that is killed leaves
  it, and it may be removed.
  Curves, vertex maps, clips, envelopes, textures, smoothing angles and layers
  are not kept, so they are not in OUT.

In names of files, surfaces and parts, what cannot be seen is written as in \\n,
\\u{202e} or \\xe4, and a backslash is doubled.

Examples:
  lwo check *.lwo
  lwo boards orders/november
  lwo canonical panel.lwo panel-canonical.lwo

Exit status: 0 if all went well; 1 if a file was refused, or could not be read
or written; 2 if the command was not understood; 141 if whatever reads standard
output has closed it.
";

pub fn print_help(out: &mut impl Write) -> io::Result<Outcome> {
    out.write_all(HELP.as_bytes())?;
    Ok(Outcome::Fine)
}

pub fn print_version(out: &mut impl Write) -> io::Result<Outcome> {
    writeln!(out, "lwo {}", env!("CARGO_PKG_VERSION"))?;
    Ok(Outcome::Fine)
}
