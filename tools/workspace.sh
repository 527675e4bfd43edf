# Sourced by the scripts that build a program over copies of crates, outside the gate.

top=$(cd "$(dirname "${BASH_SOURCE[0]}")/.." && pwd)

# below CRATE..: these crates of the repository and all that they depend on, in the order of crates.txt
below() {
    python3 - "$top/crates.txt" "$@" <<'PYTHON'
import sys
from pathlib import Path

lines = [line.split(":") for line in Path(sys.argv[1]).read_text().splitlines() if ":" in line and not line.startswith("#")]
uses = {name: rest.split() for name, rest in lines}
wanted = set()
left = list(sys.argv[2:])
while left:
    name = left.pop()
    if name in uses and name not in wanted:
        wanted.add(name)
        left += uses[name]
print(*[name for name in uses if name in wanted], sep="\n")
PYTHON
}

# workspace FOLDER CRATE..: a repository with copies of the crates and of all that they depend on
workspace() {
    local work=$1 name part
    shift
    mkdir -p "$work/crates"
    for name in $(below "$@"); do
        mkdir -p "$work/crates/$name"
        for part in src specs proofs; do
            rm -rf "$work/crates/$name/$part"
            cp -r "$top/crates/$name/$part" "$work/crates/$name/"
        done
        grep "^$name:" "$top/crates.txt"
    done >"$work/crates.txt"
    cp "$top/HANDLES" "$work/"
    [ -d "$work/.git" ] || git init -q "$work"
}

# program FOLDER NAME CRATE..: an empty program that depends on the crates
program() {
    local work=$1 name=$2
    shift 2
    mkdir -p "$work/crates/$name/src"
    : >"$work/crates/$name/stdin"
    echo "$name: $*" >>"$work/crates.txt"
}

# hex_lines FOLDER NAME FIRST SECOND: the main file of a program that reads lines of a text, or of two with a space between, in
# hexadecimal digits. It gives each line to `show::show(rt, first, second, has_second)`, where the texts have at most FIRST and SECOND bytes.
hex_lines() {
    cat >"$1/crates/$2/src/main.rt" <<RUST
//! Answers lines of texts given in hex.
#![tactic(auto)]

mod show;

use std::io;

fn value(byte: u8) -> u8 {
    match byte {
        b'0'..=b'9' => byte - 48,
        b'a'..=b'f' => byte - 87,
        _ => 0,
    }
}

fn main(rt: HostRuntime) -> io::Result<()> {
    for line in rt.lines(rt.alloc()) {
        let line = line?;
        let mut first = Vec::new(rt.alloc());
        let mut second = Vec::new(rt.alloc());
        let mut has_second = false;
        let mut high = None;
        for byte in line.as_str().as_bytes() {
            if *byte == b' ' {
                has_second = true;
                continue;
            }
            match high {
                None => high = Some(value(*byte)),
                Some(digit) => {
                    let both = digit.wrapping_mul(16).wrapping_add(value(*byte));
                    if has_second {
                        second.push(both)?;
                    } else {
                        first.push(both)?;
                    }
                    high = None;
                }
            }
        }
        if first.len() <= $3 && second.len() <= $4 {
            show::show(&rt, &first, &second, has_second)?;
        }
    }
    Ok(())
}
RUST
}

# build FOLDER NAME: proves and builds the program, and prints its path
build() {
    local work=$1 name=$2
    (cd "$work/crates/$name" && rt run </dev/null >"$work/$name.log" 2>&1) || { tail -n 20 "$work/$name.log" >&2; exit 1; }
    echo "$work/crates/$name/out/$name"
}
