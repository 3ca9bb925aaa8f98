# Builds what the scripts of this repository need: sourced by them, not run.
#
# Nothing is built again while it is newer than its sources. What a build says goes to standard error, so that a
# script's standard output is its result alone.

root=$(cd "$(dirname "${BASH_SOURCE[0]}")/.." && pwd)
target=$root/target
library=$root/crates/humoraki/out/libhumoraki.a
reporter=$root/crates/report/out/report
programs=$target/rust/release

say() { echo "$0: $*" >&2; }

fail() {
  say "$@"
  exit 1
}

need() { # COMMAND WHAT-IT-IS
  command -v "$1" >/dev/null 2>&1 || fail "$2 is missing: no command '$1' on PATH"
}

# Whether a file is missing, or older than one of the crates' sources.
stale() { # FILE
  [ ! -e "$1" ] || [ -n "$(find "$root/crates" "$root/crates.txt" \( -name out -o -name must-fail \) -prune -o -type f \
    -newer "$1" -print -quit)" ]
}

# Has rt make a file of a crate's out/. rt leaves a file alone whose own crates did not change, so a stamp tells when it
# last looked: at the start of that look, so that an edit made meanwhile is seen.
prove() { # CRATE FILE RT-WORD...
  local crate=$1 file=$root/crates/$1/out/$2 stamp=$target/looked/$2
  shift 2
  if ! stale "$file" || [ -e "$file" ] && ! stale "$stamp"; then return; fi
  need rt "the Rattle toolchain"
  say "running 'rt $*' in crates/$crate; the first time, it proves all that this stands on, which takes some minutes"
  mkdir -p "$target/looked"
  touch "$stamp.begun"
  (cd "$root/crates/$crate" && rt "$@") </dev/null || fail "'rt $*' failed in crates/$crate"
  mv "$stamp.begun" "$stamp"
}

# rt also runs the program, on no input: what that prints counts for nothing.
need_report() { prove report report run >/dev/null; }

need_library() { prove humoraki libhumoraki.a lib >&2; }

# Runs cargo on the workspace, with nothing fetched and everything as Cargo.lock has it.
rust() { # COMMAND WORD...
  local command=$1
  shift
  cargo "$command" --quiet --offline --locked --manifest-path "$root/Cargo.toml" --target-dir "$target/rust" "$@"
}

# Has cargo build a program of the workspace: $programs/NAME. Cargo itself sees whether there is something to do.
need_program() { # NAME [WORD...]
  need cargo "Rust's build tool"
  rust build --release --bin "$@" >&2 || fail "$1 does not compile"
}
