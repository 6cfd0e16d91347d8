# How the scripts beside it build what they run. They source it at the top of the tree. What they make goes to target/; what rt
# makes stays in crates/NAME/out.
made=target/harness
mkdir -p "$made"

# Runs rt in a crate's folder and tells standard error each crate that it begins to prove; what else it says is shown only where
# it fails.
telling() {
    rm -f "$made/passed"
    { (cd "crates/$1" && rt "$2") && : >"$made/passed"; } 2>&1 | while IFS= read -r line; do
        printf '%s\n' "$line"
        case $line in 'rt: chose --jobs '*) printf 'proving %s\n' "${line##* }" >&2 ;; esac
    done >"$made/log"
    [ -f "$made/passed" ] || { cat "$made/log"; exit 1; }
}

# Proves the static library NAME, over what earlier runs kept, and makes crates/NAME/out/libNAME.a.
library() {
    telling "$1" lib
}

# Proves the program NAME, over what earlier runs kept, and makes crates/NAME/out/NAME. rt also runs it once, in the crate's folder.
program() {
    telling "$1" run
}

rust() {
    rustc --edition 2021 -C opt-level=3 -D warnings "$@"
}

# The Rust program NAME.rs, with the second opinion as its crate `opinion`; further words go to rustc.
with_opinion() {
    name=$1
    shift
    rust --crate-type rlib --crate-name opinion -o "$made/libopinion.rlib" harness/opinion/lib.rs
    rust --extern "opinion=$made/libopinion.rlib" "$@" -o "$made/$name" "harness/$name.rs"
}

# What the figures were taken on.
machine() {
    echo "$(nproc) cores, $(sed -n 's/^model name[^:]*: //p' /proc/cpuinfo | head -n 1); $(rustc --version)"
}
