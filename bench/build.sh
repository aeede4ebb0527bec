# Builds what bench/run measures, into target and reference/target. Sourced by it; `$work` is a folder for notes.

# where rustup puts them, if the shell was not told
command -v cargo >/dev/null || PATH=$PATH:$HOME/.cargo/bin

for tool in cargo rustc size valgrind; do
    command -v $tool >/dev/null || fail "there is no $tool"
done

# quietly COMMAND..: says something only if the command fails
quietly() { "$@" >"$work/said" 2>&1 || { cat "$work/said" >&2; fail "$* fails"; }; }

# compile NAME SOURCE [OPTION]..: target/bench/NAME of bench/SOURCE.rs
compile() {
    name=$1 source=$2
    shift 2
    quietly rustc -O --edition 2021 "$@" -o "target/bench/$name" "bench/$source.rs"
}

# the proved programs and the library
[ "${RT:-rt}" = true ] || quietly tools/build bench bench_apart bench_recorded bench_deadlines replay spans funnelfawn
for made in bin/bench bin/bench_apart bin/bench_recorded bin/bench_deadlines bin/replay bin/spans staticlib/libfunnelfawn.a; do
    [ -f "target/$made" ] || fail "there is no target/$made: tools/build makes it"
done

# what they are held against
quietly cargo build --release --offline --quiet --manifest-path reference/Cargo.toml --target-dir reference/target
mkdir -p target/bench
compile twin twin
compile twin_apart twin --cfg apart
for name in reference board_reference notebook_reference; do
    compile $name $name --extern reference=reference/target/release/libreference.rlib
done
compile reference_told reference --extern reference=reference/target/release/libreference.rlib --cfg told

for name in library board_library notebook_library recording_library stack; do
    compile $name $name -L native=target/staticlib -l static=funnelfawn
done
for way in recorded told deadlines; do
    compile library_$way library -L native=target/staticlib -l static=funnelfawn --cfg $way
done
compile timer timer
