#!/bin/sh
# Measures the proved detector and the fast Rust one anew on the benchmark's own records: the tables go to docs/figures/, their last rows
# between the marks of docs/PERFORMANCE.md. Needs build/libgeckoneedle.a and valgrind; where IT++ is installed the library is
# measured beside it, too.
set -eu
cd "$(dirname "$0")/../.."

cargo build --quiet --offline --profile measure --manifest-path rust/Cargo.toml -p linked
bench=rust/target/measure/bench
processor=$(awk -F': ' '/^model name/ { print $2; exit }' /proc/cpuinfo)
kit=$(rt version | cut -d' ' -f1)
mkdir -p docs/figures

rm -rf build/records
mkdir -p build/records
$bench records build/records
{
    echo "# Instructions a walked node"
    echo
    echo "Counted of the library as $kit built it."
    echo
    rust/linked/instructions.sh build/records
} >docs/figures/instructions.md

{
    echo "# Times"
    echo
    echo "Measured on $processor, $kit, $(rustc --version)."
    echo
    $bench times
} >docs/figures/times.md

$bench plot docs/figures/nodes-over-clip.svg

if command -v itpp-config >/dev/null; then
    {
        echo "# Beside IT++"
        echo
        echo "Measured on $processor, $kit, IT++ $(itpp-config --version)."
        echo
        make --silent peer
    } >docs/figures/peer.md
else
    echo "There is no IT++ to compare with (on Debian: apt-get install libitpp-dev); the figures beside it stay as they were."
fi

# A row for each shape: its name, then of all its records together instructions a node and their ratio, and microseconds a vector and theirs,
# and the geometric mean of the records' ratios of times.
summary() {
    echo "Measured on $processor, $kit, $(rustc --version)."
    echo
    echo "| shape | proved: instructions a node | Rust | ratio | proved: µs a vector | Rust | ratio | mean ratio |"
    echo "|---|---|---|---|---|---|---|---|"
    awk -F'|' '
        /all of/ { name = $2; gsub(/\*\*all of |\*\*/, "", name); gsub(/^ +| +$/, "", name) }
        FILENAME ~ /instructions/ && /all of/ { order[++n] = name; instructions[name] = $4 "|" $5 "|" $6 }
        FILENAME ~ /times/ && /all of/ { times[name] = $5 "|" $6 "|" $9 }
        FILENAME ~ /times/ && /^- M/ { split(substr($0, 3), part, ": "); mean[part[1]] = part[2] }
        END { for (i = 1; i <= n; i++) { s = order[i]; print "| " s " |" instructions[s] "|" times[s] "| " mean[s] " |" } }
    ' docs/figures/instructions.md docs/figures/times.md
}

summary >build/summary.md
awk -v file=build/summary.md '
    $0 == "<!-- /summary -->" { inside = 0 }
    !inside { print }
    $0 == "<!-- summary -->" { inside = 1; while ((getline line < file) > 0) print line }
' docs/PERFORMANCE.md >build/PERFORMANCE.md
mv build/PERFORMANCE.md docs/PERFORMANCE.md
