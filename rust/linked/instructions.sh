#!/bin/sh
# Usage: rust/linked/instructions.sh FOLDER
# Instructions for each walked node, of the proved detector and of the fast Rust one, on the records of a folder: callgrind's count of two
# runs less that of one, so that starting the program is left out. Unlike times they do not depend on what else the machine is doing.
set -eu
here=$(dirname "$0")
folder=${1:?which folder of records?}
program=$here/../target/measure/bench

if ! command -v valgrind >/dev/null; then
    echo "Instructions are counted by valgrind, which is not installed."
    exit 1
fi
cargo build --quiet --offline --profile measure --manifest-path "$here/../Cargo.toml" -p linked

# counted DETECTOR COUNT RECORD
counted() {
    valgrind --tool=callgrind --callgrind-out-file=/dev/null "$program" repeat "$1" "$2" "$3" 2>&1 | awk '/Collected/ { print $4 }'
}

# A line for each record: name, M, Q, nodes, instructions of the proved one and of the Rust one.
measured() {
    for record in "$folder"/*.rec; do
        sizes=$("$program" repeat rust 1 "$record")
        proved=$(($(counted proved 2 "$record") - $(counted proved 1 "$record")))
        rust=$(($(counted rust 2 "$record") - $(counted rust 1 "$record")))
        echo "$(basename "$record" .rec) $sizes $proved $rust"
    done
}

echo "| record | nodes | proved: instructions a node | Rust: instructions a node | ratio |"
echo "|---|---|---|---|---|"
measured | awk '
    function row(name, nodes, proved, rust) {
        printf "| %s | %d | %.0f | %.0f | %.2f |\n", name, nodes, proved / nodes, rust / nodes, proved / rust
    }
    {
        row($1, $4, $5, $6)
        shape = "M = " $2 ", Q = " $3
        if (!(shape in nodes)) shapes[++count] = shape
        nodes[shape] += $4; proved[shape] += $5; rust[shape] += $6
        records[shape]++; logarithms[shape] += log($5 / $6)
    }
    END {
        for (at = 1; at <= count; at++) {
            shape = shapes[at]
            row("**all of " shape "**", nodes[shape], proved[shape], rust[shape])
        }
        print "\nGeometric means of the ratios:\n"
        for (at = 1; at <= count; at++) printf "- %s: %.2f\n", shapes[at], exp(logarithms[shapes[at]] / records[shapes[at]])
    }
'
