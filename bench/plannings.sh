#!/bin/sh
# Times plannings of generated circuits, next to the second program's plain planner of the same method and its general maximum flow.
set -e
cd "$(dirname "$0")/.."
mkdir -p target
./run bench_plannings > target/bench_plannings.log 2>&1 || { tail -20 target/bench_plannings.log; exit 1; }
proved=crates/bench_plannings/out/bench_plannings
(cd check && cargo build --release --offline --quiet)
for circuit in "adder 64" "multiplier 64" sha256 keccak "random 300000" "random 1000000" "layered 1000000"; do
    check/target/release/generate $circuit > target/bench-circuit.txt
    echo "$circuit"
    echo "  proved:  $("$proved" time < target/bench-circuit.txt)"
    echo "  plain:   $(check/target/release/plain target/bench-circuit.txt --time 2>&1 > /dev/null | tail -1)"
    echo "  maxflow: $(check/target/release/maxflow target/bench-circuit.txt --time 2>&1 > /dev/null | tail -1)"
done
