#!/usr/bin/env bash
# The processor's Verilog text: its copy in hardware/ and its pictures are current, a board's words are those of the image, simulators do with it what the machine does, also on the built program's images,
# expressions have the values of their definition, and Yosys proves that its own netlist of it and the printed one are the same circuit. Where a
# tool isn't installed, a line says what wasn't seen, and the check passes. --all takes more of everything.
set -u
export STACK_EXPLAIN=0 PYTHONDONTWRITEBYTECODE=1
top=$(cd "$(dirname "${BASH_SOURCE[0]}")/../.." && pwd)
tools=$top/.ci/tools
failed=0

# look WHAT COMMAND ..: says what a command says. Status 2 is that a tool isn't there.
look() {
    local told status
    told=$("${@:2}" 2>&1)
    status=$?
    [ "$status" = 2 ] && told="not seen: $1. $told"
    [ "$status" = 0 ] || [ "$status" = 2 ] || failed=1
    [ -z "$told" ] || echo "circuit: ${told//$'\n'/$'\n'circuit: }"
}

# Without words the program only says how it is used. So it is built where it isn't built yet.
"$top/stack" >/dev/null
program=$top/crates/cli_stack/out/cli_stack
cmp "$top/crates/print_processor/stdout" "$top/hardware/fm9001.v" || { echo "circuit: hardware/fm9001.v isn't what print_processor prints"; failed=1; }
look "the words for a board" python3 "$tools/hex_rows.py" "$program"
look "the pictures" python3 "$top/tools/circuit_pictures.py" --check
look "the circuit in Icarus Verilog" python3 "$tools/circuit.py" "$program" --simulator icarus "$@"
look "the circuit in Verilator" python3 "$tools/circuit.py" "$program" --simulator verilator "$@"
look "the values of Verilog's expressions" python3 "$tools/verilog_values.py" "$@"
look "the circuit beside Yosys' netlist" python3 "$tools/same_circuit.py" "$@"
look "the circuit beside the printed netlist" python3 "$tools/same_circuit.py" --printed
[ "$failed" = 0 ] && echo "circuit: ok"
exit "$failed"
