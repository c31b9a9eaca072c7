"""The test bench under which conformance/verilog runs a text: it gives the clock, stands for the banks
of the outside memories as docs/NETLIST.md has them, and prints how the run ended."""
import os
import re
import sys

sys.path.insert(0, os.path.join(os.path.dirname(os.path.dirname(os.path.abspath(__file__))), 'tools'))
from lib import lowered
from lib.lowered import HEAD, faults_of, head_of


class Memory(lowered.Memory):
    """A memory, as the first lines of a text tell it, and its elements as the bench prints them."""

    def elements(self, shown):
        """The elements that the bench printed, in order; one that is unknown is printed as a text."""
        seen = {(int(b), int(r)): v for m, b, r, v in re.findall(r'^element (\d+) (\d+) (\d+) (\S+)$', shown, re.M)
                if int(m) == self.number}
        return [self.printed(seen.get(place, 'none')) for place in self.places()]

    def printed(self, bits):
        """The number that was printed, or what stands there in its place."""
        return self.number_of(int(bits)) if bits.isdigit() else bits


def memories_of(text):
    """The memories of a text."""
    return [Memory(*found) for found in HEAD.findall(head_of(text))]


def bank_lines(memory, bank):
    """The bank, its pins, and what a rising edge does to it: reads see it as it was, and writes come in order of ports."""
    width, row = memory.width - 1, memory.row_width - 1
    name = f'm{memory.number}_b{bank}'
    lines, edge = [f'  reg [{width}:0] {name} [0:{memory.rows - 1}];'], []
    for port in range(memory.ports):
        p = f'{name}_p{port}'
        lines += [
            f'  wire {p}_en;', f'  wire {p}_we;', f'  wire [{row}:0] {p}_row;', f'  wire [{width}:0] {p}_out;',
            f"  reg [{width}:0] {p}_in = {memory.width}'d0;",
        ]
        edge += [
            f"    if ({p}_en !== 1'b0 && {p}_en !== 1'b1) $display(\"stray {p}: unknown enable\");",
            f"    if ({p}_en === 1'b1 && !({p}_row < {memory.rows})) $display(\"stray {p}: row %0d\", {p}_row);",
            f'    if ({p}_en & ~{p}_we) {p}_in <= {name}[{p}_row];',
            f'    if ({p}_en & {p}_we) {name}[{p}_row] <= {p}_out;',
        ]
    return lines + ['  always @(posedge clk) begin'] + edge + ['  end']


def start_lines(memory, value):
    """The initial contents."""
    mask = 2 ** memory.width - 1
    return [f"    m{memory.number}_b{b}[{r}] = {memory.width}'d{x & mask};"
            for (b, r), x in zip(memory.places(), memory.flat(value))]


def end_lines(memory):
    """What prints the contents."""
    return [f'    for (k = 0; k < {memory.rows}; k = k + 1) '
            f'$display("element {memory.number} {b} %0d %0d", k, m{memory.number}_b{b}[k]);' for b in range(memory.banks)]


def pins(memory):
    """The module's pins of a memory, each joined to what has its name."""
    return [f'.{p}({p})' for b in range(memory.banks) for q in range(memory.ports)
            for p in (f'm{memory.number}_b{b}_p{q}_{end}' for end in ('en', 'we', 'row', 'out', 'in'))]


def bench_text(memories, data, most_clocks):
    """The bench for a text with these memories, from this data, under a limit of clocks. The clock is low
    at first and does not rise at time 0; outputs are looked at between two edges."""
    outside = [memory for memory in memories if memory.outside]
    lines = ['module bench;', "  reg clk = 1'd0;", '  wire tick;', '  wire done;', '  wire [31:0] fault;',
             '  integer clocks;', '  integer steps;', '  integer k;']
    for memory in outside:
        for bank in range(memory.banks):
            lines += bank_lines(memory, bank)
    joined = ['.clk(clk)', '.tick(tick)', '.done(done)', '.fault(fault)']
    joined += [pin for memory in outside for pin in pins(memory)]
    lines.append('  kernel kernel_0(' + ', '.join(joined) + ');')
    lines.append('  initial begin')
    for memory in outside:
        lines += start_lines(memory, data[memory.name]['data'])
    lines += [
        '    clocks = 0;', '    steps = 0;', '    #1;',
        f"    while (done !== 1'b1 && fault === 32'd0 && clocks < {most_clocks}) begin",
        "      #4 clk = 1'd1;", "      #4 clk = 1'd0;", '      clocks = clocks + 1;',
        "      if (tick === 1'b1) steps = steps + 1;", '    end',
        "    if (fault !== 32'd0) $display(\"outcome fault %0d\", fault);",
        '    else if (done === 1\'b1) $display("outcome done");', '    else $display("outcome going");',
        '    $display("steps %0d", steps);', '    $display("clocks %0d", clocks);']
    for memory in outside:
        lines += end_lines(memory)
    return '\n'.join(lines + ['    $finish(0);', '  end', 'endmodule', ''])
