"""The files of a test bench: a bench in Verilog, a harness in C++ for Verilator, contents of banks, a Makefile."""

# So many clocks past the end of the expected run a bench gives up, and so many wrong elements it tells.
PATIENCE = 8
MOST_TOLD = 20


class Expected:
    """How a run ends: the report of `simulate`, with the fault's number in the text's list, or 0."""

    def __init__(self, report, faults):
        self.outcome, self.clocks, self.steps = report['outcome'], report['clocks'], report['steps']
        self.memories = report['memories']
        self.fault = faults.index(self.outcome) + 1 if self.outcome.startswith('fault') else 0
        self.done = int(self.outcome == 'done')
        self.most = self.clocks if self.outcome == 'going' else self.clocks + PATIENCE


def banks_of(memories):
    """Each bank: its memory, its number and its name."""
    return [(memory, bank, f'm{memory.number}_b{bank}') for memory in memories for bank in range(memory.banks)]


def contents(memory, value):
    """The texts of a memory's banks, a row a line in hexadecimal."""
    digits = (memory.width + 3) // 4
    return [''.join(f'{bits:0{digits}x}\n' for bits in rows) for rows in memory.banked(value)]


def data_files(memories, data, expected):
    """The contents of the banks at the start and at the end of the run, by the names of files."""
    files = {}
    for memory in memories:
        for end, value in (('start', data[memory.name]['data']), ('end', expected.memories[memory.name]['data'])):
            for bank, text in enumerate(contents(memory, value)):
                files[f'data/m{memory.number}_b{bank}.{end}.hex'] = text
    return files


def verilog_bank(memory, bank, name):
    """The lines of a bank: its rows, those of the end, its pins, and what a rising edge does to it."""
    width, row, last = memory.width - 1, memory.row_width - 1, memory.rows - 1
    lines = [f'  // {memory.declaration()}, bank {bank}', f'  reg [{width}:0] {name} [0:{last}];',
             f'  reg [{width}:0] {name}_end [0:{last}];']
    edge = []
    for port in range(memory.ports):
        p = f'{name}_p{port}'
        lines += [f'  wire {p}_en;', f'  wire {p}_we;', f'  wire [{row}:0] {p}_row;', f'  wire [{width}:0] {p}_out;',
                  f"  reg [{width}:0] {p}_in = {memory.width}'d0;"]
        edge += [f"    if ({p}_en !== 1'b0 && {p}_en !== 1'b1) complain_of_enable({memory.number}, {bank}, {port});",
                 f"    if ({p}_en === 1'b1 && !({p}_row <= {last})) complain_of_row({memory.number}, {bank}, {port});",
                 f'    if ({p}_en & ~{p}_we) {p}_in <= {name}[{p}_row];',
                 f'    if ({p}_en & {p}_we) {name}[{p}_row] <= {p}_out;']
    return lines + ['  always @(posedge clk) begin'] + edge + ['  end']


def pins_of(memories):
    """The names of the module's pins that go to banks."""
    return [f'{name}_p{port}_{end}' for memory, _, name in banks_of(memories) for port in range(memory.ports)
            for end in ('en', 'we', 'row', 'out', 'in')]


VERILOG_HEAD = """\
// Runs kernel.v from the contents in data/*.start.hex, and compares how it ends with what `dahlia simulate`
// has reported: outcome, clocks, steps, and the contents in data/*.end.hex. Prints `passed` or `FAILED` in its last
// line, and writes the waves to waves.vcd (not with +nowaves).
module bench;
  reg clk = 1'd0;
  wire tick;
  wire done;
  wire [31:0] fault;
  integer clocks;
  integer steps;
  integer failures;
  integer k;
"""

VERILOG_TASKS = """\
  task complain_of_enable(input integer memory, input integer bank, input integer port);
    begin
      failures = failures + 1;
      $display("clock %0d: memory %0d, bank %0d, port %0d: the enable is unknown", clocks, memory, bank, port);
    end
  endtask
  task complain_of_row(input integer memory, input integer bank, input integer port);
    begin
      failures = failures + 1;
      $display("clock %0d: memory %0d, bank %0d, port %0d: there is no such row", clocks, memory, bank, port);
    end
  endtask
"""


def verilog_run(expected):
    """The lines that run the kernel to its end, and compare the end. Outputs are looked at between two edges."""
    return f"""\
    clocks = 0;
    steps = 0;
    failures = 0;
    if (!$test$plusargs("nowaves")) begin
      $dumpfile("waves.vcd");
      $dumpvars(0, bench);
    end
    #1;
    while (done !== 1'b1 && fault === 32'd0 && clocks < {expected.most}) begin
      #4 clk = 1'd1;
      #4 clk = 1'd0;
      clocks = clocks + 1;
      if (tick === 1'b1) steps = steps + 1;
    end
    if (done !== 1'b{expected.done} || fault !== 32'd{expected.fault}) begin
      failures = failures + 1;
      $display("done %b, fault %0d; expected: done {expected.done}, fault {expected.fault}", done, fault);
    end
    if (clocks != {expected.clocks} || steps != {expected.steps}) begin
      failures = failures + 1;
      $display("%0d clocks, %0d steps; expected: {expected.clocks} clocks, {expected.steps} steps", clocks, steps);
    end
"""


def verilog_comparison(memory, bank, name):
    """The lines that compare a bank."""
    return f"""\
    for (k = 0; k < {memory.rows}; k = k + 1)
      if ({name}[k] !== {name}_end[k]) begin
        failures = failures + 1;
        if (failures <= {MOST_TOLD})
          $display("{memory.name}{{{bank}}}[%0d]: %0d, expected: %0d", k, {name}[k], {name}_end[k]);
      end
"""


def verilog_bench(memories, expected):
    """The bench. The clock is low at first and does not rise at time 0."""
    banks = banks_of(memories)
    lines = VERILOG_HEAD.splitlines() + [line for bank in banks for line in verilog_bank(*bank)]
    pins = ['clk', 'tick', 'done', 'fault'] + pins_of(memories)
    lines += ['  kernel kernel_0('] + [f"    .{pin}({pin}){',' if pin != pins[-1] else ''}" for pin in pins] + ['  );']
    lines += VERILOG_TASKS.splitlines() + ['  initial begin']
    for _, _, name in banks:
        lines += [f'    $readmemh("data/{name}.start.hex", {name});', f'    $readmemh("data/{name}.end.hex", {name}_end);']
    lines += verilog_run(expected).splitlines()
    lines += [line for bank in banks for line in verilog_comparison(*bank).splitlines()]
    lines += ['    if (failures == 0) $display("passed: ' + summary(expected) + '");',
              '    else $display("FAILED: %0d differences", failures);', '    $finish(0);', '  end', 'endmodule', '']
    return '\n'.join(lines)


def summary(expected):
    """How the run ends, in words."""
    return f'{expected.outcome} after {expected.clocks} clocks, {expected.steps} steps'


HARNESS_HEAD = """\
// Runs the kernel that Verilator has made of kernel.v from the contents in data/*.start.hex, and compares how it ends
// with what `dahlia simulate` has reported: outcome, clocks, steps, and the contents in data/*.end.hex. Status 1 where
// something differs.
#include "Vkernel.h"
#include "verilated.h"

#include <cstdint>
#include <cstdio>
#include <fstream>
#include <ios>
#include <string>
#include <vector>

double sc_time_stamp() { return 0; }

static unsigned long long clocks = 0, steps = 0, failures = 0;

static std::vector<uint64_t> contents(const std::string &name, size_t rows) {
  std::ifstream file("data/" + name + ".hex");
  std::vector<uint64_t> all;
  uint64_t row;
  while (file >> std::hex >> row) all.push_back(row);
  if (all.size() != rows) {
    failures++;
    std::printf("data/%s.hex: %zu rows, expected: %zu\\n", name.c_str(), all.size(), rows);
    all.resize(rows);
  }
  return all;
}

struct Bank {
  std::string memory;
  int number;
  std::vector<uint64_t> rows, end;

  Bank(const char *memory, int number, const std::string &name, size_t size)
      : memory(memory), number(number), rows(contents(name + ".start", size)), end(contents(name + ".end", size)) {}

  bool has(uint64_t row) {
    if (row < rows.size()) return true;
    failures++;
    std::printf("clock %llu: %s{%d}[%llu]: there is no such row\\n", clocks, memory.c_str(), number,
                (unsigned long long)row);
    return false;
  }
  // A read, of the rows as they are before the edge; the data stays until the next read.
  template <class Pin> void read(bool active, uint64_t row, Pin &held) {
    if (active && has(row)) held = rows[row];
  }
  void write(bool active, uint64_t row, uint64_t data) {
    if (active && has(row)) rows[row] = data;
  }
  void compare() {
    for (size_t k = 0; k < rows.size(); k++)
      if (rows[k] != end[k] && ++failures <= MOST_TOLD)
        std::printf("%s{%d}[%zu]: %llu, expected: %llu\\n", memory.c_str(), number, k, (unsigned long long)rows[k],
                    (unsigned long long)end[k]);
  }
};

int main(int count, char **words) {
  Verilated::commandArgs(count, words);
  Vkernel kernel;
"""


def harness_clock(ports):
    """The lines of one clock: at the edge all banks read, then all write, in order of ports; then the kernel moves."""
    lines = [f'    auto {p}_held = kernel.{p}_in;' for _, p in ports]
    lines += [f'    {name}.read(kernel.{p}_en && !kernel.{p}_we, kernel.{p}_row, {p}_held);' for name, p in ports]
    lines += [f'    {name}.write(kernel.{p}_en && kernel.{p}_we, kernel.{p}_row, kernel.{p}_out);' for name, p in ports]
    lines += ['    kernel.clk = 1;', '    kernel.eval();'] + [f'    kernel.{p}_in = {p}_held;' for _, p in ports]
    return lines + ['    kernel.clk = 0;', '    kernel.eval();', '    clocks++;', '    steps += kernel.tick;']


def harness_comparison(expected):
    """The lines that compare the outcome, the clocks and the steps."""
    return f"""\
  if (kernel.done != {expected.done} || kernel.fault != {expected.fault}U) {{
    failures++;
    std::printf("done %u, fault %u; expected: done {expected.done}, fault {expected.fault}\\n", (unsigned)kernel.done,
                (unsigned)kernel.fault);
  }}
  if (clocks != {expected.clocks}ULL || steps != {expected.steps}ULL) {{
    failures++;
    std::printf("%llu clocks, %llu steps; expected: {expected.clocks} clocks, {expected.steps} steps\\n", clocks, steps);
  }}
""".splitlines()


def harness(memories, expected):
    """The harness. The clock is low at first."""
    banks = banks_of(memories)
    ports = [(name, f'{name}_p{port}') for memory, _, name in banks for port in range(memory.ports)]
    lines = [line.replace('MOST_TOLD', str(MOST_TOLD)) for line in HARNESS_HEAD.splitlines()]
    lines += [f'  Bank {name}("{memory.name}", {bank}, "{name}", {memory.rows});' for memory, bank, name in banks]
    lines += [f'  kernel.{p}_in = 0;' for _, p in ports] + ['  kernel.clk = 0;', '  kernel.eval();']
    lines.append(f'  while (!kernel.done && kernel.fault == 0 && clocks < {expected.most}ULL) {{')
    lines += harness_clock(ports) + ['  }'] + harness_comparison(expected)
    lines += [f'  {name}.compare();' for _, _, name in banks]
    lines += ['  kernel.final();', f'  if (failures == 0) std::printf("passed: {summary(expected)}\\n");',
              '  else std::printf("FAILED: %llu differences\\n", failures);', '  return failures != 0;', '}', '']
    return '\n'.join(lines)


MAKEFILE = """\
# Runs the kernel in three tools; each target can be made alone.
#   make icarus      Icarus Verilog runs bench.v, which compares the end of the run; the waves go to waves.vcd
#   make verilator   Verilator makes a program of kernel.v and harness.cpp, which compares the end of the run
#   make yosys       Yosys synthesizes the kernel, and prints its cells
# WAVES= make icarus writes no waves.
WAVES ?= 1

.PHONY: all icarus verilator yosys clean
all: icarus verilator yosys

icarus: bench.vvp
	vvp -n bench.vvp $(if $(WAVES),,+nowaves) > icarus.log
	@cat icarus.log
	@grep -q '^passed' icarus.log

bench.vvp: bench.v kernel.v
	iverilog -g2005 -Wall -o $@ bench.v kernel.v

verilator: obj_dir/Vkernel
	obj_dir/Vkernel

# The result of a comparison may be constant in a text that a compiler wrote.
obj_dir/Vkernel: kernel.v harness.cpp
	verilator --cc --exe --build -Wno-CMPCONST -Wno-UNSIGNED --top-module kernel --Mdir obj_dir kernel.v harness.cpp

yosys: kernel.v
	yosys -q -l yosys.log -p 'read_verilog kernel.v; synth -top kernel; tee -o cells.txt stat'
	@cat cells.txt

clean:
	rm -rf bench.vvp icarus.log waves.vcd obj_dir yosys.log cells.txt
"""


def bench_files(text, memories, data, expected):
    """All files of a bench, by their names."""
    outside = [memory for memory in memories if memory.outside]
    files = {'kernel.v': text, 'bench.v': verilog_bench(outside, expected), 'harness.cpp': harness(outside, expected),
             'Makefile': MAKEFILE}
    return {**files, **data_files(outside, data, expected)}
