// The plain cycle held to Icarus Verilog: random drawings as Verilog modules, and the library's steps on the same values.
//
// verilog FOLDER [--seed S] [--nets N]: writes, compiles and runs in FOLDER, with iverilog and vvp from the path.
#![forbid(unsafe_code)]

use differ::chance::Chance;
use differ::damage::all_codes;
use differ::drawings::{drawing_of, Drawing, CODES};
use std::fmt::Write;
use std::path::Path;
use std::process::{Command, ExitCode};
use twin::sheets::{ADD, AND, ANY, CAT, CONST, EQ, IN, LTU, MUX, NEG, NOT, OR, PAR, REG, SHL, SHR, SUB, XOR};

const CYCLES: usize = 300;
/// Modules in one file: most of the time goes to starting the two programs.
const BATCH: usize = 25;

/// The low five bits of a node, for the amount of a shift.
fn amount(net: &Drawing, b: u16) -> String {
    if net.nodes[b as usize].w > 5 {
        format!("n{b}[4:0]")
    } else {
        format!("n{b}")
    }
}

/// The drawing as a module that reads its inputs from a file, a row for each cycle, and writes its outputs to another.
fn module(net: &Drawing, number: usize) -> Result<String, std::fmt::Error> {
    let mut v = String::new();
    let ins: Vec<usize> = (0..net.nodes.len()).filter(|&n| net.nodes[n].code == IN).collect();
    let regs: Vec<usize> = (0..net.nodes.len()).filter(|&n| net.nodes[n].code == REG).collect();
    writeln!(v, "module net_{number};")?;
    writeln!(v, "  reg clock = 0;\n  integer cycle, out;\n  reg [31:0] given [0:{}];", (CYCLES * ins.len()).max(1) - 1)?;
    for (n, x) in net.nodes.iter().enumerate() {
        let (a, b, c, k, w) = (x.a, x.b, x.c, x.k, x.w);
        let bits = format!("[{}:0]", w - 1);
        let is = match x.code {
            IN => {
                writeln!(v, "  reg {bits} n{n};")?;
                continue;
            }
            REG => {
                writeln!(v, "  reg {bits} n{n};\n  initial n{n} = {w}'d{k};")?;
                continue;
            }
            CONST => format!("{w}'d{k}"),
            NOT => format!("~n{a}"),
            NEG => format!("-n{a}"),
            ANY => format!("|n{a}"),
            PAR => format!("^n{a}"),
            AND => format!("n{a} & n{b}"),
            OR => format!("n{a} | n{b}"),
            XOR => format!("n{a} ^ n{b}"),
            ADD => format!("n{a} + n{b}"),
            SUB => format!("n{a} - n{b}"),
            EQ => format!("n{a} == n{b}"),
            LTU => format!("n{a} < n{b}"),
            SHL => format!("n{a} << {}", amount(net, b)),
            SHR => format!("n{a} >> {}", amount(net, b)),
            MUX => format!("n{a} ? n{b} : n{c}"),
            CAT => format!("{{n{a}, n{b}}}"),
            _ => format!("n{a}[{}:{k}]", k + w as u32 - 1),
        };
        writeln!(v, "  wire {bits} n{n} = {is};")?;
    }
    // All registers change together, from the values before the edge.
    writeln!(v, "  always @(posedge clock) begin")?;
    for n in &regs {
        writeln!(v, "    n{n} <= n{};", net.nodes[*n].a)?;
    }
    writeln!(v, "  end\n  initial begin\n    out = $fopen(\"{number}.out\");")?;
    if !ins.is_empty() {
        writeln!(v, "    $readmemh(\"{number}.in\", given);")?;
    }
    writeln!(v, "    for (cycle = 0; cycle < {CYCLES}; cycle = cycle + 1) begin")?;
    for (i, n) in ins.iter().enumerate() {
        writeln!(v, "      n{n} = given[cycle * {} + {i}];", ins.len())?;
    }
    let outputs: Vec<String> = net.outputs.iter().map(|n| format!("n{n}")).collect();
    writeln!(v, "      #1 $fdisplay(out, \"{}\", {});", vec!["%h"; outputs.len()].join(" "), outputs.join(", "))?;
    writeln!(v, "      clock = 1;\n      #1 clock = 0;\n      #1;\n    end\n    $fclose(out);\n  end\nendmodule\n")?;
    Ok(v)
}

fn drawing(chance: &mut Chance, number: usize) -> Drawing {
    let mut net = match number % 5 {
        0 => all_codes(chance),
        4 if number % 50 == 4 => drawing_of(chance, 1024),
        _ => {
            let size = chance.from_to(1, 120);
            drawing_of(chance, size)
        }
    };
    // As much as can be seen: every node of a small drawing, 64 of a large one, the last among them.
    let count = net.nodes.len();
    net.outputs = (0..count.min(64)).map(|j| if count <= 64 { j } else { count - 1 - chance.below(count) * (j > 0) as usize } as u16).collect();
    net
}

fn run(folder: &Path, program: &str, words: &[&str]) -> Result<(), String> {
    let output = Command::new(program).args(words).current_dir(folder).output().map_err(|e| format!("{program}: {e}"))?;
    let said = [output.stdout, output.stderr].concat();
    if output.status.success() && said.is_empty() {
        return Ok(());
    }
    Err(format!("{program} ended with {}: {}", output.status, String::from_utf8_lossy(&said)))
}

struct One {
    net: Drawing,
    given: Vec<u32>,
}

/// The library's outputs, a row for each cycle.
fn stepped(one: &One) -> Result<Vec<u32>, String> {
    let read = boards::read_net(&one.net.sheet());
    if read.answer != 0 {
        return Err(format!("the generator made a drawing that is refused by {}", read.answer));
    }
    let mut regs = [0; 1024];
    boards::first_registers(&read.net, &mut regs);
    let mut outs = vec![0; CYCLES * one.net.outputs.len()];
    match boards::steps(&read.net, &mut regs, CYCLES as u32, &one.given, &mut outs) {
        0 => Ok(outs),
        answer => Err(format!("steps answers {answer}")),
    }
}

fn batch(folder: &Path, seed: u64, first: usize, last: usize, met: &mut [u64; 256]) -> Result<usize, String> {
    let io = |e: std::io::Error| format!("{}: {e}", folder.display());
    let (mut text, mut all, mut values) = (String::new(), Vec::new(), 0);
    for number in first..last {
        let chance = &mut Chance::new(seed, number as u64);
        let net = drawing(chance, number);
        let mut given = Vec::new();
        for _ in 0..CYCLES {
            given.extend(net.nodes.iter().filter(|x| x.code == IN).map(|x| chance.value(x.w)));
        }
        let rows: Vec<String> = given.iter().map(|v| format!("{v:x}\n")).collect();
        std::fs::write(folder.join(format!("{number}.in")), rows.concat()).map_err(io)?;
        text += &module(&net, number).map_err(|e| e.to_string())?;
        net.outputs.iter().for_each(|&n| met[net.nodes[n as usize].code as usize] += 1);
        all.push(One { net, given });
    }
    text += "module all;\n";
    for number in first..last {
        text += &format!("  net_{number} it_{number}();\n");
    }
    text += "endmodule\n";
    std::fs::write(folder.join("nets.v"), text).map_err(io)?;
    run(folder, "iverilog", &["-g2001", "-Wall", "-Wno-timescale", "-s", "all", "-o", "nets.vvp", "nets.v"])?;
    run(folder, "vvp", &["-n", "nets.vvp"])?;
    for (one, number) in all.iter().zip(first..) {
        let printed = std::fs::read_to_string(folder.join(format!("{number}.out"))).map_err(io)?;
        let words: Vec<&str> = printed.split_whitespace().collect();
        let outs = stepped(one)?;
        if words.len() != outs.len() {
            return Err(format!("drawing {number}: {} values from Verilog, {} from the library", words.len(), outs.len()));
        }
        for (i, (word, out)) in words.iter().zip(&outs).enumerate() {
            if u32::from_str_radix(word, 16) != Ok(*out) {
                let (cycle, j) = (i / one.net.outputs.len() + 1, i % one.net.outputs.len());
                let x = &one.net.nodes[one.net.outputs[j] as usize];
                return Err(format!("drawing {number}, cycle {cycle}, output {j} ({x:?}): Verilog {word}, library {out:x}"));
            }
        }
        values += outs.len();
    }
    Ok(values)
}

fn main() -> ExitCode {
    let mut words = std::env::args().skip(1);
    let Some(folder) = words.next() else {
        eprintln!("verilog FOLDER [--seed S] [--nets N]");
        return ExitCode::from(2);
    };
    let (mut seed, mut nets) = (20_000_202, 600);
    while let Some(word) = words.next() {
        match (word.as_str(), words.next().and_then(|v| v.parse::<u64>().ok())) {
            ("--seed", Some(value)) => seed = value,
            ("--nets", Some(value)) => nets = value as usize,
            _ => {
                eprintln!("verilog: {word}: no such word, or no number behind it");
                return ExitCode::from(2);
            }
        }
    }
    let (mut met, mut values) = ([0u64; 256], 0);
    for first in (0..nets).step_by(BATCH) {
        match batch(Path::new(&folder), seed, first, (first + BATCH).min(nets), &mut met) {
            Ok(count) => values += count,
            Err(why) => {
                println!("FAILED seed {seed}: {why}");
                return ExitCode::FAILURE;
            }
        }
    }
    let seen: Vec<String> = CODES.iter().map(|&code| format!("{code:02x}: {}", met[code as usize])).collect();
    println!("seed {seed}: {nets} drawings, {CYCLES} cycles each, {values} values as Icarus Verilog has them");
    println!("outputs by code  {}", seen.join("  "));
    if let Some(code) = CODES.iter().find(|&&code| met[code as usize] == 0) {
        println!("FAILED no output of code {code:02x}");
        return ExitCode::FAILURE;
    }
    ExitCode::SUCCESS
}
