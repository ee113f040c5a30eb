//! The program that reads stored plans one after another.

use compare::cases::{require, Call, Calls, Difference};
use compare::damage::{change_field, fields};
use compare::plans::{plan_of, random_opening_plan, split_off, stated_plan};
use reference::{encode, plan_variances, Plan};
use std::io::{BufRead, BufReader, Read, Write};
use std::process::{Child, ChildStdin, Command, Stdio};
use std::sync::mpsc;
use std::thread;
use std::time::Duration;
use tables::literal::stored::{SQUARE, WIDE};
use tables::{evenly_spread, papers, Generator};

/// A run of the program on an input that comes in pieces.
#[derive(Clone, Debug, PartialEq)]
pub struct Run {
    pieces: Vec<Vec<u8>>,
    output: String,
}

impl Run {
    /// On an input that comes at once.
    pub fn on(input: &[u8]) -> Run {
        Run::on_pieces(vec![input.to_vec()])
    }

    fn on_pieces(pieces: Vec<Vec<u8>>) -> Run {
        Run {
            pieces,
            output: String::new(),
        }
    }

    /// Compares what is printed, which has to be this.
    pub fn compare_printed(&self, calls: &mut Calls, prints: &str) -> Result<(), Difference> {
        let left = Run {
            output: prints.to_string(),
            ..self.clone()
        };
        calls.compare_left(self, refusal_of(prints), &left)
    }
}

impl Call for Run {
    fn reference(&mut self) -> u32 {
        self.output = plan_variances(&self.pieces.concat());
        refusal_of(&self.output)
    }

    fn library(&mut self) -> u32 {
        self.output = run_program(&self.pieces);
        refusal_of(&self.output)
    }
}

/// The number of the refusal in the last line, or 0 if there is none.
fn refusal_of(output: &str) -> u32 {
    let last = output.lines().last().unwrap_or_default();
    last.strip_prefix("refused ")
        .and_then(|number| number.parse().ok())
        .unwrap_or(0)
}

/// The program, with its input.
fn started() -> (Child, ChildStdin) {
    let program = concat!(
        env!("CARGO_MANIFEST_DIR"),
        "/../../target/bin/plan_variances"
    );
    let mut run = Command::new(program)
        .stdin(Stdio::piped())
        .stdout(Stdio::piped())
        .spawn()
        .expect("plan_variances is built");
    let lent = run.stdin.take().expect("its input is a pipe");
    (run, lent)
}

/// How long to wait between two pieces.
const PAUSE: Duration = Duration::from_millis(1);

/// What `plan_variances` writes. It may stop reading at a plan that it refuses.
fn run_program(pieces: &[Vec<u8>]) -> String {
    let (mut run, mut lent) = started();
    let mut written = run.stdout.take().expect("its output is a pipe");
    let mut output = Vec::new();
    thread::scope(|scope| {
        scope.spawn(move || {
            for (place, piece) in pieces.iter().enumerate() {
                if place > 0 {
                    thread::sleep(PAUSE);
                }
                if lent.write_all(piece).and_then(|()| lent.flush()).is_err() {
                    break;
                }
            }
        });
        written.read_to_end(&mut output).expect("it writes");
    });
    let mut text = String::from_utf8_lossy(&output).into_owned();
    if run.wait().expect("it ends").code().is_none() {
        text += "ended by a signal\n";
    }
    text
}

/// The input cut into pieces at random places.
fn random_pieces(generator: &mut Generator, input: &[u8]) -> Vec<Vec<u8>> {
    let mut cuts: Vec<usize> = (0..generator.below(5))
        .map(|_| generator.place(input.len() + 1))
        .collect();
    cuts.extend([0, input.len()]);
    cuts.sort_unstable();
    cuts.windows(2)
        .map(|ends| input[ends[0]..ends[1]].to_vec())
        .collect()
}

/// Some random plans.
fn random_plans(generator: &mut Generator, most: u64) -> Vec<Plan> {
    (0..generator.between(1, most))
        .map(|_| random_opening_plan(generator, 6))
        .collect()
}

/// Several plans, in pieces.
pub fn plans(generator: &mut Generator, calls: &mut Calls) -> Result<(), Difference> {
    let plans = random_plans(generator, 6);
    let input: Vec<u8> = plans.iter().flat_map(encode).collect();
    let pieces = random_pieces(generator, &input);
    let lines = calls.compare(&Run::on_pieces(pieces))?.after.output;
    require(lines.lines().count() == plans.len(), || {
        format!("{} plans, and both print {lines:?}\n", plans.len())
    })
}

/// Some plans of which one has fields changed, is cut short or has bytes before it.
pub fn damaged_plans(generator: &mut Generator, calls: &mut Calls) -> Result<(), Difference> {
    let plans = random_plans(generator, 3);
    let damaged = generator.place(plans.len());
    let mut input = Vec::new();
    for (place, plan) in plans.iter().enumerate() {
        let mut bytes = encode(plan);
        if place == damaged {
            damage(generator, plan, &mut bytes);
        }
        input.extend(bytes);
    }
    let pieces = random_pieces(generator, &input);
    calls.compare(&Run::on_pieces(pieces)).map(drop)
}

/// Damages a stored plan. Cut at its end, it may still begin a plan with what follows.
fn damage(generator: &mut Generator, plan: &Plan, bytes: &mut Vec<u8>) {
    let fields = fields(plan);
    match generator.below(6) {
        // the head, which has five fields
        0 | 1 => change_field(generator, &fields[..5], bytes),
        2 | 3 => change_field(generator, &fields, bytes),
        4 => bytes.truncate(generator.place(bytes.len())),
        _ => bytes.insert(0, generator.bits() as u8),
    }
}

/// Three small plans, cut at every byte.
pub fn cut_everywhere(calls: &mut Calls) -> Result<(), Difference> {
    let one_cell = encode(&stated_plan(papers::one_cell()));
    let one_row = encode(&stated_plan(papers::one_row()));
    let input = [&one_cell[..], &one_row, SQUARE].concat();
    let ends = [one_cell.len(), one_cell.len() + one_row.len(), input.len()];
    let lines = ["1 2 0 0\n", "2 4 0 0\n", "3 4 -1 1\n"];
    for length in 0..=input.len() {
        let whole = ends.iter().filter(|&&end| end <= length).count();
        let at_an_end = length == 0 || ends.contains(&length);
        let refused = if at_an_end { "" } else { "refused 5\n" };
        let prints = lines[..whole].concat() + refused;
        Run::on(&input[..length]).compare_printed(calls, &prints)?;
    }
    Ok(())
}

/// A plan, and 1 to 7 bytes that begin no plan or the next.
pub fn bytes_left_over(calls: &mut Calls) -> Result<(), Difference> {
    for length in 1..=7 {
        for rest in [&[0; 7], &[255; 7], &SQUARE[..7]] {
            let input = [SQUARE, &rest[..length]].concat();
            Run::on(&input).compare_printed(calls, "1 4 -1 1\nrefused 5\n")?;
        }
    }
    Ok(())
}

/// Two plans whose bytes come one by one.
pub fn byte_by_byte(calls: &mut Calls) -> Result<(), Difference> {
    let input = [SQUARE, WIDE].concat();
    let pieces = input.iter().map(|&byte| vec![byte]).collect();
    let prints = "1 4 -1 1\n2 808403 -200000 56000\n";
    Run::on_pieces(pieces).compare_printed(calls, prints)
}

/// A run that gets each plan only after the line of the one before.
#[derive(Clone, Debug, PartialEq)]
struct Turns {
    plans: Vec<Vec<u8>>,
    lines: Vec<String>,
}

impl Call for Turns {
    fn reference(&mut self) -> u32 {
        let output = plan_variances(&self.plans.concat());
        self.lines = output.lines().map(String::from).collect();
        0
    }

    fn library(&mut self) -> u32 {
        self.lines = lines_in_turn(&self.plans);
        0
    }
}

/// How long to wait for a line.
const PATIENCE: Duration = Duration::from_secs(20);

/// The lines that `plan_variances` writes, up to the first that does not come in time.
fn lines_in_turn(plans: &[Vec<u8>]) -> Vec<String> {
    let (mut run, mut lent) = started();
    let written = BufReader::new(run.stdout.take().expect("its output is a pipe"));
    let (sender, receiver) = mpsc::channel();
    let reader = thread::spawn(move || {
        for line in written.lines().map_while(Result::ok) {
            let _ = sender.send(line);
        }
    });
    let mut lines = Vec::new();
    for plan in plans {
        let _ = lent.write_all(plan).and_then(|()| lent.flush());
        match receiver.recv_timeout(PATIENCE) {
            Ok(line) => lines.push(line),
            Err(_) => {
                lines.push("no line in time".to_string());
                break;
            }
        }
    }
    drop(lent);
    reader.join().expect("its output ends");
    run.wait().expect("it ends");
    lines.extend(receiver.try_iter());
    lines
}

/// A plan's line is there before the next plan is sent.
pub fn as_it_goes(calls: &mut Calls) -> Result<(), Difference> {
    let turns = Turns {
        plans: vec![SQUARE.to_vec(), WIDE.to_vec(), SQUARE.to_vec()],
        lines: Vec::new(),
    };
    calls.compare_stated(&turns, 0).map(drop)
}

/// The plan of a random table of the largest size with as many arrays as there may be.
fn longest_plan(generator: &mut Generator) -> Plan {
    let mut plan = plan_of(&evenly_spread(generator, 12, 12, 65_535));
    while plan.arrays.len() < 170 {
        let heaviest = (0..plan.arrays.len()).max_by_key(|&array| plan.arrays[array].weight);
        split_off(&mut plan, heaviest.expect("there are arrays"), 1);
    }
    plan
}

/// The longest plans with shorter ones between and after them, and the longest cut short.
pub fn longest_plans(calls: &mut Calls) -> Result<(), Difference> {
    let generator = &mut Generator::new(0);
    let longest = encode(&longest_plan(generator));
    let other = encode(&longest_plan(generator));
    require([longest.len(), other.len()] == [50_912; 2], || {
        "the longest plans have another length\n".to_string()
    })?;
    let all = [&longest[..], SQUARE, &other, WIDE].concat();
    calls.compare_stated(&Run::on(&all), 0)?;
    let cut = [&longest[..], &other[..50_911]].concat();
    calls.compare_stated(&Run::on(&cut), 5)?;
    let mut heavy = [&longest[..], &other, SQUARE].concat();
    heavy[50_912 + 16] ^= 1;
    calls.compare_stated(&Run::on(&heavy), 6).map(drop)
}

/// Some thousand small plans in one input, the last of which does not open.
pub fn thousands(calls: &mut Calls) -> Result<(), Difference> {
    let few = [
        papers::one_cell(),
        papers::listing(),
        papers::one_row(),
        papers::four_halves(),
    ];
    let few = few.map(|example| encode(&stated_plan(example)));
    let mut input = few.concat().repeat(1_500);
    let output = calls.compare_stated(&Run::on(&input), 0)?.output;
    require(output.ends_with("\n5999 4 0 0\n6000 4 -1 1\n"), || {
        format!("both print {output:?}\n")
    })?;
    input.pop();
    let output = calls.compare_stated(&Run::on(&input), 5)?.output;
    require(output.ends_with("\n5999 4 0 0\nrefused 5\n"), || {
        format!("both print {output:?}\n")
    })
}
