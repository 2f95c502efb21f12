//! Work for the benchmark.
//!
//!     measure calls CALL FAMILY      how many calls a family has
//!     measure requests CALL FAMILY   what a bridge to a desk is to read for them
//!     measure same WORD..            a request to solve one question
//!     measure bad KIND SHAPE RUN     a request to try a run that just fails an expression of so many words
//!     measure deep CALL SHAPE        a request as deeply nested as its words go
//!     measure shuffled KIND PARTS    a request to try so many parts under an unordered symbol
//!     measure rules COUNT            a request for the table of so many live rules
//!     measure answer TIMES           answers requests by this desk as `tests/bridge.c` does by the proved one

use std::hint::black_box;
use std::io::{stdin, stdout, BufRead, BufReader, BufWriter, Write};

use second::day::written;
use second::gen::{case, Case, SEED};
use second::host::{self, LENT};
use second::overlap::{write_sheet, Action, LiveRule};
use second::proved;
use second::records::cases;
use second::request::{bytes, Request};
use second::Ask;

/// Cases of a family.
const SHARE: usize = 30;

/// Answers the requests of standard input, with each call made so often.
fn answer(times: u64) -> std::io::Result<()> {
    let desk = proved::desk();
    let mut from = BufReader::new(stdin().lock());
    let mut to = BufWriter::new(stdout().lock());
    while let Some(letter) = from.fill_buf()?.first().copied() {
        from.consume(1);
        let request = Request::read(letter, &mut from);
        let mut lent = vec![LENT; request.lent()];
        let mut number = 0;
        for _ in 0..times {
            number = black_box(host::call(&desk, &request, &mut lent));
        }
        to.write_all(&number.to_le_bytes())?;
        to.write_all(&lent)?;
        to.flush()?;
    }
    Ok(())
}

/// The cases of a family: a kind of the generator, or the worked answers.
fn family(name: &str) -> Vec<Case> {
    if name == "worked" {
        return worked();
    }
    let desk = proved::desk();
    (0..)
        .map(|index| case(&desk, SEED, index))
        .filter(|case| case.kind == name)
        .take(SHARE)
        .collect()
}

fn worked() -> Vec<Case> {
    let case = |question| Case {
        kind: "worked",
        question,
        fillings: Vec::new(),
        asks: Vec::new(),
        trails: Vec::new(),
    };
    let mut all = Vec::new();
    for record in cases(&proved::worked_folder("solve.txt").join("solve.txt")) {
        all.push(case(record.words('Q')));
    }
    for record in cases(&proved::worked_folder("try.txt").join("try.txt")) {
        all.push(Case { fillings: vec![record.words('F')], ..case(record.words('Q')) });
    }
    for record in cases(&proved::worked_folder("example.txt").join("example.txt")) {
        let asked = record.needed('L');
        all.push(Case {
            asks: vec![Ask {
                line: asked[0] as usize,
                room: asked[1] as usize,
                old_sheets: asked.get(2) == Some(&1),
            }],
            ..case(record.words('Q'))
        });
    }
    all
}

/// Hands each request of a call and a family on.
fn each(call: &str, name: &str, mut take: impl FnMut(Request)) {
    for case in family(name) {
        let question = bytes(&case.question);
        match call {
            "solve" => take(Request::Solve { question, answer: 2 * proved::desk().limits.answer }),
            "try" => {
                for filling in &case.fillings {
                    take(Request::Try { question: question.clone(), filling: bytes(filling) });
                }
            }
            _ => {
                for ask in &case.asks {
                    let question = question.clone();
                    take(Request::Example {
                        question,
                        line: ask.line as u32,
                        old_sheets: ask.old_sheets as u32,
                        room: 2 * ask.room,
                    });
                }
            }
        }
    }
}

/// Words for an expression that tempts a test to look back, of at most `size` words.
fn bad(kind: &str, size: usize) -> Vec<u16> {
    let a = [3000, 7000];
    match kind {
        // (..((a*)*)..)*
        "stars" => [vec![7003; size - 2], a.to_vec()].concat(),
        // ((a+a)·(a+a)·..)*
        "doubles" => {
            let double = [&[7002], &a[..], &a].concat();
            let more = (size - 6) / 6;
            let joined = [&[7001], &double[..]].concat().repeat(more);
            [vec![7003], joined, double].concat()
        }
        // (a+(a+(..+a)))*
        _ => {
            let more = (size - 3) / 3;
            [vec![7003], [&[7002], &a[..]].concat().repeat(more), a.to_vec()].concat()
        }
    }
}

/// (p, p, b) in a bad expression, and a run of a's for p, so that only the last term fails.
fn tried(kind: &str, shape: usize, run: usize) -> (Vec<u16>, Vec<u16>) {
    let literal = [&[6000, 2000, 2000, 3001, 0, 0], &bad(kind, shape)[..]].concat();
    let end = 7 + literal.len() as u16;
    let question = [&[2, 0, 1, 0, 1, 7, end], &literal[..]].concat();
    let value = [[3000, 0].repeat(run / 4), vec![0]].concat();
    let filling = [&[1, 3, 3 + value.len() as u16], &value[..]].concat();
    (question, filling)
}

/// As many of a word as a question of one literal has room for beside the literal's other words.
fn nested(word: u16, others: usize) -> Vec<u16> {
    vec![word; proved::desk().limits.question - 7 - others]
}

/// A question of one literal over the symbol a and the hedge variable p.
fn one(literal: Vec<u16>) -> Vec<u16> {
    let end = 7 + literal.len() as u16;
    [&[1, 0, 1, 0, 1, 7, end], &literal[..]].concat()
}

/// A question as deeply nested as its words go.
fn deep(shape: &str) -> Vec<u16> {
    match shape {
        // (a, p) in (..(a*)*..)*
        "stars" => one([vec![6000, 3000, 0, 2000, 0], nested(7003, 7), vec![3000, 7000]].concat()),
        // p in a(a(..a()..))
        "symbols" => one([vec![6000, 2000, 0], nested(3000, 4), vec![7000]].concat()),
        // p = a(a(..a()..))
        _ => {
            let half = (proved::desk().limits.question - 7 - 4) / 2;
            one([vec![5000, 2000, 0], vec![3000; half], vec![0; half + 1]].concat())
        }
    }
}

/// a(a(..a()..)) for p, as deep as a filling's 4,096 words go.
fn deep_filling() -> Vec<u16> {
    let half = (4096 - 4) / 2;
    [vec![1, 3, 3 + 2 * half as u16 + 1], vec![3000; half], vec![0; half + 1]].concat()
}

/// A part of kind i, and what it is in an expression.
fn part(i: usize) -> [u16; 2] {
    [3000 + i as u16, 0]
}

fn shape(i: usize) -> Vec<u16> {
    vec![3000 + i as u16, 7000]
}

/// Shapes joined by 7001, one after the other, or 7002, either.
fn joined(word: u16, shapes: Vec<Vec<u16>>) -> Vec<u16> {
    let mut shapes = shapes.into_iter().rev();
    let last = shapes.next().expect("a shape");
    shapes.fold(last, |rest, shape| [vec![word], shape, rest].concat())
}

/// A question with the unordered symbol g, the last of 128, over its literal with the hedge variables p and q, and the values of these.
fn under(literal: Vec<u16>, values: [Vec<u16>; 2]) -> (Vec<u16>, Vec<u16>) {
    let question = [&[128 + 256, 0, 2, 0, 1, 7, 7 + literal.len() as u16], &literal[..]].concat();
    let [p, q] = values;
    let middle = 4 + p.len() as u16 + 1;
    let end = middle + q.len() as u16 + 1;
    (question, [vec![2, 4, middle, end], p, vec![0], q, vec![0]].concat())
}

/// So many parts, the last first, tried under g.
fn shuffled(kind: &str, parts: usize) -> (Vec<u16>, Vec<u16>) {
    let g = 3127;
    let turned: Vec<u16> = (0..parts).rev().flat_map(part).collect();
    let within = |shape: Vec<u16>, run: Vec<u16>| {
        under([vec![6000, g, 2000, 0, 0, g], shape].concat(), [run, Vec::new()])
    };
    match kind {
        // g(p) = g(q), all parts other ones
        "same" => under(vec![5000, g, 2000, 0, 0, g, 2001, 0, 0], [(0..parts).flat_map(part).collect(), turned]),
        // g(p) in g((a+b+..)*)
        "star" => within([vec![7003], joined(7002, (0..parts).map(shape).collect())].concat(), turned),
        // g(p) in g(a·b·..)
        "list" => within(joined(7001, (0..parts).map(shape).collect()), turned),
        // g(p) in g((a·b)*), and one b is missing
        "pairs" => within(
            [vec![7003, 7001], shape(0), shape(1)].concat(),
            [part(0).repeat(parts), part(1).repeat(parts - 1)].concat(),
        ),
        // g(p) in g(a·a·..·b) without the b
        _ => within(
            [[7001, 3000, 7000].repeat(parts - 1), shape(1)].concat(),
            part(0).repeat(parts),
        ),
    }
}

/// The rules of a sheet have four patterns in turn: f(x, a(p), q), f(p, b(x)),
/// X(a, p) and f(x, y, c(p, x)).
fn live_rule(number: usize) -> LiveRule {
    let pattern = match number % 4 {
        0 => vec![3003, 1000, 3000, 2000, 0, 2001, 0],
        1 => vec![3003, 2000, 3001, 1000, 0, 0],
        2 => vec![4000, 3000, 0, 2000, 0],
        _ => vec![3003, 1000, 1001, 3002, 2000, 1000, 0, 0],
    };
    LiveRule { action: Action::ALL[number % 3], pattern }
}

fn main() {
    let args: Vec<String> = std::env::args().skip(1).collect();
    let mut out = BufWriter::new(stdout());
    let mut write = |request: Request| request.write(&mut out).expect("written");
    match args[0].as_str() {
        "calls" => {
            let mut calls = 0;
            each(&args[1], &args[2], |_| calls += 1);
            println!("{calls}");
        }
        "requests" => each(&args[1], &args[2], write),
        "same" => {
            let question: Vec<u16> =
                args[1..].iter().map(|word| word.parse().expect("a word")).collect();
            write(Request::Solve {
                question: bytes(&question),
                answer: 2 * proved::desk().limits.answer,
            });
        }
        "bad" => {
            let size = |word: &String| word.parse().expect("a number");
            let (question, filling) = tried(&args[1], size(&args[2]), size(&args[3]));
            assert_eq!(proved::desk().try_filling(&question, &filling), Ok(false));
            write(Request::Try { question: bytes(&question), filling: bytes(&filling) });
        }
        "shuffled" => {
            let (question, filling) = shuffled(&args[1], args[2].parse().expect("a number"));
            write(Request::Try { question: bytes(&question), filling: bytes(&filling) });
        }
        "rules" => {
            let count: usize = args[1].parse().expect("a number");
            let rules: Vec<LiveRule> = (0..count).map(live_rule).collect();
            let (sheet, report) = (bytes(&write_sheet(4, &rules)), 60);
            let room = count * (count - 1) * (report as usize + 4);
            write(Request::OverlapSheet { sheet, report, room });
        }
        "deep" => {
            let words = deep(&args[2]);
            let question = bytes(&words);
            match args[1].as_str() {
                "solve" => {
                    write(Request::Solve { question, answer: 2 * proved::desk().limits.answer })
                }
                "try" => write(Request::Try { question, filling: bytes(&deep_filling()) }),
                "place" => write(Request::Place { question }),
                "day" => {
                    let sheet = bytes(&written(&[words.len()], words));
                    write(Request::Day { sheet, room: 2 * proved::desk().limits.answer })
                }
                // x and a(a(..a()..)), as two live rules
                "overlap" => {
                    let half = (proved::desk().limits.question - 10 - 1) / 2;
                    let term = [vec![3000; half], vec![0; half]].concat();
                    let (first, second) = (bytes(&[1000]), bytes(&term));
                    write(Request::Overlap { first, second, first_word: 1, room: 2 * term.len() })
                }
                _ => write(Request::Example { question, line: 0, old_sheets: 0, room: 8192 }),
            }
        }
        _ => answer(args[1].parse().expect("a number")).expect("answered"),
    }
}
