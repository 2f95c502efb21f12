//! Request 2: a text form.

use second::gen::random::Random;
use second::gen::texts::{damage, in_order, spelt};
use second::gen::{case, SEED};
use second::stack::deep;
use second::words::{Refusal, Refused};
use second::Desk;

fn desk() -> Desk {
    Desk::up_to(2)
}

fn read(text: &str) -> Result<Vec<u16>, u16> {
    desk().read_text(text.as_bytes(), 4096).map_err(Refusal::number)
}

fn written(question: &[u16]) -> Result<String, u16> {
    let text = desk().write_text(question, usize::MAX).map_err(Refused::number)?;
    Ok(String::from_utf8(text).unwrap())
}

#[test]
fn texts_and_their_words() {
    let cases: [(&str, &[u16]); 10] = [
        ("(*p, *q) = (a, b)", &[2, 0, 2, 0, 1, 7, 16, 5000, 2000, 2001, 0, 3000, 0, 3001, 0, 0]),
        (
            "*p in (f(a*), b*), *p = (f(a, a), b)",
            &[
                3, 0, 1, 0, 1, 7, 30, 6000, 2000, 0, 7001, 3000, 7003, 3001, 7000, 7003, 3002,
                7000, 5000, 2000, 0, 3000, 3001, 0, 3001, 0, 0, 3002, 0, 0,
            ],
        ),
        (
            "(?x, ?x) in (a, b)",
            &[2, 1, 0, 0, 1, 7, 16, 6000, 1000, 1000, 0, 7001, 3000, 7000, 3001, 7000],
        ),
        ("%X(a) = g(*p)", &[2, 0, 1, 1, 1, 7, 17, 5000, 4000, 3000, 0, 0, 0, 3001, 2000, 0, 0]),
        ("()", &[1, 0, 0, 0, 1, 7, 7]),
        ("", &[1, 0, 0, 0, 0, 6]),
        ("\n \n()\r\n\n()", &[1, 0, 0, 0, 2, 8, 8, 8]),
        (
            "?x = a\n\n?x = b, ?x in (a + b)*",
            &[
                2, 1, 0, 0, 2, 8, 14, 29, 5000, 1000, 0, 3000, 0, 0, 5000, 1000, 0, 3001, 0, 0,
                6000, 1000, 0, 7003, 7002, 3000, 7000, 3001, 7000,
            ],
        ),
        (
            "tank(in, out) in tank(in, out)",
            &[
                3, 0, 0, 0, 1, 7, 21, 6000, 3000, 3001, 0, 3002, 0, 0, 0, 3000, 7001, 3001, 7000,
                3002, 7000,
            ],
        ),
        (
            "a = (?a, *a), %a() in a**",
            &[
                1, 1, 1, 1, 1, 7, 23, 5000, 3000, 0, 0, 1000, 2000, 0, 6000, 4000, 0, 0, 7003,
                7003, 3000, 7000, 0,
            ],
        ),
    ];
    for (text, words) in &cases[..9] {
        assert_eq!(read(text), Ok(words.to_vec()), "{text}");
    }
    // Four names that look alike.
    let four = read(cases[9].0).unwrap();
    assert_eq!(four[..4], [1, 1, 1, 1]);
    assert_eq!(four[7..], cases[9].1[7..22]);
}

#[test]
fn what_stands_in_a_row_groups_to_the_right() {
    let expression = |text: &str| read(&format!("*p in {text}")).map(|words| words[10..].to_vec());
    let (a, b, c) = ([3000, 7000], [3001, 7000], [3002, 7000]);
    let right = |op: u16| Ok([&[op], &a[..], &[op], &b, &c].concat());
    let left = |op: u16| Ok([&[op, op], &a[..], &b, &c].concat());
    assert_eq!(expression("(a, b, c)"), right(7001));
    assert_eq!(expression("((a, b), c)"), left(7001));
    assert_eq!(expression("a + b + c"), right(7002));
    assert_eq!(expression("(a + b) + c"), left(7002));
    assert_eq!(expression("((a + b), ((c)))"), expression("(a + b, c)"));
    assert_eq!(expression("()"), Ok(vec![7000]));
    assert_eq!(expression("(a(), b*)*"), Ok(vec![7003, 7001, 3000, 7000, 7003, 3001, 7000]));
}

#[test]
fn texts_not_of_the_grammar() {
    let wrong = [
        "*p, *q = a, b",
        "= a",
        "a",
        "?x = a b",
        "? x = a",
        "?x in a*b",
        "?x in a+",
        "?x in %X",
        "f((a)) = b",
        "?x inn a",
        "a = b,",
        "a = b;",
        "a_1 = a",
        "() ()",
        "f(a = b",
        "?x in a, b +",
        "* p = a",
        "a = \u{e4}",
        "a =\nb",
        "?x in (a,)",
        "f(,) = a",
        ", a = b",
    ];
    for text in wrong {
        assert_eq!(read(text), Err(17), "{text}");
    }
}

#[test]
fn names_lines_and_rooms() {
    let names = |mark: &str, count: usize| {
        let list: Vec<String> = (0..count).map(|number| format!("{mark}n{number}")).collect();
        read(&format!("({}) = ()", list.join(","))).err()
    };
    for mark in ["", "?", "*", "%"] {
        assert_eq!((names(mark, 128), names(mark, 129)), (None, Some(18)), "{mark}");
    }
    assert_eq!((read(&"()\n".repeat(16)).err(), read(&"()\n".repeat(17)).err()), (None, Some(18)));
    // 17 before 18 before 19.
    assert_eq!(read(&format!("{}-", "()\n".repeat(17))), Err(17));
    let long = |count: usize| format!("({}) = ()", vec!["?x"; count].join(","));
    assert_eq!((read(&long(4086)).err(), read(&long(4087)).err()), (None, Some(19)));
    assert_eq!(read(&format!("{}\n{}", long(5000), "()\n".repeat(16))), Err(18));
    let room = |words: usize| desk().read_text(b"?x = a", words).err();
    assert_eq!((room(13), room(12)), (None, Some(Refusal::TextRoom)));
}

#[test]
fn the_writer() {
    let asked = [2, 0, 2, 0, 1, 7, 16, 5000, 2000, 2001, 0, 3000, 0, 3001, 0, 0];
    assert_eq!(written(&asked), Ok(String::from("(*p0, *p1) = (a0, a1)\n")));
    // Two symbols too many, other numbers, unordered symbols.
    let with = |at: usize, word: u16| {
        let mut other = asked;
        other[at] = word;
        written(&other)
    };
    assert_eq!([with(0, 4), with(8, 2001), with(0, 2 + 256)], [Err(20), Err(20), Err(20)]);
    assert_eq!(with(0, 2 + 256 * 3), Err(3));
    assert_eq!(with(6, 17), Err(4));
}

/// Writing and reading back gives the same words, and so does any other
/// spelling; what the reader gives, the writer takes.
#[test]
fn there_and_back() {
    deep(|| {
        let (desk, mut seen) = (desk(), [0; 3]);
        for index in 0..2_000 {
            let question = case(&desk, SEED, index).question;
            let Some(question) = in_order(&desk, &question) else { continue };
            let text = desk.write_text(&question, usize::MAX).expect("numbers in order");
            assert_eq!(desk.read_text(&text, 4096), Ok(question.clone()), "case {index}");
            let mut random = Random::of_case(2, index);
            let mut other = spelt(&mut random, &desk, &question);
            let shown = String::from_utf8_lossy(&other);
            assert_eq!(desk.read_text(&other, 4096), Ok(question), "case {index}: {shown}");
            seen[0] += 1;
            damage(&mut random, &mut other);
            match desk.read_text(&other, 4096) {
                Ok(words) => {
                    let text = desk.write_text(&words, usize::MAX).expect("what was read");
                    assert_eq!(desk.read_text(&text, 4096), Ok(words));
                    seen[1] += 1;
                }
                Err(_) => seen[2] += 1,
            }
        }
        assert!(seen.iter().all(|times| *times > 100), "{seen:?}");
    });
}

/// The reader walks by recursion; a deep stack carries a long text of brackets.
#[test]
fn many_brackets() {
    deep(|| {
        let text = format!("?x in {}a{}", "(".repeat(50_000), ")".repeat(50_000));
        assert_eq!(read(&text).map(|words| words.len()), Ok(12));
        assert_eq!(read(&text[..60_000]), Err(17));
    });
}
