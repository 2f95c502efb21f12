//! Request 4: less copying in the linear form. Nothing that a caller can read
//! may differ, so the form is held to its equations, read word for word and
//! copying at every turn.

use second::expression::Expression;
use second::gen::pieces::{declared, Pieces};
use second::gen::random::Random;
use second::gen::{case, SEED};
use second::stack::deep;
use second::Desk;

/// A monomial in words: the head's, and the rest's.
type InWords = (Vec<u16>, Vec<u16>);

fn words(expression: &Expression) -> Vec<u16> {
    let mut words = Vec::new();
    expression.write(&mut words);
    words
}

/// l ⊙ R: l if R is eps; else a rest that is eps becomes R, another is
/// followed by R.
fn followed(form: Vec<InWords>, by: &Expression) -> Vec<InWords> {
    if *by == Expression::Eps {
        return form;
    }
    let follow = |(head, rest): InWords| match rest[..] {
        [7000] => (head, words(by)),
        _ => (head, [&[7001], &rest[..], &words(by)].concat()),
    };
    form.into_iter().map(follow).collect()
}

/// The equations of the paper, left before right, equal monomials kept.
fn by_equations(expression: &Expression) -> Vec<InWords> {
    match expression {
        Expression::Eps => Vec::new(),
        Expression::Over(..) => vec![(words(expression), vec![7000])],
        Expression::Choice(two) => [by_equations(&two.left), by_equations(&two.right)].concat(),
        Expression::Star(one) => followed(by_equations(&one.inner), expression),
        Expression::Concatenation(two) => {
            let mut form = followed(by_equations(&two.left), &two.right);
            if two.left.has_empty() {
                form.extend(by_equations(&two.right));
            }
            form
        }
    }
}

#[test]
fn the_form_is_that_of_the_equations() {
    let mut monomials = 0;
    for index in 0..20_000 {
        let mut random = Random::of_case(4, index);
        let pieces = Pieces { declared: declared(&mut random, &Desk::BASE) };
        let size = random.below(14);
        let expression = pieces.expression(&mut random, size);
        let form: Vec<InWords> = expression
            .linear_form()
            .iter()
            .map(|monomial| (words(&monomial.head), words(&monomial.rest)))
            .collect();
        assert_eq!(form, by_equations(&expression));
        monomials += form.len();
    }
    assert!(monomials > 20_000, "{monomials}");
}

#[test]
fn nothing_differs() {
    deep(|| {
        for index in 0..500 {
            let question = case(&Desk::up_to(4), SEED, index).question;
            let (before, after) =
                (Desk::up_to(1).solve(&question), Desk::up_to(4).solve(&question));
            assert_eq!((before.refusal, before.steps), (after.refusal, after.steps));
            assert_eq!(before.answer, after.answer);
        }
    });
}
