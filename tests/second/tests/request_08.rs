//! Request 8: a placeholder instead of the first name.

use second::gen::{case, SEED};
use second::stack::deep;
use second::{Ask, Desk, Refused};

fn ask(line: usize, old_sheets: bool) -> Ask {
    Ask { line, room: 4096, old_sheets }
}

/// x, p and X are free, y is in b(eps): only the free ones take the default.
#[test]
fn free_blanks_take_the_last_symbol() {
    let asked = [3, 2, 1, 1, 1, 7, 12, 6000, 1001, 0, 3001, 7000];
    let filling = |free: u16| vec![4, 6, 9, 12, 13, 16, free, 0, 0, 3001, 0, 0, 0, free, 0, 0];
    assert_eq!(Desk::up_to(8).example(&asked, ask(0, false)), Ok(filling(3002)));
    assert_eq!(Desk::up_to(8).example(&asked, ask(0, true)), Ok(filling(3000)));
    assert_eq!(Desk::up_to(5).example(&asked, ask(0, false)), Ok(filling(3000)));
}

/// The example meets the question under either setting, and the flag changes
/// nothing else: the same numbers come back.
#[test]
fn it_meets_its_line_under_either_setting() {
    deep(|| {
        let desk = Desk::up_to(8);
        let (mut met, mut different) = (0, 0);
        for index in 0..800 {
            let question = case(&desk, SEED, index).question;
            for line in 0..2 {
                let (new, old) = (
                    desk.example(&question, ask(line, false)),
                    desk.example(&question, ask(line, true)),
                );
                assert_eq!(Desk::up_to(5).example(&question, ask(line, false)), old);
                assert_eq!(new.as_ref().err(), old.as_ref().err());
                different += (new != old) as u32;
                for filling in [new, old].into_iter().flatten() {
                    let tried = desk.try_filling(&question, &filling).map_err(Refused::number);
                    assert!(matches!(tried, Ok(true) | Err(13)), "case {index}");
                    met += 1;
                }
            }
        }
        assert!(met > 500 && different > 100, "{met} {different}");
    });
}
