//! The library's `hypot`, chosen at start-up; alone in its process.

use oracle::answer::answer_line;
use oracle::draw::Draw;
use oracle::hypot;

#[test]
fn the_choice() {
    // Two sides whose root the library may round otherwise.
    let mut draw = Draw::new(3);
    let mut sides = (3.0, 4.0);
    for _ in 0..100_000 {
        let (x, y) = (draw.real(0.0, 9.0), draw.real(0.0, 9.0));
        if x.hypot(y) != hypot::exact(x, y) {
            sides = (x, y);
            break;
        }
    }
    let (x, y) = sides;
    // The nearest one where nothing was said.
    assert_eq!(hypot::chosen(x, y), hypot::exact(x, y));
    // The answer to this line may depend on the choice.
    let line = b"outset,4000000000000000,1,3,0000000000000000,0000000000000000,0000000000000000,c018000000000000,4010cccccccccccd,c010cccccccccccd";
    let exact = answer_line(line).line();
    assert_eq!(exact, "ok,1,3,401ecfed48ff4905,c0137f9e15bfab1f,c000000000000000,4013504f333f9de8,c000000000000000,c02210ef9a8440a2");
    hypot::use_library(true);
    assert_eq!(hypot::chosen(x, y), x.hypot(y));
    assert!(answer_line(line).line().starts_with("ok,1,3,"));
    hypot::use_library(false);
    assert_eq!(hypot::chosen(x, y), hypot::exact(x, y));
    assert_eq!(answer_line(line).line(), exact);
}
