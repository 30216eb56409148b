//! 27 left out, chosen at start-up; alone in its process.

use oracle::answer::{answer_line, pass_hairlines, Answer};
use oracle::generate;
use oracle::job::Job;
use oracle::outlines::Question;
use oracle::{stored, wrong};

fn refused_with_27(answer: &Answer) -> bool {
    matches!(&answer.result, Err(refusal) if refusal.number == 27)
}

#[test]
fn the_choice() {
    let lines: Vec<Vec<u8>> = (0..4_000)
        .map(|index| generate::line(5, index, false, None).expect("a line"))
        .collect();
    let given: Vec<&[u8]> = stored::chosen_given().collect();
    let cut = Question::Outline(wrong::left_of_cut().numbers);
    // 27 where nothing was said.
    let asked: Vec<Answer> = lines.iter().map(|line| answer_line(line)).collect();
    let refused = asked
        .iter()
        .filter(|answer| refused_with_27(answer))
        .count();
    assert!(refused > 100, "{refused}");
    assert!(given.iter().all(|line| refused_with_27(&answer_line(line))));
    assert_eq!(cut.answer()[0], 27);
    pass_hairlines(true);
    let mut moved = 0;
    for (line, asked) in lines.iter().zip(&asked) {
        let passed = answer_line(line);
        assert!(!refused_with_27(&passed));
        // Nothing else moves.
        let same = passed.full_line() == asked.full_line();
        assert_eq!(same, !refused_with_27(asked));
        moved += usize::from(!same);
    }
    assert_eq!(moved, refused);
    assert_eq!(cut.answer()[0], 0);
    // As a job, then, each is answered as its shape is that is handed in.
    for line in &given {
        let job = Job::read(line).expect("a job");
        let told = Question::of_given(&job).expect("a shape").answer();
        let number = answer_line(line).result.map_or_else(|no| no.number, |_| 0);
        assert_eq!(told[0], u64::from(number));
    }
    pass_hairlines(false);
    assert!(given.iter().all(|line| refused_with_27(&answer_line(line))));
}
