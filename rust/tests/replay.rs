//! The replay of `ask`, asked of this library: every line of each kind that it can answer.
mod ask;

use std::collections::BTreeMap;
use std::fs;
use std::panic;
use std::path::Path;

fn lines(name: &str) -> Vec<String> {
    let file = Path::new(env!("CARGO_MANIFEST_DIR")).join("../crates/ask").join(name);
    let text = fs::read_to_string(&file).unwrap_or_else(|why| panic!("{}: {why}", file.display()));
    text.lines().map(String::from).collect()
}

#[test]
fn answers_are_those_of_the_replay() {
    let (questions, answers) = (lines("stdin"), lines("stdout"));
    assert_eq!(questions.len(), answers.len());
    // of each kind, how many answers were compared; those that are `?` ask nothing of the library and do not count
    let mut compared: BTreeMap<&str, usize> = ask::KINDS.iter().map(|&kind| (kind, 0)).collect();
    let mut different = 0;
    for (question, expected) in questions.iter().zip(&answers) {
        let mut words = question.split(' ');
        let kind = words.next().unwrap_or("");
        let count = match compared.get_mut(kind) {
            Some(count) => count,
            None => continue,
        };
        let words: Vec<&str> = words.collect();
        let answer = panic::catch_unwind(|| ask::answer(kind, &words)).unwrap_or(Some("a panic, which is told above".into()));
        *count += usize::from(answer.is_some());
        let answer = answer.unwrap_or("?".into());
        if answer != *expected {
            different += 1;
            println!("question: {question}\nexpected: {expected}\nanswer:   {answer}\n");
        }
    }
    println!("compared: {compared:?}");
    assert_eq!(different, 0, "answers that differ");
    let missed: Vec<_> = compared.iter().filter(|(_, &count)| count == 0).collect();
    assert!(missed.is_empty(), "kinds of which nothing was compared: {missed:?}");
}
