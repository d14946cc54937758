//! Every test that is listed is there, and none that is not; the check finds it where one is gone.

use audit::counts::{counted, differences, examples, listed, tests, Count};
use audit::repository;

#[test]
fn the_tests_are_those_listed() {
    let repository = repository();
    let (listed, counted) = (listed(&repository).expect("the list"), counted(&repository).expect("the sources"));
    assert_eq!(
        differences(&listed, &counted),
        Vec::<String>::new(),
        "tests/COUNTS.txt is to be changed with the tests"
    );
}

#[test]
fn fewer_and_more_are_found() {
    let count = |tests, examples| [Count { name: "story".into(), tests, examples }];
    assert!(differences(&count(3, 1), &count(3, 1)).is_empty());
    for other in [count(2, 1), count(4, 1), count(3, 0), count(3, 2)] {
        assert_eq!(differences(&count(3, 1), &other).len(), 1);
    }
    assert_eq!(differences(&count(3, 1), &[]), ["story is in tests/COUNTS.txt and no crate of the workspace"]);
    assert_eq!(differences(&[], &count(3, 1)), ["story is not in tests/COUNTS.txt"]);
}

#[test]
fn tests_and_examples_are_counted() {
    let source = "/// ```\n/// f();\n/// ```\n#[test]\nfn f() {}\n\n    #[test]\n    fn g() {}\n// #[test]\n";
    assert_eq!((tests(source), examples(source)), (2, 1));
}
