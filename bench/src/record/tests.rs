use super::*;

const LIST: &str = "crates/replay/stdin";

/// The number of lines that hold a case, and where `what` holds.
fn count(list: &str, what: impl Fn(&str) -> bool) -> usize {
    let cases = list.lines().filter(|line| !line.is_empty());
    cases
        .filter(|line| !line.starts_with('#') && what(line))
        .count()
}

#[test]
fn a_seed_repeats_its_list() {
    assert_eq!(recorded(1), recorded(1));
    assert_ne!(recorded(1), recorded(2));
}

#[test]
fn every_family_departure_and_answer_is_there() {
    let list = recorded(3);
    let sections: Vec<&str> = list.split("\n# ").skip(1).collect();
    assert_eq!(sections.len(), 1 + NAMES.len() + departures::COUNT + 4);
    assert!(sections
        .iter()
        .all(|section| count(section, |line| line.contains('>')) >= 20));
    for departure in 1..=departures::COUNT {
        let mark = format!(" D{departure}");
        assert!(count(&list, |line| line.contains(&mark)) >= 20);
    }
    for answer in [0, 1, 2, 3, 4, 5, 6, 7, 8] {
        let mark = format!(" > {answer} ");
        assert!(count(&list, |line| line.contains(&mark)) >= 20);
    }
}

#[test]
fn what_the_rust_does_not_have_is_marked() {
    let list = recorded(4);
    let by_rule = |line: &str| [5, 6, 8].iter().any(|n| line.contains(&format!(" > {n} ")));
    let marked = |line: &str| line.split(' ').next().unwrap().ends_with("-rule");
    assert_eq!(count(&list, |line| by_rule(line) != marked(line)), 0);
    assert_eq!(count(&list, marked), 3 * PER_RULE);
}

/// What stands in the repository is what its own second line makes.
#[test]
fn the_list_is_what_the_rust_answers() {
    let list = fs::read_to_string(LIST).unwrap();
    let made_by = list.lines().nth(1).unwrap();
    let words: Vec<&str> = made_by.split(' ').collect();
    let [.., "--seed", seed, "--date", date] = words[..] else {
        panic!("{made_by}");
    };
    let options = Options {
        seed: u64::from_str_radix(&seed[2..], 16).unwrap(),
        date: date.to_string(),
    };
    assert!(super::list(&options).unwrap() == list);
}
