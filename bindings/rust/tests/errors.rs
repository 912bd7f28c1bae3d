//! The texts of the refusals and of the rules are those of the tables in docs/ERRORS.md, row by row.

use logbuffer::{Error, Rule};

const PAGE: &str = include_str!("../../../docs/ERRORS.md");

/// The rows of the table of refusals, or of the one of rules, which stands under a heading of its own.
fn rows(of_rules: bool) -> Vec<&'static str> {
    let (refusals, rules) = PAGE.split_once("\n## The rules\n").unwrap();
    let part = if of_rules { rules } else { refusals };
    part.lines().filter(|line| line.starts_with("| ") && line.as_bytes()[2].is_ascii_digit()).collect()
}

#[test]
fn every_refusal_is_a_row_of_the_table() {
    for error in Error::ALL {
        let told = format!("{error:?}");
        let name = told.split('(').next().unwrap();
        let row = format!("| {} | {name} | {} | {} |", error.number(), error.cause(), error.remedy());
        assert!(rows(false).contains(&row.as_str()), "not in the table: {row}");
        let place = match error {
            Error::NoCard(end) => format!(", which ends at {end}"),
            _ => error.place().map_or(String::new(), |place| format!(", at {place}")),
        };
        assert_eq!(error.to_string(), format!("{}{place}: {}", error.cause(), error.remedy()));
        assert!(!error.to_string().contains('\n'));
    }
    // 17 keeps its row, and is no refusal any more.
    assert_eq!(rows(false).len(), Error::ALL.len() + 1);
}

#[test]
fn every_rule_is_a_row_of_its_table() {
    for (rule, row) in Rule::ALL.into_iter().zip(rows(true)) {
        assert_eq!(row, format!("| {} | {rule:?} | {} | {} |", rule.place(), rule.number(), rule.advice()));
        assert_eq!(rule.error().map_or(0, Error::number), rule.number());
        assert_eq!(Rule::from_place(rule.place()), Some(rule));
    }
    assert_eq!((rows(true).len(), Rule::from_place(18)), (Rule::ALL.len(), None));
}

#[test]
fn numbers_go_there_and_back() {
    for number in -3..30 {
        let error = Error::from_number(number);
        assert_eq!(error.is_some(), (1..=26).contains(&number) && number != 17);
        assert_eq!(error.map(Error::number), error.map(|_| number));
        assert_eq!(Error::try_from(number), error.ok_or(number));
    }
}

#[test]
fn it_is_an_error_of_the_standard_library() {
    let error: Box<dyn std::error::Error + Send + Sync> = Error::BackPressured.into();
    assert!(error.to_string().starts_with("the publication limit is reached: "));
}
