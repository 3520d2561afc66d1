//! Days as dates.

use yestrwyn_types::date;

#[test]
fn dates() {
    for (day, right) in [
        (0, "1970-01-01"),
        (58, "1970-02-28"),
        (59, "1970-03-01"),
        (789, "1972-02-29"),
        (11_016, "2000-02-29"),
        (21_000, "2027-07-01"),
        (47_540, "2100-02-28"),
        (47_541, "2100-03-01"),
        (65_535, "2149-06-06"),
    ] {
        assert_eq!(date(day), right);
    }
}

#[test]
fn dates_are_in_the_order_of_their_days() {
    assert!((1..=u16::MAX).all(|day| date(day - 1) < date(day)));
}
