//! Numbers and refusals are one to one.

use honigzange::Refusal;

#[test]
fn each_number_is_one_refusal() {
    for number in 0..=u8::MAX {
        let refusal = Refusal::from_number(number);
        let last = Refusal::OffGrid.number();
        assert_eq!(refusal.is_some(), (1..=last).contains(&number));
        assert!(refusal.map_or(true, |refusal| refusal.number() == number));
    }
}

#[test]
fn a_refusal_is_shown_with_its_number() {
    let error: &dyn std::error::Error = &Refusal::NoSuchSecond;
    assert_eq!(error.to_string(), "refused 6: no leap second on this day");
}
