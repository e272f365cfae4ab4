//! The comparison finds every flawed core out, and finds nothing where the cores are the same.

use cores::flawed::{Flawed, FLAWS};
use cores::Ordinary;
use differ::campaign::Campaign;

#[test]
fn flawed_cores_are_found_out() {
    for flaw in FLAWS {
        let mut core = Flawed::new(flaw);
        let mut campaign = Campaign::new(7, Some(&mut core));
        campaign.run(20_000);
        assert!(!campaign.failures.is_empty(), "{flaw:?} was not found out");
    }
}

#[test]
fn a_right_core_passes() {
    let mut core = Ordinary::new();
    let mut campaign = Campaign::new(7, Some(&mut core));
    campaign.run(5_000);
    assert_eq!(campaign.failures, Vec::<String>::new());
}

#[test]
fn equal_seeds_give_equal_campaigns() {
    let table = |seed| {
        let mut campaign = Campaign::new(seed, None);
        campaign.run(2_000);
        campaign.histogram.to_string()
    };
    assert_eq!(table(3), table(3));
    assert_ne!(table(3), table(4));
}
