//! Which of two agents that were promoted goes on.
use rignolda_machine::settings::is_newer;
use rignolda_machine::standby::rank;

const SECOND: u64 = 1_000_000;
const NOW: u64 = 1_796_000_000 * SECOND;

/// Drawn numbers, the same at each run.
fn draws(seed: u64) -> impl FnMut(u64) -> u64 {
    let mut state = seed;
    move |below| {
        state = state.wrapping_mul(6_364_136_223_846_793_005).wrapping_add(1);
        (state >> 33) % below
    }
}

/// Each has heard of one of those before it, of its first numbers or of its last one, or of
/// nobody; and each publishes until there is no other one.
#[test]
fn who_is_promoted_later_goes_on_whomever_it_has_heard_of() {
    for seed in 0..200 {
        let (mut draw, mut clock) = (draws(seed), NOW);
        let mut roots: Vec<(u64, u64)> = Vec::new();
        for _ in 0..50 {
            // (one of two runs is as quick as promotions may be)
            let after = SECOND + draw([SECOND / 10, 9 * SECOND][seed as usize % 2]);
            clock += after;
            let rate = draw(2_000);
            roots.iter_mut().for_each(|(_, last)| *last += rate * after / SECOND);
            let seen = match (draw(3), roots.len() as u64) {
                (0, _) | (_, 0) => 0,
                (1, some) => roots[draw(some) as usize].0,
                (_, some) => roots[draw(some) as usize].1,
            };
            let new = rank(seen, clock);
            assert!(roots.iter().all(|(_, last)| is_newer(new, *last)), "seed {seed}");
            roots.push((new, new));
        }
    }
}

/// If it heard of the other one the clock may say anything.
#[test]
fn who_has_heard_of_another_one_is_above_it_whatever_the_clock_says() {
    for clock in [0, NOW - 3_600 * SECOND, NOW, NOW + 86_400 * SECOND] {
        assert!(is_newer(rank(NOW, clock), NOW), "{clock}");
        assert!(is_newer(rank(NOW, clock), clock), "{clock}");
    }
    // (one that is cut off has published a thousand bodies a second for 20 days)
    let far = NOW + (1 << 60);
    assert!(is_newer(rank(far, NOW), far + 20 * 86_400 * 1_000));
    // (numbers go round)
    assert!(is_newer(rank(u64::MAX, 5), 5));
    assert!(is_newer(rank(1 << 63, NOW), 1 << 63));
}
