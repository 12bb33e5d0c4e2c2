// `oracle lost`: the grain that the text as published loses, and what document 01 answers there.
use crate::domain::Watch;
use crate::known::grain;
use crate::model::state::Inputs;
use crate::rust::{AsPublished, Published};
use crate::text::Start;

/// Follows the lost grain through the text as published, and says what the model answers.
pub fn lost() -> bool {
    let inputs = [grain(3.5, 4.5, -1., 0.), grain(8.5, 4.5, 1., 0.), grain(4.5, 4.5, 1., 1.)];
    inputs.iter().all(|&g| follow(g))
}

fn follow(g: Inputs) -> bool {
    println!("9 by 9, periodic, rate 1, one grain at ({}, {}), velocity ({}, {})", g[0], g[1], g[2], g[3]);
    let start = Start::small([true, true], 64, &[g]);
    let mut watch = Watch::of(&start);
    let mut rust = AsPublished::start(&start);
    let mut lost = 0;
    for event in 0..=20 {
        let s = rust.picture();
        let listing: Vec<usize> = (0..9).filter(|&c| s.members[c].live().contains(&0)).collect();
        let named = s.queues.iter().flat_map(|r| r.live()).filter(|e| e.names(0)).count();
        let [x, y] = s.grains[0].pos;
        let home = s.homes[0].live();
        println!("  event {event:2}, clock {:5}: listed by {listing:?}, lists {home:?}, {named} events name it, at ({x}, {y})", s.clock);
        lost += u64::from(listing.is_empty() && home.is_empty() && named == 0);
        if lost == 4 {
            break;
        }
        rust.step(1.);
        watch.step(1.);
    }
    println!("  the model: mark {} at event {}", watch.state.mark, watch.events);
    lost == 4 && watch.state.mark == 9
}
