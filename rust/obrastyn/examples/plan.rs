//! Plans the jumper J of document 01 and prints its route, and that of J with two pads bare.
//! `cargo run --release --offline --example plan`, after `tools/build`.
fn main() {
    let (below, above) = ([0, 1, 4, 5], [1, 2, 3, 4]);
    let mut ladder = [0usize; 24];
    let best = obrastyn::best(&below, &above, &mut ladder);
    println!("rows {below:?} and {above:?}");
    println!("best separation {}, offsets {} to {}, {} differences read", best.separation, best.lowest, best.highest, best.count);
    let s = best.separation;
    let mut route = vec![0; below.len() * (s + 1)];
    obrastyn::draw_all(&below, &above, s, 0, &mut route);
    for (wire, columns) in route.chunks(s + 1).enumerate() {
        println!("wire {wire} enters tracks 0 to {s} on columns {columns:?}");
    }
    let told = obrastyn::fit(&below, &above, s - 1, 0);
    println!("at separation {}, offset 0: refusal {} (NOFIT), pair {}, side {}", s - 1, told.refusal, told.pair, told.side);
    println!("the checker says of the route: refusal {}", obrastyn::check(&below, &above, s, 0, &route).refusal);
    // ordered again with the pads of pair 1 bare: served from what was planned
    let stays = [1, 0, 1, 1];
    let mut part = vec![0; 3 * (s + 1)];
    println!("with pair 1 bare, at separation {s}: refusal {}", obrastyn::still_fits(&below, &above, &stays, s, 0).refusal);
    obrastyn::part_route(&below, &above, &stays, s, 0, &route, &mut part);
    println!("and its route: {:?}", part.chunks(s + 1).collect::<Vec<_>>());
}
