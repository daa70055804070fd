//! Every figure of the measures, ours and the Rust's in one run: kind 4, d 15, rounds 16 (4,080 vertices, 19,685 edges).
//! Each figure is the least time of many repeats; the repeats of the things compared take turns.
#[allow(dead_code)]
mod common;
mod plain;
/// the exported functions of the proved library; oracle/bindings writes this file
#[allow(dead_code)]
mod ours {
    include!(env!("ORACLE_OURS"));
}

use common::*;
use fusion::example_codes::*;
use fusion::util::*;
use std::hint::black_box;
use std::time::Instant;

/// the least time in seconds of each of the closures, which take turns for `rounds` rounds
fn best(rounds: usize, turns: &mut [(&mut dyn FnMut(), f64)]) {
    for _ in 0..rounds {
        for (f, least) in turns.iter_mut() {
            let started = Instant::now();
            f();
            *least = least.min(started.elapsed().as_secs_f64());
        }
    }
}

fn two(rounds: usize, mut ours: impl FnMut(), mut other: impl FnMut()) -> (f64, f64) {
    let mut turns: [(&mut dyn FnMut(), f64); 2] = [(&mut ours, f64::MAX), (&mut other, f64::MAX)];
    best(rounds, &mut turns);
    (turns[0].1, turns[1].1)
}

/// microseconds; small ones with more digits
fn us(seconds: f64) -> String {
    let us = seconds * 1e6;
    if us < 20. {
        format!("{us:.3}")
    } else {
        format!("{us:.1}")
    }
}

fn row(what: &str, ours: f64, other: f64, asked: &str, met: bool) {
    println!(
        "| {what} | {} | {} | {:.3} | {:.1} | {asked} | {} |",
        us(ours),
        us(other),
        ours / other,
        other / ours,
        if asked.is_empty() {
            ""
        } else if met {
            "yes"
        } else {
            "NO"
        }
    );
}

/// p in 1e-4 to 0.4, as its number of different values and their order say
fn repeated_probabilities(inputs: &mut Inputs, e: usize) -> Vec<(&'static str, Vec<f64>)> {
    let some: Vec<f64> = (0..8).map(|k| 0.001 * (k + 1) as f64).collect();
    vec![
        ("one p", vec![some[0]; e]),
        ("two p in turn", (0..e).map(|k| some[k % 2]).collect()),
        ("two p at random", (0..e).map(|_| some[inputs.below(2)]).collect()),
        ("eight p in turn", (0..e).map(|k| some[k % 8]).collect()),
        ("every p different", (0..e).map(|_| 1e-4 + 0.3999 * inputs.unit()).collect()),
    ]
}

/// a graph's columns, its neighbour lists filled
fn shape(v: u32, pairs: &[(u32, u32)]) -> Columns {
    let mut columns = Columns::with_room(v as usize, pairs.len());
    (columns.v, columns.e) = (v, pairs.len() as u32);
    for (k, &(a, b)) in pairs.iter().enumerate() {
        (columns.a[k], columns.b[k]) = (a, b);
    }
    let number = ours::fill_vertices(
        columns.v,
        columns.e,
        &columns.a,
        &columns.b,
        &mut columns.i,
        &mut columns.j,
        &mut columns.t,
        &mut columns.boundary,
        &mut columns.defect,
        &mut columns.lengths,
        &mut columns.numbers,
    );
    assert!(number == 0);
    columns
}

/// the built code first, then graphs that no builder makes
fn shapes(code: &Columns, inputs: &mut Inputs) -> Vec<(&'static str, Columns)> {
    let e = code.e as usize;
    let pairs: Vec<(u32, u32)> = (0..e).map(|k| (code.a[k], code.b[k])).collect();
    let order = inputs.order(e);
    let shuffled: Vec<_> = order.iter().map(|&k| pairs[k as usize]).collect();
    let turned: Vec<_> = pairs.iter().map(|&(a, b)| (b, a)).collect();
    let star: Vec<_> = (1..4096).map(|k| (0, k)).collect();
    // larger ends 16, 32, .., each with the smaller ends before it, in any order
    let mut even: Vec<(u32, u32)> = (1..256).rev().flat_map(|k| (0..16 * k).map(move |a| (a, 16 * k))).take(32768).collect();
    let order = inputs.order(even.len());
    even = order.iter().map(|&k| even[k as usize]).collect();
    let mut repeated = shape(code.v, &shuffled);
    (repeated.a[e - 1], repeated.b[e - 1]) = (repeated.b[0], repeated.a[0]);
    let mut damaged = shape(code.v, &pairs);
    damaged.a[e / 2] = code.v + 70_000;
    let mut one_number = shape(code.v, &pairs);
    one_number.numbers[e] = 70_000;
    let mut past = shape(code.v, &pairs);
    for number in past.numbers.iter_mut() {
        *number = *number * 65_537 + 2_147_483_648;
    }
    // no two ends and no two numbers become one: the factors are odd
    let mut random_ends = shape(code.v, &pairs);
    for end in random_ends.a[..e].iter_mut().chain(random_ends.b[..e].iter_mut()) {
        *end = (*end + 1).wrapping_mul(1_000_003);
    }
    let mut random_numbers = shape(code.v, &pairs);
    for number in random_numbers.numbers.iter_mut() {
        *number = (*number + 1).wrapping_mul(2_654_435_761);
    }
    // the same number of numbers in each list, and so fewer vertices
    let long_lists = |numbers: u32| {
        let mut columns = shape(code.v, &pairs);
        columns.a.copy_from_slice(&random_ends.a);
        columns.b.copy_from_slice(&random_ends.b);
        columns.v = 2 * code.e / numbers;
        columns.lengths.fill(numbers);
        for (k, number) in columns.numbers.iter_mut().enumerate() {
            *number = (k as u32 + 1).wrapping_mul(2_654_435_761);
        }
        columns
    };
    let (lists_of_33, lists_of_96, lists_of_97) = (long_lists(33), long_lists(96), long_lists(97));
    // pairs that differ in the upper 8 bits of their ends alone, in any order
    let mut upper = shape(code.v, &pairs);
    let both: Vec<(u32, u32)> = (0..256).flat_map(|a| (0..=a).map(move |b| (a << 24 | 5, b << 24 | 5))).collect();
    let order = inputs.order(both.len());
    for k in 0..e {
        (upper.a[k], upper.b[k]) = both[order[k] as usize];
    }
    let mut random = shape(code.v, &pairs);
    random.a.copy_from_slice(&random_ends.a);
    random.b.copy_from_slice(&random_ends.b);
    random.numbers.copy_from_slice(&random_numbers.numbers);
    // the first vertex has a list of nearly all numbers, equal mod 4,096
    let mut one_list = shape(code.v, &pairs);
    for (k, number) in one_list.numbers.iter_mut().enumerate() {
        *number = u32::MAX - 4_096 * k as u32;
    }
    one_list.lengths[..code.v as usize].fill(1);
    one_list.lengths[0] = 2 * code.e - (code.v - 1);
    let mut one_random_list = shape(code.v, &pairs);
    one_random_list.a.copy_from_slice(&random_ends.a);
    one_random_list.b.copy_from_slice(&random_ends.b);
    one_random_list.lengths.copy_from_slice(&one_list.lengths);
    for (k, number) in one_random_list.numbers.iter_mut().enumerate() {
        *number = (k as u32 + 1).wrapping_mul(2_654_435_761);
    }
    vec![
        ("built code", shape(code.v, &pairs)),
        ("edges shuffled", shape(code.v, &shuffled)),
        ("ends turned round", shape(code.v, &turned)),
        ("star of 4,095 edges", shape(4096, &star)),
        ("32,768 edges shuffled, larger ends equal mod 16", shape(4096, &even)),
        ("edges shuffled, the last repeats the first", repeated),
        ("one end past the vertices", damaged),
        ("one neighbour number past the edges", one_number),
        ("every end at random up to 2³²", random_ends),
        ("ends that differ in their upper 8 bits alone", upper),
        ("every neighbour number past the edges", past),
        ("every neighbour number past the edges, one list of nearly all", one_list),
        ("every neighbour number at random up to 2³²", random_numbers),
        ("every end and every neighbour number at random up to 2³²", random),
        ("every end and every neighbour number at random up to 2³², 33 in each list", lists_of_33),
        ("every end and every neighbour number at random up to 2³², 96 in each list", lists_of_96),
        ("every end and every neighbour number at random up to 2³², 97 in each list", lists_of_97),
        ("every end and every neighbour number at random up to 2³², one list of nearly all", one_random_list),
    ]
}

fn main() {
    const D: u32 = 15;
    const ROUNDS: u32 = 16;
    const P: f64 = 0.005;
    const M: u32 = 500;
    let quick = std::env::args().any(|x| x == "quick");
    let times = |n: usize| if quick { (n / 10).max(3) } else { n };
    let mut inputs = Inputs(1);

    println!("| what | ours, µs | other, µs | ours/other | other/ours | asked | met |");
    println!("|---|---|---|---|---|---|---|");

    // ---- building
    let mut columns = Columns::blank();
    let (ours, rust) = two(
        times(400),
        || {
            black_box(columns.create(4, D, ROUNDS));
        },
        || {
            black_box(CircuitLevelPlanarCode::create_code(D as VertexNum, ROUNDS as VertexNum));
        },
    );
    row("`create_code`, Rust", ours, rust, "", true);
    let (v, e) = (columns.v as usize, columns.e as usize);
    let build = |columns: &mut Columns| {
        columns.create(4, D, ROUNDS);
        ours::set_probability(columns.e, P, &mut columns.p);
        ours::compute_weights(columns.e, &columns.p, &mut columns.half_weight, M)
    };
    #[cfg(feature = "new")]
    {
        let (ours, rust) = two(
            times(200),
            || {
                black_box(columns.new_code(4, D, ROUNDS, P, M));
            },
            || {
                black_box(CircuitLevelPlanarCode::new(D as VertexNum, ROUNDS as VertexNum, P, M as Weight));
            },
        );
        row("`new`, Rust", ours, rust, "faster", ours < rust);
    }
    {
        let (ours, rust) = two(
            times(200),
            || {
                black_box(build(&mut columns));
            },
            || {
                black_box(CircuitLevelPlanarCode::new_diagonal(D as VertexNum, ROUNDS as VertexNum, P, M as Weight, None));
            },
        );
        row("`create_code`, `set_probability`, `compute_weights`, Rust's `new_diagonal` with None", ours, rust, "", true);
    }
    let mut code = CircuitLevelPlanarCode::new(D as VertexNum, ROUNDS as VertexNum, P, M as Weight);
    columns.p[..e].copy_from_slice(&code.edges.iter().map(|x| x.p).collect::<Vec<_>>());
    let recipe = fusion_recipe::example_codes::CircuitLevelPlanarCode::new(
        D as fusion_recipe::util::VertexNum,
        ROUNDS as fusion_recipe::util::VertexNum,
        P,
        M as fusion_recipe::util::Weight,
    );
    let mut recipe_code = recipe.clone();

    // ---- weights
    let columns_p = columns.p[..e].to_vec();
    for m in [M, 250_000] {
        let (ours, rust) = two(
            times(200),
            || {
                black_box(ours::compute_weights(columns.e, &columns.p, &mut columns.half_weight, m));
            },
            || code.compute_weights(m as Weight),
        );
        row(&format!("`compute_weights`, M {m}, Rust with `ln`"), ours, rust, "", true);
        let (ours, rust) = two(
            times(200),
            || {
                black_box(ours::compute_weights(columns.e, &columns.p, &mut columns.half_weight, m));
            },
            || {
                use fusion_recipe::example_codes::ExampleCode;
                recipe_code.compute_weights(m as fusion_recipe::util::Weight)
            },
        );
        row(&format!("`compute_weights`, M {m}, Rust with the recipe"), ours, rust, "", true);
    }
    {
        let mut plain_half = vec![0u32; e];
        let (ours, other) = two(
            times(200),
            || {
                black_box(ours::compute_weights(columns.e, &columns.p, &mut columns.half_weight, 250_000));
            },
            || {
                plain::half_weights(&columns_p, 250_000, &mut plain_half);
                black_box(&plain_half);
            },
        );
        assert!((0..e).all(|k| columns.half_weight[k] == plain_half[k]));
        row("`compute_weights`, M 250000, the recipe with interval halving in unchecked Rust", ours, other, "at most 1.2", ours <= 1.2 * other);
    }
    for (what, p) in repeated_probabilities(&mut inputs, e) {
        columns.p[..e].copy_from_slice(&p);
        for (edge, &p) in code.edges.iter_mut().zip(&p) {
            edge.p = p;
        }
        let (ours, rust) = two(
            times(200),
            || {
                black_box(ours::compute_weights(columns.e, &columns.p, &mut columns.half_weight, M));
            },
            || code.compute_weights(M as Weight),
        );
        let all_differ = what == "every p different";
        row(&format!("`compute_weights`, M {M}, {what}, Rust with `ln`"), ours, rust, if all_differ { "" } else { "at most 0.5" }, ours <= 0.5 * rust);
        if all_differ {
            let mut plain_half = vec![0u32; e];
            let (ours, other) = two(
                times(200),
                || {
                    black_box(ours::compute_weights(columns.e, &columns.p, &mut columns.half_weight, M));
                },
                || {
                    plain::half_weights(&p, M, &mut plain_half);
                    black_box(&plain_half);
                },
            );
            assert!((0..e).all(|k| columns.half_weight[k] == plain_half[k]));
            row(&format!("`compute_weights`, M {M}, {what}, the recipe with interval halving in unchecked Rust"), ours, other, "", true);
        }
    }
    columns.p[..e].copy_from_slice(&columns_p);
    for (edge, &p) in code.edges.iter_mut().zip(&columns_p) {
        edge.p = p;
    }
    code.compute_weights(M as Weight);
    ours::compute_weights(columns.e, &columns.p, &mut columns.half_weight, M);
    assert!((0..e).all(|k| columns.half_weight[k] as i64 == recipe.edges[k].half_weight as i64));

    // ---- sanity_check
    let (ours, rust) = two(
        times(400),
        || {
            black_box(ours::sanity_check(columns.v, columns.e, &columns.a, &columns.b, &columns.lengths, &columns.numbers));
        },
        || {
            black_box(code.sanity_check().is_ok());
        },
    );
    row("`sanity_check`, Rust", ours, rust, "faster", ours < rust);

    // ---- sanity_check and question 7 on other graphs than a built code's
    let mut built = None;
    for (what, shape) in shapes(&columns, &mut inputs) {
        let rust_shape = shape.code();
        let (ours, rust) = two(
            times(200),
            || {
                black_box(ours::sanity_check(shape.v, shape.e, &shape.a, &shape.b, &shape.lengths, &shape.numbers));
            },
            || {
                black_box(rust_shape.sanity_check().is_ok());
            },
        );
        let mut weights = vec![2; shape.e as usize];
        let (door, _) = two(
            times(400),
            || {
                black_box(ours::reset(shape.v, shape.e, 0, &shape.a, &shape.b, &mut weights, &shape.boundary, &[], &[]));
            },
            || {},
        );
        // what both take on a built code, for each vertex and edge
        let size = (shape.v + shape.e) as f64;
        let (sanity, question) = *built.get_or_insert((ours / size, door / size));
        row(&format!("`sanity_check`, {what}, Rust"), ours, rust, "", true);
        row(&format!("`sanity_check`, {what}; a built code of that size"), ours, sanity * size, "at most 5", ours <= 5. * sanity * size);
        if what.contains("neighbour number") || what.contains("random") || what.contains("upper") {
            continue;
        }
        row(
            &format!("questions 6 and 7 (`reset` on an empty log), {what}; a built code of that size"),
            door,
            question * size,
            "at most 6",
            door <= 6. * question * size,
        );
    }

    // ---- question 7 on other codes
    for (kind, d, rounds) in [(1, 3, 0), (2, 7, 0), (4, 5, 4), (4, 7, 8), (1, 2049, 0), (1, 4095, 0), (4, 11, 12)] {
        let mut small = Columns::blank();
        small.create(kind, d, rounds);
        let pairs: Vec<(u32, u32)> = (0..small.e as usize).map(|k| (small.a[k], small.b[k])).collect();
        let built = shape(small.v, &pairs);
        let turned = shape(small.v, &pairs.iter().map(|&(a, b)| (b, a)).collect::<Vec<_>>());
        let (mut weights, mut others) = (vec![2; pairs.len()], vec![2; pairs.len()]);
        // many calls for each reading of the clock
        const CALLS: usize = 64;
        let (ours, other) = two(
            times(400),
            || {
                for _ in 0..CALLS {
                    black_box(ours::reset(turned.v, turned.e, 0, &turned.a, &turned.b, &mut weights, &turned.boundary, &[], &[]));
                }
            },
            || {
                for _ in 0..CALLS {
                    black_box(ours::reset(built.v, built.e, 0, &built.a, &built.b, &mut others, &built.boundary, &[], &[]));
                }
            },
        );
        let (ours, other) = (ours / CALLS as f64, other / CALLS as f64);
        row(
            &format!("questions 6 and 7 (`reset` on an empty log), {} vertices, {} edges, ends turned round; the built code", small.v, small.e),
            ours,
            other,
            "at most 6",
            ours <= 6. * other,
        );
    }

    // ---- sanity_check on small codes, one end past 4,095
    for (kind, d, rounds) in [(1, 3, 0), (2, 7, 0), (4, 5, 4), (4, 7, 8)] {
        let mut built = Columns::blank();
        built.create(kind, d, rounds);
        let mut damaged = Columns::blank();
        damaged.create(kind, d, rounds);
        damaged.a[damaged.e as usize / 2] = 70_000;
        let (ours, other) = two(
            times(400),
            || {
                black_box(ours::sanity_check(damaged.v, damaged.e, &damaged.a, &damaged.b, &damaged.lengths, &damaged.numbers));
            },
            || {
                black_box(ours::sanity_check(built.v, built.e, &built.a, &built.b, &built.lengths, &built.numbers));
            },
        );
        row(&format!("`sanity_check`, {} vertices, {} edges, one end past the vertices; the built code", built.v, built.e), ours, other, "at most 5", ours <= 5. * other);
    }

    // ---- sanity_check as a graph grows past the limits; above 65,536 edges each is compared with those before it
    for (v, e) in [(4_096, 32_768), (8_192, 65_536), (16_384, 131_072)] {
        let pairs: Vec<(u32, u32)> = (0..e).map(|k| (k / 8, (k / 8 + k % 8 + 1) % v)).collect();
        let mut large = Columns::with_room(v as usize, pairs.len());
        (large.v, large.e) = (v, e);
        for (k, &(a, b)) in pairs.iter().enumerate() {
            (large.a[k], large.b[k]) = (a, b);
        }
        for (past, which) in [(0, ""), (2_147_483_648, ", every neighbour number past the edges")] {
            let mut lists = vec![Vec::new(); v as usize];
            for (k, &(a, b)) in pairs.iter().enumerate() {
                lists[a as usize].push(k as u32 + past);
                lists[b as usize].push(k as u32 + past);
            }
            large.lengths = lists.iter().map(|list| list.len() as u32).collect();
            large.numbers = lists.concat();
            let rust_large = large.code();
            let (ours, rust) = two(
                if e > 65_536 { 1 } else { times(200) },
                || {
                    black_box(ours::sanity_check(large.v, large.e, &large.a, &large.b, &large.lengths, &large.numbers));
                },
                || {
                    black_box(rust_large.sanity_check().is_ok());
                },
            );
            row(&format!("`sanity_check`, {v} vertices, {e} edges{which}, Rust"), ours, rust, "", true);
        }
    }

    // ---- sampling
    columns.pe[..e].fill(0.01);
    code.set_erasure_probability(0.01);
    let (mut defects, mut erasures) = (vec![0u32; v], vec![0u32; e]);
    let mut seed = 0;
    let (ours, rust) = two(
        times(600),
        || {
            seed += 1;
            black_box(ours::generate_random_errors(
                seed,
                columns.v,
                columns.e,
                &columns.a,
                &columns.b,
                &columns.p,
                &columns.pe,
                &columns.boundary,
                &mut columns.defect,
                &mut columns.erasure,
                &mut defects,
                &mut erasures,
            ));
        },
        || {
            black_box(code.generate_random_errors(seed_of()));
        },
    );
    row("`generate_random_errors`, Rust", ours, rust, "at most 1.2", ours <= 1.2 * rust);
    let every: Vec<u32> = (0..columns.e).collect();
    let every_wide = wide(&every);
    let (ours, rust) = two(
        times(600),
        || {
            black_box(ours::generate_errors(
                columns.v,
                columns.e,
                &columns.a,
                &columns.b,
                &columns.boundary,
                &every,
                &mut columns.defect,
                &columns.erasure,
                &mut defects,
                &mut erasures,
            ));
        },
        || {
            black_box(code.generate_errors(&every_wide));
        },
    );
    row("`generate_errors`, every edge named, Rust", ours, rust, "", true);

    // ---- reordering
    let order = inputs.order(v);
    let order_wide = wide(&order);
    let mut scratch = vec![0u32; columns.numbers.len()];
    let mut moved = columns.clone();
    let mut moved_code = code.clone();
    let (ours, rust) = two(
        times(400),
        || {
            black_box(ours::reorder_vertices(
                moved.v,
                moved.e,
                &order,
                &mut moved.a,
                &mut moved.b,
                &mut moved.boundary,
                &mut moved.defect,
                &mut moved.i,
                &mut moved.j,
                &mut moved.t,
                &mut moved.lengths,
                &mut moved.numbers,
                &mut scratch,
            ));
        },
        || moved_code.reorder_vertices(&order_wide),
    );
    row("`reorder_vertices`, Rust", ours, rust, "faster", ours < rust);

    // ---- the engine
    let weights: Vec<u32> = columns.half_weight[..e].iter().map(|&x| 2 * x).collect();
    let graph = Graph {
        v: columns.v,
        a: columns.a[..e].to_vec(),
        b: columns.b[..e].to_vec(),
        weights: weights.clone(),
        boundary: columns.boundary[..v].to_vec(),
    };
    let mut rust = graph.rust();
    let mut engine = Engine::open(graph.v, &graph.a, &graph.b, &graph.weights, &graph.boundary, e).unwrap();
    let listed: Vec<u32> = inputs.list(e / 100, e);
    let listed_wide = wide(&listed);
    let (ours, theirs) = {
        let engine = std::cell::RefCell::new(&mut engine);
        let rust = std::cell::RefCell::new(&mut rust);
        two(
            times(600),
            || {
                let mut engine = engine.borrow_mut();
                black_box(engine.load_erasures(&listed));
                black_box(engine.reset());
            },
            || {
                let mut rust = rust.borrow_mut();
                rust.load_erasures(&listed_wide);
                rust.reset();
            },
        )
    };
    row("load of 1 percent of the edges and reset, Rust", ours, theirs, "under 1,000 µs", ours < 1e-3);
    let (door, _) = two(
        times(600),
        || {
            black_box(engine.reset());
        },
        || {},
    );
    println!("| the questions of an engine call (`reset` on an empty log) | {} | | | | | |", us(door));

    let source = 2040;
    let mut engine_2 = engine.clone();
    let (ours, theirs) = two(
        times(150),
        || {
            black_box(engine_2.all_edges(source));
        },
        || {
            black_box(rust.all_edges(source as VertexIndex));
        },
    );
    row("`all_edges`, Rust", ours, theirs, "at least 4 times as fast", theirs >= 4. * ours);
    let csr = plain::Csr::new(v, &graph.a, &graph.b);
    let mut search = plain::IndexedHeap::new(v);
    let (mut weight, mut previous) = (vec![0i32; v], vec![0u32; v]);
    let (ours, lists) = two(
        times(400),
        || {
            black_box(engine_2.all_edges(source));
        },
        || {
            let csr = plain::Csr::new(v, &graph.a, &graph.b);
            search.all_edges(&csr, &graph.weights, source, &mut weight, &mut previous);
        },
    );
    row("`all_edges`, plain CSR and indexed heap, lists built", ours, lists, "at most 2", ours <= 2. * lists);
    assert!(weight == engine_2.out_weight && previous == engine_2.out_previous);
    let (ours, bare) = two(
        times(400),
        || {
            black_box(engine_2.all_edges(source));
        },
        || search.all_edges(&csr, &graph.weights, source, &mut weight, &mut previous),
    );
    row("`all_edges`, plain CSR and indexed heap, lists at hand", ours, bare, "at most 2", ours <= 2. * bare);

    #[cfg(feature = "crossing")]
    {
        let lefts: Vec<u32> = (0..v as u32).filter(|&k| graph.boundary[k as usize] == 1).collect();
        // the Rust's tables from each left vertex
        let mut pass = f64::MAX;
        for _ in 0..times(10) {
            let started = Instant::now();
            for &left in &lefts {
                black_box(rust.all_edges(left as VertexIndex));
            }
            pass = pass.min(started.elapsed().as_secs_f64());
        }
        let mut least = vec![0i32; v];
        let mut across = None;
        let (ours, theirs) = two(
            times(600),
            || {
                black_box(engine_2.crossing());
            },
            || across = plain::crossing(v, &graph.a, &graph.b, &graph.weights, &graph.boundary, &mut least),
        );
        row(&format!("`crossing`, Rust's `all_edges` from each of {} left vertices", lefts.len()), ours, pass, "at least 1,000 times as fast", pass >= 1000. * ours);
        row("`crossing`, plain CSR and binary heap, lists built", ours, theirs, "at most 2.5", ours <= 2.5 * theirs);
        assert!(Some(engine_2.crossing().count) == across && engine_2.out_weight == least);
    }
}

/// seeds for the Rust's sampling, as many as ours
fn seed_of() -> u64 {
    use std::sync::atomic::{AtomicU64, Ordering};
    static SEED: AtomicU64 = AtomicU64::new(0);
    SEED.fetch_add(1, Ordering::Relaxed) + 1
}
