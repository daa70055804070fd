//! Holds every result of the proved library to the Rust's. Prints, for each group, how many results were compared and how many differ,
//! with the first input that differs (inputs grow). `compare control` expects the known errors to be found.
#[allow(dead_code)]
mod common;
/// the exported functions of the proved library; oracle/bindings writes this file
#[allow(dead_code)]
mod ours {
    include!(env!("ORACLE_OURS"));
}

use common::*;
use fusion::complete_graph::CompleteGraph;
use fusion::example_codes::*;
use fusion::util::*;
use std::panic::{catch_unwind, AssertUnwindSafe};
use std::time::Instant;

struct Group {
    name: &'static str,
    compared: u64,
    differ: u64,
    first: String,
    started: Instant,
}

impl Group {
    fn new(name: &'static str) -> Self {
        Self {
            name,
            compared: 0,
            differ: 0,
            first: String::new(),
            started: Instant::now(),
        }
    }
    fn hold(&mut self, same: bool, input: impl FnOnce() -> String) {
        self.compared += 1;
        if !same {
            if self.differ == 0 {
                self.first = input();
            }
            self.differ += 1;
        }
    }
    fn end(self) -> Self {
        println!(
            "{:<34} {:>9} compared {:>7} differ  {:6.1} s",
            self.name,
            self.compared,
            self.differ,
            self.started.elapsed().as_secs_f64()
        );
        if self.differ > 0 {
            println!("    first: {}", self.first);
        }
        self
    }
}

/// whether the Rust panics
fn panics<T>(f: impl FnOnce() -> T) -> bool {
    catch_unwind(AssertUnwindSafe(f)).is_err()
}

// ---- codes

/// document 01's boundary bytes
fn boundary_byte(kind: u32, d: u32, v: u32) -> u8 {
    let rows = if kind == 1 { v } else if kind < 5 { v % (d + 1) } else { v };
    if kind < 5 {
        return if rows == d { 1 } else if rows == d - 1 { 2 } else { 0 };
    }
    let width = d.div_ceil(2);
    let row = v / width % (d + 1);
    let place = v % width;
    match row % 2 {
        1 if place == 0 => 1,
        0 if place == width - 1 => 2,
        _ => 0,
    }
}

fn codes() -> Group {
    let mut g = Group::new("create_code: every code that fits");
    let blank = Columns::blank();
    for (kind, d, rounds) in codes_within(4096) {
        let mut columns = blank.clone();
        let r = columns.create(kind, d, rounds);
        let (vertices, edges) = rust_code(kind, d, rounds);
        let found = columns.differs(&vertices, &edges);
        let (v, e) = (vertices.len(), edges.len());
        let marks = (0..v).all(|k| columns.boundary[k] == boundary_byte(kind, d, k as u32));
        let sum: u32 = columns.lengths[..v].iter().sum();
        // places past the counts are as they were
        let past = columns.a[e..] == blank.a[e..]
            && columns.b[e..] == blank.b[e..]
            && columns.p[e..] == blank.p[e..]
            && columns.pe[e..] == blank.pe[e..]
            && columns.half_weight[e..] == blank.half_weight[e..]
            && columns.erasure[e..] == blank.erasure[e..]
            && columns.i[v..] == blank.i[v..]
            && columns.j[v..] == blank.j[v..]
            && columns.t[v..] == blank.t[v..]
            && columns.boundary[v..] == blank.boundary[v..]
            && columns.defect[v..] == blank.defect[v..]
            && columns.lengths[v..] == blank.lengths[v..]
            && columns.numbers[2 * e..] == blank.numbers[2 * e..];
        let counts = ours::vertex_num(kind, d, rounds).count as usize == v && ours::edge_num(kind, d, rounds).count as usize == e;
        let same = r.number == 0 && found.is_none() && marks && past && counts && sum as usize == 2 * e;
        g.hold(same, || format!("kind {kind}, d {d}, rounds {rounds}: {r:?} {found:?} marks {marks} past {past} counts {counts}"));
    }
    g.end()
}

fn refused_codes() -> Group {
    let mut g = Group::new("create_code: the Rust panics, we refuse");
    let mut columns = Columns::with_room(30, 60);
    for kind in 1..=6 {
        for d in 0..40 {
            let r = columns.create(kind, d, 0);
            let expected = if d < 3 || d % 2 == 0 {
                if d > 0 && !panics(|| rust_code(kind, d, 0)) {
                    99
                } else {
                    3
                }
            } else if vertices_of(kind, d as u64, 0) > 30 {
                6
            } else {
                0
            };
            g.hold(r.number == expected, || format!("kind {kind}, d {d}: {r:?}, expected {expected}"));
        }
    }
    g.end()
}

// ---- weights

fn recipe_half_weights(p: &[f64], max_half_weight: u32) -> Vec<u32> {
    use fusion_recipe::example_codes::*;
    let mut code = CodeCapacityRepetitionCode {
        vertices: vec![],
        edges: p
            .iter()
            .map(|&p| {
                let mut edge = CodeEdge::new(0, 1);
                edge.p = p;
                edge
            })
            .collect(),
    };
    code.compute_weights(max_half_weight as fusion_recipe::util::Weight);
    code.edges.iter().map(|e| e.half_weight as u32).collect()
}

fn weights(inputs: &mut Inputs) -> Group {
    let mut g = Group::new("compute_weights, recipe on both sides");
    let fixed = [0.5, 0.25, 0.1, 0.03, 0.01, 0.005, 0.001, 0.0001, 1e-5, 1e-9, 0., 2f64.powi(-40), 0.499, 1. / 3.];
    let limits = [1, 2, 3, 10, 61, 99, 500, 501, 1000, 9999, 10000, 65535, 123_457, 249_999, 250_000];
    let one = |g: &mut Group, p: &[f64], m: u32| {
        let mut column = vec![777_777; p.len() + 1];
        let number = ours::compute_weights(p.len() as u32, p, &mut column, m);
        if p.iter().all(|&x| x == 0.5) {
            g.hold(number == 10 && column.iter().all(|&x| x == 777_777), || format!("p {p:?}, M {m}: {number}, expected 10"));
            return;
        }
        let rust = recipe_half_weights(p, m);
        let same = number == 0 && column[..p.len()] == rust[..] && column[p.len()] == 777_777;
        g.hold(same, || format!("p {:?}, M {m}", &p[..p.len().min(8)]));
    };
    for &m in &limits {
        for &x in &fixed {
            one(&mut g, &[x], m);
            for &y in &fixed {
                one(&mut g, &[x, y], m);
            }
        }
    }
    for round in 0..30_000 {
        let n = 1 + inputs.below(if round % 100 == 0 { 2000 } else { 20 });
        let zeros = inputs.below(4) == 0;
        let p: Vec<f64> = (0..n)
            .map(|_| {
                let p = inputs.probability();
                if p == 0. && !zeros {
                    0.125
                } else {
                    p
                }
            })
            .collect();
        let m = if inputs.below(2) == 0 { limits[inputs.below(limits.len())] } else { 1 + inputs.below(250_000) as u32 };
        one(&mut g, &p, m);
    }
    g.end()
}

fn single_weights(inputs: &mut Inputs) -> Group {
    let mut g = Group::new("weight_of_p, recipe on both sides");
    for _ in 0..300_000 {
        let p = inputs.probability();
        let r = ours::weight_of_p(p);
        let rust = fusion_recipe::example_codes::weight_of_p(p);
        g.hold(r.number == 0 && r.weight.to_bits() == rust.to_bits(), || format!("p {p:?}: {r:?}, {rust:?}"));
    }
    for p in [-0.1, 0.5000001, 1., f64::NAN, f64::INFINITY] {
        let r = ours::weight_of_p(p);
        g.hold(r.number == 9 && panics(|| weight_of_p(p)), || format!("p {p}: {r:?}"));
    }
    g.end()
}

#[cfg(feature = "new")]
fn new_codes(inputs: &mut Inputs) -> Group {
    let mut g = Group::new("new, new_diagonal, recipe on both");
    let mut all = codes_within(400);
    all.retain(|&(_, _, rounds)| rounds < 12);
    all.extend([(4, 15, 16), (6, 15, 30), (3, 9, 30), (2, 63, 0), (1, 4095, 0), (5, 89, 0)]);
    for (kind, d, rounds) in all {
        for _ in 0..4 {
            let p = [0.1, 0.01, 0.005, 0.25, 0.45, 0.001, 0.5, 0., 1e-9, 0.3 * inputs.unit()][inputs.below(10)];
            let m = [500, 1000, 250_000, 1, 77, 1 + inputs.below(250_000) as u32][inputs.below(6)];
            let mut columns = Columns::blank();
            let r = columns.new_code(kind, d, rounds, p, m);
            hold_new(&mut g, r, &columns, panics_or(|| recipe_new(kind, d, rounds, p, m)), p == 0.5 && kind != 4, || {
                format!("new, kind {kind}, d {d}, rounds {rounds}, p {p}, M {m}")
            });
            if kind == 4 {
                let diagonal = [None, Some(0.2), Some(0.003), Some(0.5), Some(0.), Some(p)][inputs.below(6)];
                let mut columns = Columns::blank();
                let r = columns.new_diagonal(d, rounds, p, m, diagonal);
                hold_new(&mut g, r, &columns, panics_or(|| recipe_diagonal(d, rounds, p, m, diagonal)), false, || {
                    format!("new_diagonal, d {d}, rounds {rounds}, p {p}, M {m}, diagonal {diagonal:?}")
                });
            }
        }
    }
    g.end()
}

#[cfg(feature = "new")]
fn panics_or<T>(f: impl FnOnce() -> T) -> Option<T> {
    catch_unwind(AssertUnwindSafe(f)).ok()
}

/// where the Rust panics, no edge weighs more than 0: we refuse 10, and no column has changed
#[cfg(feature = "new")]
fn hold_new(g: &mut Group, r: ours::TwoCounts, columns: &Columns, rust: Option<Code>, must_panic: bool, input: impl FnOnce() -> String) {
    match rust {
        None => {
            let blank = Columns::blank();
            let kept = columns.a == blank.a && columns.p == blank.p && columns.half_weight == blank.half_weight && columns.i == blank.i && columns.numbers == blank.numbers;
            g.hold(r.number == 10 && r.first == 0 && r.second == 0 && kept, || format!("{}: {r:?}, expected 10", input()));
        }
        Some(code) => {
            let found = columns.differs(&code.vertices, &code.edges);
            g.hold(r.number == 0 && found.is_none() && !must_panic, || format!("{}: {r:?} {found:?}", input()));
        }
    }
}

#[cfg(feature = "new")]
fn of_recipe(vertices: Vec<fusion_recipe::example_codes::CodeVertex>, edges: Vec<fusion_recipe::example_codes::CodeEdge>) -> Code {
    Code {
        vertices: vertices
            .into_iter()
            .map(|x| CodeVertex {
                position: fusion::visualize::VisualizePosition::new(x.position.i, x.position.j, x.position.t),
                neighbor_edges: x.neighbor_edges,
                is_virtual: x.is_virtual,
                is_defect: x.is_defect,
            })
            .collect(),
        edges: edges
            .into_iter()
            .map(|x| CodeEdge { vertices: x.vertices, p: x.p, pe: x.pe, half_weight: x.half_weight, is_erasure: x.is_erasure })
            .collect(),
    }
}

#[cfg(feature = "new")]
fn recipe_new(kind: u32, d: u32, rounds: u32, p: f64, m: u32) -> Code {
    use fusion_recipe::example_codes::*;
    let (d, r, m) = (d as VertexNum, rounds as VertexNum, m as Weight);
    macro_rules! parts {
        ($code:expr) => {{
            let code = $code;
            of_recipe(code.vertices, code.edges)
        }};
    }
    match kind {
        1 => parts!(CodeCapacityRepetitionCode::new(d, p, m)),
        2 => parts!(CodeCapacityPlanarCode::new(d, p, m)),
        3 => parts!(PhenomenologicalPlanarCode::new(d, r, p, m)),
        4 => parts!(CircuitLevelPlanarCode::new(d, r, p, m)),
        5 => parts!(CodeCapacityRotatedCode::new(d, p, m)),
        _ => parts!(PhenomenologicalRotatedCode::new(d, r, p, m)),
    }
}

#[cfg(feature = "new")]
fn recipe_diagonal(d: u32, rounds: u32, p: f64, m: u32, diagonal: Option<f64>) -> Code {
    let code = fusion_recipe::example_codes::CircuitLevelPlanarCode::new_diagonal(d as VertexNum, rounds as VertexNum, p, m as Weight, diagonal);
    of_recipe(code.vertices, code.edges)
}

// ---- sampling, errors, access

const SAMPLED: [(u32, u32, u32); 14] = [
    (1, 3, 0),
    (5, 3, 0),
    (2, 3, 0),
    (1, 9, 0),
    (6, 3, 1),
    (3, 3, 1),
    (4, 3, 1),
    (5, 7, 0),
    (2, 7, 0),
    (4, 3, 4),
    (6, 5, 5),
    (3, 5, 5),
    (4, 5, 5),
    (4, 7, 10),
];

fn scatter(inputs: &mut Inputs, columns: &mut Columns) {
    let e = columns.e as usize;
    let even = inputs.below(4);
    for k in 0..e {
        columns.p[k] = if even == 0 { 0.1 } else { inputs.probability() };
        columns.pe[k] = match even {
            0 => 0.05,
            1 => 0.,
            _ => [0., 1., 0.5, inputs.unit()][inputs.below(4)],
        };
    }
    for k in 0..columns.v as usize {
        columns.defect[k] = inputs.below(2) as u8;
    }
    for k in 0..e {
        columns.erasure[k] = inputs.below(2) as u8;
    }
}

struct Lists {
    defects: Vec<u32>,
    erasures: Vec<u32>,
}

fn same_syndrome(r: ours::TwoCounts, lists: &Lists, rust: &SyndromePattern) -> bool {
    let (m, n) = (r.first as usize, r.second as usize);
    r.number == 0
        && wide(&lists.defects[..m]) == rust.defect_vertices
        && wide(&lists.erasures[..n]) == rust.erasures
        && lists.defects[m..].iter().all(|&x| x == 77777)
        && lists.erasures[n..].iter().all(|&x| x == 77777)
}

fn sampling(inputs: &mut Inputs) -> Group {
    let mut g = Group::new("generate_random_errors");
    for seed_round in 0..600u64 {
        for &(kind, d, rounds) in &SAMPLED {
            let mut columns = Columns::with_room(700, 2600);
            columns.create(kind, d, rounds);
            scatter(inputs, &mut columns);
            let mut code = columns.code();
            let seed = match seed_round {
                0 => 0,
                1 => u64::MAX,
                2..=200 => seed_round,
                _ => inputs.word(),
            };
            let rust = code.generate_random_errors(seed);
            let mut lists = Lists {
                defects: vec![77777; columns.v as usize + 1],
                erasures: vec![77777; columns.e as usize + 1],
            };
            let r = ours::generate_random_errors(
                seed,
                columns.v,
                columns.e,
                &columns.a,
                &columns.b,
                &columns.p,
                &columns.pe,
                &columns.boundary,
                &mut columns.defect,
                &mut columns.erasure,
                &mut lists.defects,
                &mut lists.erasures,
            );
            let found = columns.differs(&code.vertices, &code.edges);
            g.hold(found.is_none() && same_syndrome(r, &lists, &rust), || {
                format!("kind {kind}, d {d}, rounds {rounds}, seed {seed}: {r:?} {found:?}")
            });
        }
    }
    g.end()
}

fn errors(inputs: &mut Inputs) -> Group {
    let mut g = Group::new("generate_errors, clear_errors");
    for _ in 0..400 {
        for &(kind, d, rounds) in &SAMPLED {
            let mut columns = Columns::with_room(700, 2600);
            columns.create(kind, d, rounds);
            scatter(inputs, &mut columns);
            let mut code = columns.code();
            for _ in 0..3 {
                let length = inputs.below(8);
                let list = inputs.list(length, columns.e as usize);
                let rust = code.generate_errors(&wide(&list));
                let mut lists = Lists {
                    defects: vec![77777; columns.v as usize + 1],
                    erasures: vec![77777; columns.e as usize + 1],
                };
                let r = ours::generate_errors(
                    columns.v,
                    columns.e,
                    &columns.a,
                    &columns.b,
                    &columns.boundary,
                    &list,
                    &mut columns.defect,
                    &columns.erasure,
                    &mut lists.defects,
                    &mut lists.erasures,
                );
                let found = columns.differs(&code.vertices, &code.edges);
                g.hold(found.is_none() && same_syndrome(r, &lists, &rust), || {
                    format!("kind {kind}, d {d}, rounds {rounds}, edges {list:?}: {r:?} {found:?}")
                });
            }
            code.clear_errors();
            let number = ours::clear_errors(columns.v, columns.e, &mut columns.defect, &mut columns.erasure);
            let found = columns.differs(&code.vertices, &code.edges);
            g.hold(number == 0 && found.is_none(), || format!("clear_errors, kind {kind}, d {d}, rounds {rounds}: {found:?}"));
        }
    }
    g.end()
}

fn access(inputs: &mut Inputs) -> Group {
    let mut g = Group::new("setters and getters");
    for _ in 0..100 {
        for &(kind, d, rounds) in &SAMPLED {
            let at = |what: &str| format!("{what}, kind {kind}, d {d}, rounds {rounds}");
            let mut columns = Columns::with_room(700, 2600);
            columns.create(kind, d, rounds);
            scatter(inputs, &mut columns);
            let (v, e) = (columns.v as usize, columns.e as usize);
            for k in 0..e {
                columns.half_weight[k] = inputs.below(250_001) as u32;
            }
            let mut code = columns.code();
            // get_positions
            let (mut i, mut j, mut t) = (vec![9.; v + 1], vec![9.; v + 1], vec![9.; v + 1]);
            let number = ours::get_positions(columns.v, &columns.i, &columns.j, &columns.t, &mut i, &mut j, &mut t);
            let rust = code.get_positions();
            let same = (0..v).all(|k| {
                [i[k], j[k], t[k]].map(f64::to_bits) == [rust[k].i, rust[k].j, rust[k].t].map(f64::to_bits)
            });
            g.hold(number == 0 && same && rust.len() == v && [i[v], j[v], t[v]] == [9.; 3], || at("get_positions"));
            // get_initializer
            let (mut a, mut b, mut w, mut list) = (vec![7; e + 1], vec![7; e + 1], vec![7; e + 1], vec![77777; v + 1]);
            let r = ours::get_initializer(
                columns.v,
                columns.e,
                &columns.a,
                &columns.b,
                &columns.half_weight,
                &columns.boundary,
                &mut a,
                &mut b,
                &mut w,
                &mut list,
            );
            let rust = code.get_initializer();
            let same = (0..e).all(|k| (a[k] as VertexIndex, b[k] as VertexIndex, w[k] as Weight) == rust.weighted_edges[k]);
            let n = r.count as usize;
            let same = same && r.number == 0 && wide(&list[..n]) == rust.virtual_vertices && list[n] == 77777 && rust.vertex_num == v as VertexNum;
            g.hold(same, || at("get_initializer"));
            // set and get defects and erasures
            let (m, n) = (inputs.below(6), inputs.below(6));
            let (defects, erasures) = (inputs.list(m, v), inputs.list(n, e));
            let together = inputs.below(2) == 0;
            let number = if together {
                code.set_syndrome(&SyndromePattern::new(wide(&defects), wide(&erasures)));
                ours::set_syndrome(columns.v, columns.e, &defects, &erasures, &mut columns.defect, &mut columns.erasure)
            } else {
                code.set_defect_vertices(&wide(&defects));
                code.set_erasures(&wide(&erasures));
                ours::set_defect_vertices(columns.v, &defects, &mut columns.defect).max(ours::set_erasures(columns.e, &erasures, &mut columns.erasure))
            };
            let found = columns.differs(&code.vertices, &code.edges);
            g.hold(number == 0 && found.is_none(), || at("set_syndrome"));
            let mut lists = Lists {
                defects: vec![77777; v + 1],
                erasures: vec![77777; e + 1],
            };
            let r = ours::get_syndrome(columns.v, columns.e, &columns.defect, &columns.erasure, &mut lists.defects, &mut lists.erasures);
            g.hold(same_syndrome(r, &lists, &code.get_syndrome()), || at("get_syndrome"));
            let mut lists = Lists {
                defects: vec![77777; v + 1],
                erasures: vec![77777; e + 1],
            };
            let x = ours::get_defect_vertices(columns.v, &columns.defect, &mut lists.defects);
            let y = ours::get_erasures(columns.e, &columns.erasure, &mut lists.erasures);
            let r = ours::TwoCounts { number: x.number + y.number, first: x.count, second: y.count };
            let rust = SyndromePattern::new(code.get_defect_vertices(), code.get_erasures());
            g.hold(same_syndrome(r, &lists, &rust), || at("get_defect_vertices, get_erasures"));
            for k in 0..v {
                let x = ours::is_virtual(columns.v, &columns.boundary, k as u32);
                let y = ours::is_defect(columns.v, &columns.defect, k as u32);
                let same = x.number == 0 && y.number == 0 && x.value == code.is_virtual(k) && y.value == code.is_defect(k);
                g.hold(same, || at("is_virtual, is_defect"));
            }
            // set_probability
            let (p, pe) = (inputs.probability(), inputs.unit());
            let number = ours::set_probability(columns.e, p, &mut columns.p).max(ours::set_erasure_probability(columns.e, pe, &mut columns.pe));
            code.set_probability(p);
            code.set_erasure_probability(pe);
            let found = columns.differs(&code.vertices, &code.edges);
            g.hold(number == 0 && found.is_none(), || at("set_probability"));
        }
    }
    g.end()
}

fn panics_access(inputs: &mut Inputs) -> Group {
    let mut g = Group::new("numbers out of range: panic, refusal");
    for &(kind, d, rounds) in &SAMPLED {
        let at = |what: &str| format!("{what}, kind {kind}, d {d}, rounds {rounds}");
        let mut columns = Columns::with_room(700, 2600);
        columns.create(kind, d, rounds);
        scatter(inputs, &mut columns);
        let before = columns.clone();
        let (v, e) = (columns.v as usize, columns.e as usize);
        for past in [0, 1, 1000] {
            let mut list = vec![0, (v + past) as u32];
            let number = ours::set_defect_vertices(columns.v, &list, &mut columns.defect);
            let rust = panics(|| columns.code().set_defect_vertices(&wide(&list)));
            g.hold(number == 13 && rust && columns.defect == before.defect, || at("set_defect_vertices"));
            let (x, y) = (
                ours::is_virtual(columns.v, &columns.boundary, list[1]),
                ours::is_defect(columns.v, &columns.defect, list[1]),
            );
            let rust = panics(|| columns.code().is_virtual(list[1] as usize)) && panics(|| columns.code().is_defect(list[1] as usize));
            g.hold(x.number == 13 && y.number == 13 && rust, || at("is_virtual, is_defect"));
            list[1] = (e + past) as u32;
            let number = ours::set_erasures(columns.e, &list, &mut columns.erasure);
            let rust = panics(|| columns.code().set_erasures(&wide(&list)));
            g.hold(number == 13 && rust && columns.erasure == before.erasure, || at("set_erasures"));
            let mut lists = Lists {
                defects: vec![77777; v],
                erasures: vec![77777; e],
            };
            let r = ours::generate_errors(
                columns.v,
                columns.e,
                &columns.a,
                &columns.b,
                &columns.boundary,
                &list,
                &mut columns.defect,
                &columns.erasure,
                &mut lists.defects,
                &mut lists.erasures,
            );
            let rust = panics(|| columns.code().generate_errors(&wide(&list)));
            let same = r.number == 13 && rust && columns.defect == before.defect && lists.defects.iter().all(|&x| x == 77777);
            g.hold(same, || at("generate_errors"));
        }
    }
    g.end()
}

// ---- graphs: syndrome_of, fill_vertices, sanity_check, reordering

fn syndromes(inputs: &mut Inputs) -> Group {
    let mut g = Group::new("syndrome_of");
    for round in 0..60_000 {
        let n = 2 + round / 3000 + inputs.below(4);
        let m = 1 + inputs.below(3 * n);
        let graph = Graph::random(inputs, n, m, round);
        if graph.a.is_empty() {
            continue;
        }
        let length = inputs.below(10);
        let list = inputs.list(length, graph.a.len());
        let initializer = SolverInitializer::new(graph.v as VertexNum, graph.weighted(), graph.virtual_vertices());
        let rust: Vec<_> = initializer.syndrome_of(&wide(&list)).into_iter().collect();
        let mut defects = vec![77777; n + 1];
        let r = ours::syndrome_of(graph.v, graph.a.len() as u32, &graph.a, &graph.b, &graph.boundary, &list, &mut defects);
        let count = r.count as usize;
        let same = r.number == 0 && wide(&defects[..count]) == rust && defects[count..].iter().all(|&x| x == 77777);
        g.hold(same, || format!("{}, boundary {:?}, list {list:?}: {r:?}, {rust:?}", graph.show(), graph.boundary));
    }
    g.end()
}

/// a sound graph's columns, with positions, marks and filled lists
fn filled(inputs: &mut Inputs, graph: &Graph) -> (u32, Columns) {
    let (n, e) = (graph.v as usize, graph.a.len());
    let mut columns = Columns::with_room(n + 1, e + 1);
    columns.v = graph.v;
    columns.e = e as u32;
    columns.a[..e].copy_from_slice(&graph.a);
    columns.b[..e].copy_from_slice(&graph.b);
    for k in 0..e {
        columns.p[k] = inputs.unit();
        columns.pe[k] = inputs.unit();
        columns.half_weight[k] = inputs.below(250_001) as u32;
        columns.erasure[k] = inputs.below(2) as u8;
    }
    let number = ours::fill_vertices(
        columns.v,
        columns.e,
        &columns.a,
        &columns.b,
        &mut columns.i,
        &mut columns.j,
        &mut columns.t,
        &mut columns.boundary,
        &mut columns.defect,
        &mut columns.lengths,
        &mut columns.numbers,
    );
    (number, columns)
}

fn filling(inputs: &mut Inputs) -> Group {
    let mut g = Group::new("fill_vertices");
    for round in 0..40_000 {
        let n = 1 + round / 2000 + inputs.below(4);
        let m = inputs.below(3 * n);
        let graph = Graph::random(inputs, n, m, round);
        let (number, columns) = filled(inputs, &graph);
        // the Rust's code has the same edges and no vertices yet
        let mut code = Code { vertices: vec![], edges: columns.code().edges };
        code.fill_vertices(graph.v as VertexNum);
        let found = columns.differs(&code.vertices, &code.edges);
        let inner = columns.boundary[..n].iter().all(|&x| x == 0);
        let past = columns.i[n] == 7. && columns.boundary[n] == 7 && columns.lengths[n] == 77777;
        g.hold(number == 0 && found.is_none() && inner && past, || format!("{}: {number} {found:?}", graph.show()));
    }
    g.end()
}

/// verdict, first and second value of the Rust's message
fn verdict_of(message: Result<(), String>) -> (u32, u32, u32) {
    let Err(message) = message else { return (0, 0, 0) };
    let numbers: Vec<u32> = message.split(' ').filter_map(|word| word.parse().ok()).collect();
    if message == "empty graph" {
        (1, 0, 0)
    } else if message.starts_with("duplicate edge") {
        (2, numbers[0], numbers[1])
    } else if message.starts_with("vertex") {
        (3, numbers[0], 0)
    } else if message.starts_with("duplicate referred edge") {
        (4, numbers[0], numbers[1])
    } else {
        (99, 0, 0)
    }
}

fn sanity(inputs: &mut Inputs) -> (Group, [u64; 5]) {
    let mut g = Group::new("sanity_check");
    let mut seen = [0; 5];
    let mut one = |g: &mut Group, columns: &Columns, what: &dyn Fn() -> String| {
        let r = ours::sanity_check(columns.v, columns.e, &columns.a, &columns.b, &columns.lengths, &columns.numbers);
        let rust = verdict_of(columns.code().sanity_check());
        seen[(rust.0 as usize).min(4)] += 1;
        let same = r.number == 0 && (r.verdict, r.first, r.second) == rust;
        g.hold(same, || format!("{}: {r:?}, {rust:?}", what()));
    };
    for &(kind, d, rounds) in &SAMPLED {
        let mut columns = Columns::blank();
        columns.create(kind, d, rounds);
        one(&mut g, &columns, &|| format!("kind {kind}, d {d}, rounds {rounds}"));
        // every neighbour number past the edges; then one of them again, in its own list or in another
        let places = 2 * columns.e as usize;
        for number in columns.numbers[..places].iter_mut() {
            *number = u32::MAX - 4096 * *number;
        }
        one(&mut g, &columns, &|| format!("kind {kind}, d {d}, rounds {rounds}, numbers past the edges"));
        for _ in 0..40 {
            let at = 1 + inputs.below(places - 1);
            let back = 1 + inputs.below(at.min(6));
            let was = columns.numbers[at];
            columns.numbers[at] = columns.numbers[at - back];
            one(&mut g, &columns, &|| format!("kind {kind}, d {d}, rounds {rounds}, numbers past the edges, place {at} as {back} before it"));
            columns.numbers[at] = was;
        }
    }
    // a vertex with a long list out of order, numbers past 32,767; ends below 4,096 or at random; then a number again, then a pair too
    for round in 0..600usize {
        let e = match round {
            0 | 1 => 40_000,
            2 | 3 => 32_768,
            _ => 40 + inputs.below(2_000),
        };
        let factors = (if round % 2 == 0 { 1 } else { 2 * inputs.word() as u32 + 1 }, 2 * inputs.word() as u32 + 1);
        let mut columns = Columns::with_room(2, e);
        (columns.v, columns.e) = (2, e as u32);
        for k in 0..e {
            (columns.a[k], columns.b[k]) = ((k as u32 / 64).wrapping_mul(factors.0), (k as u32 / 64 + k as u32 % 64 + 1).wrapping_mul(factors.0));
        }
        columns.lengths = vec![2 * e as u32 - 1, 1];
        columns.numbers = (0..2 * e as u32).map(|k| (k + 1).wrapping_mul(factors.1)).collect();
        one(&mut g, &columns, &|| format!("{e} edges, factors {factors:?}"));
        let (at, from) = (1 + inputs.below(e - 1), 1 + inputs.below(2 * e - 2));
        let (same, number) = (inputs.below(at), inputs.below(from));
        columns.numbers[from] = columns.numbers[number];
        one(&mut g, &columns, &|| format!("{e} edges, factors {factors:?}, number {from} as {number}"));
        (columns.a[at], columns.b[at]) = if inputs.below(2) == 0 { (columns.b[same], columns.a[same]) } else { (columns.a[same], columns.b[same]) };
        one(&mut g, &columns, &|| format!("{e} edges, factors {factors:?}, number {from} as {number}, edge {at} as {same}"));
    }
    // ends and numbers with few values of the lower 24 bits and any of the 8 above
    for round in 0..900usize {
        let (kind, wide) = (inputs.below(5), 70 + inputs.below(1_000));
        let e = if kind < 2 { 97 } else { wide };
        let (ends, numbers) = (1 << (round % 12), 1 << (4 + round % 13));
        let mut columns = Columns::with_room(2, e);
        (columns.v, columns.e) = (2, e as u32);
        let places = 2 * e as u32;
        columns.lengths = [vec![96, 96], vec![97, 96], vec![96, places - 96], vec![97, places - 97], vec![places - 1, 1]][kind].clone();
        let mut any = |lower: usize| (inputs.below(256) << 24 | inputs.below(lower) * 255) as u32;
        for k in 0..e {
            (columns.a[k], columns.b[k]) = (any(ends), any(ends));
        }
        columns.numbers = (0..places).map(|_| any(numbers)).collect();
        one(&mut g, &columns, &|| format!("{e} edges, {ends} lower ends, {numbers} lower numbers, lists {:?}", columns.lengths));
        // each pair once: its number in the upper bits, the second end's at most the first's
        let upper = (0..256u32).flat_map(|a| (0..=a).map(move |b| (a << 24, b << 24)));
        for (k, (a, b)) in upper.take(e).enumerate() {
            (columns.a[k], columns.b[k]) = (columns.a[k] % (1 << 24) | a, columns.b[k] % (1 << 24) | b);
        }
        one(&mut g, &columns, &|| format!("{e} edges, {ends} lower ends, each once, {numbers} lower numbers, lists {:?}", columns.lengths));
    }
    // more edges than the limit
    for round in 0..13usize {
        let e = match round {
            12 => 65_537,
            11 => 65_536,
            _ => 32_769 + inputs.below(8_000),
        };
        let mut columns = Columns::with_room(1, e);
        (columns.v, columns.e) = (1, e as u32);
        for k in 0..e {
            let (a, b) = ((k as u32 / 64) * 1_000, (k as u32 / 64) * 1_000 + k as u32 % 64 + 1);
            (columns.a[k], columns.b[k]) = if round % 6 == 5 && k % 1_000 == 999 { (b, a) } else { (a, b) };
        }
        (columns.lengths, columns.numbers) = (vec![1], vec![0; 2 * e]);
        one(&mut g, &columns, &|| format!("{e} edges"));
        let at = 1 + inputs.below(e - 1);
        let same = inputs.below(at);
        (columns.a[at], columns.b[at]) = (columns.a[same], columns.b[same]);
        one(&mut g, &columns, &|| format!("{e} edges, edge {at} as {same}"));
    }
    for round in 0..120_000usize {
        let n = round / 6000 + inputs.below(6);
        let m = inputs.below(2 * n + 2);
        let mut graph = Graph::random(inputs, n.max(1), m, round);
        // a path that gives every vertex an edge, most of the time
        if inputs.below(4) != 0 {
            for k in 1..n {
                graph.a.push(k as u32);
                graph.b.push(k as u32 - 1);
                graph.weights.push(0);
            }
            let mut seen = std::collections::HashSet::new();
            let keep: Vec<bool> = (0..graph.a.len()).map(|k| seen.insert((graph.a[k].min(graph.b[k]), graph.a[k].max(graph.b[k])))).collect();
            let mut at = 0;
            graph.a.retain(|_| { at += 1; keep[at - 1] });
            at = 0;
            graph.b.retain(|_| { at += 1; keep[at - 1] });
        }
        let (_, mut columns) = filled(inputs, &graph);
        columns.v = n as u32;
        let e = columns.e as usize;
        let mut room = columns.numbers.clone();
        room.resize(2 * e + 40, 77777);
        columns.numbers = room;
        // damage
        for _ in 0..inputs.below(3) {
            match inputs.below(7) {
                0 if e > 0 => {
                    // an edge that joins the pair of another, either way round
                    let (x, y) = (inputs.below(e), inputs.below(e));
                    let turned = inputs.below(2) == 0;
                    let (a, b) = (columns.a[y], columns.b[y]);
                    (columns.a[x], columns.b[x]) = if turned { (b, a) } else { (a, b) };
                }
                1 if e > 0 => {
                    let (x, far) = (inputs.below(e), inputs.word() as u32);
                    columns.a[x] = far;
                }
                2 if e > 0 => {
                    let x = inputs.below(e);
                    columns.b[x] = columns.a[x];
                }
                3 if e > 0 => {
                    let (x, y) = (inputs.below(2 * e), inputs.below(2 * e));
                    columns.numbers[x] = columns.numbers[y];
                }
                4 if n > 0 => {
                    // list lengths that do not sum up to twice the edges
                    let x = inputs.below(n);
                    columns.lengths[x] = inputs.below(5) as u32;
                }
                5 if e > 0 => {
                    let (x, far) = (inputs.below(2 * e), inputs.word() as u32);
                    columns.numbers[x] = far;
                }
                6 => {
                    let far = inputs.word() as u32;
                    columns.numbers.iter_mut().for_each(|x| *x = x.wrapping_mul(4096).wrapping_add(far));
                }
                _ => {}
            }
        }
        let sum: usize = columns.lengths[..n].iter().map(|&x| x as usize).sum();
        if sum > columns.numbers.len() {
            continue;
        }
        one(&mut g, &columns, &|| {
            format!(
                "{n} vertices, ends {:?} {:?}, lengths {:?}, numbers {:?}",
                &columns.a[..e],
                &columns.b[..e],
                &columns.lengths[..n],
                &columns.numbers[..sum]
            )
        });
    }
    (g.end(), seen)
}

fn reordering(inputs: &mut Inputs) -> Group {
    let mut g = Group::new("reorder_vertices");
    let one = |g: &mut Group, inputs: &mut Inputs, columns: &mut Columns, what: &dyn Fn() -> String| {
        let order = inputs.order(columns.v as usize);
        let mut code = columns.code();
        code.reorder_vertices(&wide(&order));
        let mut scratch = vec![0; columns.numbers.len()];
        let virtual_before: Vec<u8> = order.iter().map(|&k| columns.boundary[k as usize]).collect();
        let number = ours::reorder_vertices(
            columns.v,
            columns.e,
            &order,
            &mut columns.a,
            &mut columns.b,
            &mut columns.boundary,
            &mut columns.defect,
            &mut columns.i,
            &mut columns.j,
            &mut columns.t,
            &mut columns.lengths,
            &mut columns.numbers,
            &mut scratch,
        );
        let found = columns.differs(&code.vertices, &code.edges);
        let moved = columns.boundary[..columns.v as usize] == virtual_before[..];
        g.hold(number == 0 && found.is_none() && moved, || format!("{}, order {order:?}: {number} {found:?}", what()));
    };
    for round in 0..40_000 {
        let n = 1 + round / 2000 + inputs.below(4);
        let m = inputs.below(3 * n);
        let graph = Graph::random(inputs, n, m, round);
        let (_, mut columns) = filled(inputs, &graph);
        for k in 0..n {
            columns.boundary[k] = inputs.below(3) as u8;
            columns.defect[k] = inputs.below(2) as u8;
            columns.i[k] = inputs.unit();
            columns.j[k] = inputs.unit();
            columns.t[k] = inputs.unit();
        }
        if inputs.below(4) == 0 {
            // lists that do not sum up to twice the edges are moved as they stand
            let x = inputs.below(n);
            columns.lengths[x] = inputs.below(3) as u32;
            columns.numbers.resize(2 * columns.e as usize + 3 + columns.numbers.len(), 5);
        }
        one(&mut g, inputs, &mut columns, &|| graph.show());
    }
    for &(kind, d, rounds) in &[(4, 15, 16), (6, 15, 30), (3, 9, 30), (2, 63, 0), (1, 4095, 0)] {
        let mut columns = Columns::blank();
        columns.create(kind, d, rounds);
        scatter(inputs, &mut columns);
        one(&mut g, inputs, &mut columns, &|| format!("kind {kind}, d {d}, rounds {rounds}"));
    }
    g.end()
}

fn orders(inputs: &mut Inputs) -> Group {
    let mut g = Group::new("build_old_to_new, translated_defect..");
    for round in 0..100_000 {
        let n = round / 2000 + inputs.below(3);
        let mut order = inputs.order(n);
        // damage: a repeat, or a number out of range
        let damage = inputs.below(4);
        if n > 0 && damage == 0 {
            let (x, y) = (inputs.below(n), inputs.below(n));
            order[x] = order[y];
        }
        if n > 0 && damage == 1 {
            let x = inputs.below(n);
            order[x] = (n + inputs.below(3)) as u32;
        }
        let out_of_range = order.iter().any(|&k| k as usize >= n);
        let repeat = {
            let mut sorted = order.clone();
            sorted.sort();
            sorted.windows(2).any(|w| w[0] == w[1])
        };
        let expected = if out_of_range { 13 } else if repeat { 14 } else { 0 };
        let mut column = vec![77777; n + 1];
        let number = ours::build_old_to_new(&order, &mut column);
        let rust = catch_unwind(|| build_old_to_new(&wide(&order)));
        let same = match &rust {
            Err(_) => number == expected && number != 0 && column.iter().all(|&x| x == 77777),
            Ok(rust) => number == 0 && (0..n).all(|k| Some(column[k] as VertexIndex) == rust[k]) && column[n] == 77777,
        };
        g.hold(same, || format!("build_old_to_new {order:?}: {number}, expected {expected}"));
        let length = inputs.below(5);
        let beyond = usize::from(inputs.below(5) == 0) + usize::from(n == 0);
        let list = inputs.list(length, n + beyond);
        let expected = if out_of_range || list.iter().any(|&k| k as usize >= n) { 13 } else if repeat { 14 } else { 0 };
        let mut column = vec![77777; length + 1];
        let r = ours::translated_defect_to_reordered(&order, &list, &mut column);
        let rust = catch_unwind(|| translated_defect_to_reordered(&wide(&order), &wide(&list)));
        let same = match &rust {
            Err(_) => r.number == expected && r.number != 0 && r.count == 0 && column.iter().all(|&x| x == 77777),
            Ok(rust) => r.number == 0 && r.count == length && wide(&column[..length]) == *rust && column[length] == 77777,
        };
        g.hold(same, || format!("translated_defect_to_reordered {order:?} {list:?}: {r:?}, expected {expected}"));
    }
    g.end()
}

// ---- the engine

/// whether a table equals the Rust's map; -1 and 0 where a vertex was not taken
fn same_table(engine: &Engine, source: u32, rust: &std::collections::BTreeMap<VertexIndex, (VertexIndex, Weight)>) -> bool {
    (0..engine.v as usize).all(|k| {
        let (weight, previous) = if k as u32 == source {
            (0, source as VertexIndex)
        } else {
            match rust.get(&(k as VertexIndex)) {
                Some(&(previous, weight)) => (weight, previous),
                None => (-1, 0),
            }
        };
        engine.out_weight[k] as Weight == weight && engine.out_previous[k] as VertexIndex == previous
    })
}

fn small_graphs(inputs: &mut Inputs, round: usize) -> Graph {
    let n = 2 + round / 250 + inputs.below(3);
    let m = 1 + inputs.below(4 * n);
    Graph::random(inputs, n, m, round)
}

fn tables(inputs: &mut Inputs, rounds: usize) -> Group {
    let mut g = Group::new("all_edges, all_edges_with_terminate");
    for round in 0..rounds {
        let graph = small_graphs(inputs, round);
        let mut rust = graph.rust();
        let mut engine = Engine::open(graph.v, &graph.a, &graph.b, &graph.weights, &graph.boundary, 4).unwrap();
        for source in 0..graph.v {
            let number = engine.all_edges(source);
            let table = rust.all_edges(source as VertexIndex);
            g.hold(number == 0 && same_table(&engine, source, &table), || format!("{}, source {source}", graph.show()));
            for _ in 0..3 {
                let end = inputs.below(graph.v as usize) as u32;
                let number = engine.table(source, Some(end));
                let table = rust.all_edges_with_terminate(source as VertexIndex, end as VertexIndex);
                g.hold(number == 0 && same_table(&engine, source, &table), || format!("{}, source {source}, end {end}", graph.show()));
            }
        }
        for past in [graph.v, graph.v + 5] {
            g.hold(engine.all_edges(past) == 13 && engine.table(0, Some(past)) == 13, || format!("{}: number {past}", graph.show()));
        }
    }
    g.end()
}

fn code_tables(inputs: &mut Inputs) -> Group {
    let mut g = Group::new("tables on codes");
    for &(kind, d, rounds, queries) in &[(4u32, 15u32, 16u32, 20), (6, 15, 30, 20), (3, 9, 30, 20), (2, 63, 0, 20), (1, 4095, 0, 4), (4, 7, 10, 60), (5, 21, 0, 60)] {
        let mut columns = Columns::blank();
        columns.create(kind, d, rounds);
        let e = columns.e as usize;
        for style in 0..4 {
            let weights: Vec<u32> = (0..e).map(|_| [1, inputs.below(2) as u32, inputs.below(3) as u32 * 500, 2 * inputs.below(250_001) as u32][style]).collect();
            let graph = Graph {
                v: columns.v,
                a: columns.a[..e].to_vec(),
                b: columns.b[..e].to_vec(),
                weights,
                boundary: columns.boundary[..columns.v as usize].to_vec(),
            };
            let mut rust = graph.rust();
            let mut engine = Engine::open(graph.v, &graph.a, &graph.b, &graph.weights, &graph.boundary, 4).unwrap();
            for _ in 0..queries / 4 {
                let (source, end) = (inputs.below(graph.v as usize) as u32, inputs.below(graph.v as usize) as u32);
                let number = engine.all_edges(source);
                let table = rust.all_edges(source as VertexIndex);
                g.hold(number == 0 && same_table(&engine, source, &table), || format!("kind {kind}, d {d}, rounds {rounds}, style {style}, source {source}"));
                let number = engine.table(source, Some(end));
                let table = rust.all_edges_with_terminate(source as VertexIndex, end as VertexIndex);
                g.hold(number == 0 && same_table(&engine, source, &table), || {
                    format!("kind {kind}, d {d}, rounds {rounds}, style {style}, source {source}, end {end}")
                });
            }
        }
    }
    g.end()
}

/// loads and resets in random lists of calls, with a table after each call
fn loads(inputs: &mut Inputs, with_tables: bool) -> Group {
    let mut g = Group::new("load_erasures, load_weights, reset");
    for round in 0..20_000 {
        let n = 2 + round / 1500 + inputs.below(3);
        let m = 1 + inputs.below(3 * n);
        let graph = Graph::random(inputs, n, m, round);
        let e = graph.a.len();
        if e == 0 {
            continue;
        }
        let mut rust: CompleteGraph = graph.rust();
        let mut engine = Engine::open(graph.v, &graph.a, &graph.b, &graph.weights, &graph.boundary, 12).unwrap();
        let mut calls = String::new();
        for _ in 0..6 {
            let loaded = engine.entries > 0;
            let length = inputs.below(5);
            let list = inputs.list(length, e);
            let same = match inputs.below(3) {
                0 => {
                    calls += &format!(" load_erasures {list:?}");
                    let number = engine.load_erasures(&list);
                    if loaded {
                        number == 12 && panics(|| rust.clone().load_erasures(&wide(&list)))
                    } else {
                        rust.load_erasures(&wide(&list));
                        number == 0
                    }
                }
                1 => {
                    let values: Vec<u32> = list.iter().map(|_| [0, 1, 2, 500_000][inputs.below(4)]).collect();
                    calls += &format!(" load_dynamic_weights {list:?} {values:?}");
                    let both: Vec<(EdgeIndex, Weight)> = list.iter().zip(&values).map(|(&k, &w)| (k as EdgeIndex, w as Weight)).collect();
                    let number = engine.load_dynamic_weights(&list, &values);
                    if loaded {
                        number == 12 && panics(|| rust.clone().load_dynamic_weights(&both))
                    } else {
                        rust.load_dynamic_weights(&both);
                        number == 0
                    }
                }
                _ => {
                    calls += " reset";
                    rust.reset();
                    engine.reset() == 0
                }
            };
            let weights = (0..e).all(|k| (engine.a[k] as VertexIndex, engine.b[k] as VertexIndex, engine.weights[k] as Weight) == rust.weighted_edges[k]);
            let log = engine.entries == rust.edge_modifier.modified.len()
                && (0..engine.entries).all(|k| (engine.log_edges[k] as EdgeIndex, engine.log_weights[k] as Weight) == rust.edge_modifier.modified[k]);
            let source = inputs.below(n) as u32;
            let number = engine.all_edges(source);
            let table = rust.all_edges(source as VertexIndex);
            // the control looks at the weights alone, so that its tie rule is not what differs
            let table = !with_tables || number == 0 && same_table(&engine, source, &table);
            g.hold(same && weights && log && table, || {
                format!("{}, calls{calls}, source {source}: same {same} weights {weights} log {log} table {table}", graph.show())
            });
            if !(same && weights && log) {
                break;
            }
        }
        // an edge number past the edges: the Rust panics
        engine.reset();
        let list = [0, e as u32 + round as u32 % 3];
        let before = engine.weights.clone();
        let refused = engine.load_erasures(&list) == 13 && engine.load_dynamic_weights(&list, &[1, 1]) == 13 && engine.weights == before;
        let mut copy = graph.rust();
        g.hold(refused && panics(|| copy.load_erasures(&wide(&list))), || format!("{}, list {list:?}", graph.show()));
    }
    g.end()
}

#[cfg(feature = "crossing")]
fn crossings(inputs: &mut Inputs) -> Group {
    let mut g = Group::new("crossing: least over left sources");
    for round in 0..12_000 {
        let n = 2 + round / 600 + inputs.below(3);
        let m = 1 + inputs.below(3 * n);
        let graph = Graph::random(inputs, n, m, round);
        let mut rust = graph.rust();
        let mut engine = Engine::open(graph.v, &graph.a, &graph.b, &graph.weights, &graph.boundary, 12).unwrap();
        for call in 0..2 {
            if call == 1 {
                if graph.a.is_empty() {
                    break;
                }
                let length = inputs.below(5);
                let list = inputs.list(length, graph.a.len());
                engine.load_erasures(&list);
                rust.load_erasures(&wide(&list));
            }
            engine.out_weight.fill(-7);
            let r = engine.crossing();
            let mut least = vec![-1; n];
            for source in (0..n).filter(|&k| graph.boundary[k] == 1) {
                let table = rust.all_edges(source as VertexIndex);
                for k in 0..n {
                    let weight = if k == source { Some(0) } else { table.get(&(k as VertexIndex)).map(|x| x.1 as i64) };
                    if let Some(weight) = weight {
                        if least[k] < 0 || weight < least[k] {
                            least[k] = weight;
                        }
                    }
                }
            }
            let across = (0..n).filter(|&k| graph.boundary[k] == 2 && least[k] >= 0).map(|k| least[k]).min();
            let same = match across {
                None => r.number == 18 && r.count == 0 && engine.out_weight.iter().all(|&x| x == -7),
                Some(w) => r.number == 0 && r.count as i64 == w && (0..n).all(|k| engine.out_weight[k] as i64 == least[k]),
            };
            g.hold(same, || format!("{}, boundary {:?}: {r:?}, least {least:?}", graph.show(), graph.boundary));
        }
    }
    g.end()
}

#[cfg(feature = "get_path")]
fn paths(inputs: &mut Inputs, rounds: usize) -> Group {
    let mut g = Group::new("get_path");
    for round in 0..rounds {
        let graph = small_graphs(inputs, round);
        let mut rust = graph.rust();
        let mut engine = Engine::open(graph.v, &graph.a, &graph.b, &graph.weights, &graph.boundary, 4).unwrap();
        for a in 0..graph.v {
            for _ in 0..3 {
                let b = inputs.below(graph.v as usize) as u32;
                engine.path.fill(77777);
                engine.steps.fill(77777);
                let r = engine.get_path(a, b);
                let reached = a != b && rust.all_edges_with_terminate(a as VertexIndex, b as VertexIndex).contains_key(&(b as VertexIndex));
                let expected = if a == b { 16 } else if reached { 0 } else { 17 };
                let same = if expected != 0 {
                    r.number == expected && engine.path.iter().all(|&x| x == 77777)
                } else {
                    let (path, total) = rust.get_path(a as VertexIndex, b as VertexIndex);
                    let n = path.len();
                    r.number == 0
                        && r.first as usize == n
                        && r.second as Weight == total
                        && (0..n).all(|k| (engine.path[k] as VertexIndex, engine.steps[k] as Weight) == path[k])
                        && engine.path[n..].iter().all(|&x| x == 77777)
                        && engine.steps[n..].iter().all(|&x| x == 77777)
                };
                g.hold(same, || format!("{}, path {a} to {b}: {r:?}", graph.show()));
            }
        }
    }
    g.end()
}

/// every row, boundary weight and boundary vertex of a graph
#[cfg(feature = "fill_row")]
fn hold_prebuilt(g: &mut Group, graph: &Graph, engine: &mut Engine, name: &str) {
    let n = graph.v as usize;
    let mut initializer = SolverInitializer::new(graph.v as VertexNum, graph.weighted(), graph.virtual_vertices());
    for (k, edge) in initializer.weighted_edges.iter_mut().enumerate() {
        edge.2 = engine.weights[k] as Weight;
    }
    let rust = fusion::complete_graph::PrebuiltCompleteGraph::new_threaded(&initializer, 1);
    let of_rust = |v: usize| rust.get_boundary_weight(v as VertexIndex);
    engine.nearest.fill(-7);
    engine.nearest_vertex.fill(77777);
    let number = engine.fill_boundaries();
    let filled = (0..n).all(|v| (engine.nearest[v] as i64, engine.nearest_vertex[v] as VertexIndex) == of_rust(v).map_or((-1, 0), |(u, w)| (w as i64, u)));
    let past = engine.nearest[n] == -7 && engine.nearest_vertex[n] == 77777;
    g.hold(number == 0 && filled && past, || format!("{name} {}, boundary {:?}: fill_boundaries {number}", graph.show(), graph.boundary));
    for v in 0..n {
        let r = engine.get_boundary_weight(v as u32);
        let same = match of_rust(v) {
            None => (r.number, r.found, r.vertex, r.weight) == (0, 0, 0, 0),
            Some((u, w)) => r.number == 0 && r.found == 1 && r.vertex as VertexIndex == u && r.weight as Weight == w,
        };
        g.hold(same, || format!("{name} {}, boundary {:?}: boundary weight of {v}: {r:?}", graph.show(), graph.boundary));
        engine.row.fill(-7);
        let number = engine.fill_row(v as u32);
        let row = (0..n).all(|u| rust.get_edge_weight(v as VertexIndex, u as VertexIndex).map_or(-1, |w| w as i64) == engine.row[u] as i64);
        g.hold(number == 0 && row && engine.row[n] == -7, || {
            format!("{name} {}, boundary {:?}: row of {v}: {number} {:?}", graph.show(), graph.boundary, engine.row)
        });
    }
    // a number past the vertices: the Rust panics
    engine.row.fill(-7);
    let refused = engine.fill_row(graph.v) == 13 && engine.row.iter().all(|&x| x == -7) && engine.get_boundary_weight(graph.v).number == 13;
    let panicked = panics(|| rust.get_edge_weight(graph.v as VertexIndex, 0)) && panics(|| rust.get_boundary_weight(graph.v as VertexIndex));
    g.hold(refused && panicked, || format!("{name} {}: number {}", graph.show(), graph.v));
}

#[cfg(feature = "fill_row")]
fn prebuilt(inputs: &mut Inputs, rounds: usize) -> Group {
    let mut g = Group::new("PrebuiltCompleteGraph");
    for round in 0..rounds {
        let n = 2 + 20 * round / rounds + inputs.below(3);
        let m = 1 + inputs.below(3 * n);
        let graph = Graph::random(inputs, n, m, round);
        let mut engine = Engine::open(graph.v, &graph.a, &graph.b, &graph.weights, &graph.boundary, 12).unwrap();
        if round % 3 == 2 && !graph.a.is_empty() {
            let length = inputs.below(5);
            let list = inputs.list(length, graph.a.len());
            engine.load_erasures(&list);
        }
        hold_prebuilt(&mut g, &graph, &mut engine, "");
    }
    let mut columns = Columns::with_room(200, 800);
    for (kind, d, rounds) in codes_within(120) {
        if columns.create(kind, d, rounds).number != 0 {
            continue;
        }
        let (v, e) = (columns.v as usize, columns.e as usize);
        for style in 0..2 {
            let graph = Graph {
                v: columns.v,
                a: columns.a[..e].to_vec(),
                b: columns.b[..e].to_vec(),
                weights: (0..e).map(|_| [inputs.below(3) as u32, 2 * inputs.below(250_001) as u32][style]).collect(),
                boundary: columns.boundary[..v].to_vec(),
            };
            let mut engine = Engine::open(graph.v, &graph.a, &graph.b, &graph.weights, &graph.boundary, 4).unwrap();
            hold_prebuilt(&mut g, &graph, &mut engine, &format!("kind {kind}, d {d}, rounds {rounds}:"));
        }
    }
    g.end()
}

// ---- replay: a sample of the Rust's answers, for programs that run without it

fn line<T: ToString>(numbers: impl IntoIterator<Item = T>) -> String {
    let mut text: String = numbers.into_iter().map(|x| x.to_string() + " ").collect();
    text.push('\n');
    text
}

/// the numbers that crates/test_replay_engine reads, and what it is to write
fn replay_engine(inputs: &mut Inputs) -> (String, String) {
    let (mut input, mut output) = (String::new(), String::new());
    let mut cases = 0;
    for round in 0..400 {
        let n = 2 + round / 40 + inputs.below(3);
        let m = 1 + inputs.below(3 * n);
        let graph = Graph::random(inputs, n, m, round);
        let e = graph.a.len();
        if e == 0 || input.len() > 60_000 {
            continue;
        }
        cases += 1;
        let list = inputs.list(4, e);
        let values: Vec<u32> = (0..4).map(|_| [0, 1, 2, 500_000][inputs.below(4)]).collect();
        let mut rust = graph.rust();
        let mut queries: Vec<[u32; 3]> = vec![];
        output += "0 \n";
        for _ in 0..6 {
            let (source, end) = (inputs.below(n) as u32, inputs.below(n) as u32);
            let kind = [0, 1, 1, 2, 3, 4][inputs.below(6)];
            let loaded = rust.edge_modifier.has_modified_edges();
            let query = if kind < 2 { [kind, source, kind * end] } else { [kind, 0, 0] };
            queries.push(query);
            if kind < 2 {
                let table = if kind == 0 {
                    rust.all_edges(source as VertexIndex)
                } else {
                    rust.all_edges_with_terminate(source as VertexIndex, end as VertexIndex)
                };
                let entry = |k: usize| if k as u32 == source { Some((source as VertexIndex, 0)) } else { table.get(&(k as VertexIndex)).copied() };
                output += "0 \n";
                output += &line((0..n).map(|k| entry(k).map_or("-".to_string(), |x| x.1.to_string())));
                output += &line((0..n).map(|k| entry(k).map_or(0, |x| x.0)));
                continue;
            }
            let refused = kind < 4 && loaded;
            match kind {
                2 if !refused => rust.load_erasures(&wide(&list)),
                3 if !refused => rust.load_dynamic_weights(&list.iter().zip(&values).map(|(&k, &w)| (k as EdgeIndex, w as Weight)).collect::<Vec<_>>()),
                4 => rust.reset(),
                _ => {}
            }
            // document 01: a load needs an empty log, where the Rust panics
            output += if refused { "12 \n" } else { "0 \n" };
            output += &line(rust.weighted_edges.iter().map(|x| x.2));
        }
        input += &line([n, e, queries.len()]);
        for column in [&graph.a, &graph.b, &graph.weights] {
            input += &line(column);
        }
        input += &line(&graph.boundary);
        input += &line(&list);
        input += &line(&values);
        input += &line(queries.iter().flatten());
    }
    // six cases that are not the Rust's: document 01's examples on the listing's graph, and refusals on graphs like it
    input += include_str!("examples/stdin");
    output += include_str!("examples/stdout");
    (line([cases + 6]) + &input, output)
}

/// the numbers that crates/test_replay_codes reads, and what it is to write
fn replay_codes(inputs: &mut Inputs) -> (String, String) {
    let (mut input, mut output) = (String::new(), String::new());
    let mut cases = 0;
    let all = [(1, 3, 0), (1, 7, 0), (1, 61, 0), (5, 3, 0), (5, 5, 0), (5, 7, 0), (2, 3, 0), (2, 5, 0), (2, 7, 0), (6, 3, 1), (6, 3, 2), (1, 23, 0), (3, 3, 1), (3, 3, 4), (4, 3, 1), (4, 3, 3)];
    for round in 0..10 {
        for &(kind, d, rounds) in &all {
            let (vertices, edges) = rust_code(kind, d, rounds);
            let mut code = Code { vertices, edges };
            let (v, e) = (code.vertices.len(), code.edges.len());
            let seed = if round < 3 { [0, 1, u64::MAX][round] } else { inputs.word() };
            let (p, pe) = (inputs.below(5), inputs.below(5));
            let table = [0., 0.5, 0.1, 0.25, 0.01];
            let list = inputs.list(4, e);
            cases += 1;
            input += &line([kind as u64, d as u64, rounds as u64, seed, p as u64, pe as u64]);
            input += &line(&list);
            let order = inputs.order(24);
            input += &line(&order);
            let fresh = code.clone();
            code.set_probability(table[p]);
            code.set_erasure_probability(table[pe]);
            output += &format!("{v} {e} \n");
            let sampled = code.generate_random_errors(seed);
            output += &(line(&sampled.defect_vertices) + &line(&sampled.erasures));
            // errors where every vertex is a defect
            let mut code = fresh.clone();
            code.set_defect_vertices(&(0..v).map(|k| k as VertexIndex).collect::<Vec<_>>());
            let flipped = code.generate_errors(&wide(&list));
            output += &(line(&flipped.defect_vertices) + &line(&flipped.erasures));
            output += &line(code.get_initializer().syndrome_of(&wide(&list)));
            // document 01: an order of another length is refused, where the Rust panics
            let mut code = fresh;
            let mut boundary: Vec<u8> = (0..v).map(|k| boundary_byte(kind, d, k as u32)).collect();
            if v == 24 {
                code.reorder_vertices(&wide(&order));
                boundary = order.iter().map(|&k| boundary[k as usize]).collect();
            }
            output += if v == 24 { "0 \n" } else { "11 \n" };
            output += &line(code.edges.iter().map(|x| x.vertices.0));
            output += &line(code.edges.iter().map(|x| x.vertices.1));
            // left and right are document 01's; virtual or not is the Rust's
            assert!((0..v).all(|k| (boundary[k] != 0) == code.vertices[k].is_virtual));
            output += &line(&boundary);
            output += &line(code.vertices.iter().map(|x| x.neighbor_edges.len()));
            output += &line(code.vertices.iter().flat_map(|x| x.neighbor_edges.clone()));
        }
    }
    (line([cases]) + &input, output)
}

fn replay(crates: &str) {
    let mut inputs = Inputs(7);
    for (name, (input, output)) in [("test_replay_engine", replay_engine(&mut inputs)), ("test_replay_codes", replay_codes(&mut inputs))] {
        assert!(input.len() < 65_536, "{name}: too long for the program's buffer");
        std::fs::write(format!("{crates}/{name}/stdin"), &input).unwrap();
        std::fs::write(format!("{crates}/{name}/stdout"), &output).unwrap();
        println!("{name}: {} bytes of cases, {} bytes of answers", input.len(), output.len());
    }
}

fn main() {
    let started = Instant::now();
    std::panic::set_hook(Box::new(|_| {}));
    let arguments: Vec<String> = std::env::args().collect();
    let control = arguments.iter().any(|x| x == "control");
    if let Some(at) = arguments.iter().position(|x| x == "replay") {
        return replay(&arguments[at + 1]);
    }
    let mut inputs = Inputs(20_260_712);
    if control {
        let mut found = vec![tables(&mut inputs, 600), loads(&mut inputs, false), sampling(&mut inputs), errors(&mut inputs)];
        #[cfg(feature = "fill_row")]
        found.push(prebuilt(&mut inputs, 300));
        let all = found.iter().all(|g| g.differ > 0);
        println!("control{}", if all { format!(": each of {} known errors was found", found.len()) } else { " FAILED: a known error was not found".to_string() });
        std::process::exit(i32::from(!all));
    }
    let mut groups = vec![codes(), refused_codes(), weights(&mut inputs), single_weights(&mut inputs)];
    #[cfg(feature = "new")]
    groups.push(new_codes(&mut inputs));
    groups.push(sampling(&mut inputs));
    groups.push(errors(&mut inputs));
    groups.push(access(&mut inputs));
    groups.push(panics_access(&mut inputs));
    groups.push(syndromes(&mut inputs));
    groups.push(filling(&mut inputs));
    let (g, seen) = sanity(&mut inputs);
    println!("    verdicts 0 to 4: {seen:?}");
    groups.push(g);
    groups.push(reordering(&mut inputs));
    groups.push(orders(&mut inputs));
    let g = tables(&mut inputs, 6000);
    let mut queries = g.compared;
    groups.push(g);
    let g = code_tables(&mut inputs);
    queries += g.compared;
    groups.push(g);
    groups.push(loads(&mut inputs, true));
    #[cfg(feature = "crossing")]
    groups.push(crossings(&mut inputs));
    #[cfg(feature = "get_path")]
    {
        let g = paths(&mut inputs, 4000);
        queries += g.compared;
        groups.push(g);
    }
    #[cfg(feature = "fill_row")]
    groups.push(prebuilt(&mut inputs, 6000));
    let compared: u64 = groups.iter().map(|g| g.compared).sum();
    let differ: u64 = groups.iter().map(|g| g.differ).sum();
    println!(
        "total: {compared} compared, {differ} differ; {queries} table and path queries; {:.1} s",
        started.elapsed().as_secs_f64()
    );
    std::process::exit(i32::from(differ > 0));
}
