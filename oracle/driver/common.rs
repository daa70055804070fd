//! What the comparison and the benchmark share: columns for our side, codes and graphs for the Rust's, a generator of test inputs.
use crate::ours;
use fusion::example_codes::*;
use fusion::util::*;
use fusion::visualize::VisualizePosition;

pub const VERTEX_ROOM: usize = 4096 + 3;
pub const EDGE_ROOM: usize = 32768 + 5;

/// SplitMix64, for test inputs alone
pub struct Inputs(pub u64);

impl Inputs {
    pub fn word(&mut self) -> u64 {
        self.0 = self.0.wrapping_add(0x9e3779b97f4a7c15);
        let mut z = self.0;
        z = (z ^ (z >> 30)).wrapping_mul(0xbf58476d1ce4e5b9);
        z = (z ^ (z >> 27)).wrapping_mul(0x94d049bb133111eb);
        z ^ (z >> 31)
    }
    pub fn below(&mut self, n: usize) -> usize {
        (self.word() % n as u64) as usize
    }
    pub fn unit(&mut self) -> f64 {
        (self.word() >> 11) as f64 / (1u64 << 53) as f64
    }
    pub fn list(&mut self, length: usize, below: usize) -> Vec<u32> {
        (0..length).map(|_| self.below(below) as u32).collect()
    }
    pub fn order(&mut self, n: usize) -> Vec<u32> {
        let mut order: Vec<u32> = (0..n as u32).collect();
        for i in (1..n).rev() {
            order.swap(i, self.below(i + 1));
        }
        order
    }
    /// a probability that question 9 accepts
    pub fn probability(&mut self) -> f64 {
        match self.below(8) {
            0 => 0.5,
            1 => 0.,
            2 => 2f64.powi(-40),
            3 | 4 => 0.5 * self.unit().max(1e-11),
            _ => 2f64.powf(-1. - 38.9 * self.unit()),
        }
    }
}

pub fn wide(list: &[u32]) -> Vec<usize> {
    list.iter().map(|&x| x as usize).collect()
}

/// a byte that says yes: any but 0
pub fn yes(k: u32) -> u8 {
    [1, 2, 128, 255][k as usize % 4]
}

/// the columns of a code on our side
#[derive(Clone)]
pub struct Columns {
    pub v: u32,
    pub e: u32,
    pub a: Vec<u32>,
    pub b: Vec<u32>,
    pub p: Vec<f64>,
    pub pe: Vec<f64>,
    pub half_weight: Vec<u32>,
    pub erasure: Vec<u8>,
    pub i: Vec<f64>,
    pub j: Vec<f64>,
    pub t: Vec<f64>,
    pub boundary: Vec<u8>,
    pub defect: Vec<u8>,
    pub lengths: Vec<u32>,
    pub numbers: Vec<u32>,
}

impl Columns {
    /// columns with room for every code, each place holding a mark
    pub fn blank() -> Self {
        Self::with_room(VERTEX_ROOM, EDGE_ROOM)
    }
    pub fn with_room(v: usize, e: usize) -> Self {
        Self {
            v: 0,
            e: 0,
            a: vec![77777; e],
            b: vec![77777; e],
            p: vec![7.; e],
            pe: vec![7.; e],
            half_weight: vec![777777; e],
            erasure: vec![7; e],
            i: vec![7.; v],
            j: vec![7.; v],
            t: vec![7.; v],
            boundary: vec![7; v],
            defect: vec![7; v],
            lengths: vec![77777; v],
            numbers: vec![77777; 2 * e],
        }
    }
    pub fn create(&mut self, kind: u32, d: u32, rounds: u32) -> ours::TwoCounts {
        let r = ours::create_code(
            kind,
            d,
            rounds,
            &mut self.a,
            &mut self.b,
            &mut self.p,
            &mut self.pe,
            &mut self.half_weight,
            &mut self.erasure,
            &mut self.i,
            &mut self.j,
            &mut self.t,
            &mut self.boundary,
            &mut self.defect,
            &mut self.lengths,
            &mut self.numbers,
        );
        if r.number == 0 {
            self.v = r.first;
            self.e = r.second;
        }
        r
    }
    #[cfg(feature = "new")]
    pub fn new_code(&mut self, kind: u32, d: u32, rounds: u32, p: f64, max_half_weight: u32) -> ours::TwoCounts {
        let r = ours::new(
            kind,
            d,
            rounds,
            p,
            max_half_weight,
            &mut self.a,
            &mut self.b,
            &mut self.p,
            &mut self.pe,
            &mut self.half_weight,
            &mut self.erasure,
            &mut self.i,
            &mut self.j,
            &mut self.t,
            &mut self.boundary,
            &mut self.defect,
            &mut self.lengths,
            &mut self.numbers,
        );
        (self.v, self.e) = (r.first, r.second);
        r
    }
    #[cfg(feature = "new")]
    pub fn new_diagonal(&mut self, d: u32, rounds: u32, p: f64, max_half_weight: u32, diagonal: Option<f64>) -> ours::TwoCounts {
        let r = ours::new_diagonal(
            d,
            rounds,
            p,
            max_half_weight,
            diagonal.map_or(0, |_| yes(rounds)),
            diagonal.unwrap_or(0.),
            &mut self.a,
            &mut self.b,
            &mut self.p,
            &mut self.pe,
            &mut self.half_weight,
            &mut self.erasure,
            &mut self.i,
            &mut self.j,
            &mut self.t,
            &mut self.boundary,
            &mut self.defect,
            &mut self.lengths,
            &mut self.numbers,
        );
        (self.v, self.e) = (r.first, r.second);
        r
    }
    /// the same columns as a code of the Rust's
    pub fn code(&self) -> Code {
        let (v, e) = (self.v as usize, self.e as usize);
        let mut at = 0;
        let vertices = (0..v)
            .map(|k| {
                let n = self.lengths[k] as usize;
                at += n;
                CodeVertex {
                    position: VisualizePosition::new(self.i[k], self.j[k], self.t[k]),
                    neighbor_edges: self.numbers[at - n..at].iter().map(|&x| x as EdgeIndex).collect(),
                    is_virtual: self.boundary[k] != 0,
                    is_defect: self.defect[k] != 0,
                }
            })
            .collect();
        let edges = (0..e)
            .map(|k| CodeEdge {
                vertices: (self.a[k] as VertexIndex, self.b[k] as VertexIndex),
                p: self.p[k],
                pe: self.pe[k],
                half_weight: self.half_weight[k] as fusion::util::Weight,
                is_erasure: self.erasure[k] != 0,
            })
            .collect();
        Code { vertices, edges }
    }
    /// the first difference to a code of the Rust's, boundary bytes as virtual or not
    pub fn differs(&self, vertices: &[CodeVertex], edges: &[CodeEdge]) -> Option<String> {
        let (v, e) = (self.v as usize, self.e as usize);
        if v != vertices.len() || e != edges.len() {
            return Some(format!("{v} vertices and {e} edges here, {} and {} there", vertices.len(), edges.len()));
        }
        let mut at = 0;
        for (k, x) in vertices.iter().enumerate() {
            let n = self.lengths[k] as usize;
            let bits = [self.i[k], self.j[k], self.t[k]].map(f64::to_bits) == [x.position.i, x.position.j, x.position.t].map(f64::to_bits);
            let list = n == x.neighbor_edges.len() && (0..n).all(|m| self.numbers[at + m] as EdgeIndex == x.neighbor_edges[m]);
            if !bits || !list || (self.boundary[k] != 0) != x.is_virtual || (self.defect[k] != 0) != x.is_defect || self.defect[k] > 1 {
                return Some(format!("vertex {k}"));
            }
            at += n;
        }
        for (k, x) in edges.iter().enumerate() {
            let ends = (self.a[k] as VertexIndex, self.b[k] as VertexIndex) == x.vertices;
            let bits = [self.p[k], self.pe[k]].map(f64::to_bits) == [x.p, x.pe].map(f64::to_bits);
            let half = self.half_weight[k] as fusion::util::Weight == x.half_weight;
            if !ends || !bits || !half || (self.erasure[k] != 0) != x.is_erasure || self.erasure[k] > 1 {
                return Some(format!("edge {k}"));
            }
        }
        None
    }
}

/// the code type of the Rust's whose vertices and edges are set by hand
pub type Code = CodeCapacityRepetitionCode;

pub fn rust_code(kind: u32, d: u32, rounds: u32) -> (Vec<CodeVertex>, Vec<CodeEdge>) {
    let (d, r) = (d as VertexNum, rounds as VertexNum);
    macro_rules! parts {
        ($code:expr) => {{
            let code = $code;
            (code.vertices, code.edges)
        }};
    }
    match kind {
        1 => parts!(CodeCapacityRepetitionCode::create_code(d)),
        2 => parts!(CodeCapacityPlanarCode::create_code(d)),
        3 => parts!(PhenomenologicalPlanarCode::create_code(d, r)),
        4 => parts!(CircuitLevelPlanarCode::create_code(d, r)),
        5 => parts!(CodeCapacityRotatedCode::create_code(d)),
        _ => parts!(PhenomenologicalRotatedCode::create_code(d, r)),
    }
}

pub fn vertices_of(kind: u32, d: u64, rounds: u64) -> u64 {
    match kind {
        1 => d + 1,
        2 | 3 | 4 => d * (d + 1) * (rounds + 1),
        _ => d.div_ceil(2) * (d + 1) * (rounds + 1),
    }
}

/// every kind, d and rounds that fit in `most` vertices
pub fn codes_within(most: u64) -> Vec<(u32, u32, u32)> {
    let mut all = vec![];
    for kind in 1..=6 {
        for d in (3..=4095).step_by(2) {
            for rounds in 0..=4095 {
                let flat = matches!(kind, 1 | 2 | 5);
                if vertices_of(kind, d, rounds) > most || (flat && rounds > 0) {
                    break;
                }
                all.push((kind, d as u32, rounds as u32));
            }
        }
    }
    all
}

/// an engine graph on our side, with its log and scratch
#[derive(Clone)]
pub struct Engine {
    pub v: u32,
    pub e: u32,
    pub entries: usize,
    pub a: Vec<u32>,
    pub b: Vec<u32>,
    pub weights: Vec<u32>,
    pub boundary: Vec<u8>,
    pub log_edges: Vec<u32>,
    pub log_weights: Vec<u32>,
    pub out_weight: Vec<i32>,
    pub out_previous: Vec<u32>,
    pub numbers: Vec<u32>,
    pub list_ends: Vec<u32>,
    pub status: Vec<u8>,
    pub weight: Vec<u32>,
    pub previous: Vec<u32>,
    pub node: Vec<u64>,
    pub leaf: Vec<u64>,
    /// the vertices and steps of a path
    #[allow(dead_code)]
    pub path: Vec<u32>,
    #[allow(dead_code)]
    pub steps: Vec<u32>,
    /// boundary weights and vertices, and a row, with a place past the vertices
    pub nearest: Vec<i32>,
    pub nearest_vertex: Vec<u32>,
    pub row: Vec<i32>,
}

impl Engine {
    pub fn open(v: u32, a: &[u32], b: &[u32], weights: &[u32], boundary: &[u8], log_room: usize) -> Result<Self, u32> {
        let (n, e) = (v as usize, a.len());
        let mut s = Self {
            v,
            e: e as u32,
            entries: 0,
            a: vec![0; e],
            b: vec![0; e],
            weights: vec![0; e],
            boundary: vec![0; n],
            log_edges: vec![0; log_room],
            log_weights: vec![0; log_room],
            out_weight: vec![-7; n],
            out_previous: vec![77777; n],
            numbers: vec![0; 2 * e],
            list_ends: vec![0; n],
            status: vec![0; n],
            weight: vec![0; n],
            previous: vec![0; n],
            node: vec![0; n],
            leaf: vec![0; n],
            path: vec![77777; n],
            steps: vec![77777; n],
            nearest: vec![-7; n + 1],
            nearest_vertex: vec![77777; n + 1],
            row: vec![-7; n + 1],
        };
        let r = ours::open(v, e as u32, a, b, weights, boundary, &mut s.a, &mut s.b, &mut s.weights, &mut s.boundary);
        if r.number == 0 {
            Ok(s)
        } else {
            Err(r.number)
        }
    }
    fn after(&mut self, r: ours::EngineReport) -> u32 {
        if r.number == 0 {
            self.entries = r.entries;
        }
        r.number
    }
    pub fn load_erasures(&mut self, list: &[u32]) -> u32 {
        let r = ours::load_erasures(
            self.v,
            self.e,
            self.entries,
            &self.a,
            &self.b,
            &mut self.weights,
            &self.boundary,
            &mut self.log_edges,
            &mut self.log_weights,
            list,
        );
        self.after(r)
    }
    pub fn load_dynamic_weights(&mut self, list: &[u32], values: &[u32]) -> u32 {
        let r = ours::load_dynamic_weights(
            self.v,
            self.e,
            self.entries,
            &self.a,
            &self.b,
            &mut self.weights,
            &self.boundary,
            &mut self.log_edges,
            &mut self.log_weights,
            list,
            values,
        );
        self.after(r)
    }
    pub fn reset(&mut self) -> u32 {
        let r = ours::reset(
            self.v,
            self.e,
            self.entries,
            &self.a,
            &self.b,
            &mut self.weights,
            &self.boundary,
            &self.log_edges,
            &self.log_weights,
        );
        self.after(r)
    }
    pub fn table(&mut self, source: u32, end: Option<u32>) -> u32 {
        ours::all_edges_with_terminate(
            self.v,
            self.e,
            self.entries,
            &self.a,
            &self.b,
            &self.weights,
            &self.boundary,
            &self.log_edges,
            &self.log_weights,
            source,
            end.map_or(0, |_| yes(source)),
            end.unwrap_or(0),
            &mut self.out_weight,
            &mut self.out_previous,
            &mut self.numbers,
            &mut self.list_ends,
            &mut self.status,
            &mut self.weight,
            &mut self.previous,
            &mut self.node,
            &mut self.leaf,
        )
    }
    pub fn all_edges(&mut self, source: u32) -> u32 {
        ours::all_edges(
            self.v,
            self.e,
            self.entries,
            &self.a,
            &self.b,
            &self.weights,
            &self.boundary,
            &self.log_edges,
            &self.log_weights,
            source,
            &mut self.out_weight,
            &mut self.out_previous,
            &mut self.numbers,
            &mut self.list_ends,
            &mut self.status,
            &mut self.weight,
            &mut self.previous,
            &mut self.node,
            &mut self.leaf,
        )
    }
    #[cfg(feature = "get_path")]
    pub fn get_path(&mut self, a: u32, b: u32) -> ours::TwoCounts {
        ours::get_path(
            self.v,
            self.e,
            self.entries,
            &self.a,
            &self.b,
            &self.weights,
            &self.boundary,
            &self.log_edges,
            &self.log_weights,
            a,
            b,
            &mut self.path,
            &mut self.steps,
            &mut self.numbers,
            &mut self.list_ends,
            &mut self.status,
            &mut self.weight,
            &mut self.previous,
            &mut self.node,
            &mut self.leaf,
        )
    }
    #[cfg(feature = "crossing")]
    pub fn crossing(&mut self) -> ours::OneCount {
        ours::crossing(
            self.v,
            self.e,
            self.entries,
            &self.a,
            &self.b,
            &self.weights,
            &self.boundary,
            &self.log_edges,
            &self.log_weights,
            &mut self.out_weight,
            &mut self.numbers,
            &mut self.list_ends,
            &mut self.status,
            &mut self.weight,
            &mut self.previous,
            &mut self.node,
            &mut self.leaf,
        )
    }
    #[cfg(feature = "fill_row")]
    pub fn fill_boundaries(&mut self) -> u32 {
        ours::fill_boundaries(
            self.v,
            self.e,
            self.entries,
            &self.a,
            &self.b,
            &self.weights,
            &self.boundary,
            &self.log_edges,
            &self.log_weights,
            &mut self.nearest,
            &mut self.nearest_vertex,
            &mut self.out_weight,
            &mut self.out_previous,
            &mut self.numbers,
            &mut self.list_ends,
            &mut self.status,
            &mut self.weight,
            &mut self.previous,
            &mut self.node,
            &mut self.leaf,
        )
    }
    /// the row of a vertex by the boundary weights that stand in the column
    #[cfg(feature = "fill_row")]
    pub fn fill_row(&mut self, vertex: u32) -> u32 {
        ours::fill_row(
            self.v,
            self.e,
            self.entries,
            &self.a,
            &self.b,
            &self.weights,
            &self.boundary,
            &self.log_edges,
            &self.log_weights,
            vertex,
            &self.nearest,
            &mut self.row,
            &mut self.out_previous,
            &mut self.numbers,
            &mut self.list_ends,
            &mut self.status,
            &mut self.weight,
            &mut self.previous,
            &mut self.node,
            &mut self.leaf,
        )
    }
    #[cfg(feature = "fill_row")]
    pub fn get_boundary_weight(&mut self, vertex: u32) -> ours::BoundaryReport {
        ours::get_boundary_weight(
            self.v,
            self.e,
            self.entries,
            &self.a,
            &self.b,
            &self.weights,
            &self.boundary,
            &self.log_edges,
            &self.log_weights,
            vertex,
            &mut self.out_weight,
            &mut self.out_previous,
            &mut self.numbers,
            &mut self.list_ends,
            &mut self.status,
            &mut self.weight,
            &mut self.previous,
            &mut self.node,
            &mut self.leaf,
        )
    }
}

/// a random sound graph: n vertices, about m edges, no loop and no pair twice
pub struct Graph {
    pub v: u32,
    pub a: Vec<u32>,
    pub b: Vec<u32>,
    pub weights: Vec<u32>,
    pub boundary: Vec<u8>,
}

impl Graph {
    pub fn random(inputs: &mut Inputs, n: usize, m: usize, style: usize) -> Self {
        let mut seen = std::collections::HashSet::new();
        let (mut a, mut b, mut weights) = (vec![], vec![], vec![]);
        for _ in 0..m {
            let x = inputs.below(n) as u32;
            let y = if style % 2 == 0 { inputs.below(n) } else { (x as usize + 1 + inputs.below(4)) % n } as u32;
            if x == y || !seen.insert((x.min(y), x.max(y))) {
                continue;
            }
            a.push(x);
            b.push(y);
            weights.push(match style / 2 % 5 {
                0 => 0,
                1 => inputs.below(2) as u32,
                2 => inputs.below(4) as u32,
                3 => 2 * inputs.below(250_001) as u32,
                _ => [0, 1, 1, 2, 500_000][inputs.below(5)],
            });
        }
        let boundary = (0..n).map(|_| [0u8, 0, 0, 1, 2][inputs.below(5)]).collect();
        Self { v: n as u32, a, b, weights, boundary }
    }
    pub fn rust(&self) -> fusion::complete_graph::CompleteGraph {
        fusion::complete_graph::CompleteGraph::new(self.v as VertexNum, &self.weighted())
    }
    pub fn weighted(&self) -> Vec<(VertexIndex, VertexIndex, fusion::util::Weight)> {
        (0..self.a.len())
            .map(|k| (self.a[k] as VertexIndex, self.b[k] as VertexIndex, self.weights[k] as fusion::util::Weight))
            .collect()
    }
    pub fn virtual_vertices(&self) -> Vec<VertexIndex> {
        (0..self.v as usize).filter(|&k| self.boundary[k] != 0).map(|k| k as VertexIndex).collect()
    }
    pub fn show(&self) -> String {
        let edges: Vec<_> = (0..self.a.len()).map(|k| format!("({},{};{})", self.a[k], self.b[k], self.weights[k])).collect();
        format!("{} vertices, edges with weights {}", self.v, edges.join(" "))
    }
}
