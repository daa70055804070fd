//! Answers commands about the unchanged Rust library, one line each (see README.md, "Asking the Rust"). A call that panics answers `panics`.
use fusion::complete_graph::{CompleteGraph, PrebuiltCompleteGraph};
use fusion::example_codes::*;
use fusion::util::*;
use std::io::BufRead;
use std::panic::{catch_unwind, AssertUnwindSafe};

type Code = CodeCapacityRepetitionCode;

/// a code of any kind, with the vertices and edges of that kind
fn create_code(kind: usize, d: VertexNum, rounds: VertexNum) -> Code {
    macro_rules! parts {
        ($code:expr) => {{
            let code = $code;
            Code { vertices: code.vertices, edges: code.edges }
        }};
    }
    match kind {
        1 => CodeCapacityRepetitionCode::create_code(d),
        2 => parts!(CodeCapacityPlanarCode::create_code(d)),
        3 => parts!(PhenomenologicalPlanarCode::create_code(d, rounds)),
        4 => parts!(CircuitLevelPlanarCode::create_code(d, rounds)),
        5 => parts!(CodeCapacityRotatedCode::create_code(d)),
        6 => parts!(PhenomenologicalRotatedCode::create_code(d, rounds)),
        _ => panic!("kind"),
    }
}

fn line<T: ToString>(numbers: impl IntoIterator<Item = T>) -> String {
    numbers.into_iter().map(|x| x.to_string()).collect::<Vec<_>>().join(" ")
}

/// what the commands speak of: the last code, the last graph
#[derive(Default)]
struct Asked {
    code: Option<Code>,
    graph: Option<CompleteGraph>,
    initializer: Option<SolverInitializer>,
}

impl Asked {
    fn code(&mut self) -> &mut Code {
        self.code.as_mut().expect("no code")
    }
    fn graph(&mut self) -> &mut CompleteGraph {
        self.graph.as_mut().expect("no graph")
    }
    fn prebuilt(&self) -> PrebuiltCompleteGraph {
        PrebuiltCompleteGraph::new_threaded(self.initializer.as_ref().expect("no graph"), 1)
    }
    fn open(&mut self, initializer: SolverInitializer) -> String {
        self.graph = Some(CompleteGraph::new(initializer.vertex_num, &initializer.weighted_edges));
        let answer = format!("{} {}", initializer.vertex_num, initializer.weighted_edges.len());
        self.initializer = Some(initializer);
        answer
    }
    fn answer(&mut self, command: &str, words: &[&str]) -> String {
        let n: Vec<usize> = words.iter().filter_map(|x| x.parse().ok()).collect();
        let f: Vec<f64> = words.iter().filter_map(|x| x.parse().ok()).collect();
        match command {
            "code" => {
                let code = create_code(n[0], n[1], n[2]);
                let answer = format!("{} {}", code.vertices.len(), code.edges.len());
                self.code = Some(code);
                answer
            }
            "edges" => line(self.code().edges.iter().flat_map(|x| [x.vertices.0, x.vertices.1])),
            "virtual" => line((0..self.code().vertices.len()).filter(|&v| self.code.as_ref().unwrap().is_virtual(v as VertexIndex))),
            "neighbours" => line(self.code().vertices[n[0]].neighbor_edges.iter()),
            "probability" => {
                self.code().set_probability(f[0]);
                "set".to_string()
            }
            "erasure_probability" => {
                self.code().set_erasure_probability(f[0]);
                "set".to_string()
            }
            "weights" => {
                self.code().compute_weights(n[0] as Weight);
                line(self.code().edges.iter().map(|x| x.half_weight))
            }
            "sample" => {
                let s = self.code().generate_random_errors(n[0] as u64);
                format!("{};{}", line(s.defect_vertices), line(s.erasures))
            }
            "errors" => {
                let s = self.code().generate_errors(&n.iter().map(|&x| x as EdgeIndex).collect::<Vec<_>>());
                format!("{};{}", line(s.defect_vertices), line(s.erasures))
            }
            "sanity" => self.code().sanity_check().map_or_else(|message| message, |()| "sound".to_string()),
            "open" => {
                let initializer = self.code().get_initializer();
                self.open(initializer)
            }
            // vertices, then first end, second end and weight of each edge, then the virtual vertices after a bar
            "graph" => {
                let bar = words.iter().position(|&x| x == "|").unwrap_or(words.len());
                let edges = words[1..bar].chunks(3).map(|x| (x[0].parse().unwrap(), x[1].parse().unwrap(), x[2].parse().unwrap())).collect();
                let boundary = words[bar..].iter().filter_map(|x| x.parse().ok()).collect();
                self.open(SolverInitializer::new(n[0] as VertexNum, edges, boundary))
            }
            "table" => {
                let table = match n.len() {
                    1 => self.graph().all_edges(n[0] as VertexIndex),
                    _ => self.graph().all_edges_with_terminate(n[0] as VertexIndex, n[1] as VertexIndex),
                };
                table.iter().map(|(v, (previous, weight))| format!("{v}:{weight}<{previous}")).collect::<Vec<_>>().join(" ")
            }
            "path" => {
                let (path, total) = self.graph().get_path(n[0] as VertexIndex, n[1] as VertexIndex);
                format!("{total};{}", path.iter().map(|(v, step)| format!("{v}:{step}")).collect::<Vec<_>>().join(" "))
            }
            "erase" => {
                self.graph().load_erasures(&n.iter().map(|&x| x as EdgeIndex).collect::<Vec<_>>());
                "loaded".to_string()
            }
            "load" => {
                let list: Vec<_> = n.chunks(2).map(|x| (x[0] as EdgeIndex, x[1] as Weight)).collect();
                self.graph().load_dynamic_weights(&list);
                "loaded".to_string()
            }
            "reset" => {
                self.graph().reset();
                "reset".to_string()
            }
            "edge" => self.prebuilt().get_edge_weight(n[0] as VertexIndex, n[1] as VertexIndex).map_or("none".to_string(), |w| w.to_string()),
            "boundary" => self.prebuilt().get_boundary_weight(n[0] as VertexIndex).map_or("none".to_string(), |(v, w)| format!("{v} {w}")),
            _ => "no such command".to_string(),
        }
    }
}

fn main() {
    std::panic::set_hook(Box::new(|_| {}));
    let mut asked = Asked::default();
    for text in std::io::stdin().lock().lines() {
        let text = text.expect("standard input");
        let words: Vec<&str> = text.split_whitespace().collect();
        let Some((command, rest)) = words.split_first() else { continue };
        let answer = catch_unwind(AssertUnwindSafe(|| asked.answer(command, rest)));
        println!("{}", answer.unwrap_or_else(|_| "panics".to_string()));
    }
}
