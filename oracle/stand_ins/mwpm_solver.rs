//! Stand-in for the one item of mwpm_solver.rs that util.rs names. Nothing here calls it.
pub trait PrimalDualSolver {
    fn generate_profiler_report(&self) -> serde_json::Value;
}
