//! Which machine the Rust may run on, and by which of its vector kinds.
//!
//! `detect` times its candidates, so that its choice is chance, unless the
//! variable MAGNETAR_SIMD names a kind; it then tests nothing. Here the kind is
//! chosen by what the processor has, and the variable is set accordingly.

pub use magnetar_field::avx::SimdKind;

const VARIABLE: &str = "MAGNETAR_SIMD";

/// Fixes the vector kind; to be called before any other thread is started.
/// A kind named in MAGNETAR_SIMD is kept if this processor can run it.
pub fn start() -> Result<SimdKind, String> {
    if !magnetar_field::gf128::oracle_fast_path_available() {
        return Err("PCLMULQDQ is missing: the portable product loses its upper half".into());
    }
    let name = choose(std::env::var(VARIABLE).ok().as_deref())?;
    std::env::set_var(VARIABLE, name);
    match magnetar_field::avx::detect() {
        SimdKind::Scalar => Err("detect picked the scalar kind: its axpy_run adds nothing".into()),
        kind => Ok(kind),
    }
}

/// The kind to run: the one asked for, else the widest that the processor has.
fn choose(asked: Option<&str>) -> Result<&'static str, String> {
    match asked {
        Some("avx512") if has_avx512() => Ok("avx512"),
        Some("avx2") if has_avx2() => Ok("avx2"),
        Some(kind @ ("avx512" | "avx2")) => Err(format!("this processor cannot run kind {kind}")),
        Some("scalar") => Err("kind scalar was asked for: its axpy_run adds nothing".into()),
        _ if has_avx512() => Ok("avx512"),
        _ if has_avx2() => Ok("avx2"),
        _ => Err("this processor has no vector kind: the scalar axpy_run adds nothing".into()),
    }
}

fn has_avx512() -> bool {
    std::is_x86_feature_detected!("avx512f") && std::is_x86_feature_detected!("vpclmulqdq")
}

/// The Avx2 kind executes VPCLMULQDQ, which `detect` does not test for.
fn has_avx2() -> bool {
    std::is_x86_feature_detected!("avx2") && std::is_x86_feature_detected!("vpclmulqdq")
}

/// The kind's name, as MAGNETAR_SIMD has it.
pub fn name(kind: SimdKind) -> &'static str {
    match kind {
        SimdKind::Avx512 => "avx512",
        SimdKind::Avx2 => "avx2",
        SimdKind::Scalar => "scalar",
    }
}
