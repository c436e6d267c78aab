// Copies the customer's Rust as its own build script does, and leaves one call out: that of the lists at the end of the build.
use std::{env, fs, path::PathBuf};

mod whole {
    include!("../../target/customer/oracle/ferreus_bbfmm/build.rs");

    pub fn copy() {
        main()
    }
}

const NO_LISTS: &str = "
fn no_lists(
    _: &HashSet<u64>,
    _: &HashSet<u64>,
    _: &HashMap<u64, Vec<u64>>,
    _: &HashMap<u64, Vec<usize>>,
    _: &[f64],
    _: f64,
    _: &Dimensions,
) -> (HashMap<u64, Vec<u64>>, HashMap<u64, Vec<u64>>, HashMap<u64, usize>) {
    Default::default()
}
";

fn main() {
    if env::var_os("ORACLE_SRC").is_none() {
        let oracle = fs::canonicalize("../../target/customer/oracle").expect("the customer's Rust");
        // SAFETY: this program has one thread.
        unsafe { env::set_var("ORACLE_SRC", oracle.join("../docs/src/ferreus_bbfmm/src")) };
    }
    whole::copy();
    let file = PathBuf::from(env::var("OUT_DIR").unwrap()).join("linear_tree.rs");
    let text = fs::read_to_string(&file).unwrap();
    let call = "= get_interaction_lists(";
    assert_eq!(text.matches(call).count(), 1, "one call of the lists in the build");
    fs::write(&file, text.replace(call, "= no_lists(") + NO_LISTS).unwrap();
}
