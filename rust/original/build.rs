//! Lays the files of the original beside the stand-ins for what they lean on, in OUT_DIR, and names
//! them as modules. The folder of the original is `NLL_ORIGINAL`, or `shared/docs/src` beside the
//! repository. The files are not changed, with one exception: see `ANSWER_AT_ACTION_0`.

use std::env;
use std::fs;
use std::path::{Path, PathBuf};

/// The files of the original.
const ORIGINAL: [&'static str; 11] = [
    "nll/src/regionck.rs",
    "nll/src/borrowck.rs",
    "nll/src/liveness.rs",
    "nll/src/loans_in_scope.rs",
    "nll/src/infer.rs",
    "nll/src/env.rs",
    "nll/src/region.rs",
    "nll/src/graph.rs",
    "nll-repr/src/repr/mod.rs",
    "graph-algorithms/src/lib.rs",
    "graph-algorithms/src/bit_set/mod.rs",
];

/// Our stand-ins, and where the original looks for them.
const STAND_INS: [(&'static str, &'static str); 12] = [
    ("inert/dominators.rs", "graph-algorithms/src/dominators.rs"),
    ("inert/loop_tree.rs", "graph-algorithms/src/loop_tree.rs"),
    ("inert/reachable.rs", "graph-algorithms/src/reachable.rs"),
    ("inert/empty.rs", "graph-algorithms/src/reference.rs"),
    ("inert/empty.rs", "graph-algorithms/src/node_vec.rs"),
    ("inert/empty.rs", "graph-algorithms/src/transpose.rs"),
    ("inert/empty.rs", "graph-algorithms/src/test.rs"),
    ("iterate.rs", "graph-algorithms/src/iterate.rs"),
    ("parser.rs", "nll-repr/src/repr/parser.rs"),
    ("errors.rs", "errors.rs"),
    ("intern.rs", "intern.rs"),
    ("lalrpop_util.rs", "lalrpop_util.rs"),
];

/// Modules of the crate's root. `regionck` is not among them: `lib.rs` includes it.
const MODULES: [(&'static str, &'static str); 11] = [
    ("errors", "errors.rs"),
    ("intern", "intern.rs"),
    ("lalrpop_util", "lalrpop_util.rs"),
    ("graph_algorithms", "graph-algorithms/src/lib.rs"),
    ("borrowck", "nll/src/borrowck.rs"),
    ("env", "nll/src/env.rs"),
    ("graph", "nll/src/graph.rs"),
    ("infer", "nll/src/infer.rs"),
    ("liveness", "nll/src/liveness.rs"),
    ("loans_in_scope", "nll/src/loans_in_scope.rs"),
    ("region", "nll/src/region.rs"),
];

/// The one edit, to `infer.rs` and in the package `original-answering` alone. Where a constraint at
/// action 0 grows a capped region the original asserts; here it reports the error at that action.
const ANSWER_AT_ACTION_0: (&'static str, &'static str) = (
    "assert!(constraint.point.action > 0);",
    "if constraint.point.action == 0 {
                            self.errors.push(InferenceError {
                                constraint_point: constraint.point,
                                name: sup_def.name,
                            });
                            continue;
                        }",
);

fn main() {
    let package = PathBuf::from(env::var("CARGO_MANIFEST_DIR").unwrap());
    let out = PathBuf::from(env::var("OUT_DIR").unwrap());
    let answering = env::var("CARGO_PKG_NAME").unwrap() == "original-answering";
    let folder = match env::var("NLL_ORIGINAL") {
        Ok(named) => PathBuf::from(named),
        Err(_) => package.join("../../../shared/docs/src"),
    };
    println!("cargo:rerun-if-env-changed=NLL_ORIGINAL");

    for file in ORIGINAL.iter() {
        let mut text = read(&folder.join(file));
        if answering && *file == "nll/src/infer.rs" {
            assert!(text.contains(ANSWER_AT_ACTION_0.0), "the edit's place is not in {}", file);
            text = text.replace(ANSWER_AT_ACTION_0.0, ANSWER_AT_ACTION_0.1);
        }
        write(&out.join(file), &text);
    }
    let stand_ins = package.join("../original/standins");
    for &(from, to) in STAND_INS.iter() {
        write(&out.join(to), &read(&stand_ins.join(from)));
    }
    write(&out.join("modules.rs"), &modules(&out));
}

fn modules(out: &Path) -> String {
    let mut text = String::new();
    for &(name, file) in MODULES.iter() {
        text += &format!("#[path = {:?}]\npub mod {};\n", out.join(file), name);
    }
    let repr = out.join("nll-repr/src/repr/mod.rs");
    text += &format!("pub mod nll_repr {{\n    #[path = {:?}]\n    pub mod repr;\n}}\n", repr);
    text
}

fn read(file: &Path) -> String {
    println!("cargo:rerun-if-changed={}", file.display());
    fs::read_to_string(file).unwrap_or_else(|e| panic!("{}: {} (NLL_ORIGINAL names the folder)", file.display(), e))
}

fn write(file: &Path, text: &str) {
    fs::create_dir_all(file.parent().unwrap()).unwrap();
    fs::write(file, text).unwrap();
}
