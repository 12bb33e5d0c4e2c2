// Takes the published Rust from where it stands, makes the few replacements without which it can't be
// built or looked into, and leaves two module trees in OUT_DIR: `published`, whose rules are the text's
// own, and `ruled`, where the three functions that document 01 decides otherwise are replaced.
use std::path::{Path, PathBuf};
use std::{env, fs};

/// One replacement: the text to find, which must be there exactly once, and what stands there afterwards.
type Patch = (&'static str, &'static str);

/// The files taken, with what must change so that they build without placement and can be read from outside.
const FILES: &[(&str, &[Patch])] = &[
    ("myvec.rs", &[]),
    (
        "simulator.rs",
        &[
            ("mod util;", "mod util;\npub mod bridge;\npub mod rules;"),
            // the box's flags and the grains come from the start text, not from a seed
            ("nparticles: usize, seed: f64", "periodicities: [bool; NDIMS], grains: &[[f64; 6]]"),
            ("let mut periodicities = [true; NDIMS];", "let mut periodicities = periodicities;"),
            ("periodicities[1] = false;", ""),
            ("particle::init_particles", "bridge::init_particles"),
            ("nparticles, time, seed", "grains, time"),
        ],
    ),
    ("simulator/util.rs", &[]),
    ("simulator/debug.rs", &[]),
    ("simulator/cell.rs", &[]),
    (
        "simulator/particle.rs",
        &[("use crate::random::Random;", ""), ("\nfn from_p_to_c(", "\npub fn from_p_to_c(")],
    ),
    (
        "simulator/scheduler.rs",
        &[("\n    heap: Vec<", "\n    pub heap: Vec<"), ("\n    lookups: Vec<", "\n    pub lookups: Vec<")],
    ),
    (
        "simulator/event.rs",
        &[
            ("mod inter_particle_collision;", "pub mod inter_particle_collision;"),
            ("mod move_out_of_cell;", "pub mod move_out_of_cell;"),
            ("mod move_to_neighbour;", "pub mod move_to_neighbour;"),
            ("mod util;", "pub mod util;"),
            ("mod wall_reflection;", "pub mod wall_reflection;"),
            // one event for each call, instead of all up to a synchronisation
            (
                "break time;\n            }\n        }\n",
                "break time;\n            }\n        }\n        break time;\n",
            ),
        ],
    ),
    ("simulator/event/util.rs", &[]),
    (
        "simulator/event/synchronisation.rs",
        &[(
            "particle::{find_minimum_distance, Particle}",
            "{bridge::find_minimum_distance, particle::Particle}",
        )],
    ),
    (
        "simulator/event/inter_particle_collision.rs",
        &[
            ("\n    p_new_pos: MyVec", "\n    pub p_new_pos: MyVec"),
            ("\n    q_new_pos: MyVec", "\n    pub q_new_pos: MyVec"),
            ("\n    p_new_vel: MyVec", "\n    pub p_new_vel: MyVec"),
            ("\n    q_new_vel: MyVec", "\n    pub q_new_vel: MyVec"),
            ("\n    p_new_val: f64", "\n    pub p_new_val: f64"),
            ("\n    q_new_val: f64", "\n    pub q_new_val: f64"),
        ],
    ),
    (
        "simulator/event/move_to_neighbour.rs",
        &[
            ("\n    p_new_pos: MyVec", "\n    pub p_new_pos: MyVec"),
            ("\n    new_cell_index: usize", "\n    pub new_cell_index: usize"),
        ],
    ),
    (
        "simulator/event/move_out_of_cell.rs",
        &[
            ("\n    p_new_pos: MyVec", "\n    pub p_new_pos: MyVec"),
            ("\n    cell: Rc<", "\n    pub cell: Rc<"),
        ],
    ),
    (
        "simulator/event/wall_reflection.rs",
        &[
            ("\n    p_new_pos: MyVec", "\n    pub p_new_pos: MyVec"),
            ("\n    p_new_vel: MyVec", "\n    pub p_new_vel: MyVec"),
            ("\n    p_new_val: f64", "\n    pub p_new_val: f64"),
        ],
    ),
];

/// The three rules of document 01 that are put in the place of the text's own.
const RULES: &[(&str, &[Patch])] = &[
    // a product is summed from its first term, not from zero
    (
        "myvec.rs",
        &[
            ("let mut result: f64 = 0.;", "let mut result: f64 = self.vec[0] * other.vec[0];"),
            ("0..NDIMS {\n            result +=", "1..NDIMS {\n            result +="),
        ],
    ),
    // the periodic correction compares with half the length
    (
        "simulator/event/util.rs",
        &[(
            "pub fn correct_periodicity",
            "pub use crate::simulator::rules::correct_periodicity;\n\nfn replaced_correction",
        )],
    ),
    // an event goes in after every one that is not later
    (
        "simulator/event.rs",
        &[("events.binary_search_by(", "crate::simulator::rules::after_all_not_later(&events, ")],
    ),
];

fn main() {
    println!("cargo:rerun-if-env-changed=FESOLOPI_RUST");
    let here = PathBuf::from(env::var("CARGO_MANIFEST_DIR").unwrap());
    let source = source_folder(&here);
    let out = PathBuf::from(env::var("OUT_DIR").unwrap());
    tree(&source, &here, &out, "published", &[]);
    tree(&source, &here, &out, "ruled", RULES);
    let mut index = String::new();
    for name in ["published", "ruled"] {
        let path = out.join(name).join("mod.rs");
        index += &format!(
            "#[allow(clippy::all, dead_code, unused_imports, unused_mut, unused_variables)]\n#[path = {:?}]\npub mod {name};\n",
            path.display().to_string()
        );
    }
    fs::write(out.join("trees.rs"), index).unwrap();
}

/// Where `simulator.rs` is found: below FESOLOPI_RUST, or below the folder beside the repository.
fn source_folder(here: &Path) -> PathBuf {
    let base = match env::var_os("FESOLOPI_RUST") {
        Some(folder) => PathBuf::from(folder),
        None => here.join("../../shared/docs/src"),
    };
    for folder in [base.join("src"), base.clone()] {
        if folder.join("simulator.rs").is_file() {
            return folder;
        }
    }
    panic!("no published Rust below {}; name its folder by FESOLOPI_RUST", base.display());
}

/// Writes one module tree: the published files with their patches, and what they lack.
fn tree(source: &Path, here: &Path, out: &Path, name: &str, rules: &[(&str, &[Patch])]) {
    let root = out.join(name);
    fs::create_dir_all(root.join("simulator/event")).unwrap();
    for (file, patches) in FILES {
        println!("cargo:rerun-if-changed={}", source.join(file).display());
        let mut text = fs::read_to_string(source.join(file)).unwrap_or_else(|e| panic!("{file}: {e}"));
        for (find, put) in patches.iter() {
            text = replaced(file, text, find, put);
        }
        for (_, extra) in rules.iter().filter(|(f, _)| f == file) {
            for (find, put) in extra.iter() {
                text = replaced(file, text, find, put);
            }
        }
        fs::write(root.join(file), text.replace("crate::", &format!("crate::{name}::"))).unwrap();
    }
    for file in ["extrema.rs", "bridge.rs", "rules.rs"] {
        let supplied = here.join("src/supplied").join(file);
        println!("cargo:rerun-if-changed={}", supplied.display());
        fs::copy(&supplied, root.join("simulator").join(file)).unwrap();
    }
    fs::write(root.join("mod.rs"), "pub mod myvec;\npub mod simulator;\n").unwrap();
}

/// The text with `find` replaced, which must be in it exactly once.
fn replaced(file: &str, text: String, find: &str, put: &str) -> String {
    let found = text.matches(find).count();
    assert!(found == 1, "{file}: {find:?} is there {found} times, not once");
    text.replacen(find, put, 1)
}
