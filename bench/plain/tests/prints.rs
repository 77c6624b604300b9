//! Every stored script prints what is stored beside it.

use std::fs;
use std::path::Path;

#[test]
fn stored_prints() {
    let root = Path::new(env!("CARGO_MANIFEST_DIR")).join("../..");
    for (folder, least) in [("examples", 4), ("crates/replays/data", 300)] {
        let mut scripts = 0;
        for file in fs::read_dir(root.join(folder)).unwrap() {
            let script = file.unwrap().path();
            if script.extension().is_some_and(|kind| kind == "script") {
                let expected = fs::read(script.with_extension("print")).unwrap();
                let print = plain_ring::replay::replay(&fs::read(&script).unwrap()).unwrap();
                assert!(print == expected, "{} differs", script.display());
                scripts += 1;
            }
        }
        assert!(scripts >= least, "{scripts} scripts in {folder}");
    }
}
