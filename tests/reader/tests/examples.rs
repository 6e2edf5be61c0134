//! The sheets of `examples/`: each walks as the file beside it says.

use std::fs;
use std::path::Path;

#[test]
fn examples_walk_as_they_say() {
    let folder = Path::new(env!("CARGO_MANIFEST_DIR")).join("../../examples");
    let mut sheets = 0;
    for entry in fs::read_dir(&folder).expect("the folder examples") {
        let path = entry.expect("an entry").path();
        if path.extension().is_some_and(|end| end == "pcrl") {
            let sheet = fs::read(&path).expect("a sheet");
            let walk = fs::read_to_string(path.with_extension("walk")).expect("its walk");
            assert_eq!(reader::walk(&sheet), walk, "{}", path.display());
            sheets += 1;
        }
    }
    assert!(sheets >= 6, "only {sheets} sheets in {}", folder.display());
}
