//! The scripts of examples/: each prints what stands beside it.
use script::{assert_prints, root};
use std::fs;

#[test]
fn examples() {
    let mut tried = 0;
    for entry in fs::read_dir(root().join("examples")).unwrap() {
        let path = entry.unwrap().path();
        if path
            .extension()
            .is_some_and(|extension| extension == "script")
        {
            let expected =
                fs::read(path.with_extension("out")).expect("what it prints stands beside it");
            assert_prints(&fs::read(&path).unwrap(), &expected);
            tried += 1;
        }
    }
    assert!(tried >= 3, "{tried} scripts");
}
