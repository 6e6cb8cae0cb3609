//! Every public function of the crate has an example, its own or in the same file's documentation, and the examples are run as tests.

use std::fs;
use std::path::Path;

#[test]
fn examples() {
    let src = Path::new(env!("CARGO_MANIFEST_DIR")).join("src");
    let mut count = 0;
    for file in fs::read_dir(src).unwrap().map(|file| file.unwrap().path()).filter(|path| path.extension().is_some_and(|end| end == "rs")) {
        let text = fs::read_to_string(&file).unwrap();
        let code = text.split("#[cfg(test)]\nmod tests").next().unwrap();
        let examples: Vec<&str> = code.split("/// ```").skip(1).step_by(2).collect();
        for line in code.lines().filter_map(|line| line.trim_start().strip_prefix("pub fn ")) {
            let name = line.split(['(', '<']).next().unwrap();
            assert!(examples.iter().any(|example| example.contains(&format!("{name}("))), "{}: {name} has no example", file.display());
            count += 1;
        }
        assert!(!code.contains("```no_run") && !code.contains("```ignore"), "{}", file.display());
    }
    assert!(count > 50, "{count}");
}
