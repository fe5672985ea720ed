//! Reads the YAML file that its word names by the crate serde_yaml, and keeps the tree until the end.

fn main() {
    let file = std::env::args().nth(1).expect("the name of a file");
    let text = std::fs::read_to_string(file).expect("a file of text");
    let tree: serde_yaml::Value = serde_yaml::from_str(&text).expect("a YAML text");
    assert!(tree.is_mapping());
}
