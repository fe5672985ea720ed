//! Reads the YAML file that its word names by the crate yaml-rust, and keeps the tree until the end.

fn main() {
    let file = std::env::args().nth(1).expect("the name of a file");
    let text = std::fs::read_to_string(file).expect("a file of text");
    let trees = yaml_rust::YamlLoader::load_from_str(&text).expect("a YAML text");
    assert!(trees.len() == 1 && trees[0].as_hash().is_some());
}
