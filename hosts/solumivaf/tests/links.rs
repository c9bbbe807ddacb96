//! The links that docs/graph.svg is drawn from are those that the library has.

#[path = "../examples/links.rs"]
mod example;

#[test]
fn listed_links_are_the_librarys() {
    assert_eq!(example::links(3), include_str!("../../../docs/graph.links"));
}
