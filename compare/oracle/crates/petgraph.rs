//! In place of the crate petgraph: names for the generation of SQL, which never runs here.
pub mod graph {
    #[derive(Clone, Copy)]
    pub struct NodeIndex(pub usize);

    pub struct Graph<N>(pub Vec<N>);

    impl<N> Graph<N> {
        pub fn neighbors_undirected(&self, _node: NodeIndex) -> impl Iterator<Item = NodeIndex> + '_ {
            std::iter::empty()
        }
    }

    impl<N> std::ops::Index<NodeIndex> for Graph<N> {
        type Output = N;
        fn index(&self, node: NodeIndex) -> &N {
            &self.0[node.0]
        }
    }
}
