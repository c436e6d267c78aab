//! The customer's Rust, and its trees as columns.
use crate::plain::rank_of;
use faer::MatRef;
use ferreus_bbfmm::bbfmm::{Dimensions, TreeLists};
use ferreus_bbfmm::{linear_tree, morton};
use lohandema::lent::Asked;
use lohandema::points::Bounds;
use lohandema::trees::Tree;
use std::collections::{HashMap, HashSet};

const ORDER: usize = 5;

fn matrix(points: &[f64]) -> MatRef<'_, f64> {
    MatRef::from_row_major_slice(points, points.len() / 3, 3)
}

pub fn build(asked: Asked) -> (TreeLists, u64) {
    let mut depth = 0;
    let lists = linear_tree::build_tree(
        matrix(asked.sources),
        &asked.bounds.centre.to_vec(),
        asked.bounds.radius,
        asked.limit,
        asked.keep_empty,
        &mut depth,
        Dimensions::Three,
        ORDER,
        None,
    );
    (lists, depth)
}

/// The same build without its lists.
pub fn build_alone(asked: Asked) -> build_alone::bbfmm::TreeLists {
    build_alone::linear_tree::build_tree(
        matrix(asked.sources),
        &asked.bounds.centre.to_vec(),
        asked.bounds.radius,
        asked.limit,
        asked.keep_empty,
        &mut 0,
        build_alone::bbfmm::Dimensions::Three,
        ORDER,
        None,
    )
}

/// How many sources lie in each node's cell and all below it. Children stand behind their parents.
fn totals(key: &[u64], own: &[usize]) -> Vec<usize> {
    let number: HashMap<u64, usize> = key.iter().enumerate().map(|(i, k)| (*k, i)).collect();
    let mut total = own.to_vec();
    for node in (1..key.len()).rev() {
        let (level, code) = (key[node] % 32768, key[node] / 32768);
        let parent = number[&((code >> 3) * 32768 + level - 1)];
        total[parent] += total[node];
    }
    total
}

/// The tree as columns, depth first.
pub fn columns(b: Bounds, lists: &TreeLists) -> Tree {
    let mut key: Vec<u64> = lists.tree.iter().copied().collect();
    key.sort_by_key(|k| rank_of(3, k % 32768, k / 32768));
    let (mut own, mut begin, mut order) = (vec![], vec![], vec![]);
    for k in &key {
        begin.push(order.len());
        let sources = lists.leaf_source_indices.get(k).map_or(&[][..], |v| v);
        own.push(sources.len());
        order.extend_from_slice(sources);
    }
    let total = totals(&key, &own);
    Tree::from_columns(b, key, own, begin, total, order)
}

pub fn lists(b: &Bounds, l: &TreeLists) -> usize {
    let (u, v, _) = linear_tree::get_interaction_lists(
        &l.tree,
        &l.leaves,
        &l.children,
        &l.leaf_source_indices,
        &b.centre,
        b.radius,
        &Dimensions::Three,
    );
    u.len() + v.len()
}

/// The leaves of points.
pub fn look_up(b: &Bounds, leaves: &HashSet<u64>, depth: u64, points: &[f64]) -> Vec<u64> {
    let points = matrix(points);
    linear_tree::points_to_keys(
        points,
        leaves,
        depth,
        &b.centre,
        b.radius,
        &Dimensions::Three,
    )
    .expect("a leaf for each")
}

/// The keys of points at level 16, one after the other.
pub fn keys(b: &Bounds, points: &[f64]) -> Vec<u64> {
    let side = morton::get_side_length(b.radius, 16);
    let displacement: Vec<f64> = b.centre.iter().map(|c| c - b.radius).collect();
    let rows = matrix(points);
    let key = |i| {
        let anchor = morton::point_to_anchor(rows.row(i), 16, &displacement, side);
        morton::encode_morton_point(anchor, &Dimensions::Three)
    };
    (0..points.len() / 3).map(key).collect()
}
