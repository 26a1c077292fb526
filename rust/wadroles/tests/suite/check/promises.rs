//! What the specification says of every pairing, asked of the product. The oracle has no part in it.

use super::random::{perhaps_damaged, perhaps_uneven};
use crate::harness::{Answer, Case, Operation, Rounds};
use crate::operations::{Check, Given};
use std::collections::HashMap;

type Edge = (u32, u32);

fn reverse((from, to): Edge) -> Edge {
    (to, from)
}

/// The edge of each corner, and how many corners before it have the same.
fn ranked(edges: &[Edge]) -> Vec<(Edge, usize)> {
    let mut met: HashMap<Edge, usize> = HashMap::new();
    let ranked = edges.iter().map(|&edge| {
        let before = met.entry(edge).or_default();
        *before += 1;
        (edge, *before - 1)
    });
    ranked.collect()
}

/// How often each edge occurs.
fn counts(edges: &[Edge]) -> HashMap<Edge, usize> {
    let mut counts = HashMap::new();
    edges
        .iter()
        .for_each(|&edge| *counts.entry(edge).or_default() += 1);
    counts
}

/// The answer of the product and the pairing, where the mesh passes or is refused with 6.
fn paired(given: &Given) -> Option<(Answer<()>, Vec<u32>)> {
    let mut case = Case::<Check>::exact(given.clone());
    match case.run(Check::product) {
        answer @ (Ok(()) | Err((6, _))) => Some((answer, case.tables.pairing.view().to_vec())),
        Err(_) => None,
    }
}

#[test]
fn partners_have_as_many_of_their_edge_before_them() {
    let rounds = Rounds::one_in(5, "check, partners");
    let [shared, refused] = rounds.shares(|random| {
        let given = perhaps_uneven(random);
        let Some((answer, pairing)) = paired(&given) else {
            return [false; 2];
        };
        let edges: Vec<Edge> = given.mesh.edges().collect();
        let (ranked, counts) = (ranked(&edges), counts(&edges));
        let has_partner =
            |&(edge, before): &(Edge, usize)| Some(&before) < counts.get(&reverse(edge));
        let open = ranked.iter().position(|corner| !has_partner(corner));
        assert_eq!(answer, open.map_or(Ok(()), |c| Err((6, c as u64))));
        if answer.is_ok() {
            for (corner, &partner) in pairing.iter().enumerate() {
                let (edge, before) = ranked[corner];
                assert_eq!(ranked[partner as usize], (reverse(edge), before));
            }
        }
        let is_shared = counts.values().any(|&count| count > 1);
        [is_shared && answer.is_ok(), answer.is_err()]
    });
    assert!(
        shared > 0.3,
        "too few have a shared edge and pass: {shared}"
    );
    assert!(refused > 0.1, "too few are refused: {refused}");
}

#[test]
fn a_mesh_passes_where_each_edge_is_used_as_often_both_ways() {
    Rounds::one_in(5, "check, even edges").share(|random| {
        let given = perhaps_uneven(random);
        let counts = counts(&given.mesh.edges().collect::<Vec<_>>());
        let is_even = |(&edge, count): (&Edge, &usize)| counts.get(&reverse(edge)) == Some(count);
        let paired = paired(&given);
        if let Some((answer, _)) = &paired {
            assert_eq!(answer.is_ok(), counts.iter().all(is_even));
        }
        paired.is_some()
    });
}

#[test]
fn without_shared_edges_the_partner_is_the_one_with_the_reverse_edge() {
    let rounds = Rounds::one_in(5, "check, no shared edges");
    let [passed, refused] = rounds.shares(|random| {
        let given = perhaps_damaged(random);
        let edges: Vec<Edge> = given.mesh.edges().collect();
        let places: HashMap<Edge, u32> = edges.iter().copied().zip(0..).collect();
        let Some((answer, pairing)) = paired(&given).filter(|_| places.len() == edges.len()) else {
            return [false; 2];
        };
        let reverses = edges.iter().map(|&edge| places.get(&reverse(edge)));
        match answer {
            Ok(()) => assert!(reverses.eq(pairing.iter().map(Some))),
            Err((_, place)) => {
                let nowhere = reverses.into_iter().position(|place| place.is_none());
                assert_eq!(nowhere, Some(place as usize));
            }
        }
        [answer.is_ok(), answer.is_err()]
    });
    assert!(passed > 0.2, "too few pass: {passed}");
    assert!(refused > 0.05, "too few are refused: {refused}");
}
