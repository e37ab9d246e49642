//! The owners' rule on the case of document 01, and the conditions that document 001 numbers A1 to A6 on random jobs.

use independent::mesh::*;
use independent::parts::*;
use independent::random::*;
use independent::step::step;
use independent::trial::A;
use std::collections::HashMap;

/// A1 to A6: each cell has one master; children of one cell are masters on one part; a ghost is a refined cell whose children are masters there and whose
/// master is elsewhere; a refined cell is with its children, as master or ghost.
fn conditions(layout: &Layout, owners: &[u8], parts: u8) {
    let all: Vec<(u8, Held)> = (1..=parts).flat_map(|p| held(layout, owners, p).into_iter().map(move |h| (p, h))).collect();
    let mut masters: HashMap<Path, u8> = HashMap::new();
    for (p, h) in all.iter().filter(|(_, h)| !h.ghost) {
        assert!(masters.insert(h.path.clone(), *p).is_none(), "two masters");
    }
    assert_eq!(masters.len(), layout.cells.len());
    let families: HashMap<Path, u8> = paths(layout)
        .into_iter()
        .zip(family_owners(layout, owners))
        .filter_map(|(path, owner)| owner.map(|o| (path, o)))
        .collect();
    for (path, &owner) in &families {
        for child in masters.keys().filter(|p| p.len() == path.len() + 1 && p.starts_with(path)) {
            assert_eq!(masters[child], owner);
        }
    }
    for (p, h) in &all {
        if h.ghost {
            assert!(masters[&h.path] != *p && families[&h.path] == *p && h.status != LEAF);
        }
    }
    let ghosts = all.iter().filter(|(_, h)| h.ghost).count();
    assert_eq!(ghosts, families.iter().filter(|(path, &owner)| masters[*path] != owner).count());
}

#[test]
fn star_on_two_parts() {
    let coarse = examine_mesh(&A, &[0, 1, 2, 3]).unwrap();
    let b = examine_table(&coarse, &[64, 0, 0, 0, 0, 0, 0, 0, 0]).unwrap();
    let owners = [1, 2, 2, 2, 2, 2, 2, 2, 2];
    assert_eq!(examine_owners(&b, 2, &owners), Ok(()));
    assert_eq!((held(&b, &owners, 1).len(), held(&b, &owners, 2).len()), (1, 9));
    let marks = [0, 2, 2, 2, 2, 2, 2, 2, 2];
    let a = examine_table(&coarse, &step(&coarse, &table(&b), &marks).unwrap()).unwrap();
    let after = owners_after(&b, &owners, &a);
    assert_eq!(after, [1]);
    assert_eq!(held(&a, &after, 1), [Held { path: vec![0], ghost: false, status: LEAF }]);
    assert!(held(&a, &after, 2).is_empty(), "part 2 is empty");
    assert_eq!(examine_owners(&b, 2, &[1, 2, 2, 2, 2, 2, 2, 2, 1]), Err(11));
    assert_eq!(examine_owners(&b, 1, &owners), Err(11));
    assert_eq!(examine_owners(&b, 17, &owners), Err(10));
    assert_eq!(calls_most(9, 2), 48 + 4 * 87);
}

#[test]
fn random_jobs() {
    let mut r = Random::new(11);
    let mut apart = 0;
    for _ in 0..300 {
        let most = *r.pick(&[1, 2, 3, 8, 20]);
        let coarse = coarse_up_to(&mut r, most);
        let status = sound_table(&mut r, &coarse);
        let old = examine_table(&coarse, &status).unwrap();
        let parts = *r.pick(&[1, 2, 3, 5, 16]);
        let (_, owners) = owners(&mut r, &old, parts);
        assert_eq!(examine_owners(&old, parts, &owners), Ok(()));
        conditions(&old, &owners, parts as u8);
        let marks = marks(&mut r, &old);
        if let Ok(new) = step(&coarse, &status, &marks) {
            let new = examine_table(&coarse, &new).unwrap();
            let after = owners_after(&old, &owners, &new);
            assert_eq!(examine_owners(&new, parts, &after), Ok(()));
            conditions(&new, &after, parts as u8);
            apart += (1..=parts as u8).flat_map(|p| held(&new, &after, p)).filter(|h| h.ghost).count();
        }
    }
    assert!(apart > 1000, "families apart from their parents: {apart}");
}
