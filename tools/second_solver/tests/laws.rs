//! The laws of triangulations, seen on all cells of small meshes.

use std::collections::HashSet;

use second_solver::cell::{Across, Cell, Triangulation};
use second_solver::corner::{outer_label, Corner, Wall};
use second_solver::listing::{bound, Listing};
use second_solver::point::PricePoint;
use second_solver::refusal::Refusal;

const SIZES: [(usize, u32); 8] = [
    (2, 1),
    (2, 9),
    (3, 5),
    (3, 6),
    (4, 3),
    (4, 4),
    (5, 2),
    (6, 2),
];

fn all_listings() -> Vec<(Triangulation, Listing)> {
    let both = [Triangulation::K1, Triangulation::J1];
    let listings = both.map(|t| SIZES.map(|(goods, mesh)| (t, Listing::new(t, goods, mesh))));
    listings.into_iter().flatten().collect()
}

fn corners(cell: &Cell) -> Vec<Corner> {
    let places = 0..=cell.goods();
    places.map(|place| cell.corner(place).unwrap()).collect()
}

#[test]
fn cells_are_as_many_as_addresses_and_differ_in_corners() {
    for (_, listing) in all_listings() {
        let (goods, mesh) = (listing.goods, listing.mesh);
        assert_eq!(listing.cells.len() as u64, bound(goods, mesh));
        let sets: HashSet<&Vec<usize>> = listing.sets.iter().collect();
        assert_eq!(sets.len(), listing.cells.len());
        let addresses: HashSet<Vec<u32>> = listing.cells.iter().map(Cell::address).collect();
        assert_eq!(addresses.len(), listing.cells.len());
        let fits = |a: &Vec<u32>| a.iter().max() == Some(&mesh);
        assert!(addresses.iter().all(fits));
    }
}

#[test]
fn going_across_and_back() {
    for (triangulation, listing) in all_listings() {
        let mesh = listing.mesh;
        let listed: HashSet<&Cell> = listing.cells.iter().collect();
        for cell in &listing.cells {
            for place in 0..=cell.goods() {
                let mut kept = corners(cell);
                kept.remove(place);
                match triangulation.across(mesh, cell, place).unwrap() {
                    Across::Wall(wall) => assert!(kept.iter().all(|c| c.lies_on(mesh, wall))),
                    Across::Neighbour(other, new_place) => {
                        assert!(listed.contains(&other) && other != *cell);
                        assert!(!on_a_wall(&kept, cell.goods(), mesh));
                        kept.insert(new_place, other.corner(new_place).unwrap());
                        assert_eq!(corners(&other), kept);
                        let back = triangulation.across(mesh, &other, new_place);
                        assert_eq!(back, Ok(Across::Neighbour(cell.clone(), place)));
                    }
                }
            }
        }
    }
}

fn on_a_wall(corners: &[Corner], goods: usize, mesh: u32) -> bool {
    let walls = (1..=goods).map(Wall::Good).chain([Wall::Outer, Wall::Real]);
    let mut walls = walls.map(|wall| corners.iter().all(|c| c.lies_on(mesh, wall)));
    walls.any(|all| all)
}

#[test]
fn start_cells_alone_have_all_outer_labels() {
    for (triangulation, listing) in all_listings() {
        let (goods, mesh) = (listing.goods, listing.mesh);
        for corner in listing.corners.iter().filter(|c| c.is_real(mesh)) {
            let point = PricePoint::new(goods, mesh, &corner.prices()).unwrap();
            let all_even = mesh % 2 == 0 && corner.prices().iter().all(|x| x % 2 == 0);
            let Ok((start, place)) = triangulation.start(&point) else {
                assert!(!all_even && triangulation == Triangulation::J1);
                continue;
            };
            assert_eq!(start.corner(place).as_ref(), Ok(corner));
            let full = listing.cells.iter().filter(|c| has_outer_labels(c, &point));
            assert_eq!(full.collect::<Vec<_>>(), vec![&start]);
        }
    }
}

fn has_outer_labels(cell: &Cell, point: &PricePoint) -> bool {
    let corners = corners(cell);
    let outer = corners.iter().filter(|c| !c.is_real(point.mesh()));
    let mut labels: Vec<u8> = outer.map(|corner| outer_label(corner, point)).collect();
    labels.sort();
    labels == (1..=cell.goods() as u8).collect::<Vec<_>>()
}

#[test]
fn places_past_the_goods_are_refused() {
    for (triangulation, listing) in all_listings() {
        let past = listing.goods + 1;
        let cell = &listing.cells[0];
        assert_eq!(cell.corner(past), Err(Refusal::NoSuchPlace));
        let across = triangulation.across(listing.mesh, cell, past);
        assert_eq!(across, Err(Refusal::NoSuchPlace));
    }
}
