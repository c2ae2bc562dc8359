//! The worked examples of the documents.

use second_solver::cell::Triangulation;
use second_solver::labelling::{Labelling, Sheet};
use second_solver::market::Market;
use second_solver::point::PricePoint;
use second_solver::reader::read;
use second_solver::refusal::Refusal;
use second_solver::solve::{reach, solve};
use second_solver::walk::{Run, Stage, Stepped, Ticket};

const BOTH: [Triangulation; 2] = [Triangulation::K1, Triangulation::J1];

/// The market file of docs/FORMAT.md.
const FILE: [u8; 39] = [
    1, 0, 1, 2, 2, 0, 1, 0x61, 2, 0, 1, 0x62, 3, 0, 2, 0, 2, 4, 0, 8, 0, 1, 0, 0, 0, 1, 0, 1, 4, 0,
    8, 0, 0, 0, 1, 0, 1, 0, 1,
];

const LINES: &str = "mesh 4 cells 6: 2 2 | 1 3
mesh 8 cells 2: 4 4 | 3 5
mesh 16 cells 2: 8 8 | 7 9
";

fn example() -> Market {
    read(&FILE).expect("the example is sound")
}

fn changed(place: usize, byte: u8) -> Result<Market, Refusal> {
    let mut bytes = FILE;
    bytes[place] = byte;
    read(&bytes)
}

#[test]
fn three_lines_of_the_readme() {
    assert_eq!(solve(&FILE), LINES);
}

#[test]
fn files_of_the_program_solve() {
    let bytes = include_bytes!("../../../crates/solve/stdin");
    assert_eq!(bytes[..], FILE[..]);
    let text = include_str!("../../../crates/solve/stdout");
    assert_eq!(solve(bytes), text);
}

#[test]
fn labels_of_the_example_on_mesh_four() {
    let label = |x| example().label(&PricePoint::new(2, 4, &[x, 4 - x]).unwrap());
    assert_eq!([4, 3, 2, 1, 0].map(label), [1, 1, 1, 2, 2]);
    let point = PricePoint::new(2, 4, &[3, 1]).unwrap();
    assert_eq!(example().excess(1, &point), Ok(-2));
    assert_eq!(example().excess(2, &point), Ok(2));
    assert_eq!(example().excess(3, &point), Err(Refusal::NoSuchGood));
}

#[test]
fn both_triangulations_arrive_with_six_cells() {
    let market = example();
    for triangulation in BOTH {
        let mut run = Run::open(0, 2, 4, &[4, 0], triangulation, &market).unwrap();
        assert!(reach(&mut run, 6).unwrap().is_some());
        assert_eq!(run.count(), 6);
        assert_eq!(run.look_for(1), Ok(vec![2, 2]));
        assert_eq!(run.look_for(2), Ok(vec![1, 3]));
        assert_eq!(run.look_for(3), Err(Refusal::NoSuchGood));
        assert_eq!(run.step(), Err(Refusal::NotWalking));
    }
}

#[test]
fn a_sheet_halts_the_walk() {
    let sheet = Sheet::new(4, &[2, 1, 1, 2, 2]).unwrap();
    for triangulation in BOTH {
        let mut run = Run::open(0, 2, 4, &[4, 0], triangulation, &sheet).unwrap();
        assert_eq!(run.step(), Ok(Stepped::Halted));
        let (prices, label) = (vec![4, 0], 2);
        assert_eq!(*run.stage(), Stage::Halted { prices, label });
        assert_eq!(run.count(), 1);
        assert_eq!(run.look_for(1), Err(Refusal::NotArrived));
    }
}

#[test]
fn refusals_of_openings_and_sheets() {
    let market = example();
    let refused = |goods, mesh, prices: &[u32], triangulation| {
        let run = Run::open(0, goods, mesh, prices, triangulation, &market);
        run.err().map(Refusal::number)
    };
    let [k1, j1] = BOTH;
    assert_eq!(refused(9, 4, &[4, 0], k1), Some(1));
    assert_eq!(refused(2, 0, &[0, 0], k1), Some(2));
    assert_eq!(refused(5, 129, &[129, 0, 0, 0, 0], k1), Some(2));
    assert_eq!(refused(2, 4, &[3, 0], k1), Some(3));
    assert_eq!(refused(2, 4, &[3, 1], j1), Some(4));
    assert_eq!(refused(2, 4, &[3, 1], k1), None);
    assert_eq!(
        Sheet::new(65, &[]).err(),
        Some(Refusal::SheetMeshOutOfRange)
    );
    assert_eq!(Sheet::new(4, &[1; 4]).err(), Some(Refusal::SheetLength));
}

#[test]
fn refusals_of_refinings() {
    let market = example();
    let mut run = Run::open(3, 2, 4, &[4, 0], Triangulation::K1, &market).unwrap();
    let ticket = |number, mesh| Ticket { number, mesh };
    let refused = |run: &mut Run, ticket, factor| {
        let refusal = run.refine(ticket, factor).err();
        refusal.map(|(refusal, _)| refusal.number())
    };
    assert_eq!(refused(&mut run, ticket(3, 4), 2), Some(5));
    reach(&mut run, 6).unwrap();
    assert_eq!(refused(&mut run, ticket(2, 4), 1), Some(5));
    assert_eq!(refused(&mut run, ticket(3, 8), 2), Some(5));
    assert_eq!(refused(&mut run, ticket(3, 4), 1), Some(6));
    assert_eq!(refused(&mut run, ticket(3, 4), 64), None);
    assert_eq!((run.mesh(), run.count(), run.total()), (256, 1, 7));
    reach(&mut run, 1000).unwrap();
    assert_eq!(refused(&mut run, ticket(3, 256), 65), Some(6));
    assert_eq!(refused(&mut run, ticket(3, 256), 64), None);
    reach(&mut run, 1000).unwrap();
    assert_eq!(refused(&mut run, ticket(3, 16_384), 2), Some(7));
}

#[test]
fn faults_of_the_example_with_a_byte_changed() {
    assert_eq!(read(&[]), Err(Refusal::Truncated(0)));
    assert_eq!(read(&FILE[..17]), Err(Refusal::Truncated(17)));
    assert_eq!(read(&FILE[..38]), Err(Refusal::Truncated(28)));
    assert_eq!(changed(0, 2), Err(Refusal::TagNotDue(0)));
    assert_eq!(changed(6, 33), Err(Refusal::LengthWrong(4)));
    assert_eq!(changed(3, 9), Err(Refusal::ValueOutOfRange(0)));
    assert_eq!(changed(7, 0x7F), Err(Refusal::ValueOutOfRange(4)));
    assert_eq!(changed(38, 0), Err(Refusal::WeightsOffSum(28)));
    assert_eq!(changed(34, 0), Err(Refusal::GoodUnowned(2)));
    let longer = [&FILE[..], &[4, 0]].concat();
    assert_eq!(read(&longer), Err(Refusal::Truncated(39)));
}
