//! Worked examples from the pages in `docs/`.

use model::card::{ByteCard, Card, SplitCard, WindowCard};
use model::denial::{CardFault, Denial, SealFault, StoreFault};
use model::engine::{Beat, Deed};
use model::layout::DUMMY;
use model::seal::{BenchSeal, Seal};
use model::store::Store;
use model::tape::WordTape;

/// Two blocks on four places, block 0 at place 3, block 1 at place 2, last counter 9.
const MAP: [u8; 18] = [2, 0, 4, 0, 2, 0, 9, 0, 0, 0, 0, 0, 1, 0, 3, 0, 2, 0];

#[test]
fn a_saved_store_gives_the_map_file_of_the_example() {
    let mut image = [0; 4 * 64];
    let mut store = Store::format(2, ByteCard::new(&mut image), BenchSeal, WordTape::new(&[1, 3, 2, 7, 3]));
    store.write(0, b"AB").unwrap();
    assert_eq!(store.beat(), Ok(Beat { place: 1, counter: 5, deed: Deed::Landed(0) }));
    store.write(0, b"C").unwrap();
    store.write(1, b"").unwrap();
    assert_eq!(store.beat(), Ok(Beat { place: 3, counter: 6, deed: Deed::Landed(0) }));
    assert_eq!(store.beat(), Ok(Beat { place: 2, counter: 7, deed: Deed::Landed(1) }));
    assert_eq!(store.beat(), Ok(Beat { place: 3, counter: 8, deed: Deed::SealedAgain(0) }));
    assert_eq!(store.beat().map(|beat| beat.counter), Ok(9));
    let mut map = [0; 20];
    assert_eq!(store.save(&mut map), Ok(18));
    assert_eq!(map[..18], MAP);
    let mut face = [0; 4];
    store.face(&mut face).unwrap();
    assert_eq!(face, [1, 5, 7, 9]);
}

#[test]
fn a_listed_place_that_does_not_open_shuts_the_store() {
    let mut image = [0; 4 * 64];
    image[3 * 64 + 56] = 3;
    let mut store = Store::resume(&MAP, ByteCard::new(&mut image), BenchSeal, WordTape::new(&[]));
    let denial = Denial::Store(StoreFault::NotOpening(2, SealFault::WrongTag(2)));
    assert_eq!(store.beat(), Err(denial));
    assert_eq!(denial.to_string(), "6 store place 2 (17 seal place 2)");
    assert_eq!((denial.number(), denial.layer(), denial.place()), (Some(6), "store", Some(2)));
}

#[test]
fn the_ends_test_place_and_length() {
    let (mut even, mut odd) = ([0; 3 * 64 + 5], [0; 9 * 64]);
    let window = WindowCard::new(ByteCard::new(&mut odd), 7, 100);
    let mut card = SplitCard::new(ByteCard::new(&mut even), window);
    assert_eq!(card.count(), 4);
    assert_eq!(card.put(4, &[0; 3]), Err(CardFault::NoSuchPlace(4)));
    assert_eq!(card.put(3, &[0; 63]), Err(CardFault::WrongLength));
    assert_eq!(card.put(3, &[9; 64]), Ok(()));
    assert_eq!(card.view(3), Ok(&[9; 64]));
    assert_eq!(odd[8 * 64..], [9; 64]);
    assert_eq!(BenchSeal.seal_bytes(0, 1, &DUMMY[..51], &mut [0; 64]), Err(SealFault::WrongLength));
    assert_eq!(BenchSeal.open_bytes(5, &[0; 64], &mut [0; 52]), Err(SealFault::WrongTag(5)));
}
