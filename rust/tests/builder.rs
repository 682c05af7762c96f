//! Tables made of records that come in any order.
#![cfg(feature = "alloc")]
use ptp_proved::*;

fn string(text: &str) -> Vec<u8> {
    write_str(text, &mut [0; 511]).unwrap().to_vec()
}

fn built(records: &[(u32, u32, &str)]) -> Result<OwnedTable, Unbuilt> {
    let mut builder = TableBuilder::new();
    records.iter().for_each(|&(handle, parent, name)| builder.add(handle, parent, &string(name)).unwrap());
    builder.build()
}

fn paths(records: &[(u32, u32, &str)]) -> Vec<(u32, String)> {
    built(records).unwrap().paths()
}

#[test]
fn every_order_of_the_records_makes_the_same_paths() {
    let records = [(7, 0, "DCIM"), (8, 7, "100A"), (9, 8, "1.JPG"), (10, 0, "MISC")];
    let expected = paths(&records);
    assert_eq!(
        expected.iter().map(|(_, path)| &path[..]).collect::<Vec<_>>(),
        ["", "DCIM", "MISC", "DCIM/100A", "DCIM/100A/1.JPG"]
    );
    for turn in 0..24 {
        let mut order = records.to_vec();
        for (at, by) in [(0, turn % 4), (1, turn / 4 % 3), (2, turn / 12)] {
            order.swap(at, at + by);
        }
        let mut one = paths(&order);
        let mut view = built(&order).unwrap().folder_paths();
        one.sort_unstable();
        view.sort_unstable();
        let mut all = expected.clone();
        all.sort_unstable();
        assert_eq!((&one, &view), (&all, &all));
    }
    let view = built(&records).unwrap().folder_paths();
    assert_eq!(view.iter().map(|(handle, _)| *handle).collect::<Vec<_>>(), [0, 7, 8, 9, 10]);
}

#[test]
fn what_has_no_way_to_the_root_is_told_by_handle() {
    assert_eq!(built(&[(1, 5, "A"), (2, 1, "B"), (3, 0, "C")]), Err(Unbuilt::Apart { orphans: vec![1], circles: vec![] }));
    let circles = [(1, 2, "A"), (2, 1, "B"), (3, 3, "C"), (4, 1, "D"), (5, 6, "E")];
    assert_eq!(built(&circles), Err(Unbuilt::Apart { orphans: vec![5], circles: vec![1, 2, 3] }));
    assert_eq!(built(&[(1, 0, "A"), (1, 0, "B")]), Err(Unbuilt::Twice(1)));
    assert_eq!(built(&[(0, 0, "A")]), Err(Unbuilt::Twice(0)));
}

#[test]
fn a_table_holds_1023_beside_its_root() {
    let records: Vec<_> = (1..=1024).map(|handle| (handle, handle - 1, "A")).collect();
    assert_eq!(built(&records), Err(Unbuilt::TooMany(1024)));
    assert!(Unbuilt::TooMany(1024).to_string().contains("for each folder"));
    let chain = paths(&records[..1023]);
    assert_eq!((chain.len(), chain[1023].0, chain[1023].1.len()), (1024, 1023, 2 * 1023 - 1));
}

#[test]
fn a_folder_can_be_the_root() {
    let mut builder = TableBuilder::rooted(7, &string("DCIM/100A")).unwrap();
    builder.add(9, 7, &string("1.JPG")).unwrap();
    assert_eq!(builder.build().unwrap().paths()[1], (9, "DCIM/100A/1.JPG".into()));
    assert_eq!(builder.add(10, 7, b"\x02A\0"), Err(Refusal::END { at: 0 }));
    assert_eq!(builder.add(10, 7, b"\0\0"), Err(Refusal::TRAIL));
    assert_eq!(TableBuilder::rooted(1, &[]).map(drop), Err(Refusal::END { at: 0 }));
}

#[test]
fn an_object_record_is_taken_as_it_came() {
    let mut record = vec![0; 52];
    record.extend_from_slice(b"\x03A\0B\0\0\0\0\0\0");
    let (info, _) = PtpObjectInfo::decode(&record).unwrap();
    let mut builder = TableBuilder::new();
    builder.add_info(5, &info).unwrap();
    assert_eq!(builder.build().unwrap().paths(), [(0, String::new()), (5, "AB".into())]);
}

#[test]
fn a_plain_name_is_no_way_out_of_its_folder() {
    for (name, is_plain) in [
        ("1.JPG", true),
        ("é 1", true),
        ("...", true),
        ("", false),
        (".", false),
        ("..", false),
        ("A/B", false),
        ("A\\B", false),
        ("A\n", false),
    ] {
        assert_eq!(PtpString::write(name, &mut [0; 64]).unwrap().is_plain(), is_plain, "{name:?}");
    }
}
