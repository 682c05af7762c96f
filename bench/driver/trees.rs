
// Trees. Theirs begins with the nested tree, its names strings already; ours with the table, whose rule and names it checks. Theirs has nothing
// like collecting, adding, links or a folder view.

mod trees {
    use super::*;
    use archive::*;
    use clock::*;
    use inputs::*;
    use std::hint::black_box;

    const OBJECTS: usize = 1024;

    /// With its links, and the texts of its names.
    #[derive(Clone)]
    pub struct Table {
        pub handles: Vec<u32>,
        pub parents: Vec<u16>,
        pub ends: Vec<u32>,
        pub marks: Vec<u8>,
        pub first: Vec<u16>,
        pub next: Vec<u16>,
        pub count: usize,
        pub names: Vec<u8>,
        pub texts: Vec<String>,
    }

    fn table(objects: &[(usize, String)]) -> Table {
        let mut table = Table {
            handles: vec![], parents: vec![], ends: vec![], marks: vec![], first: vec![0; OBJECTS], next: vec![0; OBJECTS], count: objects.len(),
            names: vec![], texts: vec![],
        };
        for (place, &(parent, ref name)) in objects.iter().enumerate() {
            table.handles.push(place as u32);
            table.parents.push(parent as u16);
            table.names.extend(string(name));
            table.ends.push(table.names.len() as u32);
            table.marks.push(1);
            table.texts.push(name.clone());
        }
        table.handles.resize(OBJECTS, 0);
        table.parents.resize(OBJECTS, 0);
        table.ends.resize(OBJECTS, 0);
        table.marks.resize(OBJECTS, 0);
        accepted(link(&mut table));
        table
    }

    /// A card as a camera fills it: DCIM, eight folders, the frames in them.
    fn card() -> Table {
        let mut objects = vec![(0, "".to_owned()), (0, "DCIM".to_owned())];
        let mut folder = 0;
        while objects.len() < OBJECTS {
            let frame = objects.len() - 2;
            if frame % 128 == 0 {
                folder = objects.len();
                objects.push((1, format!("{}BENCH", 100 + frame / 128)));
            } else {
                objects.push((folder, format!("DSC_{:04}.JPG", frame)));
            }
        }
        table(&objects)
    }

    fn chain(objects: usize) -> Table {
        table(&(0..objects).map(|place: usize| (place.saturating_sub(1), "A".to_owned())).collect::<Vec<_>>())
    }

    fn flat() -> Table {
        let mut objects = vec![(0, "DCIM".to_owned())];
        objects.extend((1..OBJECTS).map(|place| (0, format!("DSC_{:04}.JPG", place))));
        table(&objects)
    }

    fn nested(table: &Table) -> PtpObjectTree {
        let mut info = PtpObjectInfo::decode(&object_record()).expect("an object record");
        let mut trees: Vec<PtpObjectTree> = table.handles.iter().map(|&handle| {
            info.Filename = table.texts[handle as usize].clone();
            PtpObjectTree { handle: handle, info: info.clone(), children: None }
        }).collect();
        while trees.len() > 1 {
            let tree = trees.pop().expect("more than one");
            let parent = table.parents[trees.len()] as usize;
            trees[parent].children.get_or_insert(vec![]).insert(0, tree);
        }
        trees.pop().expect("the root")
    }

    pub fn trees() {
        for &(name, ref table) in &[
            ("all paths of 1,024 objects, a camera's card", card()),
            ("all paths of 1,024 objects, one folder", flat()),
            ("all paths of 1,024 objects, one chain", chain(OBJECTS)),
        ] {
            let tree = nested(table);
            let theirs: String = tree.walk().into_iter().map(|(path, _)| path).collect();
            let mut out = vec![0u8; theirs.len()];
            let mut ends = vec![0u32; OBJECTS];
            assert_eq!(accepted(paths(table, &mut out, &mut ends)), theirs.len());
            assert_eq!(&out[..], theirs.as_bytes());
            line(name, 1,
                 side(|| { black_box(paths(black_box(table), &mut out, &mut ends)); }),
                 Some(side(|| { black_box(black_box(&tree).walk().len()); })));
        }
    }

    /// The walk and the folder view, whose places are the same; and the paths in that order.
    pub fn orders() {
        let shapes = [("a camera's card", card()), ("one folder", flat()), ("one chain", chain(OBJECTS))];
        let (mut walked, mut viewed) = (vec![0u16; OBJECTS], vec![0u16; OBJECTS]);
        for &(shape, ref table) in &shapes {
            assert_eq!(accepted(walk(table, &mut walked)), OBJECTS);
            assert_eq!(accepted(folders(table, &mut viewed)), OBJECTS);
            let (mut ours, mut theirs) = (walked.clone(), viewed.clone());
            ours.sort();
            theirs.sort();
            assert_eq!(ours, theirs);
            line(&format!("walk of 1,024 objects, {}", shape), 1, side(|| { black_box(walk(black_box(table), &mut walked)); }), None);
            line(&format!("folder view of 1,024 objects, {}", shape), 1, side(|| { black_box(folders(black_box(table), &mut viewed)); }), None);
        }
        let half = chain(OBJECTS / 2);
        line("walk of 512 objects, one chain", 1, side(|| { black_box(walk(black_box(&half), &mut walked)); }), None);
        let (table, mut out, mut ends) = (card(), vec![0u8; 1 << 20], vec![0u32; OBJECTS]);
        let need = accepted(paths(&table, &mut out, &mut ends));
        assert_eq!(accepted(folder_paths(&table, &mut out, &mut ends)), need);
        line("all paths of a folder view, a camera's card", 1, side(|| { black_box(folder_paths(black_box(&table), &mut out, &mut ends)); }), None);
    }

    /// A kept table is walked, and changed: the change is taken back each time, which is not timed.
    pub fn links() {
        let mut table = card();
        table.count -= 1;
        table.marks[OBJECTS - 1] = 0;
        accepted(link(&mut table));
        let (before, mut places, name) = (table.clone(), vec![0u16; OBJECTS], string("DSC_9999.JPG"));
        table.names.extend(name.iter());
        let before = Table { names: table.names.clone(), ..before };
        line("walk of 1,023 objects that keep links, a card", 1, side(|| { black_box(linked_walk(black_box(&before), &mut places)); }), None);
        let last = before.count - 1;
        let (again, mut one) = (before.clone(), before.clone());
        line("one frame of 1,023 deleted, links kept", 1, Box::new(move |times| (0..times).map(|_| {
            copy_lists(&again, &mut one);
            timed(1, || { black_box(linked_delete(black_box(&mut one), last)); })
        }).sum()), None);
        let mut news = vec![0u16; OBJECTS];
        line("one frame added to 1,023, links kept", 1, Box::new(move |times| (0..times).map(|_| {
            copy_lists(&before, &mut table);
            timed(1, || { black_box(linked_add(black_box(&mut table), &mut news, before.parents[last] as usize, &name)); })
        }).sum()), None);
    }

    /// One folder, in which every second frame was deleted.
    fn half_deleted() -> Table {
        let mut table = flat();
        for (place, mark) in table.marks.iter_mut().enumerate() {
            *mark = (place % 2 == 0) as u8;
        }
        table
    }

    fn copy_lists(from: &Table, to: &mut Table) {
        to.handles.copy_from_slice(&from.handles);
        to.parents.copy_from_slice(&from.parents);
        to.ends.copy_from_slice(&from.ends);
        to.marks.copy_from_slice(&from.marks);
        to.names.copy_from_slice(&from.names);
        to.first.copy_from_slice(&from.first);
        to.next.copy_from_slice(&from.next);
    }

    /// What is collected is laid out anew each time, which is not timed.
    pub fn collecting() {
        let before = half_deleted();
        let mut table = before.clone();
        let mut new_places = vec![0u16; OBJECTS];
        assert_eq!(accepted(collect(&mut table, &mut new_places)), OBJECTS / 2);
        assert!(new_places.iter().enumerate().all(|(place, &new)| new as usize == if place % 2 == 0 { place / 2 } else { 65535 }));
        let collected = Box::new(move |times| (0..times).map(|_| {
            copy_lists(&before, &mut table);
            timed(1, || { black_box(collect(black_box(&mut table), &mut new_places)); })
        }).sum());
        line("1,024 objects collected, every second not live", 1, collected, None);
    }
}
