//! Objects against a simple model: the live ones in the order in which they were added, each with the place that its keeper was told.
use ptp_proved::{write_text, ObjectTable, Objects, Refusal};

const PLACES: usize = ObjectTable::PLACES;
const ROOT: u32 = 1;

fn string(name: &str) -> Vec<u8> {
    let units: Vec<u16> = name.encode_utf16().collect();
    write_text(&units, &mut [0; 511]).unwrap().to_vec()
}

struct Live {
    handle: u32,
    parent: u32,
    name: String,
    place: usize,
}

struct Card {
    live: Vec<Live>,
    // of those that are live and those that were not collected yet
    used_places: usize,
    used_bytes: usize,
    // how often adding collected
    collected: usize,
}

impl Card {
    fn new(name: &str) -> Card {
        let root = Live { handle: ROOT, parent: ROOT, name: name.into(), place: 0 };
        Card { live: vec![root], used_places: 1, used_bytes: string(name).len(), collected: 0 }
    }

    fn get(&self, handle: u32) -> &Live {
        self.live.iter().find(|each| each.handle == handle).expect("a live object")
    }

    fn path(&self, each: &Live) -> String {
        if each.handle == ROOT {
            return each.name.clone();
        }
        let above = self.path(self.get(each.parent));
        above.clone() + if above.is_empty() { "" } else { "/" } + &each.name
    }

    // Folder by folder, each after the one that it is in.
    fn walk(&self) -> Vec<&Live> {
        let mut order = vec![self.get(ROOT)];
        let mut next = 0;
        while next < order.len() {
            let folder = order[next].handle;
            order.extend(self.live.iter().filter(|each| each.parent == folder && each.handle != ROOT));
            next += 1;
        }
        order
    }

    // A folder, then all below it, before the next one at its level.
    fn view(&self, folder: u32) -> Vec<&Live> {
        let below = self.live.iter().filter(|each| each.parent == folder && each.handle != ROOT);
        std::iter::once(self.get(folder)).chain(below.flat_map(|each| self.view(each.handle))).collect()
    }

    // The folder view has the walk's paths, and its places are the model's.
    fn compare_view(&self, objects: &Objects, walked: &mut [String]) {
        let (mut out, mut ends, mut places) = (vec![0; 1 << 20], [0; PLACES], [0; PLACES]);
        let viewed = objects.folder_paths(&mut out, &mut ends).unwrap();
        let view = self.view(ROOT);
        assert!(viewed.iter().eq(view.iter().map(|each| self.path(each))));
        let mut viewed: Vec<_> = viewed.iter().collect();
        viewed.sort_unstable();
        walked.sort_unstable();
        assert_eq!(viewed, walked);
        let places = objects.folders(&mut places).unwrap();
        assert!(places.iter().map(|&place| usize::from(place)).eq(view.iter().map(|each| each.place)));
        let (mut out, mut ends, mut places) = (vec![0; 1 << 20], [0; PLACES], [0; PLACES]);
        let placed = objects.placed_folder_paths(&mut out, &mut ends, &mut places).unwrap();
        assert!(placed.iter().map(own).eq(view.iter().map(|each| (each.handle, self.path(each)))));
        assert!(placed.places().iter().map(|&place| usize::from(place)).eq(view.iter().map(|each| each.place)));
    }

    // The walk's paths with their handles, along the links as without them.
    fn compare_placed(&self, objects: &Objects) {
        let (mut out, mut ends, mut places) = (vec![0; 1 << 20], [0; PLACES], [0; PLACES]);
        let table = objects.table();
        let placed = table.placed_paths(&mut out, &mut ends, &mut places).unwrap();
        let walked: Vec<_> = placed.iter().map(own).collect();
        assert!(walked.iter().cloned().eq(self.walk().iter().map(|each| (each.handle, self.path(each)))));
        assert!(objects.placed_paths(&mut out, &mut ends, &mut places).unwrap().iter().map(own).eq(walked));
    }

    fn is_within(&self, handle: u32, folder: u32) -> bool {
        handle == folder || (handle != ROOT && self.is_within(self.get(handle).parent, folder))
    }

    fn live_bytes(&self) -> usize {
        self.live.iter().map(|each| string(&each.name).len()).sum()
    }

    // Each place by the list that was told, where the place of a live object is one.
    fn carry(&mut self, new_places: &[u16]) {
        assert_eq!(new_places.len(), self.used_places);
        assert_eq!(new_places.iter().filter(|&&place| place != ObjectTable::GONE).count(), self.live.len());
        self.live.iter_mut().for_each(|each| each.place = new_places[each.place].into());
        (self.used_places, self.used_bytes) = (self.live.len(), self.live_bytes());
    }

    fn add(&mut self, objects: &mut Objects, room: usize, parent: u32, handle: u32, name: &str) -> Result<(), Refusal> {
        let bytes = string(name);
        let must_collect = self.used_places == PLACES || room - self.used_bytes < bytes.len();
        let added = objects.add(self.get(parent).place, handle, &bytes)?;
        assert_eq!(added.others_moved(), must_collect);
        if must_collect {
            self.collected += 1;
            self.carry(added.new_places);
        } else {
            assert!(added.new_places.iter().map(|&place| usize::from(place)).eq(0..self.used_places));
        }
        assert_eq!(added.place, self.used_places);
        self.live.push(Live { handle, parent, name: name.into(), place: added.place });
        self.used_places += 1;
        self.used_bytes += bytes.len();
        Ok(())
    }

    fn delete(&mut self, objects: &mut Objects, handle: u32) {
        assert_eq!(objects.delete(self.get(handle).place), Ok(()));
        let gone: Vec<u32> = self.live.iter().map(|each| each.handle).filter(|&each| self.is_within(each, handle)).collect();
        self.live.retain(|each| !gone.contains(&each.handle));
        assert!(gone.iter().all(|&each| objects.find(each).is_none()));
    }

    fn compare(&self, objects: &Objects) {
        assert_eq!(objects.len(), self.live.len());
        let (mut out, mut ends, mut places) = (vec![0; 1 << 20], [0; PLACES], [0; PLACES]);
        let paths = objects.table().paths(&mut out, &mut ends).unwrap();
        assert!(paths.iter().eq(self.walk().iter().map(|each| self.path(each))));
        let mut walked: Vec<_> = paths.iter().map(str::to_string).collect();
        // along the links as without them
        assert!(objects.paths(&mut out, &mut ends).unwrap().iter().eq(walked.iter()));
        let places = objects.walk(&mut places).unwrap();
        assert!(places.iter().map(|&place| usize::from(place)).eq(self.walk().iter().map(|each| each.place)));
        self.compare_view(objects, &mut walked);
        self.compare_placed(objects);
        for each in &self.live {
            assert_eq!(objects.find(each.handle), Some(each.place));
        }
    }
}

fn own((handle, path): (u32, &str)) -> (u32, String) {
    (handle, path.into())
}

// A small generator with a fixed seed: xorshift.
struct Random(u64);

impl Random {
    fn below(&mut self, bound: usize) -> usize {
        self.0 ^= self.0 << 13;
        self.0 ^= self.0 >> 7;
        self.0 ^= self.0 << 17;
        (self.0 % bound as u64) as usize
    }

    fn live(&mut self, card: &Card) -> u32 {
        card.live[self.below(card.live.len())].handle
    }

    fn name(&mut self) -> &'static str {
        ["", "A", "é", "😀", "DCIM", "DSC_0001.JPG"][self.below(6)]
    }
}

// One step of a night: an object is added, or deleted with all in it; at times, so seldom that places run out before, everything is
// collected. Whether there was room.
fn step(card: &mut Card, objects: &mut Objects, room: usize, handle: u32, random: &mut Random) -> bool {
    let chosen = random.live(card);
    match random.below(3) {
        _ if handle % 1700 == 0 => card.carry(objects.collect()),
        0 if chosen != ROOT => card.delete(objects, chosen),
        _ => {
            let name = random.name();
            let has_room = card.live_bytes() + string(name).len() <= room;
            let answer = card.add(objects, room, chosen, handle, name);
            assert_eq!(answer, if has_room { Ok(()) } else { Err(Refusal::ROOM) });
            return has_room;
        }
    }
    true
}

// How often adding collected, and how often there was no room.
fn night(room: usize, steps: u32) -> (usize, usize) {
    let (mut names, mut random) = (vec![0xA5; room], Random(0x5DEE_CE66));
    let mut objects = Objects::new(ROOT, &string("SD"), &mut names).unwrap();
    let (mut card, mut refused) = (Card::new("SD"), 0);
    for handle in ROOT + 1..=steps {
        refused += usize::from(!step(&mut card, &mut objects, room, handle, &mut random));
        card.compare(&objects);
    }
    (card.collected, refused)
}

#[test]
fn a_night_where_name_bytes_run_out() {
    let (collected, refused) = night(150, 4000);
    assert!(collected > 100 && refused > 100, "{collected} {refused}");
}

#[test]
fn a_night_where_places_run_out() {
    let (collected, refused) = night(PLACES * 27, 4000);
    assert!(collected > 0 && refused == 0, "{collected} {refused}");
}

#[test]
fn a_thousand_and_twenty_four_are_held() {
    let (room, mut names) = (PLACES * 5, vec![0; PLACES * 5]);
    let mut objects = Objects::new(ROOT, &string("A"), &mut names).unwrap();
    let mut card = Card::new("A");
    for handle in ROOT + 1..=PLACES as u32 {
        assert_eq!(card.add(&mut objects, room, ROOT, handle, "A"), Ok(()));
    }
    // TAKEN comes before ROOM, and after the name's own
    assert_eq!(objects.add(0, 0, &string("A")), Err(Refusal::TAKEN));
    assert_eq!(objects.add(0, 0, &[]), Err(Refusal::END { at: 0 }));
    assert_eq!(objects.add(PLACES, 0, &string("A")), Err(Refusal::PLACE));
    card.compare(&objects);
    card.delete(&mut objects, 500);
    assert_eq!(card.add(&mut objects, room, ROOT, 5000, "B"), Ok(()));
    assert_eq!((objects.len(), objects.find(501), objects.find(5000)), (PLACES, Some(499), Some(PLACES - 1)));
    card.compare(&objects);
}

#[test]
fn a_root_is_refused_by_its_name_and_for_room() {
    for (name, room, why) in [
        (&b""[..], 8, Refusal::END { at: 0 }),
        (b"\x02A\0", 0, Refusal::END { at: 0 }),
        (b"\x02\x00\xD8\0\0", 8, Refusal::TEXT { at: 0 }),
        (b"\x02A\0\0\0\0", 8, Refusal::TRAIL),
        (b"\x02A\0\0\0", 4, Refusal::ROOM),
        (b"\0", 0, Refusal::ROOM),
    ] {
        let mut names = [0xA5; 8];
        assert_eq!(Objects::new(ROOT, name, &mut names[..room]).map(drop).unwrap_err(), why);
        assert_eq!(names, [0xA5; 8]);
    }
    let mut names = [0xA5; 8];
    assert_eq!(Objects::new(ROOT, b"\x02A\0\0\0", &mut names[..5]).unwrap().table().path(0, &mut [0; 1]), Ok("A"));
    assert_eq!(names, *b"\x02A\0\0\0\xA5\xA5\xA5");
}

#[test]
fn only_a_live_object_is_deleted_or_added_to() {
    let mut names = [0; 64];
    let mut objects = Objects::new(ROOT, &[0], &mut names).unwrap();
    let folder = objects.add(0, 2, &string("A")).unwrap().place;
    let frame = objects.add(folder, 3, &string("B")).unwrap().place;
    assert_eq!(objects.delete(0), Err(Refusal::PLACE));
    assert_eq!(objects.delete(folder), Ok(()));
    for place in [folder, frame, 3, usize::MAX] {
        assert_eq!(objects.delete(place), Err(Refusal::PLACE));
        assert_eq!(objects.add(place, 4, &string("C")).map(drop), Err(Refusal::PLACE));
    }
    assert_eq!((objects.len(), objects.collect()), (1, &[0, ObjectTable::GONE, ObjectTable::GONE][..]));
}

#[test]
fn of_one_handle_twice_the_first_live_is_found() {
    let mut names = [0; 64];
    let mut objects = Objects::new(ROOT, &[0], &mut names).unwrap();
    objects.add(0, 2, &string("A")).unwrap();
    objects.add(0, 2, &string("B")).unwrap();
    assert_eq!(objects.find(2), Some(1));
    objects.delete(1).unwrap();
    assert_eq!((objects.find(2), objects.find(3)), (Some(2), None));
}
