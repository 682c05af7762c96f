//! A card from which frames are deleted: objects are added, frames deleted, and one more is added, for which it collects first. The paths after
//! each; last the folder view.
//!
//! c/card.c is the same in C.
use ptp_proved::{write_str, Added, ObjectTable, Objects, Refusal};
use std::process::ExitCode;

// An object's handle, the handle of what it is in, and its name. The storage itself is the root: its handle is 0, and it has no name.
type Entry = (u32, u32, &'static str);

const FIRST: [Entry; 7] = [
    (1, 0, "DCIM"),
    (2, 1, "100TRIP"),
    (3, 2, "DSC_0001.JPG"),
    (4, 2, "DSC_0002.JPG"),
    (5, 2, "DSC_0003.JPG"),
    (6, 1, "101TRIP"),
    (7, 6, "DSC_0004.JPG"),
];
// A frame, and a folder with the frame in it.
const DELETED: [u32; 2] = [4, 6];
const LATER: Entry = (8, 2, "DSC_0005.JPG");

// The first names take 154 bytes, so that there is no room behind them for the later one, of 27.
const NAMES_ROOM: usize = 160;
const STRING_ROOM: usize = 511;
const TEXT_ROOM: usize = 4096;

fn find(objects: &Objects, handle: u32) -> Result<usize, Refusal> {
    objects.find(handle).ok_or(Refusal::PLACE)
}

// Of the places that were used, those that are others now.
fn print_moves(added: Added) {
    for (place, &new_place) in added.new_places.iter().enumerate() {
        match new_place {
            ObjectTable::GONE => println!("place {place} is gone"),
            _ if usize::from(new_place) == place => {}
            _ => println!("place {place} is {new_place} now"),
        }
    }
}

fn add(objects: &mut Objects, (handle, folder, name): Entry) -> Result<(), Refusal> {
    let mut string = [0; STRING_ROOM];
    let parent = find(objects, folder)?;
    let added = objects.add(parent, handle, write_str(name, &mut string)?)?;
    println!("added {handle} at place {}", added.place);
    if added.others_moved() {
        print_moves(added);
    }
    Ok(())
}

fn delete(objects: &mut Objects, handle: u32) -> Result<(), Refusal> {
    let place = find(objects, handle)?;
    objects.delete(place)?;
    println!("deleted {handle}");
    Ok(())
}

fn show_paths(objects: &Objects) -> Result<(), Refusal> {
    let (mut text, mut ends) = ([0; TEXT_ROOM], [0; ObjectTable::PLACES]);
    for path in objects.paths(&mut text, &mut ends)? {
        println!("path /{path}");
    }
    Ok(())
}

// How deep a place is shown is the number of its parents; its name is the end of its path.
fn show_folders(objects: &Objects) -> Result<(), Refusal> {
    let (mut text, mut ends, mut places) = ([0; TEXT_ROOM], [0; ObjectTable::PLACES], [0; ObjectTable::PLACES]);
    let paths = objects.placed_folder_paths(&mut text, &mut ends, &mut places)?;
    for (&place, (_, path)) in paths.places().iter().zip(paths) {
        println!("{:1$}{2}", "", 2 * depth(objects, place), path.rsplit('/').next().unwrap_or(path));
    }
    Ok(())
}

fn depth(objects: &Objects, place: u16) -> usize {
    match place {
        0 => 0,
        _ => 1 + depth(objects, objects.table().parents[usize::from(place)]),
    }
}

fn fill_card() -> Result<(), Refusal> {
    let (mut names, mut string) = ([0; NAMES_ROOM], [0; STRING_ROOM]);
    let mut objects = Objects::new(0, write_str("", &mut string)?, &mut names)?;
    FIRST.iter().try_for_each(|&entry| add(&mut objects, entry))?;
    show_paths(&objects)?;
    DELETED.iter().try_for_each(|&handle| delete(&mut objects, handle))?;
    show_paths(&objects)?;
    add(&mut objects, LATER)?;
    show_paths(&objects)?;
    show_folders(&objects)
}

fn main() -> ExitCode {
    match fill_card() {
        Ok(()) => ExitCode::SUCCESS,
        Err(why) => {
            eprintln!("refusal {}", why.number());
            ExitCode::FAILURE
        }
    }
}
