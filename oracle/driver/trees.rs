
// The tree.

mod trees {
    use super::*;
    use answers::*;
    use values::cursor;
    use words::Words;

    const PLACES: usize = 1024;

    struct Table {
        parents: Vec<u32>,
        marks: Vec<u32>,
        names: Vec<String>,
    }

    fn count(words: &Words) -> usize {
        words.number(4) as usize
    }

    /// A list of the table up to its count.
    fn used(words: &Words, place: usize) -> Vec<u32> {
        words.list(place)[..count(words)].to_vec()
    }

    /// What the crate's nested tree can hold: the table's rule, which is ours, is broken otherwise.
    fn can_nest(words: &Words) -> bool {
        if left_out((0..4).all(|place| words.list(place).len() == PLACES)) || count(words) < 1 || count(words) > PLACES {
            return false;
        }
        let (parents, ends, marks) = (used(words, 1), used(words, 2), used(words, 3));
        let count = parents.len();
        parents[0] == 0 && (1..count).all(|place| (parents[place] as usize) < place)
            && ends.windows(2).all(|two| two[0] <= two[1]) && ends[count - 1] <= words.bytes(5).len() as u32
            && marks[0] != 0 && (1..count).all(|place| marks[place] == 0 || marks[parents[place] as usize] != 0)
    }

    fn whole_name(data: &[u8]) -> Result<String, Error> {
        let mut cursor = cursor(data, 0);
        let name = cursor.read_ptp_str()?;
        cursor.expect_end()?;
        Ok(name)
    }

    fn table(words: &Words) -> Result<Table, Error> {
        let (ends, data) = (used(words, 2), words.bytes(5));
        let mut names = vec![];
        let mut start = 0;
        for end in ends {
            names.push(whole_name(&data[start..end as usize])?);
            start = end as usize;
        }
        Ok(Table { parents: used(words, 1), marks: used(words, 3), names: names })
    }

    /// An object record with the name, made by the crate's own decoder from one with four empty strings.
    fn named(name: &str) -> PtpObjectInfo {
        let mut info = PtpObjectInfo::decode(&[0; 56]).expect("the smallest object record");
        info.Filename = name.to_owned();
        info
    }

    /// The live objects as a nested tree, a place's number as its handle. Children are taken from the last place down, so
    /// that each is whole before its parent takes it.
    fn nested(table: &Table) -> PtpObjectTree {
        let leaf = |place: usize| PtpObjectTree { handle: place as u32, info: named(&table.names[place]), children: None };
        let mut trees: Vec<PtpObjectTree> = (0..table.names.len()).map(leaf).collect();
        while trees.len() > 1 {
            let tree = trees.pop().expect("more than one");
            let place = trees.len();
            if table.marks[place] != 0 {
                trees[table.parents[place] as usize].children.get_or_insert(vec![]).insert(0, tree);
            }
        }
        trees.pop().expect("the root")
    }

    fn walked(words: &Words) -> Result<Vec<(String, u32)>, Error> {
        let table = table(words)?;
        Ok(nested(&table).walk().into_iter().map(|(path, tree)| (path, tree.handle)).collect())
    }

    pub fn walk(words: &Words) -> Answered {
        let places: Vec<u32> = walked(words)?.into_iter().map(|(_, place)| place).collect();
        Ok(format!("ok {}", joined(&places)))
    }

    pub fn path(words: &Words) -> String {
        let (place, size) = (words.number(6), words.size(7));
        let paths = match walked(words) {
            Ok(paths) => paths,
            Err(error) => return written(size, Err(error)),
        };
        match paths.iter().find(|&&(_, here)| here as u64 == place) {
            Some(&(ref path, _)) => laid_out(size, "", path.as_bytes()),
            None => format!("no 12 {}", hex(&vec![FILLING; size])),
        }
    }

    pub fn paths(words: &Words) -> String {
        let size = words.size(6);
        let paths = match walked(words) {
            Ok(paths) => paths,
            Err(error) => return written(size, Err(error)),
        };
        let (mut bytes, mut ends) = (vec![], vec![]);
        for (path, _) in paths {
            bytes.extend_from_slice(path.as_bytes());
            ends.push(bytes.len());
        }
        let laid = laid_out(size, "", &bytes);
        if bytes.len() > size { laid } else { format!("{} {}", laid, lent(ends)) }
    }

    /// The lent list of 1,024 ends, by runs, with the filling behind what was written.
    fn lent(mut ends: Vec<usize>) -> String {
        ends.resize(PLACES, 0xa5a5_a5a5);
        let mut runs: Vec<(usize, usize)> = vec![];
        for end in ends {
            match runs.last().cloned() {
                Some((same, times)) if same == end => *runs.last_mut().expect("a run") = (same, times + 1),
                _ => runs.push((end, 1)),
            }
        }
        let shown: Vec<String> = runs.iter().map(|&(end, times)| if times == 1 { end.to_string() } else { format!("{}*{}", end, times) }).collect();
        shown.join(",")
    }

    pub fn on_tree(words: &Words, answer: &Fn(&Words) -> String) -> String {
        if can_nest(words) { answer(words) } else { NO_ANSWER.to_owned() }
    }
}
