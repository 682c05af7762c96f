
// The text of this folder is the project's: our exported functions beside the crate's own, on the same inputs, in one process.
//
//     bench LIST COPY MEND RECORDING      LIST, COPY and MEND are our programs; RECORDING is written, listed, copied, mended and left
//
// Each line is tried first: both sides must agree. Then rounds of ours and theirs take turns.

fn main() {
    let words: Vec<String> = std::env::args().skip(1).collect();
    clock::heading();
    records::records();
    records::shutter();
    records::strings();
    texts::texts();
    texts::night();
    containers::containers();
    containers::network();
    trees::trees();
    trees::collecting();
    trees::orders();
    trees::links();
    names::names();
    values::values();
    settings::settings();
    if words.len() == 4 {
        listing::listing(&listing::Programs { lists: &words[0], copies: &words[1], mends: &words[2] }, &words[3]);
    }
}
